// Review sheets: the facts of one, the sheet that a document makes, and what is another in two readings of one.

import { CAPABILITIES, SETS, takesErrno } from './document.js';
import { NUMBER, WORD } from './forms.js';
import { missing } from './refusals.js';
import { findings, possible } from './widening.js';
import { listed } from './words.js';

/** @typedef {import('./document.js').Profile} Profile */
/**
 * @typedef {{ name: string, vote: string, security: boolean, lapsed: boolean }} Vote
 * @typedef {{ text: string, value: (name: string) => string, baseline: { profile: string, revision: number } | null, findings: string[],
 *   votes: Vote[], need: number, approvals: number, rejecting: string[], secured: boolean }} Sheet `baseline` where it isn't the closed profile
 */

/**
 * The facts of a review sheet, or null where it is none.
 * @param {string} text
 * @returns {Sheet | null}
 */
export function readSheet(text) {
  const lines = text.split('\n');
  if (lines.pop() !== '' || lines.shift() !== 'REVIEW SHEET') return null;
  /** @type {Map<string, { value: string, below: string[] }>} */
  const facts = new Map();
  let below = null;
  for (const line of lines) {
    if (line.startsWith('  ')) {
      if (!below) return null;
      below.push(line.slice(2));
      continue;
    }
    const cut = line.indexOf(': ');
    if (cut < 0) return null;
    below = [];
    facts.set(line.slice(0, cut), { value: line.slice(cut + 2), below });
  }
  const value = (name) => facts.get(name)?.value ?? '';
  const under = (name) => facts.get(name)?.below ?? [];
  const [profile, revision = '', ...rest] = value('baseline').split(' ');
  const closed = value('baseline') === 'closed';
  if (!closed && (!WORD.test(profile) || !NUMBER.test(revision) || rest.length)) return null;
  const votes = under('votes').map((line) => {
    const [name, vote, note] = line.split(' ');
    return { name, vote, security: note === 'security', lapsed: note === 'lapsed' };
  });
  const counts = votes.filter((one) => !one.lapsed);
  return {
    text, value, baseline: closed ? null : { profile, revision: Number(revision) }, findings: under('findings'), votes,
    need: value('need').startsWith('2') ? 2 : 1,
    approvals: Number(value('approvals')),
    rejecting: counts.filter((one) => one.vote === 'reject').map((one) => one.name),
    secured: counts.some((one) => one.vote === 'approve' && one.security),
  };
}

/** @param {Vote} vote */
const voteLine = ({ name, vote, security, lapsed }) => `${name} ${vote}${security ? ' security' : lapsed ? ' lapsed' : ''}`;

const row = (words) => (words.length ? words.join(' ') : 'none');
const caps = (numbers) => row(numbers.map((one) => CAPABILITIES[one]));
const union = (...sets) => [...new Set(sets.flat())].sort((one, other) => one - other);
const does = (action, errno) => (takesErrno(action) ? `${action} ${errno}` : action);

/**
 * The capabilities that a profile has in any of its sets, by name.
 * @param {Profile} profile
 */
export const holds = ({ sets }) => union(...SETS.map((set) => sets[set])).map((one) => CAPABILITIES[one]);

function filterLines(filter) {
  if (!filter) return ['seccomp: none'];
  return [`seccomp: ${does(filter.action, filter.errno)}`, `architectures: ${row(filter.architectures)}`, `flags: ${row(filter.flags)}`,
    `entries: ${filter.entries.length}`,
    ...filter.entries.flatMap((entry, index) => [`entry ${index + 1}: ${does(entry.action, entry.errno)}`,
      `  names: ${row(entry.names)}`, ...entry.args.map(({ index: place, op, value, two }) =>
        `  arg ${place}: ${op} ${value}${op === 'SCMP_CMP_MASKED_EQ' ? ` ${two}` : ''}`)])];
}

/**
 * The sheet that a document makes against a baseline. What no document says, as its state and the votes, is as the sheet has it; and where
 * the baseline can't be read so are the findings that the document can have.
 * @param {{ team: string, profile: string, revision: number, digest: string }} about
 * @param {Sheet} sheet
 * @param {Profile} profile
 * @param {Profile | null} base
 * @param {Set<string>} listedHere what this office has listed, as its sheets have shown
 */
export function sheetOf(about, sheet, profile, base, listedHere) {
  const { sets } = profile;
  const found = base ? findings(base, profile) : possible(sheet.findings, profile);
  const said = sheet.value('listed').split(' ');
  const inList = holds(profile).filter((one) => listedHere.has(one) || said.includes(one));
  const root = caps(union(sets.inheritable, sets.bounding));
  const counted = (vote) => sheet.votes.filter((one) => !one.lapsed && one.vote === vote).length;
  return [
    'REVIEW SHEET', `team: ${about.team}`, `profile: ${about.profile}`, `revision: ${about.revision}`, `state: ${sheet.value('state')}`,
    `digest: ${about.digest}`, `baseline: ${sheet.value('baseline')}`, ...SETS.map((set) => `${set}: ${caps(sets[set])}`),
    ...['permitted', 'effective', 'ambient'].map((set) => `plain ${set}: ${caps(sets.ambient)}`),
    `root permitted: ${root}`, `root effective: ${root}`, `root ambient: ${caps(sets.ambient)}`,
    ...filterLines(profile.filter), `findings: ${found.length}`, ...found.map((line) => `  ${line}`),
    `listed: ${row(inList)}`, `need: ${found.length || inList.length ? '2 with security' : '1'}`,
    `votes: ${sheet.votes.length}`, ...sheet.votes.map((vote) => `  ${voteLine(vote)}`),
    `approvals: ${counted('approve')}`, `rejections: ${counted('reject')}`, '',
  ].join('\n');
}

// The lines of the first text that the second lacks, each as often as it lacks it.
function lacking(these, those) {
  const left = new Map();
  for (const line of those.split('\n')) left.set(line, (left.get(line) ?? 0) + 1);
  return these.split('\n').filter((line) => {
    const count = left.get(line) ?? 0;
    left.set(line, count - 1);
    return count <= 0;
  }).map((line) => line.trim());
}

/**
 * What a sheet leaves out, and what it has beyond, of the sheet that the page worked out. Both are empty only where the two are one text.
 * @param {string} text
 * @param {string} own
 */
export function against(text, own) {
  const [left, beyond] = [lacking(own, text), lacking(text, own)];
  return text === own || left.length || beyond.length ? { left, beyond } : { left: ['its lines, in their order'], beyond };
}

/**
 * What is another on the second reading of a sheet, in sentences; empty where it is the same text.
 * @param {Sheet} old
 * @param {Sheet} now
 * @returns {string[]}
 */
export function changes(old, now) {
  if (old.text === now.text) return [];
  const said = [];
  for (const [name, says] of [['state', 'It'], ['baseline', 'Its baseline'], ['need', 'Its need'], ['listed', 'What is listed']]) {
    if (old.value(name) !== now.value(name)) said.push(`${says} is ${now.value(name)}, and was ${old.value(name)}.`);
  }
  const found = (these, those) => these.findings.filter((line) => !those.findings.includes(line));
  const [come, gone] = [found(now, old), found(old, now)];
  const first = (lines) => (lines.length > 8 ? `${lines.slice(0, 8).join(', ')} and ${lines.length - 8} more` : lines.join(', '));
  if (come.length || gone.length) {
    said.push(`It has ${now.findings.length} ${now.findings.length === 1 ? 'finding' : 'findings'}, and had ${old.findings.length}.`);
  }
  if (come.length) said.push(`New among them: ${first(come)}.`);
  if (gone.length) said.push(`Gone: ${first(gone)}.`);
  const before = new Map(old.votes.map((vote) => [vote.name, voteLine(vote)]));
  for (const vote of now.votes) {
    if (before.get(vote.name) !== voteLine(vote)) said.push(`${vote.name} ${voteSaid(vote)}${before.has(vote.name) ? ', now' : ''}.`);
  }
  for (const { name } of old.votes) if (!now.votes.some((vote) => vote.name === name)) said.push(`The vote of ${name} is gone.`);
  return said.length ? said : ['It has other lines.'];
}

/**
 * What a revision still needs, in words; `ready` where an issuer may issue it.
 * @param {Sheet} sheet
 */
export function still(sheet) {
  const state = sheet.value('state');
  if (state !== 'open') return { ready: false, text: `Revision ${sheet.value('revision')} is ${state}: it takes no votes.` };
  if (sheet.rejecting.length) return { ready: false,
    text: `${listed(sheet.rejecting)} ${sheet.rejecting.length === 1 ? 'rejects' : 'reject'} it: it can’t be issued while that stands.` };
  if (sheet.approvals < sheet.need) return { ready: false, text: missing(sheet.approvals, sheet.need, sheet.secured) };
  if (sheet.need === 2 && !sheet.secured) return { ready: false,
    text: `${sheet.approvals} of 2 approvals, and none with security: one with security is needed.` };
  return { ready: true, text: 'It has the approvals that it needs: an issuer who is no author of it may issue it.' };
}

/**
 * How many approvals a document would need, in words. What the office has listed is known here as far as sheets have shown it.
 * @param {number} found how many findings it has
 * @param {string[]} inList what it has that is known to be listed
 */
export function wouldNeed(found, inList) {
  const two = 'so it would need two approvals, at least one with security.';
  if (found) return `${found} ${found === 1 ? 'finding' : 'findings'}, ${two}`;
  if (inList.length) return `Nothing new, but ${listed(inList)} ${inList.length === 1 ? 'is' : 'are'} listed by this office, ${two}`;
  return 'Nothing new, so one approval would do, unless this office has listed a capability that the document has.';
}

/** @param {Vote} vote */
export function voteSaid(vote) {
  const word = vote.vote === 'approve' ? 'approves' : 'rejects';
  const note = vote.security ? ', with security' : vote.lapsed ? ', lapsed: no reviewer now, so it doesn’t count' : '';
  return word + note;
}
