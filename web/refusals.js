// The sentence, the rule and the way out of an answer that isn't done.

import { CAPABILITIES } from './document.js';
import { DOCUMENT_FAULTS, NEEDED, NO_REQUEST, RULES, STORE_FAULTS, listed, plain } from './words.js';

const DOES = {
  enrol: 'Enrolling', submit: 'Handing in', vote: 'Voting', issue: 'Issuing', withdraw: 'Withdrawing', adopt: 'Adopting',
  hold: 'Holding', release: 'Releasing', fetch: 'Fetching', list: 'Listing', show: 'Reading a revision', sheet: 'Reading a sheet',
  me: 'Asking who one is', revisions: 'Listing revisions', issued: 'Asking what is issued',
};

/**
 * The roles of which a request needs one; none where anybody may ask.
 * @param {string} kind
 * @returns {string[]}
 */
export const rolesFor = (kind) => NEEDED.find(([, kinds]) => kinds.includes(kind))?.[0] ?? [];

const some = (number, one) => `${number} ${one}${number === 1 ? '' : 's'}`;
const article = (role) => (role === 'security' ? role : `${/^[aeiou]/.test(role) ? 'an' : 'a'} ${role}`);

/**
 * How many approvals are missing; `secured` where one with security is known to be there.
 * @param {number} got
 * @param {number} need
 * @param {boolean | undefined} secured
 */
export function missing(got, need, secured) {
  const more = need - got;
  const count = `${got} of ${some(need, 'approval')}; ${more === 1 ? 'one more is' : `${more} more are`} needed`;
  if (need < 2) return `${count}.`;
  return secured ? `${count}. One with security is there.` : `${count}, and one of them with security.`;
}

// Of each rule that can refuse: what it says here, and the way out.
const REFUSALS = {
  'caller-unknown': () => ['Nobody in this office shows this token.',
    'Look whether the token is whole. One that was lost is replaced by a registrar, who enrols its user anew.'],
  'role-missing': (kind) => [`${DOES[kind]} needs the role of ${listed(rolesFor(kind).map(article), 'or')}, which the user of this `
    + 'token doesn’t hold.', 'Ask somebody who holds it. A registrar gives roles, and names all roles of a user anew each time.'],
  'own-row': () => ['Nobody enrols the own name.', 'Another registrar has to change your roles or your token.'],
  'team-fixed': (kind, answer, about) => [`${about.user} is enrolled already, in another team than ${about.team}.`,
    'A user stays in one team: name that team, or enrol under another name.'],
  'token-taken': () => ['Another user shows a token with this digest now.', 'Make another token, and enrol with its digest.'],
  'other-team': (kind, answer, about) => [`The user of this token is of another team than ${about.team}.`,
    { submit: 'An author hands in for the own team alone.', fetch: 'A machine fetches what is issued for the own team alone.',
      issued: 'A machine sees what is issued for the own team alone.',
      withdraw: 'An author of that team or security has to withdraw it.' }[kind]
      ?? 'A reviewer, security or an issuer may read every team.'],
  'document': (kind, answer) => faultSaid(answer.fault),
  'same-as-open': () => ['This is the text of the revision that is open already, so no revision was made.',
    'Nothing is to be done: it waits for votes.'],
  'revisions-full': () => ['This profile has 9,999 revisions, and takes no more.', 'Hand it in under another name of a profile.'],
  'no-revision': (kind, answer, about) => [`${about.team}/${about.profile} has no revision ${about.revision}.`,
    'Look at the list of the team’s profiles.'],
  'author-votes': () => ['You handed in a revision of this profile, so you have no vote on it.', 'Other reviewers have to vote.'],
  'author-issues': () => ['You handed in a revision of this profile, so you can’t issue it.', 'Another issuer has to issue it.'],
  'author-adopts': () => ['You handed in a revision of this profile, so you can’t adopt it.',
    'Another user of security has to adopt it.'],
  'not-open': (kind, answer, about) => [`Revision ${about.revision} isn’t open any more.`,
    'A later revision, an issue or a withdrawal came before; the page has read the present state anew.'],
  'other-bytes': () => ['The digest of the text on this screen isn’t that of the revision in the office. Your vote was not '
    + 'taken.', 'What you were shown was changed on the way. Don’t vote from here, and tell those who run the proxy.'],
  'rejected': (kind, answer, about) => ['A reviewer rejects this revision, so it can’t be issued.',
    `${about.rejecting?.length ? listed(about.rejecting) : 'That reviewer'} may vote anew, or the author hands in another `
      + 'revision.'],
  'approvals-short': (kind, answer, about) => [missing(answer.got, answer.need, about.secured),
    'Reviewers who are no authors of the profile approve it on this page.'],
  'security-missing': () => ['Enough reviewers approve, and none of them with security.',
    'A reviewer who holds security too has to approve it.'],
  'held': (kind) => ['This profile is held: nothing of it is issued or fetched.',
    `Security ends the hold by a release.${kind === 'fetch' ? ' Ask them before you run what was fetched earlier.' : ''}`],
  'not-standing': (kind, answer, about) => [
    `Revision ${about.revision} is neither open nor issued, so there is nothing to withdraw.`,
    'The page has read the present state anew.'],
  'not-issued': (kind, answer, about) => [`Revision ${about.revision} isn’t issued now, so it can’t be a baseline.`,
    'Adopt the revision that is issued.'],
  'nothing-issued': (kind, answer, about) => [`No revision of ${about.team}/${about.profile} is issued now.`,
    'An issuer issues one, once it has its approvals.'],
  'no-profile': (kind, answer, about) => [`There is no profile ${about.team}/${about.profile}.`,
    'Look at the list of the team’s profiles.'],
  'already-held': () => ['This profile is held already.', 'Nothing is to be done.'],
  'not-held': () => ['This profile isn’t held.', 'Nothing is to be done.'],
};

// Of each fault of a document: the way out.
const WAYS = {
  'too-long': 'Cut the profile out of the file: its capabilities and its seccomp.',
  'not-json': '“jq . FILE” says where it stops being one.',
  'wrong-shape': 'Write there the form that a document has; no capabilities at all are written as {}.',
  'unknown-member': 'From a bundle’s config.json take process.capabilities and linux.seccomp alone; an engine’s own file has to be '
    + 'resolved first.',
  'unknown-word': 'Write it with its prefix and in capitals, as CAP_NET_RAW or SCMP_ACT_ALLOW.',
  'not-in-profile': 'Take out listenerPath, listenerMetadata and the entries with SCMP_ACT_NOTIFY.',
  'bad-number': 'Write a whole number, without a point and without an exponent.',
  'effective-outside': 'Add it to permitted, or take it out of effective.',
  'ambient-outside': 'Take it out of ambient, or add it to permitted and inheritable.',
  'too-many': 'Put the names of one action and one list of comparisons into one entry.',
  'errno-not-taken': 'Take the number out.',
  'errno-too-large': '1 is EPERM, 38 is ENOSYS.',
  'no-names': 'Take the entry out.',
  'bad-call-name': 'A name is 1 to 64 of a-z, 0-9 and the underscore: write it as in syscalls(2).',
  'bad-index': 'Arguments are counted from 0 to 5.',
  'index-twice': 'Make an entry for each comparison if one is to be enough; a range is said by a mask or the default.',
  'two-actions': 'Take the name out of the entries whose action isn’t meant.',
  'text-too-long': 'Join entries of one action.',
};

/**
 * What a fault of a document says, and the way out.
 * @param {string} fault
 * @returns {string[]}
 */
export function faultSaid(fault) {
  const [word, ...rest] = String(fault).split(' ');
  const found = DOCUMENT_FAULTS.find(([form]) => form.split(' ')[0] === word);
  if (!found) return ['The document doesn’t read.', 'See the faults of documents in docs/documents.md.'];
  const place = rest.join(' ');
  const cause = plain(found[1]);
  const says = found[0].endsWith(' N') ? cause.replace('capability N', () => CAPABILITIES[Number(place)] ?? `capability ${place}`)
    : found[0].endsWith(' PATH') ? `${cause}, at ${place}` : found[0].endsWith(' NAME') ? `${cause}: ${place}` : cause;
  return [`The document can’t be taken: ${says}.`, WAYS[word]];
}

const PROXY_SAYS = {
  403: 'It doesn’t hand this on. Where there are several offices, those who run them enrol.',
  413: 'What was sent is too long for it: a document has at most 262,144 bytes.',
  429: 'You asked too often. Wait a little, and ask again.',
  502: 'The office behind it doesn’t answer now. Wait a little, and look what stands before you ask again.',
  503: 'It takes no more requests now. Wait a little, and look what stands before you ask again.',
  504: 'The office behind it took too long. Look what stands before you ask again.',
};

/**
 * What is said where no answer came.
 * @param {'time' | 'connection'} lost
 * @param {number} seconds
 */
export const lostSaid = (lost, seconds) =>
  (lost === 'time' ? `No answer came within ${seconds} seconds.` : 'The connection was lost, so no answer came.');

/**
 * The sentence, the rule and the way out of an answer that isn't done.
 * @param {string} kind
 * @param {{ status: number, json: any, wrong?: string | null, lost: 'time' | 'connection' | null, seconds?: number }} answer
 * @param {object} [about]
 * @returns {[string, string, string]}
 */
export function refusal(kind, answer, about) {
  const { status, json } = answer;
  if (answer.lost) return [lostSaid(answer.lost, answer.seconds), '', 'Look whether you reach the office.'];
  if (typeof answer.wrong === 'string') return ['What came is no answer of the office to this.',
    `Not of its form: ${answer.wrong || 'the whole'}`, 'It was changed on the way, or the page and the office are of two versions. Look '
      + 'what stands in the office, and tell those who run the proxy.'];
  if (json?.answer === 'denied') {
    const [says, way] = (REFUSALS[json.word] ?? (() => ['The office refuses this.', '']))(kind, json, about ?? {});
    // what these say of themselves is all of it, or of other requests too
    const where = ['role-missing', 'other-team', 'document'].includes(json.word) ? undefined
      : RULES.find(([words]) => words.length === 1 && words[0] === json.word);
    const fault = json.fault === undefined ? '' : `, ${json.fault}`;
    return [says, `Refused by rule ${json.rule} of ${kind}: ${json.word}${fault}${where ? ` (${plain(where[1])})` : ''}`, way];
  }
  if (json?.answer === 'fault') {
    const [, says, way] = STORE_FAULTS.find(([word]) => word === json.word) ?? ['', '', ''];
    return ['The office couldn’t do it, and nothing was changed.', `Fault: ${json.word}${says && `: ${plain(says)}`}`,
      way && `Those who run it have to: ${plain(way)}.`];
  }
  if (json?.answer === 'bad') {
    const [so] = NO_REQUEST.find(([, , word]) => word === `\`${json.word}\``) ?? [''];
    return [json.word === 'too-large' ? 'What was sent is too long.' : 'What the page sent is no request of the office.',
      `Status ${status}: ${json.word}`, so && `What has to be so: ${plain(so)}.`];
  }
  return ['The proxy answered, and not the office.', `Status ${status}`, PROXY_SAYS[status] ?? 'Those who run it have to look.'];
}
