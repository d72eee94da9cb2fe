// A profile: its sheet with the findings first, its document, what differs from what is issued, the votes, and the decision.

import { sha256 } from '../api.js';
import { SETS } from '../document.js';
import { at, badge, button, chips, code, el, link, notice, some } from '../elements.js';
import { indented, squeezed } from '../json.js';
import { memory, read, self, to } from '../page.js';
import { against, holds, readSheet, sheetOf, still, voteSaid } from '../sheet.js';
import { decideCard } from './decide.js';
import { baselineOf, differing, documentOf, opened } from './differing.js';
import { findingsList } from './findings.js';
import { nameSaid, revisionsCard, standing } from './revisions.js';
import { heldBadge, refused } from './teams.js';

/** How many revisions the office lists at once. */
const LISTED = 100;

/** @typedef {import('../document.js').Profile} Profile */
/** @typedef {import('../sheet.js').Sheet} Sheet */
/**
 * @typedef {{ digest: string, named: string, linked: string, same: boolean, own: boolean, left: string[], beyond: string[], unseen: string,
 *   text: string, shown: any }} Reading how the sheet, the text, the link and what is on the screen go together; `unseen` why the page
 *   couldn't look at all of it
 */

/** @param {import('../page.js').Place} now */
export async function profileView(now) {
  const about = { team: now.team, profile: now.profile, revision: now.revision };
  const title = el('h1', { tabindex: '-1', 'data-first': true }, `${about.team}/${about.profile}`);
  const { own, answer } = await standing(about, read);
  if (!own) return [title, refused('revisions', answer, about)];
  if (!about.revision) about.revision = own.revisions;
  // the newest revisions, or those around one that isn't among them
  const around = own.revisions - about.revision < LISTED ? answer : read('revisions', { ...about, before: about.revision + LISTED / 2 });
  const [shown, told, revisions] = await Promise.all([read('show', about), read('sheet', about), around]);
  if (!shown.done) return [title, refused('show', shown, about)];
  const sheet = told.done ? readSheet(told.text) : null;
  if (!sheet) return [title, told.done ? el('p', { class: 'notice refused inline' }, 'What came as its sheet is no review sheet.')
    : refused('sheet', told, about)];
  const text = shown.json.document;
  const { node, profile, wrong } = opened(text);
  const pre = el('pre', { id: 'document', tabindex: '0', role: 'region', 'aria-label': 'The document as indented JSON' },
    node ? indented(node) : text);
  const base = await baselineOf(about.team, sheet);
  const reading = { ...await verified(about, shown.json, sheet, profile, base, pre, text), linked: now.digest };
  const state = shown.json.state;
  // what a false sheet says of its need isn't shown as what is needed
  const needs = isWrong(reading) ? { ready: false, text: 'Not known: the sheet isn’t the one of this document.' }
    : reading.unseen ? { ready: false, text: `Not known. ${reading.unseen}.` } : still(sheet);
  return [
    el('p', { class: 'crumbs' }, link(`profiles/${about.team}`, `Team ${about.team}`)),
    el('div', { class: 'title' }, title, badge(state), heldBadge(about)),
    el('div', { class: 'deciding' },
      el('div', { class: 'read' },
        summaryCard(about, own, sheet, reading, needs, revisions.done && revisions.json.revisions.find((one) => one.revision === about.revision)),
        el('div', { class: 'beside' },
          el('div', {}, findingsCard(sheet, reading, profile, base), keepsCard(sheet)),
          el('div', {}, await differsCard(about, own, profile), votesCard(sheet, needs, isWrong(reading) || reading.unseen !== ''))),
        grantsCard(sheet), documentCard(text, wrong, pre), revisionsCard(about, revisions),
        el('details', { class: 'card' }, el('summary', {}, 'The sheet as the office wrote it'),
          el('pre', { id: 'sheet', tabindex: '0', role: 'region', 'aria-label': 'The sheet as the office wrote it' }, sheet.text))),
      decideCard(about, state, sheet, reading, own)),
  ];
}

// Whether the sheet isn't the one that the page works out.
const isWrong = (reading) => reading.left.length > 0 || reading.beyond.length > 0;

/**
 * Whether the text on the screen is the one that the sheet names, and what of the sheet isn't what the page works out of the document.
 * @returns {Promise<Omit<Reading, 'linked'>>}
 */
async function verified(about, json, sheet, profile, base, pre, text) {
  const digest = await sha256(text);
  const own = ['team', 'profile', 'revision'].every((name) => sheet.value(name) === String(about[name]));
  const named = sheet.value('digest');
  const same = squeezed(pre.textContent) === text && digest === named && digest === json.digest && own;
  const said = { digest, named, same, own, text, shown: pre, left: [], beyond: [], unseen: '' };
  if (!profile) return { ...said, unseen: 'The page can’t read the document' };
  const listed = memory.known.listed;
  const found = against(sheet.text, sheetOf({ ...about, digest }, sheet, profile, base.profile, listed));
  if (!base.profile) return { ...said, ...found, unseen: 'The page can’t read the baseline that the sheet names' };
  // what a sheet of this office said to be listed is listed on each other one, as long as the office stands
  const has = holds(profile);
  for (const one of sheet.value('listed').split(' ')) if (has.includes(one)) listed.add(one);
  return { ...said, ...found };
}

// What decides, in short.
function summaryCard(about, own, sheet, reading, needs, handed) {
  const issued = !own.issued ? 'no revision' : own.issued === about.revision ? 'this revision'
    : ['revision ', link(`profile/${about.team}/${about.profile}/${own.issued}`, String(own.issued))];
  const told = reading.same ? 'It is the digest that the sheet names.'
    : reading.own ? 'It is not the digest that the sheet names.' : 'The sheet is of another revision.';
  const jump = () => {
    at('decide').scrollIntoView();
    at('decide').focus({ preventScroll: true });
  };
  return el('section', { class: 'card summary', 'aria-label': 'In short' },
    revisionChoice(about, own),
    el('dl', {},
      el('div', {}, el('dt', {}, 'Still needed'), el('dd', { id: 'needed', class: needs.ready ? 'ready' : '' }, needs.text)),
      el('div', {}, el('dt', {}, 'Issued now'), el('dd', {}, issued)),
      handed && el('div', {}, el('dt', {}, 'Handed in by'), el('dd', { id: 'handed-by' }, nameSaid(handed.by))),
      el('div', {}, el('dt', {}, 'Compared with'), el('dd', { id: 'baseline' }, baselineSaid(sheet, about))),
      el('div', { class: 'wide' }, el('dt', {}, 'SHA-256 of the text below'),
        el('dd', {}, el('code', { id: 'digest', class: 'digest' }, reading.digest),
          el('span', { class: `told ${reading.same ? 'ready' : 'wrong'}` }, told)))),
    el('p', { class: 'jump' }, button('to-decide', 'To the decision', jump, 'quiet')));
}

const documentCard = (text, wrong, pre) => el('section', { class: 'card', 'aria-labelledby': 'document-title' },
  el('h2', { id: 'document-title' }, 'The document'),
  el('p', { class: 'hint' }, wrong || `${some(new TextEncoder().encode(text).length, 'byte')}; only line feeds and indents are added here.`),
  pre);

function revisionChoice(about, own) {
  const whole = `${about.team}/${about.profile}`;
  const select = el('select', { id: 'revision', 'data-leads': true, change: (event) => to(`profile/${whole}/${event.target.value}`) });
  const last = Math.max(own.revisions, about.revision);
  for (let number = last; number >= 1; number--) {
    const note = [number === own.revisions ? `last, ${own.state}` : '',
      number === own.issued && own.state !== 'issued' ? 'issued' : ''].filter(Boolean).join(', ');
    select.append(el('option', { value: String(number), selected: number === about.revision },
      note ? `${number} (${note})` : String(number)));
  }
  return el('p', { class: 'field' }, el('label', { for: 'revision' }, 'Revision'), select);
}

function baselineSaid(sheet, about) {
  if (!sheet.baseline) return 'the closed profile: no adopted revision stands';
  const { profile, revision } = sheet.baseline;
  return ['the team’s baseline, ', link(`profile/${about.team}/${profile}/${revision}`, `${profile} ${revision}`)];
}

const words = (text) => chips(text === 'none' || text === '' ? [] : text.split(' '));

function findingsCard(sheet, reading, profile, base) {
  const wrong = isWrong(reading);
  const calm = !sheet.findings.length && !wrong && !reading.unseen;
  return el('section', { class: `card findings ${calm ? 'calm' : ''}`, 'aria-labelledby': 'findings-title' },
    el('h2', { id: 'findings-title' }, 'New against the baseline'),
    wrong && wrongSaid(reading),
    reading.unseen && notice('refused', [`${reading.unseen}, so it can’t look whether findings are left out.`], { id: 'unseen' }),
    base.instead,
    el('p', { class: 'lead', id: 'findings-count' }, sheet.findings.length ? `${some(sheet.findings.length, 'finding')}.`
      : calm ? 'Nothing: no capability and no call is permitted more.' : 'The sheet has no finding.'),
    findingsList(sheet.findings, profile, base.profile),
    sheet.value('listed') !== 'none' && el('p', {}, el('span', { class: 'tag' },
      'Listed by this office, so two approvals are needed whatever is new'), words(sheet.value('listed'))));
}

// Where the sheet isn't the one that the page works out of the document.
function wrongSaid({ left, beyond }) {
  // the lines that decide first, as that of the need, and then those below them
  const lines = (these) => {
    const sorted = [...these.filter((line) => line.includes(': ')), ...these.filter((line) => !line.includes(': '))];
    return el('ul', {}, sorted.slice(0, 12).map((line) => el('li', {}, code(line))),
      these.length > 12 && el('li', {}, `and ${these.length - 12} more`));
  };
  return el('div', { class: 'notice refused inline', id: 'not-the-sheet', role: 'alert' },
    el('p', { class: 'sentence' }, 'The sheet isn’t the one of this document, as the page works it out.'),
    left.length > 0 && [el('p', {}, 'It leaves out:'), lines(left)],
    beyond.length > 0 && [el('p', {}, 'It has instead:'), lines(beyond)],
    el('p', { class: 'way' }, 'Load it anew; if it stays so it was changed on the way, or the page and the office are of two versions: tell '
      + 'those who run the proxy.'));
}

function keepsCard(sheet) {
  const rows = (who) => ['permitted', 'effective', 'ambient'].map((set) => el('tr', {}, el('th', { scope: 'row' }, set),
    el('td', {}, words(sheet.value(`${who} ${set}`)))));
  const table = (who, text) => el('table', {}, el('caption', {}, text), el('tbody', {}, rows(who)));
  return el('section', { class: 'card', 'aria-labelledby': 'keeps-title' }, el('h2', { id: 'keeps-title' }, 'What execve keeps'),
    table('plain', 'A process that starts a file without capabilities has'),
    table('root', 'The same where its user ids are 0'));
}

function grantsCard(sheet) {
  const rows = [...SETS, 'architectures', 'flags'].map((name) => [name, sheet.value(name)]).filter((one) => one[1] !== '');
  const filter = sheet.value('seccomp');
  return el('section', { class: 'card', 'aria-labelledby': 'grants-title' },
    el('h2', { id: 'grants-title' }, 'What the document grants'),
    el('p', {}, 'Calls without an entry: ', filter === 'none' ? 'there is no filter, and every call is allowed.'
      : [code(filter), `, with ${some(Number(sheet.value('entries')), 'entry', 'entries')}.`]),
    el('table', {}, el('caption', {}, 'Capabilities by set'),
      el('tbody', {}, rows.map(([name, value]) => el('tr', {}, el('th', { scope: 'row' }, name), el('td', {}, words(value)))))));
}

function votesCard(sheet, needs, unsure) {
  return el('section', { class: 'card', 'aria-labelledby': 'votes-title' }, el('h2', { id: 'votes-title' }, 'Votes'),
    sheet.votes.length ? el('ul', { class: 'plain', id: 'votes' },
      sheet.votes.map((vote) => el('li', { class: vote.lapsed ? 'lapsed' : vote.vote },
        el('strong', {}, vote.name), vote.name === self() ? ' (you) ' : ' ', voteSaid(vote))))
      : el('p', { class: 'empty' }, 'Nobody has voted.'),
    el('p', {}, !unsure && `It needs ${sheet.need === 2 ? 'two approvals, at least one with security' : 'one approval'}. `,
      el('span', { class: needs.ready ? 'ready' : '' }, needs.text)));
}

async function differsCard(about, own, profile) {
  const whole = `${about.team}/${about.profile}`;
  const older = about.revision > 1 ? about.revision - 1 : own.revisions;
  const other = own.revisions > 1 && el('p', {}, link(`compare/${whole}/${older}/${about.revision}`, 'Compare any two revisions',
    { id: 'to-compare' }));
  const card = (...inside) => el('section', { class: 'card', id: 'differs', 'aria-labelledby': 'differs-title' },
    el('h2', { id: 'differs-title' }, own.issued && own.issued !== about.revision
      ? `What differs from revision ${own.issued}, which is issued` : 'What differs from what is issued'), inside, other);
  if (!own.issued) return card(el('p', { class: 'empty' },
    'No revision of this profile is issued, so there is nothing to compare.'));
  if (own.issued === about.revision) return card(el('p', { class: 'empty' }, 'This is the revision that is issued.'));
  const issued = await documentOf({ ...about, revision: own.issued });
  if (!issued.profile) return card(issued.instead);
  return card(profile ? differing(issued.profile, profile) : el('p', { class: 'notice refused inline' },
    'This text is no document, so the page can’t compare it.'));
}
