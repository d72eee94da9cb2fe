// What is open in teams, and what it still needs.

import { eachOf } from '../api.js';
import { at, badge, button, el, field, link, some } from '../elements.js';
import { ask, memory, read, self, stays } from '../page.js';
import { readSheet, still } from '../sheet.js';
import { pages } from './revisions.js';
import { heldBadge, noProfile, refused, teamsForm } from './teams.js';

/** How many sheets are asked for at a time: as many connections as a browser makes to one name. */
const AT_A_TIME = 6;

/** @typedef {{ about: { team: string, profile: string, revision: number }, item: any, voted: any }} Row */
/** @typedef {{ mine: boolean, author: boolean }} Handed whether the user handed in what is open, and whether any revision of the profile */

// A row of the queue: the name of what is open, and then what its sheet says.
function rowOf(team, one, voted) {
  const about = { team, profile: one.profile, revision: one.revisions };
  const item = el('li', { class: 'card item' },
    el('div', {}, link(`profile/${team}/${one.profile}/${one.revisions}`, `${one.profile}, revision ${one.revisions}`,
      { class: 'name', id: `open-${team}-${one.profile}` }), heldBadge(about)),
    el('p', { class: 'hint' }, 'Its sheet is asked for …'));
  return { about, item, voted };
}

/**
 * What the user handed in of a profile. A team's profiles are handed in by users of that team alone, so of another team nothing is asked.
 * @returns {Promise<Handed>}
 */
async function handedIn({ team, profile, revision }) {
  const found = { mine: false, author: false };
  const { me } = memory.known;
  const votes = memory.known.may('reviewer');
  if (team !== me?.team || !(votes || memory.known.may('author'))) return found;
  for await (const { done, json } of pages({ team, profile }, ask)) {
    if (!done) break;
    const own = json.revisions.filter((one) => one.by === me.user);
    found.mine ||= own.some((one) => one.revision === revision);
    found.author ||= own.length > 0;
    if (found.author || !votes) break;
  }
  return found;
}

// What a row says of the user's vote: nothing where that user may not vote.
function voteOf(own, handed) {
  if (own) return `you ${own.vote === 'approve' ? 'approved' : 'rejected'}${own.lapsed ? ', lapsed' : ''}`;
  return memory.known.may('reviewer') && !handed.author ? 'not yet' : '';
}

/**
 * Fills a row by the answer to its sheet, and puts it behind those that wait where one has voted on it.
 * @param {Row} row
 * @param {any} answer
 * @param {Handed} handed
 */
function fill({ about, item, voted }, answer, handed) {
  const sheet = answer.done ? readSheet(answer.text) : null;
  const own = sheet?.votes.find((vote) => vote.name === self());
  const needs = sheet && still(sheet);
  const held = memory.known.hold(about)?.held;
  const vote = voteOf(own, handed);
  const marks = [handed.mine && 'mine', sheet?.rejecting.length && 'rejected'].filter(Boolean);
  item.firstChild.append(...marks.flatMap((one) => [' ', badge(one)]));
  item.lastChild.replaceWith(!sheet ? refused('sheet', answer, about) : el('dl', {},
    el('div', { class: 'wide' }, el('dt', {}, 'Still needs'), el('dd', { class: needs.ready && !held ? 'ready' : '' },
      needs.ready && held ? 'A release by security: it has its approvals, and is held.' : needs.text)),
    el('div', {}, el('dt', {}, 'New'), el('dd', {}, some(sheet.findings.length, 'finding'))),
    vote && el('div', {}, el('dt', {}, 'Your vote'), el('dd', {}, vote))));
  if (!own) return;
  const focused = item.contains(document.activeElement) ? document.activeElement : null;
  voted.append(item);
  /** @type {any} */ (focused)?.focus({ preventScroll: true });
}

// Shows the rows that have the text of the filter.
function sift(rows) {
  const wanted = at('filter').value.trim().toLowerCase();
  let shown = 0;
  for (const { item } of rows) {
    item.hidden = wanted !== '' && !item.textContent.toLowerCase().includes(wanted);
    if (!item.hidden) shown++;
  }
  at('sifted').textContent = wanted ? `${shown} of ${some(rows.length, 'row')}` : '';
}

export async function queueView() {
  const parts = [el('h1', { tabindex: '-1', 'data-first': true }, 'Queue'),
    el('p', { class: 'lead' }, 'What is open in these teams, and what it still needs.'), teamsForm('queue')];
  if (!memory.teams.length) return [parts, el('p', { class: 'empty' }, 'Name the teams whose open revisions you want to see.')];
  /** @type {Row[]} */
  const rows = [];
  const sections = [];
  for (const team of memory.teams) {
    const answer = await read('list', { team });
    const list = answer.json?.profiles;
    const open = answer.done ? list.filter((one) => one.state === 'open') : [];
    const voted = el('ul', { class: 'cards voted' });
    const own = open.map((one) => rowOf(team, one, voted));
    rows.push(...own);
    sections.push(el('section', { 'aria-labelledby': `team-${team}` }, el('h2', { id: `team-${team}` }, `Team ${team}`),
      !answer.done ? refused('list', answer, { team })
        : !list.length ? noProfile(team)
          : !open.length ? el('p', { class: 'empty' }, `Nothing is open. The team has ${some(list.length, 'profile')}.`)
            : [el('ul', { class: 'cards waits' }, own.map((one) => one.item)), voted]));
  }
  if (rows.length) {
    parts.push(el('div', { class: 'row' },
      field('filter', 'Show those with this text', null, { type: 'search', input: () => sift(rows) }),
      el('span', { id: 'sifted', role: 'status' })), el('p', { class: 'hint', id: 'asked', role: 'status' }, 'Asking for the sheets …'));
    fillAll(rows);
  }
  return [parts, sections];
}

// Asks for the sheets, some at a time, and shows each as it comes. Where no answer comes it stops, and offers the rest again.
async function fillAll(rows) {
  const here = stays();
  let lost = false;
  const filled = new Set();
  await eachOf(rows, AT_A_TIME, async (row) => {
    const answer = await ask('sheet', row.about);
    const handed = answer.lost ? null : await handedIn(row.about);
    if (!here()) return;
    if (answer.lost) lost = true;
    else {
      fill(row, answer, handed);
      filled.add(row);
      if (at('filter')?.value) sift(rows);
    }
  }, () => lost || !here());
  if (!here()) return;
  const asked = at('asked');
  if (!lost) asked.textContent = '';
  else {
    const rest = rows.filter((row) => !filled.has(row));
    asked.replaceChildren(`No answer came, so ${some(rest.length, 'sheet')} ${rest.length === 1 ? 'is' : 'are'} missing. `,
      button('asked-again', 'Ask again', () => {
        asked.replaceChildren('Asking for the sheets …');
        fillAll(rest);
      }, ''));
  }
}
