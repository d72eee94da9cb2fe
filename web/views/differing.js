// What differs between two revisions, as the page works it out.

import { sha256 } from '../api.js';
import { differences } from '../differences.js';
import { Fault, profileOf } from '../document.js';
import { code, el, folded } from '../elements.js';
import { readJson } from '../json.js';
import { read } from '../page.js';
import { CLOSED } from '../widening.js';
import { refused } from './teams.js';

/** @typedef {import('../document.js').Profile} Profile */

/**
 * A text as a document, or what it is instead, in words.
 * @param {string} text
 * @returns {{ node: import('../json.js').Node | null, profile: Profile | null, wrong: string }}
 */
export function opened(text) {
  let node = null;
  try {
    node = readJson(text);
    return { node, profile: profileOf(node), wrong: '' };
  } catch (error) {
    if (error instanceof Fault) return { node, profile: null, wrong: `It is no document: ${error.fault}.` };
    if (error instanceof SyntaxError) return { node: null, profile: null, wrong: 'This text is no JSON, so it is shown as it came.' };
    throw error;
  }
}

/**
 * A revision's document, where its text is the one that its digest names; else what to show in its place.
 * @param {{ team: string, profile: string, revision: number }} about
 * @param {typeof read} asking
 * @returns {Promise<{ profile: Profile | null, instead: any, digest: string, state: string }>}
 */
export async function documentOf(about, asking = read) {
  const answer = await asking('show', about);
  const wrong = (instead) => ({ profile: null, instead, digest: '', state: '' });
  if (!answer.done) return wrong(refused('show', answer, about));
  const { document: text, digest, state } = answer.json;
  const name = `revision ${about.revision} of ${about.team}/${about.profile}`;
  if (await sha256(text) !== digest) return wrong(el('p', { class: 'notice refused inline' },
    `The text of ${name} isn’t the one that its digest names, so the page compares nothing.`));
  const { profile } = opened(text);
  return profile ? { profile, instead: null, digest, state } : wrong(el('p', { class: 'notice refused inline' },
    `The text of ${name} is no document, so the page can’t compare it.`));
}

/**
 * The baseline that a sheet names, or what to show in its place.
 * @param {string} team
 * @param {import('../sheet.js').Sheet} sheet
 * @param {typeof read} asking
 * @returns {Promise<{ profile: Profile | null, instead: any }>}
 */
export async function baselineOf(team, sheet, asking = read) {
  return sheet.baseline ? documentOf({ team, ...sheet.baseline }, asking) : { profile: CLOSED, instead: null };
}

/**
 * The differences of two documents as a list.
 * @param {Profile} old
 * @param {Profile} now
 */
export function differing(old, now) {
  const found = differences(old, now);
  const what = (one) => (one.how !== 'changed' && /^[a-zA-Z0-9_ ]+$/.test(one.what) && one.what.split(' ').length > 16
    ? folded(one.what.split(' '), 'names') : code(one.what));
  const group = (how, sign) => found.filter((one) => one.how === how).map((one) => el('li', { class: how },
    el('span', { class: 'sign' }, `${sign} ${how}`), el('div', {}, el('span', { class: 'place' }, one.place), ' ', what(one))));
  return [el('p', { class: 'hint' },
    'Worked out in this page, entry by entry, and not by the office. Removals and error numbers are here too.'),
    found.length ? el('ul', { class: 'plain differences' }, group('added', '+'), group('removed', '−'), group('changed', '±'))
      : el('p', { class: 'empty' }, 'Nothing: the texts are the same.')];
}
