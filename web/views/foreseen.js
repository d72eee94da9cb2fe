// What comes of a document before it is handed in: what the office would find, and what differs from what is issued.

import { el, notice } from '../elements.js';
import { ask, memory } from '../page.js';
import { lostSaid, refusal } from '../refusals.js';
import { holds, readSheet, wouldNeed } from '../sheet.js';
import { CLOSED, findings } from '../widening.js';
import { baselineOf, differing, documentOf } from './differing.js';
import { findingsList } from './findings.js';
import { standing } from './revisions.js';
import { holdSaid, refused } from './teams.js';

/** @typedef {import('../document.js').Profile} Profile */
/** @typedef {{ team: string, profile: string }} About */

/**
 * What comes of a document, or why that isn't known.
 * @param {About} about
 * @param {Profile} profile
 */
export async function foreseen(about, profile) {
  const { own, answer } = await standing(about, ask);
  const isNew = answer.json?.word === 'no-profile';
  if (!own && !isNew) return unknown('revisions', answer, about);
  // of a new profile nothing is there, so another one of the team is looked for
  const list = isNew ? await ask('list', about) : null;
  if (list && !list.done) return unknown('list', list, about);
  const one = list ? list.json.profiles[0] : { profile: about.profile, revisions: own.revisions };
  return [await foundAgainstBaseline(about, one, profile), await comparedWithIssued(about, own, profile)];
}

// Why a document is compared with nothing.
const unknown = (kind, answer, about) => notice('plain', [answer.lost
  ? `${lostSaid(answer.lost, answer.seconds)} So it is compared with nothing.` : `It is compared with nothing. ${refusal(kind, answer, about)[0]}`]);

async function foundAgainstBaseline(about, one, profile) {
  const base = await presentBaseline(about, one);
  const card = (...inside) => el('section', { class: 'findings foreseen', id: 'hand-findings', 'aria-labelledby': 'hand-findings-title' },
    el('h2', { id: 'hand-findings-title' }, 'What the office would find'), inside);
  if (!base.profile) return card(base.instead);
  const found = findings(base.profile, profile);
  const listed = holds(profile).filter((one) => memory.known.listed.has(one));
  return card(el('p', { class: 'lead' }, wouldNeed(found.length, listed)),
    el('p', { class: 'hint' }, `Against ${base.name}, as the page works it out. The office does so again.`),
    findingsList(found, profile, base.profile));
}

/**
 * The team's present baseline, which each sheet of the team names, or what to show in its place. A team without a profile has none.
 * @param {About} about
 * @param {{ profile: string, revisions: number } | undefined} one a profile of the team
 * @returns {Promise<{ profile: Profile | null, instead: any, name: string }>}
 */
async function presentBaseline(about, one) {
  const closed = { profile: CLOSED, instead: null, name: 'the closed profile, since no adopted revision stands' };
  if (!one) return closed;
  const of = { team: about.team, profile: one.profile, revision: one.revisions };
  const told = await ask('sheet', of);
  const sheet = told.done ? readSheet(told.text) : null;
  if (!sheet) return { profile: null, instead: refused('sheet', told, of), name: '' };
  return sheet.baseline ? { ...await baselineOf(about.team, sheet, ask), name: `the team’s baseline, ${sheet.value('baseline')}` } : closed;
}

// What differs from the revision that is issued, or why that isn't known.
async function comparedWithIssued(about, own, profile) {
  if (!own) return el('p', { id: 'hand-differs' }, `${about.team}/${about.profile} is a new profile.`);
  if (!own.issued) return el('p', { id: 'hand-differs' }, `It will be revision ${own.revisions + 1}. No revision is issued, so there is `
    + 'nothing to compare.');
  const issued = await documentOf({ ...about, revision: own.issued }, ask);
  return [el('h2', {}, `What differs from revision ${own.issued}, which is issued`),
    memory.known.hold(about)?.held && el('p', { class: 'hint' }, holdSaid(about)),
    el('div', { id: 'hand-differs' }, issued.profile ? differing(issued.profile, profile) : issued.instead)];
}
