// The revisions of a profile, each with who handed it in and where it stands.

import { at, badge, button, code, el, link } from '../elements.js';
import { alone, ask, say, self, stays } from '../page.js';
import { lostSaid } from '../refusals.js';
import { refused } from './teams.js';

/** How many digits of a digest tell revisions of a profile apart. */
const DIGITS = 12;

/** @typedef {{ revision: number, state: string, digest: string, by: string }} Revision */
/** @typedef {{ revisions: number, state: string, issued: number }} Own how many revisions a profile has, the state of the last, and which is issued, or 0 */

/**
 * The answers that list a profile's revisions, the newest first. It ends with the last, or with one that lists none.
 * @param {{ team: string, profile: string }} about
 * @param {typeof ask} asking
 */
export async function* pages({ team, profile }, asking) {
  for (let before; ;) {
    const answer = await asking('revisions', { team, profile, before });
    yield answer;
    if (!answer.done || !answer.json.more) return;
    before = answer.json.revisions.at(-1).revision;
  }
}

/**
 * Where a profile stands, with the answer that lists its newest revisions; or the answer that doesn't list them. Once somebody has gone
 * to another place it looks no further, since nobody sees it.
 * @param {{ team: string, profile: string }} about
 * @param {typeof ask} asking
 * @returns {Promise<{ own: Own | null, answer: import('../api.js').Answer }>}
 */
export async function standing(about, asking) {
  const here = stays();
  let [newest, issued] = [null, 0];
  for await (const answer of pages(about, asking)) {
    if (!answer.done) return { own: null, answer };
    newest ??= answer;
    issued = answer.json.revisions.find((one) => one.state === 'issued')?.revision ?? 0;
    if (issued || !here()) break;
  }
  const [{ revision, state }] = newest.json.revisions;
  return { own: { revisions: revision, state, issued }, answer: newest };
}

/** @param {string} name */
export const nameSaid = (name) => `${name}${name === self() ? ' (you)' : ''}`;

/**
 * @param {{ team: string, profile: string, revision: number }} about
 * @param {Revision} one
 */
const rowOf = (about, one) => el('tr', {},
  el('th', { scope: 'row' }, one.revision === about.revision ? String(one.revision)
    : link(`profile/${about.team}/${about.profile}/${one.revision}`, String(one.revision))),
  el('td', {}, badge(one.state)), el('td', {}, nameSaid(one.by)), el('td', {}, code(one.digest.slice(0, DIGITS))));

/**
 * The newest revisions, and a button for those before them where there are any.
 * @param {{ team: string, profile: string, revision: number }} about
 * @param {import('../api.js').Answer} answer
 */
export function revisionsCard(about, answer) {
  const card = (...inside) => el('section', { class: 'card', 'aria-labelledby': 'revisions-title' },
    el('h2', { id: 'revisions-title' }, 'Revisions'), inside);
  if (!answer.done) return card(refused('revisions', answer, about));
  const here = stays();
  const rows = el('tbody', {});
  let last = 0;
  const add = ({ revisions, more }) => {
    rows.append(...revisions.map((one) => rowOf(about, one)));
    last = revisions.at(-1).revision;
    return more;
  };
  const older = async () => {
    const next = await ask('revisions', { ...about, before: last });
    if (!here()) return;
    if (next.lost) say('refused', lostSaid(next.lost, next.seconds), '', 'Nothing was changed. Ask again.');
    else if (!next.done) at('older').replaceWith(refused('revisions', next, about));
    else if (!add(next.json)) at('older').remove();
  };
  const more = add(answer.json);
  return card(el('table', { id: 'revisions' }, el('caption', {}, 'The newest first, each with its state, who handed it in, and its digest'), rows),
    more && el('p', { id: 'older' }, button('revisions-older', 'Older ones', () => alone(older), '')));
}
