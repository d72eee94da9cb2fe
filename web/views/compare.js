// Any two revisions of a profile beside each other.

import { at, badge, code, el, link } from '../elements.js';
import { read, to } from '../page.js';
import { differing, documentOf } from './differing.js';
import { refused } from './teams.js';

/** @param {import('../page.js').Place} now */
export async function compareView(now) {
  const { team, profile } = now;
  const whole = `${team}/${profile}`;
  const title = [el('p', { class: 'crumbs' }, link(`profile/${whole}/${now.other}`, whole)),
    el('h1', { tabindex: '-1', 'data-first': true }, `Compare revisions ${now.revision} and ${now.other} of ${whole}`)];
  const newest = await read('revisions', { team, profile });
  if (!newest.done) return [title, refused('revisions', newest, now)];
  const [old, next] = await Promise.all([now.revision, now.other].map((revision) => documentOf({ team, profile, revision })));
  const choice = (id, label, value) => el('p', { class: 'field' }, el('label', { for: id }, label),
    el('input', { id, type: 'number', min: '1', max: String(newest.json.revisions[0].revision), value: String(value), required: true }));
  const go = (event) => {
    event.preventDefault();
    to(`compare/${whole}/${Number(at('older').value)}/${Number(at('newer').value)}`);
  };
  const head = (revision, { digest, state }) => el('p', {}, link(`profile/${whole}/${revision}`, `Revision ${revision}`), ' ',
    state && badge(state), ' ', digest && code(digest));
  return [title,
    el('form', { class: 'row', id: 'compare', submit: go }, choice('older', 'From revision', now.revision),
      choice('newer', 'to revision', now.other), el('button', { id: 'compare-show' }, 'Compare')),
    el('section', { class: 'card', id: 'differs' }, head(now.revision, old), head(now.other, next),
      old.instead, next.instead, old.profile && next.profile && differing(old.profile, next.profile))];
}
