// What the queue and the list of profiles share.

import { at, badge, el, field, notice } from '../elements.js';
import { areNames, hush, memory, to } from '../page.js';
import { refusal } from '../refusals.js';

/**
 * The form that names the teams of a place.
 * @param {string} view
 */
export function teamsForm(view) {
  const go = (event) => {
    event.preventDefault();
    const list = [...new Set(at('teams').value.split(/[\s,]+/).filter(Boolean))];
    if (!areNames(list, 'a team')) return;
    hush();
    to(`${view}/${list.join(',')}`);
  };
  return el('form', { class: 'row', id: 'teams-form', submit: go },
    field('teams', 'Teams', null, { value: memory.teams.join(', '), placeholder: 'blue, green' }),
    el('button', { id: 'teams-show' }, 'Show'));
}

/**
 * What a refused answer says in its place.
 * @param {string} kind
 * @param {any} answer
 * @param {object} about
 */
export const refused = (kind, answer, about) => notice('refused', refusal(kind, answer, about));

/** @param {string} team */
export const noProfile = (team) => el('p', { class: 'empty' },
  `The team ${team} has no profile. Look whether its name is spelt right: the office answers so for any name.`);

/**
 * A badge of a profile that is held, as the office last said; else nothing.
 * @param {{ team?: string, profile?: string }} about
 */
export function heldBadge(about) {
  return memory.known.hold(about)?.held ? [' ', badge('held')] : null;
}

/**
 * What the page knows of a hold, in words.
 * @param {{ team?: string, profile?: string }} about
 */
export function holdSaid(about) {
  const known = memory.known.hold(about);
  if (!known) return 'Whether it is held isn’t known here: the office says so when one asks to issue, fetch, hold or release it.';
  const time = known.at.toLocaleTimeString('en-GB');
  return known.held
    ? `It is held, as the office said at ${time}: until security releases it, it can be reviewed and withdrawn, and not issued or fetched.`
    : `It isn’t held, as the office said at ${time}.`;
}
