// Enrolling a user.

import { sha256 } from '../api.js';
import { at, button, el, field } from '../elements.js';
import { alone, areNames, confirmed, say, sent, stays } from '../page.js';
import { refusal } from '../refusals.js';
import { ROLES, listed } from '../words.js';

/** @typedef {{ user: string, team: string, roles: string[], digest: string }} Enrolment */

// Makes a token, shows it once, and has its digest in the form.
async function make() {
  const here = stays();
  const bytes = crypto.getRandomValues(new Uint8Array(16));
  const token = [...bytes].map((byte) => byte.toString(16).padStart(2, '0')).join('');
  const digest = await sha256(token);
  if (!here()) return;
  at('enrol-digest').value = digest;
  at('enrol-token').replaceChildren(el('div', { class: 'notice plain inline' },
    el('p', { class: 'sentence' },
      'The token, shown this once. Give it to its user by a way that nobody else reads; neither this page nor the office keeps it.'),
    el('p', {}, el('code', { id: 'made-token', class: 'digest' }, token)),
    button('made-away', 'I have it, hide it', () => { at('enrol-token').replaceChildren(); at('enrol-user').focus(); }, '')));
}

/**
 * What the form enrols, or null where it is no enrolment, which is said.
 * @returns {Enrolment | null}
 */
function written() {
  const [user, team, digest] = ['enrol-user', 'enrol-team', 'enrol-digest'].map((id) => at(id).value.trim());
  const roles = ROLES.filter((role) => at(`role-${role}`).checked);
  if (!areNames([user, team], 'a user or a team')) return null;
  if (/^[0-9a-f]{64}$/.test(digest)) return { user, team, roles, digest };
  say('refused', 'A digest is 64 digits 0-9 and a-f.', '',
    'Make a token here, or enter the SHA-256 of the user’s own: printf TOKEN | sha256sum');
  return null;
}

/** @param {Enrolment} one */
const roleSaid = ({ roles }) => (roles.length ? `as ${listed(roles)}` : 'without a role');

// Asks before it sends: the page can't know who is enrolled, and an enrolment of a name that is there takes away what that name had.
async function begin() {
  const here = stays();
  const one = written();
  if (!one) return;
  const { user, team } = one;
  if (await confirmed(`Enrol ${user}`, `${user} of the team ${team} will be enrolled ${roleSaid(one)}. Whether ${user} is enrolled already `
    + 'isn’t known here. If so, this replaces the roles and the token from before: a role that isn’t named ends, and so does the old token.')) {
    await alone(() => send(one, here));
  }
}

/**
 * Enrols, and says what came of it, also where one has gone to another place meanwhile.
 * @param {Enrolment} one
 * @param {() => boolean} here
 */
async function send(one, here) {
  const { user, team } = one;
  const answer = await sent('enrol-send', 'enrol', { user, team }, JSON.stringify(one), begin);
  if (!answer) return;
  if (!answer.done) return say('refused', ...refusal('enrol', answer, { user, team }));
  say('done', `${user} of the team ${team} is enrolled ${roleSaid(one)}. Any roles and token from before are gone.`);
  if (here()) at('enrol-digest').value = '';
}

export function enrolView() {
  return el('section', { class: 'card narrow' }, el('h1', { tabindex: '-1', 'data-first': true }, 'Enrol a user'),
    el('p', {}, 'An enrolment gives a user a team, all roles and one token, by its digest. It replaces what the user had, '
      + 'so name every role that is to stay.'),
    el('form', { id: 'enrol', submit: (event) => { event.preventDefault(); begin(); } },
      field('enrol-user', 'User', null, { required: true, maxlength: '64' }),
      field('enrol-team', 'Team', 'A user stays in one team for good.', { required: true, maxlength: '64' }),
      el('fieldset', {}, el('legend', {}, 'Roles'), ROLES.map((role) => el('label', { class: 'check' },
        el('input', { type: 'checkbox', id: `role-${role}` }), ` ${role}`))),
      field('enrol-digest', 'Digest of the token',
        'SHA-256 of the token, 64 digits. Make a token here, or enter what its user gave you.',
        { required: true, maxlength: '64', class: 'digest' }),
      el('p', {}, button('enrol-make', 'Make a token', make, '')),
      el('div', { id: 'enrol-token', 'aria-live': 'polite' }),
      el('p', {}, el('button', { id: 'enrol-send', class: 'main' }, 'Enrol'))));
}
