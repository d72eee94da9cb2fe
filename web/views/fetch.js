// Fetching what is issued, as a host does.

import { sha256 } from '../api.js';
import { at, button, el, field, some } from '../elements.js';
import { indented } from '../json.js';
import { alone, areNames, memory, say, sent, stays } from '../page.js';
import { refusal } from '../refusals.js';
import { opened } from './differing.js';

// The profile that is named in the form, or null where it is none.
function named() {
  const [team, profile] = [at('fetch-team').value.trim(), at('fetch-profile').value.trim()];
  if (!areNames([team, profile], 'a team or a profile')) return null;
  at('fetched').replaceChildren();
  return { team, profile };
}

async function look() {
  const about = named();
  const answer = about && await sent('fetch-look', 'issued', about, undefined, () => alone(look));
  if (!answer) return;
  if (!answer.done) return say('refused', ...refusal('issued', answer, about));
  const { revision, digest } = answer.json;
  say('done', `Revision ${revision} of ${about.team}/${about.profile} is issued, with the digest ${digest}.`);
}

// Fetches, and says what came of it, also where one has gone to another place meanwhile.
async function send() {
  const here = stays();
  const about = named();
  if (!about) return;
  const { team, profile } = about;
  const answer = await sent('fetch-send', 'fetch', { team, profile }, undefined, () => alone(send));
  if (!answer) return;
  if (!answer.done) return say('refused', ...refusal('fetch', answer, { team, profile }));
  const digest = await sha256(answer.bytes);
  if (here()) show(answer.text, digest);
  say('done', `${team}/${profile} was fetched: ${some(answer.bytes.byteLength, 'byte')}, with the digest ${digest}.`);
}

function show(text, digest) {
  const { node } = opened(text);
  at('fetched').replaceChildren(el('h2', {}, 'What was fetched'),
    el('p', {}, 'SHA-256 of it: ', el('code', { id: 'fetched-digest', class: 'digest' }, digest)),
    el('p', { class: 'notice plain inline' },
      'This is a whole document. An engine that is given it as its seccomp file sets no filter at all, and says nothing: '
        + 'give it the member “seccomp” alone, and read back what the engine wrote.'),
    el('pre', { id: 'fetched-text', tabindex: '0', role: 'region', 'aria-label': 'What was fetched' }, node ? indented(node) : text));
}

/** @param {import('../page.js').Place} now */
export function fetchView(now) {
  return el('section', { class: 'card narrow' }, el('h1', { tabindex: '-1', 'data-first': true }, 'Fetch what is issued'),
    el('p', {}, 'What a host gets, by the token of a machine of the team. Hosts do this by a script; here you see what they see.'),
    el('form', { id: 'fetch', submit: (event) => { event.preventDefault(); alone(send); } },
      field('fetch-team', 'Team', null, { value: now.team || (memory.teams.length === 1 ? memory.teams[0] : ''), required: true,
        maxlength: '64' }),
      field('fetch-profile', 'Profile', null, { value: now.profile, required: true, maxlength: '64' }),
      el('p', { class: 'buttons' }, el('button', { id: 'fetch-send', class: 'main' }, 'Fetch'),
        button('fetch-look', 'Which is issued', () => alone(look), ''))),
    el('div', { id: 'fetched' }));
}
