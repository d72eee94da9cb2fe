// Handing in a document, which the page reads and compares before.

import { sha256 } from '../api.js';
import { Fault, MOST_BYTES, readDocument } from '../document.js';
import { at, el, field, link, notice, some } from '../elements.js';
import { WORD } from '../forms.js';
import { indented, readJson } from '../json.js';
import { alone, areNames, memory, say, sent, stays } from '../page.js';
import { faultSaid, refusal } from '../refusals.js';
import { foreseen } from './foreseen.js';
import { textLink } from './text-link.js';

/** What was looked at last, so that an older look says nothing. */
let look = 0;

/**
 * The digest that the page worked out of each file.
 * @type {WeakMap<File, string>}
 */
const digests = new WeakMap();

// Reads the chosen file as the office does, and shows it as it will stand, with what the office would find and what differs from what is
// issued.
async function check() {
  const [mine, here] = [++look, stays()];
  const file = at('hand-file').files[0];
  const [team, profile] = [at('hand-team').value.trim(), at('hand-profile').value.trim()];
  const show = (...parts) => { if (mine === look && here()) at('hand-checked').replaceChildren(...parts.flat(Infinity).filter(Boolean)); };
  if (!file) return show();
  if (file.size > MOST_BYTES) return show(notice('refused', [`${file.name} has ${file.size} bytes, so it can’t be handed in.`,
    'Found by the page: too-long', faultSaid('too-long')[1]], { id: 'hand-fault' }));
  let made;
  try {
    made = readDocument(await file.arrayBuffer());
  } catch (error) {
    if (!(error instanceof Fault)) throw error;
    const [says, way] = faultSaid(error.fault);
    return show(notice('refused', [`${file.name}: ${says}`, `Found by the page: ${error.fault}`, way], { id: 'hand-fault' }));
  }
  const digest = await sha256(made.text);
  digests.set(file, digest);
  const stands = [el('h2', {}, 'As it will stand'),
    el('p', {}, `${some(made.text.length, 'byte')}, with the digest `, el('code', { id: 'hand-digest', class: 'digest' }, digest)),
    el('details', {}, el('summary', {}, 'Its canonical text'),
      el('pre', { id: 'hand-text', tabindex: '0', role: 'region', 'aria-label': 'The document as it will stand' },
        indented(readJson(made.text))))];
  show(stands);
  if (!WORD.test(team) || !WORD.test(profile)) return;
  show(stands, await foreseen({ team, profile }, made.profile));
}

// Hands in, and says what came of it, also where one has gone to another place meanwhile.
async function send() {
  const here = stays();
  const [team, profile] = [at('hand-team').value.trim(), at('hand-profile').value.trim()];
  const file = at('hand-file').files[0];
  if (!areNames([team, profile], 'a team or a profile')) return;
  if (!file) return say('refused', 'No file is chosen.', '', 'Choose the file of the document.');
  if (file.size > MOST_BYTES) return say('refused',
    `${file.name} has ${file.size} bytes, so it wasn’t sent: a document has at most 262,144.`, 'too-long', faultSaid('too-long')[1]);
  const answer = await sent('hand-send', 'submit', { team, profile }, file, () => alone(send));
  if (!answer) return;
  const after = (...parts) => { if (here()) at('hand-after').replaceChildren(...parts); };
  if (!answer.done) {
    const [sentence, rule, way] = refusal('submit', answer, { team, profile });
    // whether it was taken only the office says
    const untaken = answer.json && answer.wrong === null;
    say('refused', `${file.name}${untaken ? ' was not taken.' : ':'} ${sentence}`, rule, way);
    return after();
  }
  const { revision, digest } = answer.json;
  say('done', `${file.name} is revision ${revision} of ${team}/${profile}. It is open, and its canonical text has the digest ${digest}.`, '',
    digests.has(file) && digests.get(file) !== digest ? 'That isn’t the digest that the page worked out: look at what stands there.' : '');
  after(el('p', {}, link(`profile/${team}/${profile}/${revision}`, `Look at revision ${revision}`, { id: 'hand-look' })),
    ...textLink('hand-link', { team, profile, revision }, digest,
      'The office keeps no message with a document. Write what it is for where the team talks, with this link: it opens the sheet.'));
}

/** @param {import('../page.js').Place} now */
export function handInView(now) {
  return el('section', { class: 'card narrow' }, el('h1', { tabindex: '-1', 'data-first': true }, 'Hand in a document'),
    el('p', {}, 'The page reads the file before it is sent, and shows how it will stand and what the office would find. The office reads it '
      + 'again: one that reads is the next revision of the profile at once; else nothing changes, and you are told its first fault.'),
    el('form', { id: 'hand-in', submit: (event) => { event.preventDefault(); alone(send); } },
      field('hand-team', 'Team', null, { value: now.team || (memory.teams.length === 1 ? memory.teams[0] : ''), required: true,
        maxlength: '64', change: check }),
      field('hand-profile', 'Profile', 'A new name makes a new profile.',
        { value: now.profile, required: true, maxlength: '64', change: check }),
      field('hand-file', 'File', 'JSON of “capabilities” and “seccomp”, at most 262,144 bytes.', { type: 'file', input: check }),
      el('p', {}, el('button', { id: 'hand-send', class: 'main' }, 'Hand in'))),
    el('div', { id: 'hand-after' }), el('div', { id: 'hand-checked', 'aria-live': 'polite' }));
}
