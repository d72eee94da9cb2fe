// A link to the very text of a revision, for what the office doesn't keep: why somebody votes so, and what a hand-in is for.

import { at, button, el, field } from '../elements.js';

/**
 * The address of the sheet of a revision that has this text.
 * @param {{ team: string, profile: string, revision: number }} about
 * @param {string} digest
 */
const addressOf = ({ team, profile, revision }, digest) =>
  `${location.href.split('#')[0]}#/profile/${team}/${profile}/${revision}/${digest}`;

/**
 * The link in a field, to be copied, under what it is for.
 * @param {string} id
 * @param {{ team: string, profile: string, revision: number }} about
 * @param {string} digest
 * @param {string} use
 */
export function textLink(id, about, digest, use) {
  // where the browser lets no page write to its clipboard the link is chosen, so that a key copies it
  const copy = async () => {
    at(id).focus();
    at(id).select();
    const said = at(`${id}-copied`);
    try {
      await navigator.clipboard.writeText(at(id).value);
      said.textContent = 'Copied.';
    } catch {
      said.textContent = 'It is chosen: copy it by Ctrl and C.';
    }
  };
  return [field(id, 'Link to this text', use, { value: addressOf(about, digest), readonly: true, class: 'digest' }),
    el('p', {}, button(`${id}-copy`, 'Copy the link', copy, 'quiet'), ' ', el('span', { id: `${id}-copied`, role: 'status', class: 'hint' }))];
}
