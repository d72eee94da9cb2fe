// Which findings give more power than others, and why, by the lists of words.js.

import { byKind } from './calls.js';
import { permits } from './widening.js';
import { CALLS_DANGEROUS, CAPS_DANGEROUS } from './words.js';

/** @typedef {import('./document.js').Profile} Profile */

const WHYS = new Map([...CAPS_DANGEROUS, ...CALLS_DANGEROUS]);

/**
 * Why a capability or a group of calls gives power, or nothing.
 * @param {string} name
 */
export const whyOf = (name) => WHYS.get(name) ?? '';

/**
 * Findings of a sheet in two parts, each in its order: those that give more power, and the rest.
 * @param {string[]} lines
 * @param {Profile | null} profile the document that has them; where it can't be read, each call counts as permitted
 * @returns {{ power: string[], rest: string[] }}
 */
export function parted(lines, profile) {
  // whether this call, or one that no entry names, may happen
  const happens = (call) => !profile || permits(profile, call) !== 'never';
  const gives = (line) => {
    const [kind, ...words] = line.split(' ');
    if (kind === 'capability') return whyOf(words[1]) !== '';
    if (kind === 'call') return whyOf(byKind(words)[0].group) !== '' && happens(words[0]);
    return kind === 'no-seccomp' || (kind === 'default' && happens(''));
  };
  return { power: lines.filter(gives), rest: lines.filter((line) => !gives(line)) };
}

/**
 * The capabilities of findings, each with the sets that have it, those of CAPS_DANGEROUS first and in its order.
 * @param {string[]} lines
 * @returns {[string, string[]][]}
 */
export function capabilitiesOf(lines) {
  /** @type {Map<string, string[]>} */
  const sets = new Map();
  for (const line of lines) {
    const [kind, set, name] = line.split(' ');
    if (kind === 'capability') sets.set(name, [...sets.get(name) ?? [], set]);
  }
  const place = (name) => CAPS_DANGEROUS.findIndex(([one]) => one === name) + 1 || Infinity;
  return [...sets].sort(([one], [other]) => (place(one) === place(other) ? 0 : place(one) - place(other)));
}
