// The findings of a document, those that give more power first.

import { byKind } from '../calls.js';
import { SETS } from '../document.js';
import { chips, code, el, folded, some } from '../elements.js';
import { capabilitiesOf, parted, whyOf } from '../power.js';
import { permits } from '../widening.js';

/** @typedef {import('../document.js').Profile} Profile */

const why = (name) => whyOf(name) && el('span', { class: 'why' }, whyOf(name));

// Calls by their kinds, each with why it gives power, where it does.
const kindsSaid = (calls) => el('dl', { class: 'kinds' }, byKind(calls).map((kind) => el('div', {},
  el('dt', {}, `${kind.title}${kind.group && ` (${kind.group})`}, ${kind.calls.length}`),
  el('dd', {}, folded(kind.calls, 'calls'), why(kind.group)))));

// Calls that are found, by what becomes of them and by their kinds.
function callsSaid(calls, profile, base) {
  /** @type {[string, (now: string, old: string) => boolean][]} */
  const groups = profile && base ? [
    ['permitted now, and not before', (now, old) => now === 'always' && old === 'never'],
    ['permitted now with some arguments, and not at all before', (now, old) => now === 'sometimes' && old === 'never'],
    ['permitted with more arguments, perhaps', (now, old) => now !== 'never' && old !== 'never'],
    ['still refused, by a milder action', (now) => now === 'never'],
  ] : [['that may be permitted more', () => true]];
  return groups.map(([text, is]) => {
    const own = calls.filter((call) => !profile || !base || is(permits(profile, call), permits(base, call)));
    return own.length > 0 && el('li', { class: 'calls' }, el('span', { class: 'tag' }, `${some(own.length, 'call')} ${text}`), kindsSaid(own));
  });
}

// What is found besides capabilities and calls.
function otherSaid(line) {
  if (line === 'no-seccomp') return 'There is no filter, and the baseline has one: every call is allowed.';
  if (line === 'default') return 'The default action, which is that of each call without an entry, permits more.';
  if (line === 'architecture any') return 'No architecture is listed, and the baseline lists some.';
  if (line.startsWith('architecture ')) return ['The architecture ', code(line.slice(13)), ' is listed.'];
  if (line.startsWith('flag ')) return ['The flag ', code(line.slice(5)), ' is set.'];
  return line;
}

const callsOf = (lines) => lines.filter((line) => line.startsWith('call ')).map((line) => line.slice(5));
const othersOf = (lines) => lines.filter((line) => !line.startsWith('call ') && !line.startsWith('capability '));

const powerSaid = (lines, profile, base) => el('ul', { class: 'plain' },
  othersOf(lines).map((line) => el('li', {}, otherSaid(line))),
  capabilitiesOf(lines).map(([name, sets]) => el('li', {}, el('span', { class: 'tag' }, `Capability, ${sets.join(', ')}`), chips([name]),
    why(name))),
  callsSaid(callsOf(lines), profile, base));

function restSaid(lines, profile, base) {
  const of = (set) => lines.filter((line) => line.startsWith(`capability ${set} `)).map((line) => line.split(' ')[2]);
  return el('ul', { class: 'plain' },
    SETS.map((set) => of(set).length > 0 && el('li', {}, el('span', { class: 'tag' }, `Capabilities, ${set}`), chips(of(set)))),
    othersOf(lines).map((line) => el('li', {}, otherSaid(line))), callsSaid(callsOf(lines), profile, base));
}

/**
 * Findings as lists.
 * @param {string[]} lines as a sheet has them
 * @param {Profile | null} profile the document, and the baseline, where the page could read them
 * @param {Profile | null} base
 */
export function findingsList(lines, profile, base) {
  const { power, rest } = parted(lines, profile);
  return [
    power.length > 0 && [el('h3', { class: 'power' }, 'What gives more power'), powerSaid(power, profile, base)],
    rest.length > 0 && [power.length > 0 && el('h3', {}, 'The rest'), restSaid(rest, profile, base)],
  ];
}
