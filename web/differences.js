// What differs between two documents, entry by entry, with removals and error numbers.

import { CAPABILITIES, SETS, canonical, takesErrno } from './document.js';

/** @typedef {import('./document.js').Profile} Profile */
/** @typedef {{ place: string, how: 'added' | 'removed' | 'changed', what: string }} Difference */

// The items of the first list that the second has too, each as often as both have it, and those that it has beyond it.
function parted(these, those) {
  const left = new Map();
  for (const one of those) left.set(one, (left.get(one) ?? 0) + 1);
  const [both, beyond] = [[], []];
  for (const one of these) {
    const count = left.get(one) ?? 0;
    left.set(one, count - 1);
    (count > 0 ? both : beyond).push(one);
  }
  return { both, beyond };
}

const does = (action, errno) => (takesErrno(action) ? `${action} ${errno}` : action);

const comparison = ({ index, op, value, two }) =>
  (op === 'SCMP_CMP_MASKED_EQ' ? `argument ${index} ${op}, mask ${value}, is ${two}` : `argument ${index} ${op} ${value}`);

// An entry with what it is compared by.
function told(entry, index) {
  const asked = entry.args.length ? entry.args.map(comparison).join(' and ') : 'any arguments';
  const action = does(entry.action, entry.errno);
  const named = entry.names.join(' ');
  return { number: index + 1, names: entry.names, has: new Set(entry.names), named, action, asked, text: `${action} ${asked} ${named}` };
}

/**
 * The differences of two documents, each a place with what was there and what is there now. It is empty only where their canonical texts
 * are the same.
 * @param {Profile} old
 * @param {Profile} now
 * @returns {Difference[]}
 */
export function differences(old, now) {
  /** @type {Difference[]} */
  const found = [];
  const put = (place, how, what) => found.push({ place, how, what });
  const lists = (place, before, after) => {
    const [was, is] = [parted(before, after), parted(after, before)];
    if (is.beyond.length) put(place, 'added', is.beyond.join(' '));
    if (was.beyond.length) put(place, 'removed', was.beyond.join(' '));
    if (was.both.join(' ') !== is.both.join(' ')) put(place, 'changed', `the order, now ${is.both.join(' ')}`);
  };
  const caps = (profile, set) => profile.sets[set].map((one) => CAPABILITIES[one]);
  for (const set of SETS) lists(`capabilities, ${set}`, caps(old, set), caps(now, set));
  const [before, after] = [old.filter, now.filter];
  if (!before && after) put('seccomp', 'added', 'there was no filter, so every call was allowed');
  if (before && !after) put('seccomp', 'removed', 'there is no filter now, so every call is allowed');
  const [was, is] = [before ? does(before.action, before.errno) : 'none', after ? does(after.action, after.errno) : 'none'];
  if (was !== is) put('default action', 'changed', `from ${was} to ${is}`);
  for (const name of /** @type {const} */ (['architectures', 'flags'])) lists(name, before?.[name] ?? [], after?.[name] ?? []);
  entries((before?.entries ?? []).map(told), (after?.entries ?? []).map(told), put, lists);
  if (!found.length && canonical(old) !== canonical(now)) put('document', 'changed',
    'the texts differ in a way that the page has no words for: read both');
  return found;
}

function entries(old, now, put, lists) {
  const texts = (list) => list.map((one) => one.text);
  const [was, is] = [parted(texts(old), texts(now)), parted(texts(now), texts(old))];
  // the entries of these texts, the last ones where a text stands more often
  const of = (list, chosen) => {
    const left = new Map();
    for (const one of chosen) left.set(one, (left.get(one) ?? 0) + 1);
    return [...list].reverse().filter((one) => {
      const count = left.get(one.text) ?? 0;
      left.set(one.text, count - 1);
      return count > 0;
    }).reverse();
  };
  let gone = of(old, was.beyond);
  let come = of(now, is.beyond);
  // the entries that go together are told as one that was changed
  const pair = (alike, tell) => {
    for (const one of [...gone]) {
      const other = come.find((candidate) => alike(one, candidate));
      if (!other) continue;
      gone = gone.filter((each) => each !== one);
      come = come.filter((each) => each !== other);
      tell(one, other);
    }
  };
  const numbers = (one, other) => `entry ${other.number}${one.number === other.number ? '' : ` (was ${one.number})`}`;
  pair((one, other) => one.action === other.action && one.asked === other.asked && one.names.some((name) => other.has.has(name)),
    (one, other) => lists(`${numbers(one, other)}, names for ${other.action}, ${other.asked}`, one.names, other.names));
  pair((one, other) => one.named === other.named && (one.asked === other.asked || one.action === other.action), (one, other) => {
    const place = `${numbers(one, other)}, ${other.names.join(' ')}`;
    if (one.action !== other.action) put(place, 'changed', `from ${one.action} to ${other.action}`);
    if (one.asked !== other.asked) put(place, 'changed', `from ${one.asked} to ${other.asked}`);
  });
  for (const one of come) put(`entry ${one.number}`, 'added', `${one.action} for ${one.named}, ${one.asked}`);
  for (const one of gone) put(`entry ${one.number} of the older one`, 'removed', `${one.action} for ${one.named}, ${one.asked}`);
  if (was.both.join() !== is.both.join()) put('entries', 'changed', 'those that both have stand in another order');
}
