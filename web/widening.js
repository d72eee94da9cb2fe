// What a new profile permits, or may permit, beyond its baseline, by the rules of docs/documents.md, "Wider than a baseline". The office
// works it out again; the page compares the two.

import { ACTIONS, CAPABILITIES, SETS } from './document.js';

/** @typedef {import('./document.js').Profile} Profile */
/** @typedef {import('./document.js').Entry} Entry */
/** @typedef {import('./document.js').Comparison} Comparison */

const MOST = 2n ** 64n - 1n;

/**
 * The profile that a team without a baseline is compared with.
 * @type {Profile}
 */
export const CLOSED = { sets: Object.fromEntries(SETS.map((set) => [set, []])),
  filter: { action: 'SCMP_ACT_KILL_PROCESS', errno: null, architectures: [], flags: [], entries: [] } };

/**
 * What a comparison admits: the whole numbers of an interval, all but one, or those that a mask makes one value.
 * @param {Comparison} comparison
 * @returns {{ low?: bigint, high?: bigint, but?: bigint, mask?: bigint, is?: bigint }}
 */
function admitted({ op, value, two }) {
  switch (op) {
    case 'SCMP_CMP_LT': return { low: 0n, high: value - 1n };
    case 'SCMP_CMP_LE': return { low: 0n, high: value };
    case 'SCMP_CMP_EQ': return { low: value, high: value };
    case 'SCMP_CMP_GE': return { low: value, high: MOST };
    case 'SCMP_CMP_GT': return { low: value + 1n, high: MOST };
    case 'SCMP_CMP_NE': return { but: value };
    default: return { mask: value, is: value & two };
  }
}

// Whether a comparison admits this number.
function admits(set, one) {
  if (set.but !== undefined) return one !== set.but;
  return set.mask !== undefined ? (one & set.mask) === set.is : set.low <= one && one <= set.high;
}

// The least and the greatest number that it admits; `low` is above `high` where it admits none.
function ends(set) {
  if (set.but !== undefined) return { low: set.but === 0n ? 1n : 0n, high: set.but === MOST ? MOST - 1n : MOST };
  return set.mask !== undefined ? { low: set.is, high: set.is + (MOST - set.mask) } : set;
}

/**
 * Whether each number of an interval has, under the mask, this value: a bit that takes both values in it must not be in the mask.
 * @param {bigint} mask
 * @param {bigint} is
 * @param {bigint} low
 * @param {bigint} high
 */
function isUnder(mask, is, low, high) {
  let varies = 0n;
  for (let differs = low ^ high; differs > 0n; differs >>= 1n) varies = (varies << 1n) | 1n;
  return (mask & varies) === 0n && (low & mask) === is;
}

/**
 * Whether each number that the first comparison admits is admitted by the second.
 * @param {Comparison} one
 * @param {Comparison} other
 */
export function implies(one, other) {
  const [these, those] = [admitted(one), admitted(other)];
  const { low, high } = ends(these);
  if (low > high) return true;
  if (those.but !== undefined) return !admits(these, those.but);
  if (those.mask === undefined) return those.low <= low && high <= those.high;
  if (these.mask !== undefined) return (those.mask & ~these.mask) === 0n && (these.is & those.mask) === those.is;
  if (these.but === undefined) return isUnder(those.mask, those.is, low, high);
  // all but one number are under a mask only where the mask has no bit: each bit divides them in halves
  return those.mask === 0n;
}

// Whether the first entry is stricter: each comparison of the second is implied by one of the same argument.
const entryImplies = (one, other) =>
  other.args.every((that) => one.args.some((those) => those.index === that.index && implies(those, that)));

const rank = (action) => ACTIONS.indexOf(action);

// The entries that have a name.
function byName(filter) {
  /** @type {Map<string, Entry[]>} */
  const found = new Map();
  for (const entry of filter.entries) {
    for (const name of new Set(entry.names)) {
      const there = found.get(name);
      if (there) there.push(entry);
      else found.set(name, [entry]);
    }
  }
  return found;
}

// Whether a name may be permitted more: by these entries before the first default, and by those before the second.
function isMore(base, baseDefault, now, nowDefault) {
  const own = base.length ? rank(base[0].action) : baseDefault;
  const least = !base.length ? baseDefault : base.some((one) => !one.args.length) ? own : Math.min(own, baseDefault);
  const entriesHold = now.every((one) => rank(one.action) <= least
    || (rank(one.action) <= own && base.some((other) => entryImplies(one, other))));
  const restHolds = now.some((one) => !one.args.length) || nowDefault <= least || (nowDefault <= baseDefault
    && base.every((one) => rank(one.action) >= nowDefault || now.some((other) => entryImplies(one, other))));
  return !entriesHold || !restHolds;
}

/**
 * The findings of a new profile against a baseline, as the lines of a sheet have them.
 * @param {Profile} base
 * @param {Profile} now
 * @returns {string[]}
 */
export function findings(base, now) {
  const found = SETS.flatMap((set) => now.sets[set].filter((one) => !base.sets[set].includes(one))
    .map((one) => `capability ${set} ${CAPABILITIES[one]}`));
  if (!base.filter) return found;
  if (!now.filter) return [...found, 'no-seccomp'];
  const [old, filter] = [base.filter, now.filter];
  if (!filter.architectures.length && old.architectures.length) found.push('architecture any');
  const beyond = (these, those) => [...new Set(these)].filter((one) => !those.includes(one));
  found.push(...beyond(filter.architectures, old.architectures).map((one) => `architecture ${one}`));
  found.push(...beyond(filter.flags, old.flags).map((one) => `flag ${one}`));
  const [before, after] = [byName(old), byName(filter)];
  const names = [...new Set([...before.keys(), ...after.keys()])].sort();
  found.push(...names.filter((name) => isMore(before.get(name) ?? [], rank(old.action), after.get(name) ?? [], rank(filter.action)))
    .map((name) => `call ${name}`));
  if (rank(filter.action) > rank(old.action)) found.push('default');
  return found;
}

/**
 * Those of these lines that a profile can have as findings, whatever its baseline is. The closed profile permits least, so no baseline
 * leaves more to be found, but for calls that only the baseline names and for the architectures where the profile lists none.
 * @param {string[]} lines
 * @param {Profile} profile
 * @returns {string[]}
 */
export function possible(lines, profile) {
  const most = new Set(findings(CLOSED, profile));
  if (profile.filter?.architectures.length === 0) most.add('architecture any');
  const named = new Set(profile.filter?.entries.flatMap((entry) => entry.names));
  const unnamed = (line) => most.has('default') && /^call [a-z0-9_]{1,64}$/.test(line) && !named.has(line.slice(5));
  return [...new Set(lines)].filter((line) => most.has(line) || unnamed(line));
}

/** The actions that let a call happen. */
const PERMITS = ['SCMP_ACT_LOG', 'SCMP_ACT_ALLOW'];

/**
 * Whether a profile permits a call: `always`, `sometimes` by its arguments, or `never`.
 * @param {Profile} profile
 * @param {string} name
 * @returns {'always' | 'sometimes' | 'never'}
 */
export function permits({ filter }, name) {
  if (!filter) return 'always';
  const entries = filter.entries.filter((one) => one.names.includes(name));
  const rest = PERMITS.includes(filter.action);
  if (!entries.length) return rest ? 'always' : 'never';
  const named = PERMITS.includes(entries[0].action);
  if (named === rest || entries.some((one) => !one.args.length)) return named ? 'always' : 'never';
  return 'sometimes';
}
