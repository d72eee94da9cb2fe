// Documents: what one reads as, its canonical text, or its first fault, by the rules of docs/documents.md. The office reads it again.

import { readJson, textOf } from './json.js';

/** @typedef {import('./json.js').Node} Node */
/**
 * @typedef {{ index: number, op: string, value: bigint, two: bigint }} Comparison
 * @typedef {{ action: string, errno: number | null, names: string[], args: Comparison[] }} Entry
 * @typedef {{ action: string, errno: number | null, architectures: string[], flags: string[], entries: Entry[] }} Filter
 * @typedef {Record<string, number[]>} Sets
 * @typedef {{ sets: Sets, filter: Filter | null }} Profile
 */

export const MOST_BYTES = 262144;

/** The five sets, in the order of a sheet. */
export const SETS = ['effective', 'permitted', 'inheritable', 'bounding', 'ambient'];

/** The names of the capabilities, by number. */
export const CAPABILITIES = ('CHOWN DAC_OVERRIDE DAC_READ_SEARCH FOWNER FSETID KILL SETGID SETUID SETPCAP LINUX_IMMUTABLE NET_BIND_SERVICE '
  + 'NET_BROADCAST NET_ADMIN NET_RAW IPC_LOCK IPC_OWNER SYS_MODULE SYS_RAWIO SYS_CHROOT SYS_PTRACE SYS_PACCT SYS_ADMIN SYS_BOOT '
  + 'SYS_NICE SYS_RESOURCE SYS_TIME SYS_TTY_CONFIG MKNOD LEASE AUDIT_WRITE AUDIT_CONTROL SETFCAP MAC_OVERRIDE MAC_ADMIN SYSLOG '
  + 'WAKE_ALARM BLOCK_SUSPEND AUDIT_READ PERFMON BPF CHECKPOINT_RESTORE').split(' ').map((name) => `CAP_${name}`);

/** The actions, strictest first: an action's place is its rank. */
export const ACTIONS = ['KILL_PROCESS', 'KILL_THREAD', 'TRAP', 'ERRNO', 'TRACE', 'LOG', 'ALLOW'].map((name) => `SCMP_ACT_${name}`);

const OPERATORS = ['NE', 'LT', 'LE', 'EQ', 'GE', 'GT', 'MASKED_EQ'].map((name) => `SCMP_CMP_${name}`);

/**
 * Whether this action has an error number.
 * @param {string} action
 */
export const takesErrno = (action) => action === 'SCMP_ACT_ERRNO' || action === 'SCMP_ACT_TRACE';

/** The first fault of a document, in the office's words. */
export class Fault extends Error {
  /** @param {string} fault */
  constructor(fault) {
    super(fault);
    this.fault = fault;
  }
}

const fail = (fault) => { throw new Fault(fault); };
const at = (path) => (path === '' ? '/' : path);

// Texts in the order of their bytes in UTF-8, which is that of their characters.
function inByteOrder(one, other) {
  const [left, right] = [Array.from(one), Array.from(other)];
  for (let here = 0; here < left.length && here < right.length; here++) {
    const difference = left[here].codePointAt(0) - right[here].codePointAt(0);
    if (difference) return difference;
  }
  return left.length - right.length;
}

// The members of an object, the last of each name, in byte order.
function members(node) {
  const last = new Map(node.inside.map((one) => [textOf(one.name), one.node]));
  return [...last].sort(([one], [other]) => inByteOrder(one, other));
}

const isNull = (node) => node.kind === 'word' && node.raw === 'null';

// Readers: each takes a node and its path, and gives what it reads as.

const text = (node, path) => (node.kind === 'text' ? textOf(node.raw) : fail(`wrong-shape ${at(path)}`));

function number(node, path) {
  if (node.kind !== 'word' || !/^[-0-9]/.test(node.raw)) fail(`wrong-shape ${at(path)}`);
  if (!/^[0-9]+$/.test(node.raw) || BigInt(node.raw) >= 2n ** 64n) fail(`bad-number ${at(path)}`);
  return BigInt(node.raw);
}

const word = (is) => (node, path) => {
  const found = text(node, path);
  return is(found) ? found : fail(`unknown-word ${at(path)}`);
};

function action(node, path) {
  const found = text(node, path);
  if (found === 'SCMP_ACT_NOTIFY') fail(`not-in-profile ${at(path)}`);
  if (found === 'SCMP_ACT_KILL') return 'SCMP_ACT_KILL_THREAD';
  return ACTIONS.includes(found) ? found : fail(`unknown-word ${at(path)}`);
}

const list = (read) => (node, path) =>
  (node.kind === 'list' ? node.inside.map((one, place) => read(one.node, `${path}/${place}`)) : fail(`wrong-shape ${at(path)}`));

// An object with just these members, of which these are required.
const object = (table, required, refused = []) => (node, path) => {
  if (node.kind !== 'object') fail(`wrong-shape ${at(path)}`);
  const found = {};
  for (const [name, inside] of members(node)) {
    const below = `${path}/${name}`;
    if (refused.includes(name)) fail(`not-in-profile ${below}`);
    if (!Object.hasOwn(table, name)) fail(`unknown-member ${below}`);
    if (required.includes(name) || !isNull(inside)) found[name] = table[name](inside, below);
  }
  for (const name of [...required].sort()) if (!Object.hasOwn(found, name)) fail(`wrong-shape ${path}/${name}`);
  return found;
};

const capability = word((found) => CAPABILITIES.includes(found));
const readSets = object(Object.fromEntries(SETS.map((set) => [set, list(capability)])), []);
const argument = object({ index: number, value: number, op: word((found) => OPERATORS.includes(found)), valueTwo: number },
  ['index', 'op', 'value']);
const entry = object({ names: list(text), action, errnoRet: number, args: list(argument) }, ['action', 'names']);
const seccomp = object({
  defaultAction: action, defaultErrnoRet: number,
  architectures: list(word((found) => /^SCMP_ARCH_[A-Z0-9_]{1,32}$/.test(found))),
  flags: list(word((found) => /^SECCOMP_FILTER_FLAG_[A-Z_]{1,32}$/.test(found))), syscalls: list(entry),
}, ['defaultAction'], ['listenerPath', 'listenerMetadata']);
const whole = object({ capabilities: readSets, seccomp }, ['capabilities']);

// The error number of an action, which is 1 where none is written.
function errnoOf(act, written) {
  if (written === undefined) return takesErrno(act) ? 1 : null;
  if (!takesErrno(act)) fail('errno-not-taken');
  return written > 65535n ? fail('errno-too-large') : Number(written);
}

/** @returns {Sets} */
function setsOf(found) {
  const sets = Object.fromEntries(SETS.map((set) =>
    [set, [...new Set((found[set] ?? []).map((name) => CAPABILITIES.indexOf(name)))].sort((one, other) => one - other)]));
  const { effective, permitted, inheritable, ambient } = sets;
  const outside = effective.find((one) => !permitted.includes(one));
  if (outside !== undefined) fail(`effective-outside ${outside}`);
  const raised = ambient.find((one) => !permitted.includes(one) || !inheritable.includes(one));
  if (raised !== undefined) fail(`ambient-outside ${raised}`);
  return sets;
}

/** @returns {Entry} */
function entryOf(found) {
  if (!found.names.length) fail('no-names');
  if (!found.names.every((name) => /^[a-z0-9_]{1,64}$/.test(name))) fail('bad-call-name');
  const args = found.args ?? [];
  if (args.some((one) => one.index > 5n)) fail('bad-index');
  if (new Set(args.map((one) => one.index)).size < args.length) fail('index-twice');
  return { action: found.action, errno: errnoOf(found.action, found.errnoRet), names: found.names,
    args: args.map(({ index, op, value, valueTwo }) => ({ index: Number(index), op, value, two: valueTwo ?? 0n })) };
}

/** @returns {Filter} */
function filterOf(found) {
  const [architectures, flags, syscalls] = [found.architectures ?? [], found.flags ?? [], found.syscalls ?? []];
  if (syscalls.length > 2048 || architectures.length > 64 || flags.length > 64
    || syscalls.some((one) => one.names.length > 1024 || (one.args ?? []).length > 6)) fail('too-many');
  const errno = errnoOf(found.defaultAction, found.defaultErrnoRet);
  const entries = syscalls.map(entryOf);
  const actions = new Map();
  for (const one of entries) {
    const does = `${one.action} ${one.errno}`;
    for (const name of one.names) {
      if ((actions.get(name) ?? does) !== does) fail(`two-actions ${name}`);
      actions.set(name, does);
    }
  }
  return { action: found.defaultAction, errno, architectures, flags, entries };
}

/**
 * What a tree reads as; a Fault where it is no document.
 * @param {Node} node
 * @returns {Profile}
 */
export function profileOf(node) {
  const found = whole(node, '');
  return { sets: setsOf(found.capabilities), filter: found.seccomp ? filterOf(found.seccomp) : null };
}

const quoted = (texts) => `[${texts.map((one) => `"${one}"`).join(',')}]`;

/**
 * The canonical text of a profile.
 * @param {Profile} profile
 */
export function canonical({ sets, filter }) {
  const caps = [...SETS].sort().map((set) => `"${set}":${quoted(sets[set].map((one) => CAPABILITIES[one]))}`).join(',');
  if (!filter) return `{"capabilities":{${caps}}}`;
  const comparison = ({ index, op, value, two }) =>
    `{"index":${index},"op":"${op}","value":${value}${op === 'SCMP_CMP_MASKED_EQ' ? `,"valueTwo":${two}` : ''}}`;
  const lines = (parts) => parts.filter(Boolean).join(',');
  const one = (from) => `{${lines([`"action":"${from.action}"`,
    from.args.length && `"args":[${from.args.map(comparison).join(',')}]`,
    from.errno !== null && `"errnoRet":${from.errno}`, `"names":${quoted(from.names)}`])}}`;
  const seccompText = lines([filter.architectures.length && `"architectures":${quoted(filter.architectures)}`,
    `"defaultAction":"${filter.action}"`, filter.errno !== null && `"defaultErrnoRet":${filter.errno}`,
    filter.flags.length && `"flags":${quoted(filter.flags)}`,
    filter.entries.length && `"syscalls":[${filter.entries.map(one).join(',')}]`]);
  return `{"capabilities":{${caps}},"seccomp":{${seccompText}}}`;
}

/**
 * What the bytes of a file read as, and its canonical text; a Fault where they are no document.
 * @param {ArrayBuffer | Uint8Array} bytes
 * @returns {{ profile: Profile, text: string }}
 */
export function readDocument(bytes) {
  if (bytes.byteLength > MOST_BYTES) fail('too-long');
  /** @type {Node} */
  let node;
  try {
    node = readJson(new TextDecoder('utf-8', { fatal: true, ignoreBOM: true }).decode(bytes));
  } catch (error) {
    // a text that isn't UTF-8 is told as a TypeError
    if (error instanceof SyntaxError || error instanceof TypeError) fail('not-json');
    throw error;
  }
  const profile = profileOf(node);
  const made = canonical(profile);
  if (made.length > MOST_BYTES) fail('text-too-long');
  return { profile, text: made };
}
