import assert from 'node:assert/strict';
import test from 'node:test';
import { KINDS } from '../calls.js';
import { CAPABILITIES, readDocument } from '../document.js';
import { capabilitiesOf, parted, whyOf } from '../power.js';
import { CALLS_DANGEROUS, CAPS_DANGEROUS } from '../words.js';

const of = (value) => readDocument(new TextEncoder().encode(JSON.stringify(value))).profile;
const filter = (syscalls, defaultAction = 'SCMP_ACT_ERRNO') => of({ capabilities: {}, seccomp: { defaultAction, syscalls } });

test('what gives power is named as documents and kinds name it, once, and each has its line', () => {
  const [caps, groups] = [CAPS_DANGEROUS, CALLS_DANGEROUS].map((list) => list.map(([name]) => name));
  assert.deepEqual(caps.filter((one) => !CAPABILITIES.includes(one)), []);
  assert.deepEqual([...groups].sort(), ['@debug', '@module', '@mount', '@raw-io', '@setuid']);
  assert.deepEqual(groups.filter((one) => !KINDS.some(([group]) => group === one)), []);
  assert.equal(new Set([...caps, ...groups]).size, caps.length + groups.length);
  for (const one of [...caps, ...groups]) assert.match(whyOf(one), /^[a-z][^.]+$/, one);
  assert.equal(whyOf('CAP_KILL') + whyOf('@network-io') + whyOf(''), '');
});

test('findings that give more power are parted from the rest, each in its order', () => {
  const lines = ['capability permitted CAP_KILL', 'capability permitted CAP_SETUID', 'capability bounding CAP_SYS_ADMIN',
    'architecture SCMP_ARCH_X86', 'call accept4', 'call io_uring_setup', 'call mount', 'call ptrace', 'call setuid'];
  const names = ['accept4', 'io_uring_setup', 'mount', 'ptrace', 'setuid'];
  const { power, rest } = parted(lines, filter([{ names, action: 'SCMP_ACT_ALLOW' }]));
  assert.deepEqual(power, ['capability permitted CAP_SETUID', 'capability bounding CAP_SYS_ADMIN', 'call mount', 'call ptrace', 'call setuid']);
  assert.deepEqual(rest, ['capability permitted CAP_KILL', 'architecture SCMP_ARCH_X86', 'call accept4', 'call io_uring_setup']);
});

test('a call that stays refused gives no power, nor does a default that refuses', () => {
  const lines = ['call ptrace', 'call mount', 'default'];
  const some = filter([{ names: ['mount'], action: 'SCMP_ACT_LOG', args: [{ index: 0, op: 'SCMP_CMP_EQ', value: 1 }] }]);
  assert.deepEqual(parted(lines, some), { power: ['call mount'], rest: ['call ptrace', 'default'] });
  assert.deepEqual(parted(lines, filter([{ names: ['ptrace'], action: 'SCMP_ACT_ERRNO' }], 'SCMP_ACT_ALLOW')),
    { power: ['call mount', 'default'], rest: ['call ptrace'] });
  assert.deepEqual(parted(['no-seccomp'], of({ capabilities: {} })), { power: ['no-seccomp'], rest: [] });
  // of a document that can't be read each call counts as permitted
  assert.deepEqual(parted(['call ptrace', 'call read'], null), { power: ['call ptrace'], rest: ['call read'] });
});

test('capabilities stand once with their sets, the greatest first', () => {
  assert.deepEqual(capabilitiesOf(['capability effective CAP_SETUID', 'capability effective CAP_KILL', 'capability permitted CAP_SETUID',
    'capability bounding CAP_SYS_ADMIN', 'call read']),
  [['CAP_SYS_ADMIN', ['bounding']], ['CAP_SETUID', ['effective', 'permitted']], ['CAP_KILL', ['effective']]]);
});
