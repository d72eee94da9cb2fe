import assert from 'node:assert/strict';
import test from 'node:test';
import { byKind, KINDS } from '../calls.js';
import { differences } from '../differences.js';
import { readDocument } from '../document.js';

const of = (value) => readDocument(new TextEncoder().encode(JSON.stringify(value))).profile;
const filter = (...syscalls) => of({ capabilities: {}, seccomp: { defaultAction: 'SCMP_ACT_ERRNO', syscalls } });
const allow = (names, more) => ({ names, action: 'SCMP_ACT_ALLOW', ...more });
const said = (old, now) => differences(old, now).map(({ how, place, what }) => `${how} ${place}: ${what}`);

test('nothing differs where the canonical texts are the same', () => {
  const one = filter(allow(['b', 'a']), { names: ['c'], action: 'SCMP_ACT_ERRNO', errnoRet: 38 });
  assert.deepEqual(said(one, one), []);
  assert.deepEqual(said(filter({ names: ['c'], action: 'SCMP_ACT_ERRNO' }), filter({ names: ['c'], action: 'SCMP_ACT_ERRNO', errnoRet: 1 })), []);
});

test('sets, names, entries, error numbers and orders', () => {
  assert.deepEqual(said(of({ capabilities: { bounding: ['CAP_KILL'] } }), of({ capabilities: { bounding: ['CAP_CHOWN'] } })),
    ['added capabilities, bounding: CAP_CHOWN', 'removed capabilities, bounding: CAP_KILL']);
  assert.deepEqual(said(of({ capabilities: {} }), filter()), ['added seccomp: there was no filter, so every call was allowed',
    'changed default action: from none to SCMP_ACT_ERRNO 1']);
  assert.deepEqual(said(filter(allow(['a', 'b'])), filter(allow(['b', 'c']))),
    ['added entry 1, names for SCMP_ACT_ALLOW, any arguments: c', 'removed entry 1, names for SCMP_ACT_ALLOW, any arguments: a']);
  assert.deepEqual(said(filter(allow(['a', 'b'])), filter(allow(['b', 'a']))),
    ['changed entry 1, names for SCMP_ACT_ALLOW, any arguments: the order, now b a']);
  const errno = (number) => ({ names: ['clone3'], action: 'SCMP_ACT_ERRNO', errnoRet: number });
  assert.deepEqual(said(filter(errno(38)), filter(errno(1))), ['changed entry 1, clone3: from SCMP_ACT_ERRNO 38 to SCMP_ACT_ERRNO 1']);
  assert.deepEqual(said(filter(allow(['a']), errno(1)), filter(errno(1), allow(['a']))),
    ['changed entries: those that both have stand in another order']);
  const socket = (value) => allow(['socket'], { args: [{ index: 0, op: 'SCMP_CMP_EQ', value }] });
  assert.deepEqual(said(filter(socket(2)), filter(socket(10))),
    ['changed entry 1, socket: from argument 0 SCMP_CMP_EQ 2 to argument 0 SCMP_CMP_EQ 10']);
  assert.deepEqual(said(filter(socket(2)), filter(errno(1))), ['added entry 1: SCMP_ACT_ERRNO 1 for clone3, any arguments',
    'removed entry 1 of the older one: SCMP_ACT_ALLOW for socket, argument 0 SCMP_CMP_EQ 2']);
});

test('each call has one kind, and those of none come last', () => {
  const calls = KINDS.flatMap(([, , names]) => names.split(' '));
  assert.equal(new Set(calls).size, calls.length);
  assert.deepEqual(byKind(['read', 'bpf', 'no_such_call', 'init_module', 'write']).map(({ group, calls: own }) => [group, own]),
    [['@module', ['init_module']], ['@privileged', ['bpf']], ['@basic-io', ['read', 'write']], ['', ['no_such_call']]]);
});
