import assert from 'node:assert/strict';
import test from 'node:test';
import { readDocument } from '../document.js';
import { CLOSED, findings, implies, permits, possible } from '../widening.js';

const of = (value) => readDocument(new TextEncoder().encode(typeof value === 'string' ? value : JSON.stringify(value))).profile;
const filter = (syscalls, more = {}) => of({ capabilities: {}, seccomp: { defaultAction: 'SCMP_ACT_ERRNO', syscalls, ...more } });
const comparison = (said) => {
  const [op, value, two] = said.split(' ');
  return { index: 0, op: `SCMP_CMP_${op}`, value: BigInt(value), two: BigInt(two ?? 0) };
};
const MOST = '18446744073709551615';

test('implications of comparisons', () => {
  const rows = [
    ['GT 5', 'GE 7', false], ['GT 6', 'GE 7', true], [`GT ${MOST}`, 'EQ 3', true], ['EQ 12', 'MASKED_EQ 3 0', true],
    ['MASKED_EQ 7 5', 'MASKED_EQ 3 1', true], ['MASKED_EQ 3 1', 'MASKED_EQ 7 5', false], ['NE 3', 'MASKED_EQ 0 9', true],
    ['LE 4', 'NE 5', true], ['NE 0', 'GE 1', true], ['LE 7', 'MASKED_EQ 18446744073709551608 0', true],
    ['LE 8', 'MASKED_EQ 18446744073709551608 0', false], ['MASKED_EQ 18446744073709551608 8', 'GE 8', true],
    ['LT 0', 'LT 0', true], ['LE 0', 'LT 0', false], ['NE 5', 'NE 5', true], ['NE 5', 'NE 4', false], [`NE ${MOST}`, `LT ${MOST}`, true],
    ['EQ 5', 'MASKED_EQ 4 4', true], ['NE 3', 'MASKED_EQ 1 0', false], ['MASKED_EQ 1 1', 'NE 4', true],
  ];
  for (const [one, other, is] of rows) assert.equal(implies(comparison(one), comparison(other)), is, `${one} implies ${other}`);
});

test('implications are those of all small numbers', () => {
  // over numbers of 64 bits, tried on those that the small comparisons can tell apart
  const tried = [...Array(18).keys()].map(BigInt).concat([2n ** 64n - 2n, 2n ** 64n - 1n]);
  const admits = ({ op, value, two }, x) => ({ SCMP_CMP_NE: x !== value, SCMP_CMP_LT: x < value, SCMP_CMP_LE: x <= value,
    SCMP_CMP_EQ: x === value, SCMP_CMP_GE: x >= value, SCMP_CMP_GT: x > value, SCMP_CMP_MASKED_EQ: (x & value) === (two & value) })[op];
  const low = [];
  for (const op of ['NE', 'LT', 'LE', 'EQ', 'GE', 'GT']) for (let value = 0; value < 9; value++) low.push(comparison(`${op} ${value}`));
  for (let mask = 0; mask < 8; mask++) for (let is = 0; is < 8; is++) low.push(comparison(`MASKED_EQ ${mask} ${is}`));
  for (const one of low) {
    for (const other of low) {
      const wanted = tried.every((x) => !admits(one, x) || admits(other, x));
      assert.equal(implies(one, other), wanted, `${one.op} ${one.value} ${one.two} implies ${other.op} ${other.value} ${other.two}`);
    }
  }
});

test('the examples of docs/documents.md', () => {
  const personality = (op, value) => filter([{ names: ['personality'], action: 'SCMP_ACT_ALLOW', args: [{ index: 0, op, value }] }]);
  assert.deepEqual(findings(personality('SCMP_CMP_LE', 8), personality('SCMP_CMP_EQ', 8)), []);
  assert.deepEqual(findings(personality('SCMP_CMP_LE', 8), personality('SCMP_CMP_EQ', 9)), ['call personality']);
  const clone = (args) => filter([{ names: ['clone'], action: 'SCMP_ACT_ALLOW', args }]);
  const masked = clone([{ index: 0, op: 'SCMP_CMP_MASKED_EQ', value: 2114060288, valueTwo: 0 }]);
  assert.deepEqual(findings(masked, clone([{ index: 0, op: 'SCMP_CMP_EQ', value: 17 }])), []);
  assert.deepEqual(findings(masked, clone([])), ['call clone']);
  assert.deepEqual(findings(masked, filter([])), []);
});

test('findings stand in their order, each once', () => {
  const now = of({ capabilities: { bounding: ['CAP_SYS_ADMIN', 'CAP_CHOWN'], permitted: ['CAP_KILL'] }, seccomp: {
    defaultAction: 'SCMP_ACT_ERRNO', architectures: ['SCMP_ARCH_X86_64', 'SCMP_ARCH_X86_64'], flags: ['SECCOMP_FILTER_FLAG_LOG'],
    syscalls: [{ names: ['write', 'read', 'write'], action: 'SCMP_ACT_ALLOW' }] } });
  const wanted = ['capability permitted CAP_KILL', 'capability bounding CAP_CHOWN', 'capability bounding CAP_SYS_ADMIN',
    'architecture SCMP_ARCH_X86_64', 'flag SECCOMP_FILTER_FLAG_LOG', 'call read', 'call write', 'default'];
  assert.deepEqual(findings(CLOSED, now), wanted);
  assert.deepEqual(findings(now, now), []);
  assert.deepEqual(findings(CLOSED, of('{"capabilities":{}}')), ['no-seccomp']);
  assert.deepEqual(findings(of('{"capabilities":{}}'), now), wanted.slice(0, 3));
  assert.deepEqual(findings(now, filter([], { architectures: [] })), ['architecture any']);
  // a name that the baseline alone has, under the default of the new one
  assert.deepEqual(findings(filter([{ names: ['bpf'], action: 'SCMP_ACT_KILL' }]), filter([])), ['call bpf']);
  // one error number for another is nothing
  assert.deepEqual(findings(filter([], { defaultErrnoRet: 1 }), filter([], { defaultErrnoRet: 38 })), []);
});

test('what a profile can have as findings, whatever the baseline is', () => {
  const capabilities = { permitted: ['CAP_KILL'] };
  const allow = (names, args = []) => ({ names, action: 'SCMP_ACT_ALLOW', args });
  const some = of({ capabilities, seccomp: { defaultAction: 'SCMP_ACT_ERRNO', syscalls: [allow(['read'])] } });
  const lines = ['capability permitted CAP_KILL', 'architecture any', 'call open', 'call read', 'default'];
  assert.deepEqual(possible([...lines, ...lines], some), lines);
  assert.deepEqual(possible(['capability effective CAP_KILL', 'capability permitted CAP_CHOWN', 'capability constructor CAP_KILL', 'no-seccomp',
    'architecture SCMP_ARCH_ARM', 'flag SECCOMP_FILTER_FLAG_LOG', 'call <b>', 'call', 'x', ''], some), []);
  assert.deepEqual(possible(['no-seccomp', ...lines], of({ capabilities })), ['no-seccomp', lines[0]]);
  // where all that isn't named is ended, nothing else can be permitted more
  const least = of({ capabilities: {}, seccomp: { defaultAction: 'SCMP_ACT_KILL_PROCESS', architectures: ['SCMP_ARCH_ARM'],
    syscalls: [allow(['read']), { names: ['bpf'], action: 'SCMP_ACT_KILL_PROCESS' }] } });
  assert.deepEqual(possible(['architecture any', 'architecture SCMP_ARCH_ARM', 'call bpf', 'call open', 'call read', 'default'], least),
    ['architecture SCMP_ARCH_ARM', 'call read']);
  // what is found against any other profile is among what can be
  const bases = [CLOSED, some, least, filter([allow(['open', 'bpf'])]), filter([], { architectures: ['SCMP_ARCH_X86'] }), of('{"capabilities":{}}')];
  for (const base of bases) for (const now of bases) assert.deepEqual(possible(findings(base, now), now), findings(base, now));
});

test('what a filter permits', () => {
  const some = filter([{ names: ['a'], action: 'SCMP_ACT_ALLOW' }, { names: ['b'], action: 'SCMP_ACT_ERRNO', errnoRet: 38 },
    { names: ['c'], action: 'SCMP_ACT_LOG', args: [{ index: 0, op: 'SCMP_CMP_EQ', value: 1 }] }, { names: ['d'], action: 'SCMP_ACT_TRACE' }]);
  assert.deepEqual(['a', 'b', 'c', 'd', 'e'].map((name) => permits(some, name)), ['always', 'never', 'sometimes', 'never', 'never']);
  const rest = filter([{ names: ['a'], action: 'SCMP_ACT_ERRNO', args: [{ index: 0, op: 'SCMP_CMP_EQ', value: 1 }] }],
    { defaultAction: 'SCMP_ACT_ALLOW' });
  assert.deepEqual(['a', 'b'].map((name) => permits(rest, name)), ['sometimes', 'always']);
  assert.equal(permits(of('{"capabilities":{}}'), 'a'), 'always');
});
