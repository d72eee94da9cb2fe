import assert from 'node:assert/strict';
import { readFileSync, readdirSync } from 'node:fs';
import test from 'node:test';
import { CAPABILITIES, Fault, readDocument } from '../document.js';

const top = new URL('../../', import.meta.url);
const read = (name) => readFileSync(new URL(name, top));
const said = (bytes) => {
  try {
    return readDocument(typeof bytes === 'string' ? new TextEncoder().encode(bytes) : bytes).text;
  } catch (error) {
    if (error instanceof Fault) return `office: ${error.fault}`;
    throw error;
  }
};

// `check` names a capability behind its number
const named = (text) => text.replace(/-outside (\d+)$/, (all, number) => `${all} ${CAPABILITIES[Number(number)]}`);

test('each check that the documents show is answered so', () => {
  let checks = 0;
  for (const name of ['README.md', ...readdirSync(new URL('docs', top)).filter((one) => one.endsWith('.md')).map((one) => `docs/${one}`)]) {
    for (const [, file, answer] of read(name).toString().matchAll(/^\$ \.\/office check (examples\/\S+)\n(.*)$/gm)) {
      assert.equal(named(said(read(file))), answer, file);
      checks++;
    }
  }
  assert.ok(checks > 10, `${checks} checks`);
});

test('the refusals come in their order', () => {
  const filter = (more) => `{"capabilities":{},"seccomp":{"defaultAction":"SCMP_ACT_ERRNO",${more}}}`;
  const entry = (more) => filter(`"syscalls":[{"action":"SCMP_ACT_ALLOW",${more}}]`);
  const rows = [
    ['x'.repeat(262145), 'too-long'], ['{', 'not-json'], [new Uint8Array([0x22, 0xff, 0x22]), 'not-json'],
    ['1', 'wrong-shape /'], ['{"":1}', 'unknown-member /'], ['{"capabilities":{},"zzz":null}', 'unknown-member /zzz'],
    ['{"seccomp":{},"capabilities":{"ambient":[1]}}', 'wrong-shape /capabilities/ambient/0'],
    ['{"capabilities":{}, "seccomp":{}}', 'wrong-shape /seccomp/defaultAction'],
    [filter('"listenerPath":null'), 'not-in-profile /seccomp/listenerPath'],
    [filter('"defaultErrnoRet":-0'), 'bad-number /seccomp/defaultErrnoRet'],
    [filter('"defaultErrnoRet":18446744073709551616'), 'bad-number /seccomp/defaultErrnoRet'],
    [filter('"defaultErrnoRet":70000'), 'errno-too-large'],
    [filter('"architectures":["SCMP_ARCH_x"]'), 'unknown-word /seccomp/architectures/0'],
    [filter('"flags":["SECCOMP_FILTER_FLAG_2"]'), 'unknown-word /seccomp/flags/0'],
    [entry('"names":[]'), 'no-names'], [entry('"names":["Open"]'), 'bad-call-name'],
    [entry('"names":["a"],"errnoRet":1'), 'errno-not-taken'],
    [entry('"names":["a"],"args":[{"index":6,"value":0,"op":"SCMP_CMP_EQ"},{"index":6,"value":0,"op":"SCMP_CMP_EQ"}]'), 'bad-index'],
    [entry('"names":["a"],"args":[{"index":5,"value":0,"op":"SCMP_CMP_EQ"},{"index":5,"value":1,"op":"SCMP_CMP_EQ"}]'), 'index-twice'],
    [filter('"syscalls":[{"names":["b","a"],"action":"SCMP_ACT_ALLOW"},{"names":["a","b"],"action":"SCMP_ACT_LOG"}]'), 'two-actions a'],
    [filter(`"architectures":[${Array(65).fill('"SCMP_ARCH_X86"')}],"defaultErrnoRet":70000`), 'too-many'],
    ['{"capabilities":{"effective":["CAP_KILL"]}}', 'effective-outside 5'],
    ['{"capabilities":{"ambient":["CAP_KILL"],"permitted":["CAP_KILL"]}}', 'ambient-outside 5'],
  ];
  for (const [text, fault] of rows) assert.equal(said(text), `office: ${fault}`, String(text).slice(0, 200));
});

test('a canonical text has what docs/documents.md says', () => {
  const text = said('{"seccomp":{"flags":null,"syscalls":[{"names":["b","a","b"],"errnoRet":null,"action":"SCMP_ACT_ERRNO","args":[{"op":'
    + '"SCMP_CMP_MASKED_EQ","value":9007199254740993,"index":1},{"index":0,"op":"SCMP_CMP_NE","value":0,"valueTwo":7}]}],"defaultAction":'
    + '"SCMP_ACT_KILL"},"capabilities":{"bounding":["CAP_CHECKPOINT_RESTORE","CAP_CHOWN","CAP_CHOWN"],"ambient":null}}');
  assert.equal(text, '{"capabilities":{"ambient":[],"bounding":["CAP_CHOWN","CAP_CHECKPOINT_RESTORE"],"effective":[],"inheritable":[],'
    + '"permitted":[]},"seccomp":{"defaultAction":"SCMP_ACT_KILL_THREAD","syscalls":[{"action":"SCMP_ACT_ERRNO","args":[{"index":1,"op":'
    + '"SCMP_CMP_MASKED_EQ","value":9007199254740993,"valueTwo":0},{"index":0,"op":"SCMP_CMP_NE","value":0}],"errnoRet":1,"names":'
    + '["b","a","b"]}]}}');
  assert.equal(said(text), text);
  assert.equal(CAPABILITIES.length, 41);
});
