import assert from 'node:assert/strict';
import { readFileSync, writeFileSync } from 'node:fs';
import test from 'node:test';
import { faultSaid, refusal } from '../refusals.js';
import { DOCUMENT_FAULTS, NO_REQUEST, ROLES, RULES, STORE_FAULTS, listed } from '../words.js';

const page = (name) => new URL(`../../docs/${name}`, import.meta.url);
const marked = (word) => `\`${word}\``;

// The tables that are made of the words, each with the line above it and its rows.
const TABLES = [
  ['documents.md', '| text | cause |', DOCUMENT_FAULTS.map(([text, cause]) => [marked(text), cause])],
  ['http.md', '| word | says | what to do |', STORE_FAULTS.map(([word, says, what]) => [marked(word), says, what])],
  ['http.md', '| step | what has to be so | status | word |', NO_REQUEST.map((row, index) => [String(index + 1), ...row])],
];

for (const [name, head, rows] of TABLES) {
  test(`the table "${head}" of docs/${name} is made of the words`, () => {
    const text = readFileSync(page(name)).toString();
    const begin = text.indexOf(`\n${head}\n|`) + 1;
    assert.ok(begin > 0, 'the table is there');
    const made = [head, `|${'---|'.repeat(rows[0].length)}`, ...rows.map((row) => `| ${row.join(' | ')} |`.replaceAll('|  |', '| |')), ''].join('\n');
    const end = text.slice(begin).search(/\n(?!\|)/) + begin + 1;
    if (process.env.OFFICE_WRITE && text.slice(begin, end) !== made) writeFileSync(page(name), text.slice(0, begin) + made + text.slice(end));
    else assert.equal(text.slice(begin, end), made);
  });
}

test('each word of a rule is refused by a sentence, the rule and a way out', () => {
  const about = { team: 'blue', profile: 'web', revision: 1, user: 'ann' };
  for (const word of RULES.flatMap(([words]) => words)) {
    const json = { answer: 'denied', rule: 3, word, fault: 'not-json', got: 0, need: 2 };
    const [says, rule, way] = refusal('vote', { status: 403, lost: null, json }, about);
    assert.ok(says && way && says !== 'The office refuses this.' && rule.startsWith(`Refused by rule 3 of vote: ${word}`), word);
    assert.doesNotMatch(says + rule + way, /undefined|`|\]\(/, word);
  }
});

test('each fault of a document has its cause, its place and a way out', () => {
  for (const [form] of DOCUMENT_FAULTS) {
    const [says, way] = faultSaid(form.replace('PATH', '/a/b').replace(/N$/, '5').replace('NAME', 'clone'));
    assert.ok(says.endsWith('.') && way.endsWith('.'), form);
    assert.doesNotMatch(says + way, /undefined|PATH|NAME|\bN\b|`/, form);
    if (form.includes('PATH')) assert.ok(says.endsWith(', at /a/b.'), says);
  }
  assert.equal(faultSaid('ambient-outside 5')[0], 'The document can’t be taken: CAP_KILL is ambient, and not both permitted and inheritable.');
});

test('faults of the store, what is no request, and a proxy', () => {
  const said = (status, json, lost = null) => refusal('vote', { status, json, lost, seconds: 60 }, {});
  for (const [word] of STORE_FAULTS) assert.match(said(503, { answer: 'fault', word })[1], new RegExp(`^Fault: ${word}: `));
  assert.equal(said(400, { answer: 'bad', word: 'bad-host' })[2], 'What has to be so: it has at most one Host, and one in HTTP/1.1.');
  assert.equal(said(502, null)[0], 'The proxy answered, and not the office.');
  assert.equal(said(0, null, 'time')[0], 'No answer came within 60 seconds.');
  assert.equal(said(0, null, 'connection')[0], 'The connection was lost, so no answer came.');
});

test('words in a row', () => {
  assert.deepEqual([listed([]), listed(['a']), listed(['a', 'b']), listed(ROLES.slice(0, 3), 'or')],
    ['', 'a', 'a and b', 'registrar, author or reviewer']);
});
