import assert from 'node:assert/strict';
import { readFileSync } from 'node:fs';
import test from 'node:test';
import { readDocument } from '../document.js';
import { against, changes, readSheet, sheetOf, still, wouldNeed } from '../sheet.js';
import { CLOSED } from '../widening.js';

// The sheet of docs/http.md, as the office answered it.
const shown = readFileSync(new URL('../../docs/http.md', import.meta.url)).toString();
const TEXT = shown.slice(shown.indexOf('REVIEW SHEET\n'), shown.indexOf('rejections: 0\n') + 14);
const PROFILE = readDocument(new TextEncoder().encode('{"capabilities":{"bounding":["CAP_NET_BIND_SERVICE"]}}')).profile;
const ABOUT = { team: 'blue', profile: 'web', revision: 1, digest: 'a3af182f93defb802c15829e92d2f5d553f19bbbed0008b51ba78f11ec7524b3' };
const none = new Set();

test('the sheet that the office wrote is the one that its document makes', () => {
  assert.equal(sheetOf(ABOUT, readSheet(TEXT), PROFILE, CLOSED, none), TEXT);
  assert.deepEqual(against(TEXT, TEXT), { left: [], beyond: [] });
});

test('a sheet of a filter against an adopted revision, line by line', () => {
  const base = readDocument(new TextEncoder().encode('{"capabilities":{"bounding":["CAP_NET_BIND_SERVICE"],"permitted":'
    + '["CAP_NET_BIND_SERVICE"],"inheritable":["CAP_NET_BIND_SERVICE"],"ambient":["CAP_NET_BIND_SERVICE"]},"seccomp":{"defaultAction":'
    + '"SCMP_ACT_ERRNO","architectures":["SCMP_ARCH_X86_64"]}}')).profile;
  const { profile } = readDocument(new TextEncoder().encode('{"capabilities":{"bounding":["CAP_NET_BIND_SERVICE","CAP_SYS_ADMIN"],"permitted":'
    + '["CAP_NET_BIND_SERVICE"],"inheritable":["CAP_NET_BIND_SERVICE"],"ambient":["CAP_NET_BIND_SERVICE"]},"seccomp":{"defaultAction":'
    + '"SCMP_ACT_ERRNO","architectures":["SCMP_ARCH_X86_64"],"syscalls":[{"names":["clone"],"action":"SCMP_ACT_ALLOW","args":[{"index":0,'
    + '"op":"SCMP_CMP_MASKED_EQ","value":2114060288,"valueTwo":0}]}]}}'));
  // the lines of docs/sheets.md, with a digest of its own
  const doc = readFileSync(new URL('../../docs/sheets.md', import.meta.url)).toString();
  const lines = [...doc.slice(doc.indexOf('| `REVIEW SHEET`'), doc.indexOf('## Findings')).matchAll(/^\| `([^`]*)` \|/gm)].map(([, line]) => line);
  const text = `${lines.join('\n')}\n`.replace('3b0c…', ABOUT.digest);
  assert.equal(sheetOf({ ...ABOUT, revision: 4 }, readSheet(text), profile, base, none), text);
});

test('what a sheet leaves out is told', () => {
  const cut = TEXT.replace('findings: 2\n  capability bounding CAP_NET_BIND_SERVICE\n  no-seccomp\n', 'findings: 0\n')
    .replace('need: 2 with security', 'need: 1');
  assert.deepEqual(against(cut, sheetOf(ABOUT, readSheet(cut), PROFILE, CLOSED, none)),
    { left: ['findings: 2', 'capability bounding CAP_NET_BIND_SERVICE', 'no-seccomp', 'need: 2 with security'], beyond: ['findings: 0', 'need: 1'] });
  // a capability that another sheet said to be listed is listed here too
  const listed = new Set(['CAP_NET_BIND_SERVICE', 'CAP_SYS_ADMIN']);
  assert.deepEqual(against(TEXT, sheetOf(ABOUT, readSheet(TEXT), PROFILE, CLOSED, listed)),
    { left: ['listed: CAP_NET_BIND_SERVICE'], beyond: ['listed: none'] });
  const other = `${TEXT.slice(0, -1)}x\n`;
  assert.deepEqual(against(other, TEXT), { left: ['rejections: 0'], beyond: ['rejections: 0x'] });
  const turned = TEXT.replace('votes: 0\napprovals: 0', 'approvals: 0\nvotes: 0');
  assert.deepEqual(against(turned, TEXT), { left: ['its lines, in their order'], beyond: [] });
});

test('what a sheet leaves out is told without its baseline, but for findings that the document can have', () => {
  const sheet = (...pairs) => pairs.reduce((text, [from, by]) => text.replace(from, by), TEXT.replace('baseline: closed', 'baseline: api 3'));
  const told = (text) => against(text, sheetOf(ABOUT, readSheet(text), PROFILE, null, none));
  assert.deepEqual(told(sheet()), { left: [], beyond: [] });
  // no line is left out that needs no baseline
  assert.deepEqual(told(sheet(['bounding: CAP_NET_BIND_SERVICE', 'bounding: none'], ['root effective: CAP_NET_BIND_SERVICE', 'root effective: none'])),
    { left: ['bounding: CAP_NET_BIND_SERVICE', 'root effective: CAP_NET_BIND_SERVICE'], beyond: ['bounding: none', 'root effective: none'] });
  // the need is that of the findings, of which there are as many as are told, and none that the document can't have
  assert.deepEqual(told(sheet(['need: 2 with security', 'need: 1'])), { left: ['need: 2 with security'], beyond: ['need: 1'] });
  assert.deepEqual(told(sheet(['findings: 2\n', 'findings: 1\n'])), { left: ['findings: 2'], beyond: ['findings: 1'] });
  assert.deepEqual(told(sheet(['  no-seccomp\n', '  call read\n'])), { left: ['findings: 1'], beyond: ['findings: 2', 'call read'] });
});

test('a baseline is a name and a number, or the closed profile', () => {
  const named = (said) => readSheet(TEXT.replace('baseline: closed', `baseline: ${said}`));
  assert.equal(named('closed').baseline, null);
  assert.deepEqual(named('api 3').baseline, { profile: 'api', revision: 3 });
  for (const said of ['../../../issued/x 1', 'api', 'api 0', 'api 03', 'api 3 4', 'api  3', 'Api 3', 'api 10000', 'api 1e3', 'closed 1x', ' 3', '', 'none']) {
    assert.equal(named(said), null, said);
  }
});

test('what is another on the second reading is told', () => {
  const old = readSheet(TEXT);
  assert.deepEqual(changes(old, readSheet(TEXT)), []);
  const now = (...pairs) => changes(old, readSheet(pairs.reduce((text, [from, by]) => text.replace(from, by), TEXT)));
  assert.deepEqual(now(['need: 2 with security', 'need: 1'], ['findings: 2\n', 'findings: 1\n'], ['  no-seccomp\n', ''],
    ['baseline: closed', 'baseline: api 3']), ['Its baseline is api 3, and was closed.', 'Its need is 1, and was 2 with security.',
    'It has 1 finding, and had 2.', 'Gone: no-seccomp.']);
  assert.deepEqual(now(['votes: 0\napprovals: 0', 'votes: 1\n  bea approve\napprovals: 1']), ['bea approves.']);
  assert.deepEqual(now(['state: open', 'state: withdrawn']), ['It is withdrawn, and was open.']);
  assert.deepEqual(now(['root ambient: none', 'root ambient: CAP_KILL']), ['It has other lines.']);
  const voted = readSheet(TEXT.replace('votes: 0\napprovals: 0', 'votes: 1\n  bea approve\napprovals: 1'));
  assert.deepEqual(changes(voted, old), ['The vote of bea is gone.']);
  assert.deepEqual(changes(voted, readSheet(voted.text.replace('bea approve', 'bea reject'))), ['bea rejects, now.']);
});

test('what a revision still needs', () => {
  const said = (votes, more = TEXT) => still(readSheet(more.replace(/votes: 0\napprovals: 0\nrejections: 0/, votes)));
  assert.deepEqual(said('votes: 0\napprovals: 0\nrejections: 0'),
    { ready: false, text: '0 of 2 approvals; 2 more are needed, and one of them with security.' });
  assert.deepEqual(said('votes: 1\n  cyd approve security\napprovals: 1\nrejections: 0'),
    { ready: false, text: '1 of 2 approvals; one more is needed. One with security is there.' });
  assert.deepEqual(said('votes: 2\n  bea approve\n  gus approve\napprovals: 2\nrejections: 0'),
    { ready: false, text: '2 of 2 approvals, and none with security: one with security is needed.' });
  assert.equal(said('votes: 2\n  bea approve\n  cyd approve security\napprovals: 2\nrejections: 0').ready, true);
  assert.deepEqual(said('votes: 2\n  bea reject\n  cyd reject lapsed\napprovals: 0\nrejections: 1').text,
    'bea rejects it: it can’t be issued while that stands.');
  assert.equal(said('votes: 0\napprovals: 0\nrejections: 0', TEXT.replace('state: open', 'state: issued')).text,
    'Revision 1 is issued: it takes no votes.');
});

test('what a document would need', () => {
  assert.equal(wouldNeed(1, []), '1 finding, so it would need two approvals, at least one with security.');
  assert.equal(wouldNeed(3, ['CAP_SYS_ADMIN']), '3 findings, so it would need two approvals, at least one with security.');
  assert.equal(wouldNeed(0, ['CAP_SYS_ADMIN']),
    'Nothing new, but CAP_SYS_ADMIN is listed by this office, so it would need two approvals, at least one with security.');
  assert.equal(wouldNeed(0, []), 'Nothing new, so one approval would do, unless this office has listed a capability that the document has.');
});

test('what is no sheet is none', () => {
  for (const text of ['', 'REVIEW SHEET', 'REVIEW\n', 'REVIEW SHEET\n  x\n', 'REVIEW SHEET\nteam blue\n']) assert.equal(readSheet(text), null);
});
