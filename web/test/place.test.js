import assert from 'node:assert/strict';
import test from 'node:test';
import { place } from '../page.js';

const DIGEST = 'a3af182f93defb802c15829e92d2f5d553f19bbbed0008b51ba78f11ec7524b3';

// The place of an address.
function at(hash) {
  globalThis.location = /** @type {any} */ ({ hash });
  return place();
}

test('a link names a profile, a revision of it, or the very text of that', () => {
  const said = (hash) => { const { view, team, profile, revision, digest } = at(hash); return [view, team, profile, revision, digest]; };
  assert.deepEqual(said('#/profile/blue/web'), ['profile', 'blue', 'web', 0, '']);
  assert.deepEqual(said('#/profile/blue/web/2'), ['profile', 'blue', 'web', 2, '']);
  assert.deepEqual(said(`#/profile/blue/web/2/${DIGEST}`), ['profile', 'blue', 'web', 2, DIGEST]);
});

test('two revisions are named by numbers, and an empty address is the queue', () => {
  const { view, revision, other } = at('#/compare/blue/web/1/2');
  assert.deepEqual([view, revision, other], ['compare', 1, 2]);
  assert.deepEqual([at('').view, at('#/').view, at('#/queue/blue,green').teams], ['queue', 'queue', ['blue', 'green']]);
});

test('an address that names no place says so', () => {
  for (const hash of ['profile', 'profile/blue', 'profile/blue/web/0', 'profile/blue/web/2/3', `profile/blue/web/2/${DIGEST.slice(1)}`,
    `profile/blue/web/2/${DIGEST.toUpperCase()}`, `profile/blue/web/2/${DIGEST}/x`, `profile/blue/web/${DIGEST}`, 'compare/blue/web/1',
    `compare/blue/web/1/${DIGEST}`, 'queue/Blue', 'enrol/blue/web/1', 'enrol/blue/web//1', 'nothing']) assert.equal(at(`#/${hash}`).view, 'nowhere', hash);
});
