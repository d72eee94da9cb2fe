import assert from 'node:assert/strict';
import test from 'node:test';
import { standing } from '../views/revisions.js';

const ABOUT = { team: 'blue', profile: 'web', revision: 7 };

// What asks an office whose profile has so many revisions, of which this one is issued, 100 at a time; and what was asked.
function office(many, issued, more = {}) {
  const asked = [];
  const asking = async (kind, about) => {
    asked.push(`${kind} ${about.team}/${about.profile}${about.before ? ` before ${about.before}` : ''}`);
    const last = about.before ? about.before - 1 : many;
    const first = Math.max(1, last - 99);
    const revisions = Array.from({ length: last - first + 1 }, (_, index) => last - index)
      .map((revision) => ({ revision, by: 'ann', digest: '0'.repeat(64), state: revision === issued ? 'issued' : revision === many ? 'open' : 'closed' }));
    return more[about.before ?? 0] ?? { done: true, json: { answer: 'done', more: first > 1, revisions } };
  };
  return { asked, asking: /** @type {any} */ (asking) };
}

test('where a profile stands is told by its own revisions, the newest first, until one is issued', async () => {
  const near = office(120, 30);
  const { own, answer } = await standing(ABOUT, near.asking);
  assert.deepEqual(own, { revisions: 120, state: 'open', issued: 30 });
  assert.equal(answer.json.revisions[0].revision, 120);
  assert.deepEqual(near.asked, ['revisions blue/web']);
  const far = office(250, 3);
  assert.deepEqual((await standing(ABOUT, far.asking)).own, { revisions: 250, state: 'open', issued: 3 });
  assert.deepEqual(far.asked, ['revisions blue/web', 'revisions blue/web before 151', 'revisions blue/web before 51']);
  assert.deepEqual((await standing(ABOUT, office(1, 0).asking)).own, { revisions: 1, state: 'open', issued: 0 });
  assert.deepEqual((await standing(ABOUT, office(2, 2).asking)).own, { revisions: 2, state: 'issued', issued: 2 });
});

test('where revisions aren’t listed nothing is told of a profile', async () => {
  const refused = { done: false, json: { answer: 'denied', rule: 4, word: 'no-profile' } };
  assert.deepEqual(await standing(ABOUT, office(1, 0, { 0: refused }).asking), { own: null, answer: refused });
  const lost = { done: false, json: null, lost: 'time' };
  assert.deepEqual(await standing(ABOUT, office(150, 3, { 51: lost }).asking), { own: null, answer: lost });
});
