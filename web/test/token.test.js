import assert from 'node:assert/strict';
import test from 'node:test';
import { tabToken } from '../token.js';

// A storage as a tab has it, over what is in it.
function storage(kept = {}) {
  const items = new Map(Object.entries(kept));
  return { items, getItem: (name) => items.get(name) ?? null, setItem: (name, value) => { items.set(name, value); },
    removeItem: (name) => { items.delete(name); } };
}
const over = (given) => tabToken(() => /** @type {any} */ (given));

test('a token that is kept is read again, and is gone once it is dropped', () => {
  const given = storage();
  const tab = over(given);
  assert.equal(tab.read(), null);
  assert.equal(tab.keep('t-bea'), true);
  assert.equal(tab.read(), 't-bea');
  assert.equal(given.items.size, 1);
  tab.drop();
  assert.equal(tab.read(), null);
  assert.equal(given.items.size, 0);
});

test('a browser that keeps nothing is no fault', () => {
  const tab = tabToken(() => { throw new DOMException('', 'SecurityError'); });
  assert.deepEqual([tab.read(), tab.keep('t'), tab.drop()], [null, false, undefined]);
});
