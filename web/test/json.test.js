import assert from 'node:assert/strict';
import test from 'node:test';
import { flat, indented, readJson, squeezed } from '../json.js';

test('numbers and texts stay as they are written', () => {
  const text = '{"a":[9007199254740993,-0,1.50,1e2],"b":"\\u0041\\/","a":null}';
  assert.equal(flat(readJson(text)), text);
});

test('what is indented is squeezed to the text that it was made of', () => {
  const names = Array.from({ length: 60 }, (_, number) => `"call_${number}"`).join(',');
  for (const text of ['{}', '[]', '{"a":[],"b":{}}', `{"names":[${names}],"c":[{"d":" two  spaces \\" "}]}`, '"x y"', '1']) {
    const shown = indented(readJson(text));
    assert.equal(squeezed(shown), text);
    assert.ok(shown.split('\n').every((line) => line.length <= 80), shown);
  }
});

test('what is no JSON is refused', () => {
  for (const text of ['', ' ', '{', '{"a":1,}', '[1,]', "{'a':1}", '01', '+1', '1.', '.5', 'nul', '"\\x"', '"\n"', '[1] 2', '\ufeff{}',
    '"\\ud800"', '1e999', '-1e309', `1${'0'.repeat(400)}`]) {
    assert.throws(() => readJson(text), SyntaxError, text);
  }
});

test('127 lists and objects may nest, and not 128', () => {
  const nested = (deep) => '['.repeat(deep) + ']'.repeat(deep);
  assert.equal(flat(readJson(nested(127))), nested(127));
  assert.throws(() => readJson(nested(128)), SyntaxError);
});
