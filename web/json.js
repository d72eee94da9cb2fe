// JSON as text: a tree whose numbers and texts stay as they are written, since whole numbers above 2^53 would be rounded else.

/**
 * @typedef {{ kind: 'object' | 'list', inside: { name: string | null, node: Node }[] } | { kind: 'text' | 'word', raw: string }} Node
 * A node of a tree. A name and a text are as they were written, with their quotes; a word is a number, `true`, `false` or `null`.
 */

// Lists and objects may nest so deep.
const DEEPEST = 127;

/**
 * The tree of a JSON text. It throws where the text is none, as the office has it: no lone surrogates, no number that is too large for a
 * floating-point number.
 * @param {string} text
 * @returns {Node}
 */
export function readJson(text) {
  let here = 0;
  const fail = () => { throw new SyntaxError(`no JSON at character ${here}`); };
  const space = () => { while (here < text.length && ' \t\r\n'.includes(text[here])) here++; };
  const match = (form) => {
    form.lastIndex = here;
    const found = form.exec(text);
    if (!found) fail();
    here = form.lastIndex;
    return found[0];
  };
  const string = () => {
    const raw = match(/"(?:[^"\\\x00-\x1f]|\\(?:["\\/bfnrt]|u[0-9a-fA-F]{4}))*"/y);
    if (/\p{Surrogate}/u.test(JSON.parse(raw))) fail();
    return raw;
  };
  const word = () => {
    const raw = match(/-?(?:0|[1-9][0-9]*)(?:\.[0-9]+)?(?:[eE][-+]?[0-9]+)?|true|false|null/y);
    if (!Number.isFinite(Number(raw)) && /^[-0-9]/.test(raw)) fail();
    return raw;
  };
  const value = (depth) => {
    space();
    const first = text[here];
    if (first === '"') return { kind: /** @type {const} */ ('text'), raw: string() };
    if (first !== '{' && first !== '[') return { kind: /** @type {const} */ ('word'), raw: word() };
    if (depth > DEEPEST) fail();
    /** @type {{ kind: 'object' | 'list', inside: { name: string | null, node: Node }[] }} */
    const node = { kind: first === '{' ? 'object' : 'list', inside: [] };
    const end = first === '{' ? '}' : ']';
    here++;
    space();
    if (text[here] === end) { here++; return node; }
    for (;;) {
      space();
      let name = null;
      if (end === '}') {
        name = string();
        space();
        if (text[here++] !== ':') fail();
      }
      node.inside.push({ name, node: value(depth + 1) });
      space();
      const next = text[here++];
      if (next === end) return node;
      if (next !== ',') fail();
    }
  };
  const node = value(1);
  space();
  if (here !== text.length) fail();
  return node;
}

/**
 * The text of a tree without spaces, which for a canonical text is that text.
 * @param {Node} node
 * @returns {string}
 */
export function flat(node) {
  if (!('inside' in node)) return node.raw;
  if (node.kind === 'object') return `{${node.inside.map((one) => `${one.name}:${flat(one.node)}`).join(',')}}`;
  return `[${node.inside.map((one) => flat(one.node)).join(',')}]`;
}

/**
 * The text of a tree with line feeds and indents; a list of plain values fills its lines.
 * @param {Node} node
 * @returns {string}
 */
export function indented(node, indent = '') {
  if (!('inside' in node)) return node.raw;
  const [open, shut] = node.kind === 'object' ? '{}' : '[]';
  if (node.inside.length === 0) return open + shut;
  const deeper = `${indent}  `;
  if (node.kind === 'list' && node.inside.every((one) => !('inside' in one.node))) {
    const pieces = node.inside.map((one) => flat(one.node));
    const whole = pieces.join(', ');
    if (whole.length + indent.length <= 72) return `[${whole}]`;
    const lines = [''];
    for (const [index, one] of pieces.entries()) {
      const piece = one + (index + 1 < pieces.length ? ',' : '');
      if (lines.at(-1) !== '' && lines.at(-1).length + piece.length + deeper.length > 76) lines.push('');
      lines[lines.length - 1] += (lines.at(-1) === '' ? '' : ' ') + piece;
    }
    return `[\n${lines.map((line) => deeper + line).join('\n')}\n${indent}]`;
  }
  const lines = node.inside.map((one) => `${deeper}${one.name === null ? '' : `${one.name}: `}${indented(one.node, deeper)}`);
  return `${open}\n${lines.join(',\n')}\n${indent}${shut}`;
}

/**
 * What is shown, without the spaces that `indented` put between its parts.
 * @param {string} shown
 */
export function squeezed(shown) {
  return shown.replace(/("(?:[^"\\]|\\.)*")|[ \n]+/g, (all, string) => string ?? '');
}

/**
 * The text that a name or a text of a tree stands for.
 * @param {string} raw
 * @returns {string}
 */
export const textOf = (raw) => JSON.parse(raw);
