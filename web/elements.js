// Elements of the page. Every text is set as text.

/**
 * An element with these attributes and, where a value is a function, what listens; `null` and `false` leave one out.
 * @param {string} tag
 * @param {Record<string, any> | null} attributes
 * @param {...any} inside
 * @returns {any}
 */
export function el(tag, attributes, ...inside) {
  const made = document.createElement(tag);
  for (const [name, value] of Object.entries(attributes ?? {})) {
    if (typeof value === 'function') made.addEventListener(name, value);
    else if (value === true) made.setAttribute(name, '');
    else if (value !== false && value !== null && value !== undefined) made.setAttribute(name, value);
  }
  made.append(...inside.flat(Infinity).filter((one) => one !== null && one !== undefined && one !== false));
  return made;
}

/**
 * The element of this name, which may be an input.
 * @param {string} id
 * @returns {any}
 */
export const at = (id) => document.getElementById(id);

/** @param {string} text */
export const code = (text) => el('code', {}, text);

/**
 * @param {number} number
 * @param {string} one
 * @param {string} [many]
 */
export const some = (number, one, many) => `${number} ${number === 1 ? one : many ?? `${one}s`}`;

/** @param {string} text */
export const capital = (text) => text[0].toUpperCase() + text.slice(1);

/**
 * @param {string} id
 * @param {string} text
 * @param {(event: any) => void} press
 * @param {string} [look]
 */
export const button = (id, text, press, look) => el('button', { type: 'button', id, class: look, click: press }, text);

/**
 * @param {string} id
 * @param {string} label
 * @param {string | null} hint
 * @param {Record<string, any>} attributes
 */
export function field(id, label, hint, attributes) {
  const input = el('input', { id, name: id, autocomplete: 'off', spellcheck: 'false', autocapitalize: 'none', ...attributes,
    'aria-describedby': hint ? `${id}-hint` : null });
  return el('p', { class: 'field' }, el('label', { for: id }, label), input,
    hint && el('span', { class: 'hint', id: `${id}-hint` }, hint));
}

/**
 * @param {string} target
 * @param {any} text
 * @param {Record<string, any>} [attributes]
 */
export const link = (target, text, attributes) => el('a', { href: `#/${target}`, ...attributes }, text);

/** @param {string} state */
export const badge = (state) => el('span', { class: `badge ${state}` }, state);

/**
 * Words each as a chip.
 * @param {string[]} words
 */
export const chips = (words) => (words.length ? el('span', { class: 'chips' }, words.map((one) => [code(one), ' ']))
  : el('span', { class: 'none' }, 'none'));

/** How many chips of a list are shown at once. */
const SHOWN = 12;

/**
 * Words as chips, those behind the first folded away where there are many.
 * @param {string[]} words
 * @param {string} what
 */
export function folded(words, what) {
  if (words.length <= SHOWN + 4) return chips(words);
  return [chips(words.slice(0, SHOWN)), el('details', { class: 'more' },
    el('summary', {}, `${words.length - SHOWN} more ${what}`), chips(words.slice(SHOWN)))];
}

/**
 * A notice within the page: one sentence, with the rule and the way out where something was refused.
 * @param {string} kind
 * @param {any[]} parts the sentence, the rule, the way
 * @param {Record<string, any>} [attributes]
 */
export const notice = (kind, [sentence, rule, way], attributes) => el('div', { ...attributes, class: `notice ${kind} inline` },
  el('p', { class: 'sentence' }, sentence), rule && el('p', { class: 'rule' }, rule), way && el('p', { class: 'way' }, way));
