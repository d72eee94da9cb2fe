// The forms of names, numbers and digests, and of the answers that have them, by docs/lines.md.

import { ROLES } from './words.js';

export const WORD = /^[a-z0-9-]{1,64}$/;
export const TOKEN = /^[\x21-\x7e]{1,128}$/;
/** The number of a revision. */
export const NUMBER = /^[1-9][0-9]{0,3}$/;
export const DIGEST = /^[0-9a-f]{64}$/;

const STATES = ['open', 'closed', 'issued', 'replaced', 'withdrawn'];

/** @typedef {(value: any) => string | null} Form gives the path of what isn't as it has to be, or null */

/**
 * @param {(value: any) => boolean} right
 * @returns {Form}
 */
const is = (right) => (value) => (right(value) ? null : '');

/**
 * @param {Form} form
 * @returns {Form}
 */
const list = (form) => (value) => {
  if (!Array.isArray(value)) return '';
  const wrong = value.map(form);
  const at = wrong.findIndex((one) => one !== null);
  return at < 0 ? null : `/${at}${wrong[at]}`;
};

/**
 * @param {Record<string, Form>} members
 * @returns {Form}
 */
const object = (members) => (value) => {
  if (value === null || typeof value !== 'object') return '';
  for (const [name, form] of Object.entries(members)) {
    const wrong = form(value[name]);
    if (wrong !== null) return `/${name}${wrong}`;
  }
  return null;
};

const matches = (form) => is((value) => typeof value === 'string' && form.test(value));
const [word, digest] = [matches(WORD), matches(DIGEST)];
const text = is((value) => typeof value === 'string');
const flag = is((value) => typeof value === 'boolean');
const number = (least) => is((value) => Number.isInteger(value) && value >= least && value <= 9999);
const state = is((value) => STATES.includes(value));

const nothing = object({});
const made = object({ digest, revision: number(1) });

/**
 * What is done answers to each kind, but for a sheet and a fetched document, which are texts.
 * @type {Record<string, Form>}
 */
const DONE = {
  enrol: nothing, vote: nothing, withdraw: nothing, adopt: nothing, hold: nothing, release: nothing, submit: made, issued: made,
  issue: object({ digest }),
  show: object({ digest, document: text, state }),
  list: object({ profiles: list(object({ issued: number(0), profile: word, revisions: number(1), state })) }),
  revisions: object({ more: flag, revisions: list(object({ by: word, digest, revision: number(1), state })) }),
  me: object({ roles: list(is((value) => ROLES.includes(value))), team: word, user: word }),
};

/** Whether there are revisions, each older than the one before it, and the first older than was asked for. */
const falls = (revisions, before) => revisions.length > 0
  && revisions.every((one, index) => one.revision < (index ? revisions[index - 1].revision : before));

/**
 * The path of what isn't of its form in an answer that says it is done; null where all is.
 * @param {string} kind
 * @param {{ before?: number }} about
 * @param {any} json
 * @returns {string | null}
 */
export function wrongIn(kind, about, json) {
  const wrong = DONE[kind]?.(json) ?? null;
  return wrong === null && kind === 'revisions' && !falls(json.revisions, about.before ?? Infinity) ? '/revisions' : wrong;
}

/**
 * Whether what is done answers by a text, and not by JSON.
 * @param {string} kind
 */
export const isText = (kind) => !Object.hasOwn(DONE, kind);
