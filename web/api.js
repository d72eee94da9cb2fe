// Asks the office over HTTP, as anybody does.

import { isText, wrongIn } from './forms.js';

/** How long a request may take, in seconds: longer than a request waits for its turn behind deploy/haproxy.cfg. */
const SECONDS = 60;
/** How many times what only reads is asked again, where the proxy says that one asked too often. */
const TIMES = 6;

/**
 * @typedef {{ team?: string, profile?: string, revision?: number, before?: number, user?: string }} About what a request is about
 * @typedef {{ status: number, text: string, bytes: ArrayBuffer, json: any, done: boolean, wrong: string | null,
 *   lost: 'time' | 'connection' | null, seconds: number }} Answer an answer; `json` where it is one of the office, `wrong` the path of
 *   what isn't of its form in one that says it is done, `lost` where none came
 */

/**
 * The method and the target of each kind of request.
 * @type {Record<string, [string, (about: About) => string]>}
 */
const REQUESTS = {
  enrol: ['POST', () => '/users'],
  submit: ['POST', (about) => `/p/${about.team}/${about.profile}`],
  list: ['GET', (about) => `/p/${about.team}`],
  show: ['GET', (about) => `/p/${about.team}/${about.profile}/${about.revision}`],
  sheet: ['GET', (about) => `/p/${about.team}/${about.profile}/${about.revision}/sheet`],
  vote: ['POST', (about) => `/p/${about.team}/${about.profile}/${about.revision}/vote`],
  issue: ['POST', (about) => `/p/${about.team}/${about.profile}/${about.revision}/issue`],
  withdraw: ['POST', (about) => `/p/${about.team}/${about.profile}/${about.revision}/withdraw`],
  adopt: ['POST', (about) => `/p/${about.team}/${about.profile}/${about.revision}/adopt`],
  fetch: ['GET', (about) => `/issued/${about.team}/${about.profile}`],
  hold: ['POST', (about) => `/hold/${about.team}/${about.profile}`],
  release: ['POST', (about) => `/release/${about.team}/${about.profile}`],
  me: ['GET', () => '/me'],
  revisions: ['GET', (about) => `/p/${about.team}/${about.profile}${about.before ? `?before=${about.before}` : ''}`],
  issued: ['GET', (about) => `/issued/${about.team}/${about.profile}/digest`],
};

/**
 * SHA-256 of bytes, or of a text in UTF-8, as 64 digits.
 * @param {string | ArrayBuffer | Uint8Array} bytes
 */
export async function sha256(bytes) {
  const sum = await crypto.subtle.digest('SHA-256', typeof bytes === 'string' ? new TextEncoder().encode(bytes) : bytes);
  return [...new Uint8Array(sum)].map((byte) => byte.toString(16).padStart(2, '0')).join('');
}

/**
 * The JSON of an answer of the office, or null for a sheet, a fetched text and a page of the proxy.
 * @param {string} text
 */
function answerOf(text) {
  try {
    const json = JSON.parse(text);
    return json !== null && typeof json === 'object' && typeof json.answer === 'string' ? json : null;
  } catch (error) {
    if (error instanceof SyntaxError) return null;
    throw error;
  }
}

/**
 * What asks the office with this token. `fetch` and `sleep` (milliseconds) are the browser's, or a test's own.
 * @param {{ token: () => string, fetch: typeof globalThis.fetch, sleep: (time: number) => Promise<unknown>, seconds?: number,
 *   heard?: (kind: string, about: About, answer: Answer) => void }} given
 */
export function asker({ token, fetch, sleep, seconds = SECONDS, heard = () => {} }) {
  /** @returns {Promise<Answer & { again: number }>} */
  async function once(shown, kind, about, body) {
    const [method, target] = REQUESTS[kind];
    const stop = new AbortController();
    const late = setTimeout(() => stop.abort(), seconds * 1000);
    /** @type {Response} */
    let response;
    /** @type {ArrayBuffer} */
    let bytes;
    try {
      response = await fetch(target(about), {
        method, body, cache: 'no-store', credentials: 'omit', redirect: 'error', referrerPolicy: 'no-referrer',
        headers: { Authorization: `Bearer ${shown}` }, signal: stop.signal,
      });
      bytes = await response.arrayBuffer();
    } catch {
      return { status: 0, text: '', bytes: new ArrayBuffer(0), json: null, done: false, wrong: null,
        lost: stop.signal.aborted ? 'time' : 'connection', seconds, again: 0 };
    } finally {
      clearTimeout(late);
    }
    const text = new TextDecoder('utf-8', { ignoreBOM: true }).decode(bytes);
    const json = answerOf(text);
    const said = response.status === 200 && (isText(kind) || json?.answer === 'done');
    const wrong = said ? wrongIn(kind, about, json) : null;
    return { status: response.status, text, bytes, json, done: said && wrong === null, wrong, lost: null, seconds,
      again: Number(response.headers.get('Retry-After')) || 1 };
  }

  /**
   * Asks once; what only reads again, where the proxy says that one asked too often, after as long as it says and a part more. What is
   * answered after the token was forgotten is heard no more.
   * @param {string} kind
   * @param {About} about
   * @param {any} [body]
   * @returns {Promise<Answer>}
   */
  return async function ask(kind, about, body) {
    const shown = token();
    for (let times = 1; ; times++) {
      const answer = await once(shown, kind, about, body);
      if (answer.status !== 429 || REQUESTS[kind][0] !== 'GET' || times === TIMES) {
        if (token() === shown) heard(kind, about, answer);
        return answer;
      }
      await sleep(1000 * answer.again * (1 + Math.random()));
    }
  };
}

/**
 * Does this for each of the items, so many at a time, in their order, until `over` says to stop.
 * @template T
 * @param {T[]} items
 * @param {number} many
 * @param {(item: T) => Promise<void>} act
 * @param {() => boolean} over
 */
export async function eachOf(items, many, act, over) {
  let next = 0;
  const one = async () => { while (next < items.length && !over()) await act(items[next++]); };
  await Promise.all(Array.from({ length: Math.min(many, items.length) }, one));
}
