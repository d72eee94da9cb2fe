// What the places of the page share: what it keeps while it is open, what it says, how it draws a place, and how it carries out a request.

import { asker } from './api.js';
import { at, button, el, link, notice } from './elements.js';
import { DIGEST, NUMBER, TOKEN, WORD } from './forms.js';
import { Known } from './known.js';
import { lostSaid, refusal } from './refusals.js';
import { listed } from './words.js';
import { changes, readSheet } from './sheet.js';
import { tabToken } from './token.js';

/** @typedef {import('./api.js').About} About */
/** @typedef {import('./api.js').Answer} Answer */
/** @typedef {{ view: string, team: string, profile: string, revision: number, other: number, digest: string, teams: string[] }} Place */

/** What the page keeps, in memory alone: it is gone with the tab, and with the token. */
export const memory = { token: '', teams: /** @type {string[]} */ ([]), known: new Known() };

/** The name of the user whose token it is, as the office said; nothing where it hasn't. */
export const self = () => memory.known.me?.user ?? '';

/** The token over a reload, where that was chosen. */
export const tab = tabToken(() => sessionStorage);

/** No answer came to what only reads. */
class Lost extends Error {
  /** @param {Answer} answer */
  constructor(answer) {
    super('no answer');
    this.answer = answer;
  }
}

/** Asks the office. */
export const ask = asker({
  token: () => memory.token, fetch: (target, how) => fetch(target, how), sleep: (time) => new Promise((on) => setTimeout(on, time)),
  heard: (kind, about, answer) => {
    memory.known.learn(kind, about, answer);
    for (const [id, said] of [['who-name', whoSaid()], ['who-roles', rolesSaid()]]) {
      if (at(id) && at(id).textContent !== said) at(id).textContent = said;
    }
  },
});

/**
 * Asks what a place is drawn of: where no answer comes that ends the drawing.
 * @param {string} kind
 * @param {About} about
 */
export async function read(kind, about) {
  const answer = await ask(kind, about);
  if (answer.lost) throw new Lost(answer);
  return answer;
}

// ---- what is said --------------------------------------------------------------------------------------------------------

/**
 * Says one sentence, with the rule and the way out where something was refused, and what else there is.
 * @param {string} kind
 * @param {any} sentence
 * @param {any} [rule]
 * @param {any} [way]
 * @param {...any} more
 */
export function say(kind, sentence, rule, way, ...more) {
  at('said').replaceChildren(el('div', { class: `notice ${kind}` },
    el('p', { class: 'sentence' }, sentence), rule && el('p', { class: 'rule' }, rule), way && el('p', { class: 'way' }, way), more,
    button('said-away', 'Close', () => { hush(); at('view').focus(); }, 'quiet')));
}

export function hush() {
  at('said').replaceChildren();
}

/**
 * What a bug of the page threw, and where.
 * @param {any} error
 */
function bugSaid(error) {
  const where = /((?:views\/)?[a-z-]+\.js:\d+:\d+)/.exec(error?.stack ?? '');
  return `${error?.name ?? 'Error'}: ${error?.message ?? error}${where ? `, at ${where[1]}` : ''}`;
}

/** @param {any} error */
function sayBug(error) {
  say('refused', 'The page has a fault of its own, and didn’t end what it was doing.', bugSaid(error),
    'Look what stands in the office, load the page anew, and tell those who made the page.');
}

/**
 * Whether each of these names is one; else it says so.
 * @param {string[]} names
 * @param {string} of
 */
export function areNames(names, of) {
  const bad = names.find((one) => !WORD.test(one));
  if (bad !== undefined) say('refused', `“${bad}” is no name of ${of}.`, '', 'A name is 1 to 64 of a-z, 0-9 and the hyphen.');
  return bad === undefined;
}

/**
 * Says beside a button that no answer came, and offers the same again; where one has gone to another place it is said alone.
 * @param {string} pressed
 * @param {[string, string, string]} parts
 * @param {() => void} again
 */
function beside(pressed, parts, again) {
  at(`${pressed}-lost`)?.remove();
  const there = at(pressed);
  if (!there) return say('refused', ...parts);
  const said = notice('refused', parts, { id: `${pressed}-lost`, role: 'alert' });
  said.append(button(`${pressed}-again`, 'Ask again', () => { said.remove(); again(); }, ''));
  (there.closest('p') ?? there).after(said);
}

// ---- places --------------------------------------------------------------------------------------------------------------

/**
 * The place that the address names, which stands in the fragment, so that no server sees it: #/queue/blue,green, #/profiles/blue,
 * #/profile/blue/web/2, with the digest of its text behind it or without, #/compare/blue/web/1/2 and so on. Its view is `nowhere` where
 * there is no such place.
 * @returns {Place}
 */
export function place() {
  const [view, first = '', second = '', third = '', fourth = '', ...rest] = location.hash.replace(/^#\/?/, '').split('/');
  const made = { view, team: '', profile: '', revision: 0, other: 0, digest: '', teams: /** @type {string[]} */ ([]) };
  const nowhere = { ...made, view: 'nowhere' };
  if (rest.length) return nowhere;
  if (view === '') return { ...made, view: 'queue' };
  if (view === 'queue' || view === 'profiles') {
    const names = first.split(',').filter(Boolean);
    return second || !names.every((one) => WORD.test(one)) ? nowhere : { ...made, teams: [...new Set(names)] };
  }
  if ([first, second].some((one) => one && !WORD.test(one)) || (third && !NUMBER.test(third))) return nowhere;
  const found = { ...made, team: first, profile: second, revision: Number(third) };
  if (view === 'profile') return second && (!fourth || DIGEST.test(fourth)) ? { ...found, digest: fourth } : nowhere;
  if (view === 'compare') return NUMBER.test(fourth) ? { ...found, other: Number(fourth) } : nowhere;
  return ['hand-in', 'enrol', 'fetch'].includes(view) && !third && !fourth ? found : nowhere;
}

/**
 * The views by their names; office.js has them.
 * @type {Record<string, (now: Place) => any>}
 */
export const views = {};

/** @param {string} target */
export const to = (target) => { if (location.hash === `#/${target}`) draw(true); else location.hash = `#/${target}`; };

function header() {
  const known = memory.token !== '';
  at('places').hidden = at('who').hidden = !known;
  if (!known) return;
  const now = place();
  const named = memory.teams.join(',');
  const targets = [['queue', 'Queue', `queue/${named}`], ['profiles', 'Profiles', `profiles/${named}`],
    ['hand-in', 'Hand in', 'hand-in'], ['enrol', 'Enrol', 'enrol'], ['fetch', 'Fetch', 'fetch']];
  const here = { profile: 'profiles', compare: 'profiles' }[now.view] ?? now.view;
  const focused = document.activeElement?.id;
  at('places').replaceChildren(el('ul', {}, targets.map(([view, text, target]) => el('li', {}, link(target, text, {
    id: `to-${view}`, 'aria-current': view === here ? 'page' : null })))));
  at('who').replaceChildren(el('span', { id: 'who-name' }, whoSaid()), ' ',
    el('span', { id: 'who-roles' }, rolesSaid()), ' ', button('forget', 'Forget the token', forget, 'quiet'));
  if (focused && document.activeElement?.id !== focused) at(focused)?.focus({ preventScroll: true });
}

// Whose the token is, as the office said.
function whoSaid() {
  const { me, unknown } = memory.known;
  if (unknown) return 'Nobody shows this token';
  return me ? `${me.user}, of the team ${me.team}` : 'Token in memory';
}

// Which roles the user of the token holds; where the office hasn't said, which the answers have shown.
function rolesSaid() {
  const { yes, no, one } = memory.known.shown();
  if (memory.known.unknown) return '';
  if (memory.known.me) return `Roles: ${yes.length ? yes.join(', ') : 'none'}`;
  const parts = [...yes, ...one.map((roles) => listed(roles, 'or'))];
  return `Roles, by the answers: ${parts.length ? parts.join(', ') : 'none seen'}${no.length ? `; not ${listed(no, 'or')}` : ''}`;
}

function forget() {
  tab.drop();
  memory.token = '';
  memory.known = new Known();
  kept.clear();
  hush();
  draw(true);
  say('plain', 'The token is forgotten.');
}

// ---- back and forth ------------------------------------------------------------------------------------------------------

// What a place had when one left it: how far it was scrolled, and its forms. An entry of the browser's history has its number.
/** @type {Map<number, { scroll: number, values: Map<string, any> }>} */
const kept = new Map();
let entry = 0;
let last = 0;

// What can be filled in there. A token is not kept, nor a choice that leads to another place.
const inputs = () => [...document.querySelectorAll('main input, main select')].map((one) => /** @type {any} */ (one))
  .filter((one) => one.id && one.type !== 'password' && !one.readOnly && !one.dataset.leads);

function leave() {
  const values = new Map(inputs().map((one) => [one.id,
    one.type === 'checkbox' ? one.checked : one.type === 'file' ? one.files : one.value]));
  kept.set(entry, { scroll: scrollY, values });
}

// Whether one came back to this entry; a new one gets a number.
function arrive() {
  const back = kept.get(history.state?.entry);
  entry = back ? history.state.entry : ++last;
  history.replaceState({ entry }, '');
  return back;
}

function refill({ scroll, values }) {
  for (const one of inputs()) {
    const value = values.get(one.id);
    if (value === undefined) continue;
    if (one.type === 'checkbox') one.checked = value;
    else if (one.type === 'file') one.files = value;
    else one.value = value;
    one.dispatchEvent(new Event('input'));
  }
  scrollTo(0, scroll);
}

// ---- drawing -------------------------------------------------------------------------------------------------------------

let turn = 0;

/** What says whether somebody has gone to another place since. */
export function stays() {
  const mine = turn;
  return () => mine === turn;
}

/**
 * Draws the present place anew. `moved` where somebody came to it, so that the focus goes to its heading; else it stays, and so does what
 * is on the screen where no answer comes.
 * @param {boolean} moved
 * @param {{ scroll: number, values: Map<string, any> }} [back] what the place had when one left it
 * @returns {Promise<string>} why what is on the screen is from before, or nothing where it isn't
 */
export async function draw(moved, back) {
  const mine = ++turn;
  const now = place();
  if (now.view === 'queue' || now.view === 'profiles') memory.teams = now.teams;
  else if (now.team && now.view !== 'nowhere' && !memory.teams.includes(now.team)) memory.teams = [...memory.teams, now.team];
  const view = at('view');
  const focused = document.activeElement?.id;
  header();
  view.setAttribute('aria-busy', 'true');
  if (moved && memory.token) view.replaceChildren(el('p', { class: 'hint' }, 'Asking the office …'));
  /** @type {any[]} */
  let parts;
  try {
    if (memory.token && !memory.known.me) await read('me', {});
    parts = [memory.token ? await views[now.view](now) : views.entrance(now)];
  } catch (error) {
    if (mine !== turn) return '';
    view.removeAttribute('aria-busy');
    const lost = error instanceof Lost;
    const said = lost ? lostSaid(error.answer.lost, error.answer.seconds) : `The page has a fault of its own. ${bugSaid(error)}.`;
    const parts = [`${said}${moved ? '' : ' What is on the screen is from before.'}`, '',
      lost ? 'Look whether you reach the office.' : 'Tell those who made the page.'];
    if (moved) {
      view.replaceChildren(notice('refused', parts, { id: 'lost', role: 'alert' }), button('lost-again', 'Ask again', () => draw(true, back), ''));
      at('lost-again').focus();
    } else {
      say('refused', parts[0], '', parts[2], button('read-again', 'Read again', () => { hush(); draw(false); }, ''));
    }
    return parts[0];
  }
  if (mine !== turn) return '';
  view.replaceChildren(...parts.flat(Infinity).filter(Boolean));
  view.removeAttribute('aria-busy');
  const heading = view.querySelector('h1');
  document.title = heading ? `${heading.textContent} – Review office` : 'Review office';
  if (moved) {
    scrollTo(0, 0);
    /** @type {any} */ (view.querySelector('[data-first]') ?? view).focus();
    if (back) refill(back);
  } else if (focused) (at(focused) ?? view).focus({ preventScroll: true });
  return '';
}

// Takes the token that the tab kept.
function resume() {
  const shown = tab.read();
  if (shown && TOKEN.test(shown)) memory.token = shown;
}

/** Begins: draws the place of the address, and each that one goes to. */
export function begin() {
  history.scrollRestoration = 'manual';
  addEventListener('hashchange', () => {
    hush();
    leave();
    draw(true, arrive());
  });
  addEventListener('error', (event) => sayBug(event.error ?? { message: event.message }));
  addEventListener('unhandledrejection', (event) => sayBug(event.reason));
  addEventListener('pagehide', () => { memory.token = ''; });
  addEventListener('pageshow', (event) => {
    if (!event.persisted) return;
    resume();
    draw(true);
  });
  resume();
  draw(true, arrive());
}

// ---- carrying out --------------------------------------------------------------------------------------------------------

let doing = false;

/**
 * What is done by a button or a form isn't begun again before it has ended.
 * @param {() => Promise<void>} act
 */
export async function alone(act) {
  if (doing) return say('plain', 'The last request isn’t answered yet.');
  doing = true;
  try {
    await act();
  } finally {
    doing = false;
  }
}

/** What a form's request is answered; where no answer comes that is said beside its button, and null. */
export async function sent(pressed, kind, about, body, again) {
  hush();
  const answer = await ask(kind, about, body);
  if (!answer.lost) return answer;
  beside(pressed, [lostSaid(answer.lost, answer.seconds), '', ['fetch', 'issued'].includes(kind) ? 'Nothing was changed.'
    : 'Nobody knows whether the office did it. Asking again does no harm: what stands already is told so.'], again);
  return null;
}

/** @typedef {{ about: About & { rejecting?: string[], secured?: boolean }, sheet: import('./sheet.js').Sheet }} Decided */

/**
 * Whether the sheet still is the one on the screen. Where it is another the place is drawn anew, and it says what changed.
 * @param {string} pressed
 * @param {Decided} decided
 * @param {() => void} again
 */
async function isUnchanged(pressed, { about, sheet }, again) {
  const answer = await ask('sheet', about);
  if (answer.lost) {
    beside(pressed, [`${lostSaid(answer.lost, answer.seconds)} Nothing was sent.`, '',
      'The sheet has to be read again first. Look whether you reach the office.'], again);
    return false;
  }
  if (!answer.done) {
    await draw(false);
    const [says, rule, way] = refusal('sheet', answer, about);
    say('refused', `${says} Nothing was sent.`, rule, way);
    return false;
  }
  if (answer.text === sheet.text) return true;
  const now = readSheet(answer.text);
  const said = now ? changes(sheet, now) : ['What came is no review sheet.'];
  await draw(false);
  say('refused', 'The sheet isn’t the one that you read any more, so nothing was sent.', '', 'Read it, and decide anew.',
    el('ul', { id: 'changes' }, said.map((one) => el('li', {}, one))));
  return false;
}

/**
 * Carries out a request, draws the place anew, and says what came of it. Before a vote, an issue and an adoption the sheet is read again.
 * @param {string} pressed the button
 * @param {string} kind
 * @param {Decided} decided
 * @param {string} done what is said where it is done
 * @param {string} [body]
 */
export async function carry(pressed, kind, decided, done, body) {
  hush();
  at(`${pressed}-lost`)?.remove();
  const { about } = decided;
  const again = () => alone(() => carry(pressed, kind, decided, done, body));
  const buttons = [...document.querySelectorAll('main button')];
  for (const one of buttons) one.setAttribute('aria-disabled', 'true');
  try {
    if (['vote', 'issue', 'adopt'].includes(kind) && !await isUnchanged(pressed, decided, again)) return;
    const answer = await ask(kind, about, body);
    if (answer.lost) {
      beside(pressed, [lostSaid(answer.lost, answer.seconds), '',
        'Nobody knows whether the office did it. Asking again does no harm: what stands already is told so.'], again);
      return;
    }
    const before = await draw(false);
    if (answer.done) say('done', done, '', before);
    else say('refused', ...refusal(kind, answer, about));
  } finally {
    for (const one of buttons) one.removeAttribute('aria-disabled');
  }
}

/**
 * Asks whether somebody is sure, in a dialog that has the focus until it is closed.
 * @param {string} title
 * @param {string} text
 */
export function confirmed(title, text) {
  const sure = at('sure');
  return new Promise((answer) => {
    sure.replaceChildren(el('h2', { id: 'sure-title' }, `${title}?`), el('p', { id: 'sure-text' }, text),
      el('p', { class: 'buttons' }, button('sure-yes', title, () => sure.close('yes'), 'main'),
        button('sure-no', 'Go back', () => sure.close('no'), '')));
    sure.returnValue = 'no';
    sure.addEventListener('close', () => answer(sure.returnValue === 'yes'), { once: true });
    sure.showModal();
  });
}
