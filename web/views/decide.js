// The buttons of a profile: votes, issue, withdrawal, adoption, hold and release.

import { sha256 } from '../api.js';
import { button, capital, code, el, link, notice } from '../elements.js';
import { squeezed } from '../json.js';
import { alone, carry, confirmed, memory, say } from '../page.js';
import { textLink } from './text-link.js';
import { holdSaid } from './teams.js';

// Why a vote, an issue and an adoption aren't offered; nothing where they are.
function whyNot(about, reading) {
  const notHere = 'so this page offers no vote';
  if (!reading.same) return notice('refused', [reading.own ? `The text on this screen isn’t the one that the sheet names, ${notHere}.`
    : `The sheet is of another revision than the one that was asked for, ${notHere}.`,
  ['On the screen: ', code(reading.digest), el('br', {}), 'The sheet names: ', code(reading.named)],
  'It was changed on the way. Load it anew; if it stays so, tell those who run the proxy.'], { role: 'alert', id: 'no-vote' });
  if (reading.linked && reading.linked !== reading.digest) return notice('refused', [
    `The text of this revision isn’t the one that the link names, ${notHere}.`,
    ['On the screen: ', code(reading.digest), el('br', {}), 'The link names: ', code(reading.linked)],
    ['Ask who gave you the link, or ', link(`profile/${about.team}/${about.profile}/${about.revision}`, 'open what stands here'), '.']],
  { role: 'alert', id: 'no-vote' });
  if (reading.left.length || reading.beyond.length) return notice('refused', [`The sheet isn’t the one of this document, ${notHere}.`, '',
    'What it leaves out stands beside its findings.'], { role: 'alert', id: 'no-vote' });
  if (reading.unseen) return notice('refused', [`${reading.unseen}, ${notHere}.`, '',
    'Load it anew; if it stays so, tell those who run the proxy.'], { role: 'alert', id: 'no-vote' });
  return null;
}

// Where the answers have shown that the user of the token doesn't hold any of these roles.
function lacks(roles) {
  const { no } = memory.known.shown();
  return roles.every((role) => no.includes(role)) && el('p', { class: 'hint' },
    'By the answers, the user of your token doesn’t hold this role.');
}

/**
 * @param {{ team: string, profile: string, revision: number }} about
 * @param {string} state
 * @param {import('../sheet.js').Sheet} sheet
 * @param {import('./profile.js').Reading} reading
 * @param {{ issued: number }} own
 */
export function decideCard(about, state, sheet, reading, own) {
  const whole = `${about.team}/${about.profile}`;
  const one = `revision ${about.revision} of ${whole}`;
  const decided = { about: { ...about, rejecting: sheet.rejecting, secured: sheet.secured }, sheet };
  const held = memory.known.hold(about)?.held;
  const group = (id, who, ...inside) => el('div', { class: 'group', role: 'group', 'aria-labelledby': `${id}-group` },
    el('h3', { id: `${id}-group` }, who), inside);
  const act = (kind, text, sure, done, look) => button(kind, text, async () => {
    if (await confirmed(text, sure)) await alone(() => carry(kind, kind, decided, done));
  }, look);
  const hint = (text) => el('p', { class: 'hint' }, text);
  const instead = whyNot(about, reading);
  const vote = (word, text, look) => button(word, text, () => alone(() => voteOn(decided, reading, word)), look);
  return el('section', { class: 'card decide', id: 'decide', tabindex: '-1', 'aria-labelledby': 'decide-title' },
    el('h2', { id: 'decide-title' }, 'Decide'), instead,
    el('div', { class: 'groups' },
      group('vote', 'Reviewers vote', state !== 'open' ? hint(`It is ${state}, so there is nothing to vote on.`)
        : instead ? hint('No vote is offered.') : [lacks(['reviewer']),
          hint('A vote is of the very text that is shown, by its digest. The sheet is read again before it is sent.'),
          vote('approve', 'Approve this text', 'main'), vote('reject', 'Reject this text', 'danger')]),
      reading.same && group('why', 'Say why', textLink('text-link', about, reading.digest,
        'The office keeps no reason with a vote. Write yours where the team talks, with this link: it opens this sheet.')),
      group('issue', 'An issuer issues', state !== 'open' ? hint(`It is ${state}; only an open revision is issued.`)
        : instead ? hint('No issue is offered.') : [lacks(['issuer']), held && hint(holdSaid(about)),
          act('issue', `Issue revision ${about.revision}`, `Hosts of ${about.team} will fetch ${one}`
            + `${own.issued ? `, in place of revision ${own.issued}` : ''}.${held ? ' It is held, so this will be refused.' : ''}`,
          `${capital(one)} is issued.`, '')]),
      group('withdraw', 'An author of the team or security withdraws', state === 'open' || state === 'issued'
        ? [lacks(['author', 'security']), act('withdraw', `Withdraw revision ${about.revision}`, state === 'issued'
          ? `Hosts get nothing of ${whole} any more: no older revision comes back.`
          : `${capital(one)} takes no more votes, and can’t be issued.`, `${capital(one)} is withdrawn.`, 'danger')]
        : hint(`It is ${state}; nothing is to be withdrawn.`)),
      group('adopt', 'Security adopts', state !== 'issued' ? hint(`It is ${state}; only an issued revision becomes a baseline.`)
        : instead ? hint('No adoption is offered.') : [lacks(['security']), act('adopt', `Adopt revision ${about.revision}`,
          `What the team ${about.team} hands in is compared with ${one} from now on.`,
          `${capital(one)} is the baseline of the team ${about.team}.`, '')]),
      group('hold', 'Security holds and releases the whole profile', lacks(['security']),
        el('p', { class: 'hint', id: 'hold-said' }, holdSaid(about)),
        act('hold', 'Hold', `Nothing of ${whole} is issued or fetched until it is released.`,
          `${whole} is held: nothing of it is issued or fetched.`, 'danger'),
        act('release', 'Release', `${whole} can be issued and fetched again.`, `${whole} is released: it can be issued and fetched again.`, '')),
      group('further', 'More',
        el('p', {}, link(`hand-in/${whole}`, 'Hand in another revision'), ' · ', link(`fetch/${whole}`, 'Fetch what is issued')))));
}

// Votes on the text that is on the screen, by the digest that the page works out anew.
async function voteOn(decided, reading, word) {
  if (squeezed(reading.shown.textContent) !== reading.text || await sha256(reading.text) !== reading.named) {
    return say('refused', 'The text on this screen isn’t the one that the sheet names, so no vote was sent.', '', 'Load the page anew.');
  }
  const { about } = decided;
  await carry(word, 'vote', decided, `Your ${word === 'approve' ? 'approval' : 'rejection'} of revision ${about.revision} of `
    + `${about.team}/${about.profile} stands, of the text with the digest ${reading.digest}.`
    + `${word === 'reject' ? ' Say why where the team talks: the office keeps no reason.' : ''}`,
  JSON.stringify({ digest: reading.digest, vote: word }));
}
