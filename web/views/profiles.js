// The profiles of teams.

import { badge, el, link } from '../elements.js';
import { memory, read } from '../page.js';
import { heldBadge, noProfile, refused, teamsForm } from './teams.js';

export async function profilesView() {
  const parts = [el('h1', { tabindex: '-1', 'data-first': true }, 'Profiles'), teamsForm('profiles')];
  if (!memory.teams.length) return [parts, el('p', { class: 'empty' }, 'Name the teams whose profiles you want to see.')];
  const item = (team, one) => el('li', { class: 'card item' },
    link(`profile/${team}/${one.profile}/${one.revisions}`, one.profile, { class: 'name', id: `open-${team}-${one.profile}` }),
    el('dl', {},
      el('div', {}, el('dt', {}, 'Last revision'),
        el('dd', {}, `${one.revisions} `, badge(one.state), heldBadge({ team, profile: one.profile }))),
      el('div', {}, el('dt', {}, 'Issued'), el('dd', {}, one.issued ? `revision ${one.issued}` : 'none')),
      el('div', {}, el('dt', {}, 'Waits for votes'), el('dd', {}, one.state === 'open' ? `revision ${one.revisions}` : 'nothing'))));
  for (const team of memory.teams) {
    const answer = await read('list', { team });
    const list = answer.json?.profiles;
    parts.push(el('section', { 'aria-labelledby': `team-${team}` }, el('h2', { id: `team-${team}` }, `Team ${team}`),
      !answer.done ? refused('list', answer, { team })
        : !list.length ? noProfile(team) : el('ul', { class: 'cards' }, list.map((one) => item(team, one)))));
  }
  return parts;
}
