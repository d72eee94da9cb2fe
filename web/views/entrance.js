// Where one shows a token.

import { at, el, field } from '../elements.js';
import { TOKEN } from '../forms.js';
import { areNames, ask, draw, hush, memory, place, say, tab, to } from '../page.js';

export function entranceView() {
  const enter = async (event) => {
    event.preventDefault();
    const [token, named] = ['token', 'teams'].map((id) => at(id).value.trim());
    let list = [...new Set(named.split(/[\s,]+/).filter(Boolean))];
    if (!TOKEN.test(token)) return say('refused', 'A token is 1 to 128 characters without spaces.', '', 'Enter the one that you were given.');
    if (!areNames(list, 'a team')) return;
    const keep = at('keep').checked;
    memory.token = token;
    at('token').value = '';
    hush();
    tab.drop();
    if (keep && !tab.keep(token)) say('plain', 'This browser keeps nothing for the page, so a reload will ask for the token again.');
    const now = place();
    await ask('me', {});
    // an author works on the own team
    const { me } = memory.known;
    if (!list.length && me?.roles.includes('author')) list = [me.team];
    if (list.length) memory.teams = list;
    if (now.view === 'queue' && list.length && list.join() !== now.teams.join()) to(`queue/${list.join(',')}`);
    else draw(true);
  };
  return el('section', { class: 'card entrance' },
    el('h1', {}, 'Review container sandbox profiles'),
    el('p', {}, 'Show your token, and name the teams whose profiles you work on. The token stays in the memory of this page '
      + 'alone, and is gone with the tab or a reload, unless you choose otherwise.'),
    el('form', { id: 'entrance', submit: enter },
      field('token', 'Token', null, { type: 'password', required: true, maxlength: '128', 'data-first': true }),
      field('teams', 'Teams', 'Optional, with commas between them, as: blue, green',
        { value: place().teams.join(', ') || memory.teams.join(', ') }),
      el('p', { class: 'field' },
        el('label', { class: 'check' }, el('input', { type: 'checkbox', id: 'keep', 'aria-describedby': 'keep-hint' }),
          ' Keep the token over a reload'),
        el('span', { class: 'hint', id: 'keep-hint' }, 'Until this tab is closed. The browser may write it to its disk, and has it again '
          + 'where the tab is doubled or opened anew: leave it off where others use this browser.')),
      el('p', {}, el('button', { id: 'enter', class: 'main' }, 'Enter'))));
}
