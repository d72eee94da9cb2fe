// What a wrong address says.

import { code, el, link } from '../elements.js';

export const nowhereView = () => [
  el('h1', { tabindex: '-1', 'data-first': true }, 'No such place'),
  el('p', { class: 'notice refused inline' }, 'The address names no place of this page: ', code(location.hash)),
  el('p', {}, 'Look whether it is whole. A place is as ', code('#/queue/TEAM,TEAM'), ', ', code('#/profile/TEAM/PROFILE/N'), ', ',
    code('#/profile/TEAM/PROFILE/N/DIGEST'), ' or ',
    code('#/compare/TEAM/PROFILE/N/N'), '. ', link('queue', 'To the queue')),
];
