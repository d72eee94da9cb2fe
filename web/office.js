// The page of the office: it asks the office over HTTP, as anybody does, and shows what that answers.

import { at, el } from './elements.js';
import { begin, views } from './page.js';
import { compareView } from './views/compare.js';
import { enrolView } from './views/enrol.js';
import { entranceView } from './views/entrance.js';
import { fetchView } from './views/fetch.js';
import { handInView } from './views/hand-in.js';
import { nowhereView } from './views/nowhere.js';
import { profileView } from './views/profile.js';
import { profilesView } from './views/profiles.js';
import { queueView } from './views/queue.js';

Object.assign(views, { entrance: entranceView, queue: queueView, profiles: profilesView, profile: profileView, compare: compareView,
  'hand-in': handInView, enrol: enrolView, fetch: fetchView, nowhere: nowhereView });

at('skip').addEventListener('click', (event) => {
  event.preventDefault();
  at('view').focus();
});
if (globalThis.crypto?.subtle) begin();
else {
  at('view').replaceChildren(el('p', { class: 'notice refused inline' },
    'This page can’t take digests here, so it offers nothing: open it over https, or on the machine itself by 127.0.0.1.'));
}
