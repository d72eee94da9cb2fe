// What the answers have shown: who the user of the token is, which roles that user holds, which profiles are held, and what this office has
// listed.

import { rolesFor } from './refusals.js';
import { ROLES } from './words.js';

/** What is known of the user of a token, of holds and of what is listed, by the answers that came. */
export class Known {
  constructor() {
    /** @type {{ user: string, team: string, roles: string[] } | null} who the office says that it is */
    this.me = null;
    /** @type {Map<string, boolean>} a role, or several in a row of which at least one is held, by what `rolesFor` gives */
    this.roles = new Map();
    /** @type {Map<string, { held: boolean, at: Date }>} by TEAM/PROFILE */
    this.holds = new Map();
    /** @type {Set<string>} */
    this.listed = new Set();
    this.unknown = false;
  }

  /**
   * Learns of an answer.
   * @param {string} kind
   * @param {{ team?: string, profile?: string }} about
   * @param {{ status: number, json: any, done: boolean }} answer
   */
  learn(kind, about, answer) {
    const { json, done } = answer;
    const word = json?.answer === 'denied' ? json.word : '';
    this.unknown = word === 'caller-unknown' || (this.unknown && !done && !word);
    if (this.unknown) this.me = null;
    if (kind === 'me' && done) {
      this.me = { user: json.user, team: json.team, roles: json.roles };
      this.roles = new Map(ROLES.map((role) => [role, json.roles.includes(role)]));
    } else if (done || (word && word !== 'caller-unknown')) {
      const roles = rolesFor(kind);
      if (word === 'role-missing') for (const role of roles) this.roles.set(role, false);
      else if (['list', 'show', 'sheet', 'revisions'].includes(kind) && word === 'other-team') {
        // who may read every team isn't refused so, and who holds none of the roles is refused before
        for (const role of roles) this.roles.set(role, role === 'author');
      } else if (roles.length) this.roles.set(roles.join(), true);
    }
    const held = word === 'held' || word === 'already-held' || (kind === 'hold' && done) ? true
      : word === 'not-held' || (done && ['release', 'issue', 'fetch', 'issued'].includes(kind)) ? false : null;
    if (held !== null) this.holds.set(`${about.team}/${about.profile}`, { held, at: new Date() });
  }

  /**
   * Whether the user holds this role, as the office last said, or undefined.
   * @param {string} role
   */
  may(role) {
    return this.roles.get(role);
  }

  /** Which of the roles are known to be held, which not, and of which sets one at least is. */
  shown() {
    const no = [...this.roles].filter(([, held]) => !held).map(([name]) => name);
    const sets = [...this.roles].filter(([, held]) => held).map(([name]) => name.split(',').filter((role) => !no.includes(role)));
    const yes = [...new Set(sets.filter((roles) => roles.length === 1).flat())];
    return { yes, no, one: sets.filter((roles) => roles.length > 1 && !roles.some((role) => yes.includes(role))) };
  }

  /**
   * Whether this profile is held, as the office last said, or undefined.
   * @param {{ team?: string, profile?: string }} about
   */
  hold(about) {
    return this.holds.get(`${about.team}/${about.profile}`);
  }
}
