// The token over a reload, where its user wishes that: in the storage of the tab, and nowhere else.

const NAME = 'office';

/**
 * What keeps a token for the life of a tab. Reading gives null where nothing of this form is there; a browser may refuse to keep anything.
 * @param {() => Storage} storage
 */
export const tabToken = (storage) => ({
  /** @returns {string | null} */
  read() {
    try {
      return storage().getItem(NAME);
    } catch {
      return null;
    }
  },

  /**
   * Keeps it; false where the browser doesn't.
   * @param {string} token
   */
  keep(token) {
    try {
      storage().setItem(NAME, token);
      return true;
    } catch {
      return false;
    }
  },

  drop() {
    try {
      storage().removeItem(NAME);
    } catch {
      // it keeps nothing, so there is nothing to drop
    }
  },
});
