// Opens what a browser keeps of the page: as the page begins, since that takes a while.

// a browser that doesn't open its database in this time has none
const MILLISECONDS_TO_OPEN = 1500;
const NAME = "crobots";
/** The only table of the database. */
export const TABLE = "records";

/**
 * Returns something of the browser, or null if it refuses it to this page.
 * @returns {any}
 */
export function granted(name) {
    try {
        return window[name] ?? null;
    } catch {
        return null;
    }
}

/**
 * Opens the database; answers null if the browser has none for this page.
 * @returns {Promise<IDBDatabase | null>}
 */
export function openedDatabase() {
    const opened = new Promise((done, fail) => {
        const asked = granted("indexedDB").open(NAME, 1);
        asked.onupgradeneeded = () => asked.result.createObjectStore(TABLE);
        asked.onsuccess = () => done(asked.result);
        asked.onerror = asked.onblocked = () => fail(asked.error);
    });
    const late = new Promise(done => setTimeout(done, MILLISECONDS_TO_OPEN, null));
    return Promise.race([opened, late]).catch(() => null);
}
