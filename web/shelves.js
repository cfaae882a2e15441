// Where the browser keeps versions and drafts: IndexedDB has room for the versions, and localStorage keeps a draft at once. Each takes
// what the other one refuses.
import {TABLE} from "./opening.js";
import {bytesOf, versionOf} from "./versions.js";

/**
 * @typedef {import("./versions.js").Version} Version
 * @typedef {{line: string, time: number, isLinked: boolean, isTouched: boolean, battle: import("./battles.js").Battle}} Draft
 * @typedef {{read(): any, put(key: string, record: any): any, remove(key: string, time?: number): any}} Shelf
 */

const MINE = "crobots-";
const VERSION = "crobots-version-";
const DRAFT = "crobots-draft-";
// where earlier pages kept each battle, and before that their only one
const FORMER_BATTLE = "crobots-battle-";
const FORMER = "crobots";
const PROBE = "crobots-probe";

/** A storage of texts: what is put there is kept when the call returns, and it throws what it doesn't take. */
export class LocalShelf {
    /** @param {Storage | null} storage */
    constructor(storage) {
        this.storage = storage;
    }

    /** All records, each [key, record]; what can't be read is none. */
    read() {
        const {storage} = this;
        const keys = Array.from({length: storage.length}, (_, at) => storage.key(at)).filter(it => it.startsWith(MINE) || it === FORMER);
        return keys.map(key => [key, recordOf(key, storage.getItem(key))]).filter(([, record]) => record);
    }

    put(key, record) {
        if (!this.storage) {
            throw new Error("no storage");
        }
        this.storage.setItem(key, JSON.stringify(record));
    }

    /** Removes a record, or only that of a time. */
    remove(key, time) {
        if (time === undefined || recordOf(key, this.storage.getItem(key) ?? "")?.time === time) {
            this.storage.removeItem(key);
        }
    }
}

/** What stands in the storage by a key. What earlier pages kept is a draft. */
function recordOf(key, text) {
    try {
        if (key === FORMER) {
            return {line: key, time: 0, isLinked: false, battle: JSON.parse(text)};
        }
        if (key.startsWith(FORMER_BATTLE)) {
            const end = text.indexOf("\n");
            const {battle, isLinked} = JSON.parse(text.slice(end + 1));
            return {line: key, time: parseInt(text, 10) || 0, isLinked, battle};
        }
        return JSON.parse(text);
    } catch {
        return null;
    }
}

/** A database of the browser: it answers when something is kept, or fails. */
export class DatabaseShelf {
    constructor(database) {
        this.database = database;
    }

    /** Does something in a transaction of its own; answers what it asked for once that is written. */
    within(mode, act) {
        return new Promise((done, fail) => {
            const transaction = this.database.transaction(TABLE, mode);
            const asked = act(transaction.objectStore(TABLE));
            transaction.oncomplete = () => done(asked.map(it => it.result));
            transaction.onerror = transaction.onabort = () => fail(transaction.error ?? new Error("aborted"));
        });
    }

    async read() {
        const [keys, records] = await this.within("readonly", table => [table.getAllKeys(), table.getAll()]);
        return keys.map((key, at) => [key, records[at]]);
    }

    put(key, record) {
        return this.within("readwrite", table => [table.put(record, key)]);
    }

    /** Removes a record, or only that of a time. */
    remove(key, time) {
        return this.within("readwrite", table => {
            const asked = table.get(key);
            asked.onsuccess = () => {
                if (time === undefined || asked.result?.time === time) {
                    table.delete(key);
                }
            };
            return [asked];
        });
    }
}

/** Keeps versions and drafts, one after another, and knows what isn't kept yet. */
export class Keeper {
    /** @param {{local: Shelf | null, database: Shelf | null, tab: string}} shelves `tab` is a word that no other tab has */
    constructor({local, database, tab}) {
        this.local = local;
        this.database = database;
        this.tab = tab;
        /**
         * What is to be kept and isn't yet, by its place; what fails stays here.
         * @type {Map<string, any>}
         */
        this.pending = new Map();
        /** @type {Set<string>} */
        this.failed = new Set();
        this.queue = Promise.resolve();
        this.isRefused = false;
        /**
         * Drops a version, but not this one, if that helps to make so much room; returns it, or null.
         * @type {(id: string, needed: number) => Version | null}
         */
        this.makeRoom = () => null;
        this.onChange = () => {};
    }

    get shelves() {
        return [this.database, this.local].filter(it => it);
    }

    /** Whether something isn't kept. */
    get isUnkept() {
        return this.pending.size > 0;
    }

    /** Whether something can't be kept. */
    get isFull() {
        return this.isRefused || this.failed.size > 0;
    }

    /** Reads all that is kept: versions, and drafts with their places. */
    async load() {
        const found = new Map();
        const names = ["local", "database"];
        // all is asked for at once
        const taking = Promise.all(names.map(name => this.probe(name)));
        for (const records of await Promise.all(names.map(name => this.readAll(name)))) {
            for (const [key, record] of records) {
                if (!(found.get(key)?.time > record.time)) {
                    found.set(key, record);
                }
            }
        }
        this.isRefused = !(await taking).includes(true);
        return sorted(found);
    }

    /** Whether a shelf takes something. */
    async probe(name) {
        try {
            const shelf = this[name];
            await Promise.all([shelf.put(PROBE, {}), shelf.remove(PROBE)]);
            return true;
        } catch {
            return false;
        }
    }

    /** What stands in a shelf; one that can't be read is used no more. */
    async readAll(name) {
        try {
            return await this[name].read();
        } catch {
            this[name] = null;
            return [];
        }
    }

    /** Keeps a version. The draft that it was is needed no more then, unless that was changed since. */
    put(version, draft = null) {
        this.enqueue(VERSION + version.id, version, () => draft && this.undraft(draft, version.id));
    }

    /** Removes a version. */
    remove(id) {
        const key = VERSION + id;
        this.forget(key);
        this.queue = this.queue.then(() => this.erase(key)).then(() => this.retry());
    }

    /** Keeps a draft, at once if it can be; returns its place and time. */
    draft(draft) {
        const place = `${DRAFT}${draft.line}-${this.tab}`;
        try {
            this.local.put(place, draft);
            this.forget(place);
            this.isRefused = false;
            this.onChange();
        } catch {
            this.enqueue(place, JSON.parse(JSON.stringify(draft)));
        }
        return {place, time: draft.time};
    }

    /** A draft is needed no more once this version is kept, unless there is a newer one at its place. */
    undraft({place, time}, id) {
        this.queue = this.queue.then(async () => {
            if (!this.pending.has(VERSION + id)) {
                if (this.pending.get(place)?.time === time) {
                    this.forget(place);
                }
                await this.erase(place, time);
            }
        });
    }

    forget(key) {
        this.pending.delete(key);
        this.failed.delete(key);
    }

    /** Writes a record after all before it. */
    enqueue(key, record, then = () => {}) {
        this.pending.set(key, record);
        this.queue = this.queue.then(() => this.retry()).then(async () => {
            if (this.pending.get(key) !== record) {
                return;
            }
            if (await this.write(key, record)) {
                this.isRefused = false;
                if (this.pending.get(key) === record) {
                    this.forget(key);
                }
                then();
            } else {
                this.failed.add(key);
            }
            this.onChange();
        });
    }

    /** Tries once more to write what failed. */
    async retry() {
        for (const key of [...this.failed]) {
            const record = this.pending.get(key);
            if (record && await this.write(key, record) && this.pending.get(key) === record) {
                this.forget(key);
                this.onChange();
            }
        }
    }

    /** Writes a record where there is room; makes some, but not much more than it takes. Answers whether it is written. */
    async write(key, record) {
        const needed = bytesOf({label: "", ...record});
        for (let freed = 0; ;) {
            const fault = await this.writeAnywhere(key, record);
            const gone = isQuota(fault) && freed < 2 * needed ? this.makeRoom(record.id, needed - freed) : null;
            if (!gone) {
                return fault === null;
            }
            freed += bytesOf(gone);
            await this.erase(VERSION + gone.id);
        }
    }

    /**
     * Writes a record into the first shelf that takes it, unless there is a newer one meanwhile. Answers null, or what it isn't
     * written for: want of room, if that is one cause.
     */
    async writeAnywhere(key, record) {
        let why = new Error("no storage");
        for (const shelf of this.shelves) {
            if (this.pending.get(key) !== record) {
                return null;
            }
            try {
                await shelf.put(key, record);
                return null;
            } catch (fault) {
                why = isQuota(why) ? why : fault;
            }
        }
        return why;
    }

    /** Removes what stands at a place, or only that of a time. */
    async erase(key, time) {
        for (const shelf of this.shelves) {
            try {
                await shelf.remove(key, time);
            } catch {
                // it stays
            }
        }
    }

    /** Waits until all is written that can be. */
    async idle() {
        for (let seen = null; seen !== this.queue;) {
            seen = this.queue;
            await seen;
        }
    }

    /** Calls back when another tab changes a battle of this line. */
    onOther(events, call) {
        events.addEventListener("storage", ({key, newValue}) => {
            if (key?.startsWith(DRAFT) && newValue && !key.endsWith(`-${this.tab}`)) {
                call(JSON.parse(newValue).line);
            }
        });
    }
}

/** Whether a shelf refused something for want of room: Firefox has a name of its own for it. */
function isQuota(fault) {
    return fault?.name === "QuotaExceededError" || fault?.name === "NS_ERROR_DOM_QUOTA_REACHED";
}

/** Returns records by their kinds. */
function sorted(found) {
    const versions = [], drafts = [];
    for (const [key, record] of found) {
        const isVersion = key.startsWith(VERSION);
        const version = versionOf(isVersion ? record : {...record, id: key});
        if (version && isVersion) {
            versions.push(version);
        } else if (version) {
            drafts.push({place: key, version});
        }
    }
    return {versions, drafts};
}
