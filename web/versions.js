// Versions: what one's battles were, each with its time and why it was kept. Nothing here knows of a browser.
//
// The versions of a battle that was changed again and again have the same line. A version never changes, but for the name
// that one gives it. If there is no more room, the oldest ones without a name go first.
import {areSame, checked, isSame} from "./battles.js";

/**
 * @typedef {import("./battles.js").Battle} Battle
 * @typedef {{id: string, line: string, time: number, why: string, label: string, isLinked: boolean, isTouched: boolean, battle: Battle}} Version
 */

/** Why a version was kept. */
export const Why = Object.freeze({
    RUN: "run", REPLACED: "replaced", REMOVED: "removed", CUT: "cut", OPENED: "opened", CLOSED: "closed", SENT: "sent", READ: "read",
});
const REASONS = Object.values(Why);
const MOST_LABEL = 60;
// what a version takes beside its robots
const RECORD_BYTES = 300;
const EXPORTED = "crobots battles";

/** Returns how much room a version takes, about: two bytes a letter. */
export function bytesOf({battle, label}) {
    return battle.robots.reduce((sum, {name, source}) => sum + 2 * (name.length + source.length), RECORD_BYTES + 2 * label.length);
}

/** Returns a label without what isn't seen in a line. */
function cleanLabel(text) {
    return [...text.replace(/[\p{Cc}\p{Cf}\p{Zl}\p{Zp}\p{Cs}]/gu, "")].slice(0, MOST_LABEL).join("").trim();
}

/** Returns what a version has to have, of what a file or the storage holds; null if it lacks something. */
export function versionOf(given) {
    const battle = checked(given?.battle);
    const isText = [given?.id, given?.line].every(it => typeof it === "string" && it !== "");
    if (!battle || !isText || !Number.isFinite(given.time)) {
        return null;
    }
    const {id, line, time, why, label, isLinked, isTouched} = given;
    return {
        id, line, time, why: REASONS.includes(why) ? why : Why.READ, label: cleanLabel(String(label ?? "")),
        isLinked: isLinked === true, isTouched: isTouched !== false, battle,
    };
}

/** All versions, the oldest first. */
export class Archive {
    constructor(most) {
        this.most = most;
        this.bytes = 0;
        /** @type {Version[]} */
        this.versions = [];
    }

    /** Adds a version at its place by its time. Returns whether it is a new one. */
    add(version) {
        if (this.get(version.id)) {
            return false;
        }
        const at = this.versions.findLastIndex(({time}) => time <= version.time) + 1;
        this.versions.splice(at, 0, version);
        this.bytes += bytesOf(version);
        return true;
    }

    get(id) {
        return this.versions.find(it => it.id === id);
    }

    /** Removes a version. Returns how much room that frees. */
    remove(id) {
        const at = this.versions.findIndex(it => it.id === id);
        if (at < 0) {
            return 0;
        }
        const [gone] = this.versions.splice(at, 1);
        this.bytes -= bytesOf(gone);
        return bytesOf(gone);
    }

    /** Names a version, or takes its name away. Returns it as it is then. */
    name(id, label) {
        const at = this.versions.findIndex(it => it.id === id);
        if (at < 0) {
            return null;
        }
        const named = {...this.versions[at], label: cleanLabel(label)};
        this.bytes += bytesOf(named) - bytesOf(this.versions[at]);
        this.versions[at] = named;
        return named;
    }

    /** Whether versions without a name, but for those that are to stay, take so much room. */
    canFree(bytes, stays) {
        return this.versions.reduce((sum, it) => sum + (it.label || stays(it) ? 0 : bytesOf(it)), 0) >= Math.max(1, bytes);
    }

    /**
     * Drops the oldest version without a name, but for those that are to stay. Returns it; null if there is none.
     * @param {(it: Version) => boolean} stays
     */
    dropOldest(stays) {
        const oldest = this.versions.find(it => !it.label && !stays(it));
        if (oldest) {
            this.remove(oldest.id);
        }
        return oldest ?? null;
    }

    /** The newest version of a line. */
    newestOf(line) {
        return this.versions.findLast(it => it.line === line) ?? null;
    }

    /** The newest version of each line, the newest first. */
    get heads() {
        const lines = new Set();
        return [...this.versions].reverse().filter(({line}) => !lines.has(line) && lines.add(line));
    }

    /** The versions of a line, the newest first. */
    versionsOf(line) {
        return this.versions.filter(it => it.line === line).reverse();
    }

    /** What a robot was: each {version, robot}, the newest first, and none twice in a row. */
    historyOf(key) {
        const found = [...this.versions].reverse().flatMap(version => {
            const robot = version.battle.robots.find(it => it.key === key);
            return robot ? [{version, robot}] : [];
        });
        return found.filter(({robot}, at) => !at || !areSame([robot], [found[at - 1].robot]));
    }

    /** The version of one's own that is the newest of its line and has this battle; null if there is none. */
    ownOf(battle) {
        return this.heads.find(it => it.isTouched && !it.isLinked && isSame(it.battle, battle)) ?? null;
    }

    /** The versions in whose names, labels or sources a text stands, by the letters alone; the newest first. */
    found(text) {
        const wanted = text.trim().toLowerCase();
        const has = it => it.toLowerCase().includes(wanted);
        return [...this.versions].reverse().filter(({label, battle}) =>
            has(label) || battle.robots.some(({name, source}) => has(name) || has(source)));
    }
}

/** Returns versions as the text of a file. */
export function exported(versions) {
    return `${JSON.stringify({kind: EXPORTED, versions}, null, 1)}\n`;
}

/** Returns the versions of such a text, and how many in it can't be read; null if it is none. */
export function imported(text) {
    try {
        const {kind, versions} = JSON.parse(text);
        const read = kind === EXPORTED ? versions.map(versionOf) : null;
        return read && {versions: read.filter(it => it), unread: read.filter(it => !it).length};
    } catch {
        return null;
    }
}
