// The one place that decides what is current, kept and shared. It has actions, and knows of no browser: views show it.
//
// Of one's battles one is current. What is about to go, as it is replaced, removed, cut or left, and what is run or sent, becomes
// a version first (versions.js). What is current and was changed is a draft, which is kept with each change.
import {areSame, checked, copyOf, firstBattle, isSame} from "./battles.js";
import {Limits} from "./limits.js";
import {cleanName, freeName} from "./names.js";
import {Archive, Why, versionOf} from "./versions.js";

/**
 * @typedef {import("./battles.js").Battle} Battle
 * @typedef {import("./battles.js").Robot} Robot
 * @typedef {import("./versions.js").Version} Version
 * @typedef {{line: string, isLinked: boolean, isTouched: boolean, battle: Battle}} Current
 * @typedef {{did: "removed" | "replaced", robot: Robot, at: number, by: Robot | null}} Undo
 */

/** The smallest robot that does something. */
export const NEW_SOURCE = "main() {\n  while (1) {\n    drive(0, 0);\n  }\n}\n";
// a change that takes away so many letters at once is one of another text
const CUT_LETTERS = 100;

/** How many letters of a text are neither at its start nor at its end in another one. */
export function lostBetween(before, after) {
    const most = Math.min(before.length, after.length);
    let start = 0;
    while (start < most && before[start] === after[start]) {
        start += 1;
    }
    let end = 0;
    while (end < most - start && before[before.length - 1 - end] === after[after.length - 1 - end]) {
        end += 1;
    }
    return before.length - start - end;
}

export class Store {
    /**
     * `keeper` keeps versions and drafts: put, remove, draft, undraft. `known` has the sources that are found elsewhere: those of
     * samples and steps. `newKey` makes keys of which none comes twice, `now` says the time, `most` how many bytes of versions stay.
     */
    constructor({keeper, known, newKey, now, most}) {
        this.keeper = keeper;
        this.newKey = newKey;
        this.now = now;
        this.known = new Set([NEW_SOURCE, ...known]);
        this.archive = new Archive(most);
        /** @type {(() => void)[]} */
        this.views = [];
        /** @type {Undo | null} */
        this.undoable = null;
        /**
         * Versions that were dropped to make room, and not told yet.
         * @type {Version[]}
         */
        this.dropped = [];
        this.isShared = false;
        /** @type {Current | null} */
        this.current = null;
        /**
         * Where the draft of what is current is kept.
         * @type {{place: string, time: number} | null}
         */
        this.drafted = null;
        this.shown = 0;
        this.latest = 0;
        keeper.makeRoom = (id, needed) => this.archive.canFree(needed, it => it.id === id) ? this.drop(id) : null;
    }

    /** The time, which is later than that of all that was kept before. */
    time() {
        this.latest = Math.max(this.now(), this.latest + 1, (this.archive.versions.at(-1)?.time ?? 0) + 1);
        return this.latest;
    }

    /** Calls back after each action. */
    onChange(view) {
        this.views.push(view);
    }

    changed() {
        this.views.forEach(view => view());
    }

    get battle() {
        return this.current.battle;
    }

    get robots() {
        return this.battle.robots;
    }

    /** The robot that is shown. */
    get robot() {
        return this.robots[this.shown];
    }

    get isFull() {
        return this.robots.length >= Limits.robots;
    }

    robotOf(key) {
        return this.robots.find(it => it.key === key);
    }

    // What is kept.

    /** Takes what the browser kept: versions, and drafts, which become versions too. */
    take({versions, drafts}) {
        versions.forEach(it => this.archive.add(it));
        for (const {place, version} of [...drafts].sort((a, b) => a.version.time - b.version.time)) {
            const draft = {place, time: version.time};
            const newest = this.archive.newestOf(version.line);
            if (newest && isSame(newest.battle, version.battle)) {
                this.keeper.undraft(draft, newest.id);
            } else {
                this.add({...version, id: this.newKey()}, draft);
            }
        }
    }

    /**
     * Adds a version, and keeps it; the draft that it was is needed no more then.
     * @param {Version} version
     * @param {{place: string, time: number} | null} draft
     */
    add(version, draft = null) {
        this.archive.add(version);
        this.keeper.put(version, draft);
        while (this.archive.bytes > this.archive.most) {
            const gone = this.drop(version.id);
            if (!gone) {
                return;
            }
            this.keeper.remove(gone.id);
        }
    }

    /** Drops the oldest version without a name, but not the one for which there is to be room. Returns it; null if there is none. */
    drop(id) {
        const gone = this.archive.dropOldest(it => it.id === id);
        if (gone) {
            this.dropped.push(gone);
            this.secure();
        }
        return gone;
    }

    /** Returns what was dropped since this was last asked. */
    takeDropped() {
        return this.dropped.splice(0);
    }

    /** Whether all texts of the current battle are found elsewhere. */
    get isKnown() {
        return this.robots.every(({source}) => this.known.has(source));
    }

    /** Keeps the current battle as a version, if it isn't one already, and if there is something of one's own in it. */
    keep(why) {
        const {line, isLinked, isTouched, battle} = this.current;
        const isLeft = why === Why.OPENED || why === Why.CLOSED;
        if (!isTouched && (isLeft || this.isKnown)) {
            return;
        }
        const newest = this.archive.newestOf(line);
        const isThere = newest && (why === Why.RUN ? areSame(newest.battle.robots, battle.robots) : isSame(newest.battle, battle));
        const draft = isLeft ? this.drafted : null;
        if (!isThere) {
            this.add({id: this.newKey(), line, time: this.time(), why, label: "", isLinked, isTouched, battle: keyed(battle)}, draft);
        } else if (draft) {
            this.keeper.undraft(draft, newest.id);
        }
    }

    /** Takes note of a change of the current battle, which is one's own from then on. */
    touch() {
        const {current} = this;
        if (this.isShared) {
            this.part();
        }
        current.isTouched = true;
        this.draft();
        this.changed();
    }

    draft() {
        const {line, isLinked, battle} = this.current;
        this.drafted = this.keeper.draft({line, time: this.time(), isLinked, isTouched: true, battle});
    }

    /** What is current becomes a draft, if the version that it was is gone. */
    secure() {
        const {current, drafted} = this;
        const newest = current && this.archive.newestOf(current.line);
        if (current?.isTouched && !drafted && !(newest && isSame(newest.battle, current.battle))) {
            this.draft();
        }
    }

    /** Another tab has the current battle too, and changed it: what is changed here gets a line of its own. */
    share() {
        this.isShared = true;
        this.changed();
    }

    part() {
        this.isShared = false;
        this.isApart = true;
        this.current.line = this.newKey();
    }

    /** Returns once whether the battle was parted from another tab's. */
    takeApart() {
        const {isApart} = this;
        this.isApart = false;
        return isApart === true;
    }

    // What is current.

    /** Makes a battle the current one; the one before is kept. */
    open(battle, {line = this.newKey(), isLinked = false, isTouched = false} = {}) {
        if (this.current) {
            this.keep(Why.OPENED);
        }
        const robots = battle.robots.map(it => ({...it, key: it.key ?? this.newKey()}));
        this.current = {line, isLinked, isTouched, battle: {robots, settings: {...battle.settings}}};
        this.undoable = this.drafted = null;
        this.isShared = false;
        this.shown = 0;
        this.changed();
    }

    /** Begins: with a link's battle, or with what was changed last, or with samples. Returns whether it is with samples. */
    begin(linked, samples) {
        const last = this.archive.versions.findLast(it => it.isTouched);
        if (linked) {
            this.openLink(linked);
        } else if (last) {
            this.openVersion(last.id);
        } else {
            this.open(firstBattle(samples, {name: "robot1.r", source: NEW_SOURCE}));
        }
        return !linked && !last;
    }

    /** Opens a link's battle beside one's own; if it is one's own, as one sent it, goes on with that. Returns whether it is a new one. */
    openLink(battle) {
        if (this.current && !this.current.isLinked && this.current.isTouched) {
            if (isSame(this.battle, battle)) {
                this.changed();
                return false;
            }
            this.keep(Why.OPENED);
        }
        const own = this.archive.ownOf(battle);
        if (own) {
            this.openVersion(own.id);
            return false;
        }
        this.open(checked(copyOf(battle)), {isLinked: true});
        return true;
    }

    /** Goes on with a version. What is current is kept; that of the same line stays the newer one of it until the next change. */
    openVersion(id) {
        const version = this.archive.get(id);
        if (version) {
            const {line, isLinked, isTouched, battle} = version;
            const isOlder = this.archive.newestOf(line) !== version || this.current?.line === line && !isSame(this.battle, battle);
            this.open(battle, {line, isLinked, isTouched});
            if (isOlder && isTouched) {
                this.touch();
            }
        }
    }

    /** The version to come back to from a link: the newest of one's own, or else of all that were changed; null if there is none. */
    get last() {
        const others = this.archive.heads.filter(({line, isTouched}) => isTouched && line !== this.current?.line);
        return others.find(({isLinked}) => !isLinked) ?? others[0] ?? null;
    }

    /** Begins a battle of samples, or of the smallest robot. */
    beginNew(battle = firstBattle([], {name: "robot1.r", source: NEW_SOURCE})) {
        this.open(battle);
    }

    // What is changed.

    show(at) {
        this.shown = Math.max(0, Math.min(at, this.robots.length - 1));
        this.changed();
    }

    set(settings) {
        this.battle.settings = {...settings};
        this.touch();
    }

    /** Gives a robot a source. One that lacks much of the one before is another text. */
    write(key, source) {
        const robot = this.robotOf(key);
        if (robot && robot.source !== source) {
            if (lostBetween(robot.source, source) >= CUT_LETTERS) {
                this.keep(Why.CUT);
            }
            robot.source = source;
            this.touch();
        }
    }

    /** Gives a robot a name, as it is in reports and links. */
    rename(key, text) {
        const robot = this.robotOf(key);
        const name = robot && cleanName(text, this.otherName(key));
        if (robot && robot.name !== name) {
            robot.name = name;
            this.touch();
        }
    }

    /** A name that no robot but this one has. */
    otherName(key) {
        return freeName(this.robots.filter(it => it.key !== key));
    }

    /** Adds as many of these robots as there is room for, and shows the first of them. Returns how many those are. */
    addRobots(robots) {
        const first = this.robots.length;
        const added = robots.slice(0, Limits.robots - first).map(({name, source}) => ({key: this.newKey(), name, source}));
        if (added.length) {
            this.robots.push(...added);
            this.shown = first;
            this.touch();
        }
        return added.length;
    }

    /** Removes a robot, unless it is the only one. Returns whether it is removed. */
    removeRobot(key) {
        const at = this.robots.findIndex(it => it.key === key);
        if (at < 0 || this.robots.length === 1) {
            return false;
        }
        this.keep(Why.REMOVED);
        const [robot] = this.robots.splice(at, 1);
        this.undoable = {did: "removed", robot, at, by: null};
        this.shown = Math.max(0, at - 1);
        this.touch();
        return true;
    }

    /** Puts another robot in place of one. It keeps that one's key if it is an earlier version of it. */
    replaceRobot(key, {name, source}, isSameRobot = false) {
        const at = this.robots.findIndex(it => it.key === key);
        if (at >= 0) {
            this.keep(Why.REPLACED);
            const robot = this.robots[at];
            const by = {key: isSameRobot ? key : this.newKey(), name, source};
            this.robots[at] = by;
            this.undoable = {did: "replaced", robot, at, by: {...by}};
            this.shown = at;
            this.touch();
        }
    }

    /**
     * Takes back the last removal or replacement, and nothing else: what was written since stays. A robot whose place is taken by
     * newer work comes back beside it. Returns whether there was room.
     */
    undo() {
        const {undoable} = this;
        if (!undoable) {
            return false;
        }
        const {robot, at, by} = undoable;
        const place = by ? this.robots.findIndex(it => it.key === by.key && areSame([it], [by])) : -1;
        if (place < 0 && this.isFull) {
            return false;
        }
        this.undoable = null;
        if (place >= 0) {
            this.keep(Why.REPLACED);
            this.robots[place] = robot;
            this.shown = place;
        } else {
            const back = this.robotOf(robot.key) ? {...robot, key: this.newKey()} : robot;
            this.shown = Math.min(at + (by ? 1 : 0), this.robots.length);
            this.robots.splice(this.shown, 0, back);
        }
        this.touch();
        return true;
    }

    // What is run, sent and left.

    /** The battle is run: what fights is kept. Returns a copy of it. */
    run() {
        this.keep(Why.RUN);
        this.changed();
        return copyOf(this.battle);
    }

    /** A link to the battle, or a file with it, is made. */
    send() {
        this.keep(Why.SENT);
        this.changed();
        return copyOf(this.battle);
    }

    // The list.

    nameVersion(id, label) {
        const named = this.archive.name(id, label);
        if (named) {
            this.keeper.put(named);
            this.changed();
        }
    }

    /** Deletes a version. Returns how much room that frees. */
    deleteVersion(id) {
        const freed = this.archive.remove(id);
        if (freed) {
            this.secure();
            this.keeper.remove(id);
            this.changed();
        }
        return freed;
    }

    /** Takes the versions of a file; those that are there stay as they are. Returns how many are new. */
    readVersions(versions) {
        const fresh = versions.map(versionOf).filter(it => it && !this.archive.get(it.id));
        fresh.forEach(it => this.add(it));
        this.changed();
        return fresh.length;
    }
}

/** Returns a copy of a battle with the robots' keys. */
function keyed({robots, settings}) {
    return {robots: robots.map(it => ({...it})), settings: {...settings}};
}
