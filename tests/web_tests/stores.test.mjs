// Tests of the store: whatever is done in whatever order, each text that was run, sent, replaced, removed, cut or left can be found.
//
// CROBOTS_WEB names a folder with the modules of web/ as Node takes them. A sequence of actions has a seed; CROBOTS_SEQUENCES says how
// many there are, and CROBOTS_SEED which is the first. What has to be found is worked out by the test alone: it keeps a set of texts.
import assert from "node:assert/strict";
import path from "node:path";
import {test} from "node:test";
import {pathToFileURL} from "node:url";

const load = name => import(pathToFileURL(path.join(process.env.CROBOTS_WEB, `${name}.js`)));
const {NEW_SOURCE, Store, lostBetween} = await load("store");
const {Archive, bytesOf, exported, imported} = await load("versions");
const {Keeper, LocalShelf} = await load("shelves");
const {diffOf} = await load("diffs");

const SEQUENCES = Number(process.env.CROBOTS_SEQUENCES ?? 10000);
const FIRST_SEED = Number(process.env.CROBOTS_SEED ?? 1);
const ACTIONS = 24;
const SETTINGS = {matches: 1, limit: 500000, seed: "1", first: 1, profile: 1};
const SAMPLES = ["hunter.r", "sniper.r", "pilot.r"].map(name => ({name, source: `/* the sample ${name} */ main() { while (1) ; }`, level: 1}));
const KNOWN = [NEW_SOURCE, ...SAMPLES.map(({source}) => source)];

/** Numbers of a seed (mulberry32). */
function chance(seed) {
    let state = seed;
    const next = () => {
        state = state + 0x6D2B79F5 | 0;
        let it = Math.imul(state ^ state >>> 15, 1 | state);
        it = it + Math.imul(it ^ it >>> 7, 61 | it) ^ it;
        return ((it ^ it >>> 14) >>> 0) / 2 ** 32;
    };
    return {below: most => Math.floor(next() * most), of: list => list[Math.floor(next() * list.length)]};
}

/** A storage of the browser with a number of letters; it fails by chance if it is to. */
class Storage {
    constructor(most, fails = () => false) {
        Object.assign(this, {most, fails, texts: new Map()});
    }

    get length() {
        return this.texts.size;
    }

    key(at) {
        return [...this.texts.keys()][at];
    }

    getItem(key) {
        return this.texts.get(key) ?? null;
    }

    setItem(key, text) {
        const used = [...this.texts].reduce((sum, [name, it]) => sum + (name === key ? 0 : it.length), 0);
        if (this.fails()) {
            throw new Error("the disk failed");
        }
        if (used + text.length > this.most) {
            throw new DOMException("full", "QuotaExceededError");
        }
        this.texts.set(key, text);
    }

    removeItem(key) {
        this.texts.delete(key);
    }
}

/** A database: what a storage does, answered later. */
class Database {
    constructor(storage) {
        this.shelf = new LocalShelf(storage);
    }

    async later(act) {
        await null;
        if (this.isGone) {
            throw new Error("the page is gone");
        }
        return act();
    }

    read() {
        return this.later(() => this.shelf.read());
    }

    put(key, record) {
        const copy = structuredClone(record);
        return this.later(() => this.shelf.put(key, copy));
    }

    remove(key, time) {
        return this.later(() => this.shelf.remove(key, time));
    }
}

const REFUSING = {getItem() { throw new Error("no"); }, setItem() { throw new Error("no"); }, removeItem() {}, key() {}, get length() { throw new Error("no"); }};

/** Where a browser keeps: of each kind there is one. */
function device(kind, random) {
    const flaky = () => random.below(3) === 0;
    return {
        both: {local: new Storage(1e7), database: new Storage(1e7)},
        "no database": {local: new Storage(1e7), database: null},
        "no storage": {local: REFUSING, database: new Storage(1e7)},
        small: {local: new Storage(9000), database: new Storage(12000)},
        "small storage": {local: new Storage(16000), database: null},
        nothing: {local: REFUSING, database: null},
        flaky: {local: new Storage(1e7, flaky), database: new Storage(1e7, flaky)},
    }[kind];
}
const KINDS = ["both", "no database", "no storage", "small", "small storage", "nothing", "flaky"];

let count = 0;
const textOf = (random, letters = random.of([3, 40, 200, 400])) => `/* ${count += 1} */ ${String.fromCharCode(97 + random.below(26)).repeat(letters)}`;
const sourcesOf = ({robots}) => robots.map(({source}) => source);

/** A page: a store over what its browser keeps. */
class Opened {
    constructor(kept, now, most) {
        this.database = kept.database && new Database(kept.database);
        this.keeper = new Keeper({local: new LocalShelf(kept.local), database: this.database, tab: `tab${count += 1}`});
        this.store = new Store({keeper: this.keeper, known: KNOWN, newKey: () => `k${count += 1}`, now, most});
    }

    async begin(linked = null) {
        this.store.take(await this.keeper.load());
        this.store.begin(linked, SAMPLES);
        return this;
    }

    /** The page is left: what it has begun is done no more. */
    leave() {
        this.keeper.local = null;
        if (this.database) {
            this.database.isGone = true;
        }
    }

    /** All texts that are versions. */
    get versionTexts() {
        return new Set([...KNOWN, ...this.store.archive.versions.flatMap(({battle}) => sourcesOf(battle))]);
    }

    /** All texts that can be found on the page. */
    get texts() {
        return new Set([...this.versionTexts, ...sourcesOf(this.store.battle)]);
    }
}

/** What one does with the page, and what has to be found then. Each action returns the texts that it lets go. */
const left = store => store.current.isTouched ? sourcesOf(store.battle) : [];
/** What is left by an act, unless it stays. */
const leaving = (store, act) => {
    const {current} = store;
    const gone = left(store);
    act();
    return store.current === current ? [] : gone;
};
const anyKey = (store, random) => random.of(store.robots).key;
const anyVersion = (store, random) => random.of(store.archive.versions);

const DOES = {
    writes: (store, random) => { const {key, source} = random.of(store.robots); store.write(key, `${source}${random.below(10)}`); return []; },
    "writes another": (store, random) => {
        const {key, source} = random.of(store.robots);
        const text = textOf(random);
        const isCut = lostBetween(source, text) >= 100;
        store.write(key, text);
        return isCut ? [source] : [];
    },
    renames: (store, random) => { store.rename(anyKey(store, random), random.of([" a.r ", "b.r", "", "x".repeat(99)])); return []; },
    sets: (store, random) => { store.set({...store.battle.settings, seed: String(random.below(5))}); return []; },
    adds: (store, random) => { store.addRobots([{name: "n.r", source: textOf(random)}, random.of(SAMPLES)].slice(random.below(2))); return []; },
    removes: (store, random) => { const {key, source} = random.of(store.robots); return store.removeRobot(key) ? [source] : []; },
    replaces: (store, random) => {
        const {key, source} = random.of(store.robots);
        store.replaceRobot(key, random.of([random.of(SAMPLES), {name: "r.r", source: textOf(random)}]));
        return [source];
    },
    "brings back": (store, random) => {
        const {key, source} = random.of(store.robots);
        const was = store.archive.historyOf(key);
        if (!was.length) {
            return [];
        }
        store.replaceRobot(key, random.of(was).robot, true);
        return [source];
    },
    undoes: store => {
        const {undoable} = store;
        const before = store.robots.map(it => ({...it}));
        const wasDone = store.undo();
        // nothing but what it names has changed
        for (const {key, name, source} of before) {
            const isNamed = undoable?.by && undoable.by.key === key && undoable.by.source === source && undoable.by.name === name;
            assert.ok(isNamed || store.robots.some(it => it.key === key && it.name === name && it.source === source), "undo changed newer work");
        }
        assert.equal(wasDone, Boolean(wasDone && store.robots.some(({source}) => source === undoable.robot.source)));
        return [];
    },
    runs: store => { store.run(); return sourcesOf(store.battle); },
    sends: store => { store.send(); return store.current.isTouched || !store.isKnown ? sourcesOf(store.battle) : []; },
    "follows a link": (store, random) => leaving(store, () => store.openLink({robots: [{name: "friend.r", source: textOf(random)}], settings: SETTINGS})),
    "follows its own link": (store, random) => leaving(store, () => store.openLink((anyVersion(store, random) ?? store).battle)),
    opens: (store, random) => leaving(store, () => store.openVersion(anyVersion(store, random)?.id)),
    "begins anew": (store, random) => leaving(store, () => store.beginNew(random.of([undefined, {robots: [SAMPLES[2]], settings: SETTINGS}]))),
    shows: (store, random) => { store.show(random.below(9)); return []; },
    "names a version": (store, random) => { store.nameVersion(anyVersion(store, random)?.id, random.of(["mine", "", " first \n win "])); return []; },
    "another tab changes it": store => { store.share(); return []; },
};
const NAMES = [...Object.keys(DOES), "deletes", "reloads", "reloads", "carries over"];

/** What is dropped is the oldest without a name, and is told. Returns its texts. */
function droppedBy(store) {
    const gone = store.takeDropped();
    const kept = store.archive.versions.filter(it => !it.label);
    for (const it of gone) {
        assert.equal(it.label, "", "a named version was dropped");
        assert.ok(kept.filter(({time}) => time < it.time).length <= 1, "a newer version was dropped before an older one");
    }
    return gone.flatMap(({battle}) => sourcesOf(battle));
}

function check(must, texts, where) {
    for (const text of must) {
        assert.ok(texts.has(text), `${where}: lost ${text.slice(0, 30)}`);
    }
}

/** What is found by a page that is opened on what the browser keeps now. */
async function keptTexts(kept) {
    const keeper = new Keeper({local: new LocalShelf(kept.local), database: kept.database && new Database(kept.database), tab: "looks"});
    keeper.probe = async () => true;
    const {versions, drafts} = await keeper.load();
    return new Set([...KNOWN, ...[...versions, ...drafts.map(it => it.version)].flatMap(({battle}) => sourcesOf(battle))]);
}

/** That a battle is parted from another tab's is told once, and only if that has it, too; and the room that versions take is theirs. */
function checkTold(store, wasShared, where) {
    assert.ok(!store.takeApart() || wasShared, `${where}: nothing was shared`);
    assert.equal(store.takeApart(), false, `${where}: it is told twice`);
    const {archive} = store;
    const anew = new Archive(archive.most);
    archive.versions.forEach(it => anew.add(it));
    assert.equal(archive.bytes, anew.bytes, `${where}: other bytes than those of the versions`);
}

async function sequence(seed) {
    const random = chance(seed);
    const kind = KINDS[seed % KINDS.length];
    const kept = device(kind, random);
    let clock = 1000;
    const now = () => clock += random.of([-500, 0, 1, 1000]);
    const most = random.of([1e7, 1e7, 12000]);
    let page = await new Opened(kept, now, most).begin();
    const must = new Set();
    const forgive = texts => texts.forEach(it => must.delete(it));
    for (let step = 0; step < ACTIONS; step += 1) {
        const name = random.of(NAMES);
        const where = `seed ${seed}, ${kind}, step ${step}, ${name}`;
        const {store, keeper} = page;
        const wasShared = store.isShared;
        if (name === "reloads") {
            const isEasy = random.below(2) === 0;
            if (isEasy) {
                await keeper.idle();
            }
            // what isn't kept is said, and the page asks before it goes
            const unkept = [...keeper.pending.values()].flatMap(({battle}) => sourcesOf(battle));
            left(store).forEach(it => must.add(it));
            forgive([...unkept, ...droppedBy(store)]);
            page.leave();
            page = await new Opened(kept, now, most).begin(random.below(4) ? null : {robots: [{name: "f.r", source: textOf(random)}], settings: SETTINGS});
        } else if (name === "deletes") {
            const version = anyVersion(store, random);
            if (version) {
                assert.ok(store.deleteVersion(version.id) > 0);
                // what is shown may go now with the next key
                const texts = page.versionTexts;
                forgive(sourcesOf(version.battle).filter(it => !texts.has(it)));
            }
        } else if (name === "carries over") {
            // a file with all versions, which another browser reads
            const {versions, unread} = imported(exported(store.archive.versions));
            const other = await new Opened(device("both", random), now, 1e7).begin();
            assert.equal(other.store.readVersions(versions), store.archive.versions.length, where);
            assert.equal(unread, 0);
            check(new Set(store.archive.versions.flatMap(({battle}) => sourcesOf(battle))), other.texts, where);
        } else {
            try {
                DOES[name](store, random).forEach(it => must.add(it));
            } catch (fault) {
                fault.message = `${where}: ${fault.message}`;
                throw fault;
            }
        }
        const gone = new Set(droppedBy(page.store));
        checkTold(store, wasShared, where);
        const texts = page.texts;
        gone.forEach(it => page.versionTexts.has(it) || must.delete(it));
        check(must, texts, where);
        assert.ok(page.store.robots.length >= 1 && page.store.robots.length <= 4, where);
        assert.equal(new Set(page.store.robots.map(({key}) => key)).size, page.store.robots.length, `${where}: two robots have a key`);
        if (step % 4 === 3) {
            await page.keeper.idle();
            const later = new Set(droppedBy(page.store));
            later.forEach(it => page.versionTexts.has(it) || must.delete(it));
            const there = await keptTexts(kept);
            const unkept = new Set([...page.keeper.pending.values()].flatMap(({battle}) => sourcesOf(battle)));
            const wanted = [...must, ...left(page.store)];
            wanted.forEach(it => assert.ok(there.has(it) || unkept.has(it), `${where}: not kept: ${it.slice(0, 30)}`));
            assert.ok(unkept.size === 0 || page.keeper.isUnkept, `${where}: unkept, and not said`);
            assert.ok(kind !== "nothing" || page.keeper.isRefused, `${where}: refused, and not said`);
        }
    }
}

test(`${SEQUENCES} sequences of actions lose nothing`, async () => {
    for (let seed = FIRST_SEED; seed < FIRST_SEED + SEQUENCES; seed += 1) {
        await sequence(seed);
    }
});

// The ways in which earlier pages lost work, and what else is promised, by hand.

const robot = (name, source) => ({name, source});
const own = "main() { drive(10, 20); }";
const friends = {robots: [robot("friend.r", "main() { drive(30, 40); }")], settings: SETTINGS};

/** A page with a robot of one's own, and one more sample. */
async function written(kept = device("both")) {
    const page = await new Opened(kept, Date.now, 1e7).begin();
    page.store.write(page.store.robots[0].key, own);
    return page;
}

/** A version of a robot alone. */
const version = (id, line, time, source) => ({id, line, time, why: "run", label: "", isLinked: false, isTouched: true, battle: {robots: [robot("a.r", source)], settings: SETTINGS}});

/** A list in another order. */
function shuffled(list, random) {
    const left = [...list];
    return list.map(() => left.splice(random.below(left.length), 1)[0]);
}

const has = (store, source) => store.archive.versions.some(({battle}) => sourcesOf(battle).includes(source));

test("undo brings back what it names, and leaves newer work", async () => {
    const {store} = await written();
    const [first, second] = store.robots.map(it => it.key);
    store.removeRobot(second);
    store.addRobots([robot("newer.r", "main() { }")]);
    store.write(store.robots[1].key, "main() { /* ten minutes of work */ }");
    store.set({...SETTINGS, matches: 9});
    assert.equal(store.undo(), true);
    assert.deepEqual(sourcesOf(store.battle), [own, KNOWN[2], "main() { /* ten minutes of work */ }"]);
    assert.equal(store.battle.settings.matches, 9);
    assert.equal(store.undo(), false);
    store.replaceRobot(first, robot("new.r", "main() {}"));
    store.undo();
    assert.deepEqual([store.robots[0].source, store.robots[0].key], [own, first]);
});

test("a robot that was replaced comes back beside newer work, if there is room", async () => {
    const {store} = await written();
    store.replaceRobot(store.robots[0].key, robot("new.r", "main() {}"));
    store.write(store.robots[0].key, "main() { /* newer */ }");
    assert.equal(store.undo(), true);
    assert.deepEqual(sourcesOf(store.battle), ["main() { /* newer */ }", own, KNOWN[2]]);
    store.removeRobot(store.robots[2].key);
    store.addRobots([robot("a.r", "a"), robot("b.r", "b")]);
    assert.equal(store.undo(), false);
    assert.deepEqual(sourcesOf(store.battle), ["main() { /* newer */ }", own, "a", "b"]);
});

test("undo of another battle is none", async () => {
    const {store} = await written();
    store.removeRobot(store.robots[1].key);
    store.openLink(friends);
    assert.equal(store.undo(), false);
    assert.deepEqual(sourcesOf(store.battle), sourcesOf(friends));
    assert.ok(has(store, own));
});

test("a robot that was replaced is found after a reload, a drop of a file, and a second removal", async () => {
    const kept = device("both");
    const page = await written(kept);
    page.store.replaceRobot(page.store.robots[0].key, SAMPLES[2]);
    page.store.addRobots([robot("dropped.r", "main() { }")]);
    page.store.removeRobot(page.store.robots[2].key);
    await page.keeper.idle();
    assert.ok(has((await new Opened(kept, Date.now, 1e7).begin()).store, own));
});

test("unchanged samples are no battles of one's own", async () => {
    const page = await written();
    for (let time = 0; time < 20; time += 1) {
        page.store.beginNew({robots: SAMPLES.slice(0, 2).map(({name, source}) => robot(name, source)), settings: SETTINGS});
        page.store.run();
    }
    assert.deepEqual(page.store.archive.heads.map(({battle}) => sourcesOf(battle)), [[own, KNOWN[2]]]);
});

test("a full storage is said, has its oldest versions dropped first, and can be freed", async () => {
    const page = await written({local: new Storage(6000), database: null});
    const {store, keeper} = page;
    for (let time = 0; time < 9; time += 1) {
        store.write(store.robots[0].key, `${"x".repeat(700)}${time}`);
        store.run();
        await keeper.idle();
        store.nameVersion(store.archive.versions.at(-1).id, time === 0 ? "the first" : "");
        await keeper.idle();
    }
    const gone = store.takeDropped();
    assert.ok(gone.length > 2 && gone.every(({label}) => label === ""));
    assert.deepEqual(gone.map(({time}) => time), gone.map(({time}) => time).sort((a, b) => a - b));
    assert.ok(has(store, `${"x".repeat(700)}0`) && !has(store, `${"x".repeat(700)}1`) && has(store, `${"x".repeat(700)}8`));
    store.archive.versions.filter(({label}) => !label).forEach(({id}) => store.nameVersion(id, "mine"));
    store.write(store.robots[0].key, "y".repeat(5500));
    await keeper.idle();
    assert.ok(keeper.isFull && keeper.isUnkept);
    for (const {id} of [...store.archive.versions]) {
        assert.ok(store.deleteVersion(id) > 1000);
    }
    await keeper.idle();
    assert.ok(!keeper.isFull && !keeper.isUnkept);
});

test("a refused storage is said before the first change", async () => {
    const page = await new Opened(device("nothing"), Date.now, 1e7).begin();
    assert.ok(page.keeper.isFull);
    page.store.write(page.store.robots[0].key, own);
    await page.keeper.idle();
    assert.ok(page.keeper.isUnkept);
    assert.ok(!(await written()).keeper.isFull);
});

test("one's own battle that was sent stays one's own after a reload", async () => {
    const kept = device("both");
    const page = await written(kept);
    const link = page.store.send();
    await page.keeper.idle();
    const later = await new Opened(kept, Date.now, 1e7).begin(link);
    assert.equal(later.store.current.isLinked, false);
    assert.equal(later.store.current.line, page.store.current.line);
    later.store.write(later.store.robots[0].key, `${own} `);
    assert.equal(later.store.archive.heads.filter(({isLinked}) => isLinked).length, 0);
    const other = await new Opened(kept, Date.now, 1e7).begin(friends);
    assert.deepEqual([other.store.current.isLinked, other.store.last.battle.robots[0].source], [true, `${own} `]);
});

test("what earlier pages kept is read", async () => {
    const kept = device("both");
    kept.local.setItem("crobots", JSON.stringify({robots: [robot("oldest.r", "main() { 1; }")]}));
    kept.local.setItem("crobots-battle-17-1-x", `1700000000000-1-x\n${JSON.stringify({battle: {robots: [robot("old.r", own)], settings: SETTINGS}, isLinked: false})}`);
    kept.local.setItem("crobots-battle-18", "no battle");
    const page = await new Opened(kept, Date.now, 1e7).begin();
    assert.deepEqual(sourcesOf(page.store.battle), [own]);
    assert.deepEqual(page.store.archive.versions.map(({battle}) => battle.robots[0].name), ["oldest.r", "old.r"]);
    await page.keeper.idle();
    assert.deepEqual([...kept.local.texts.keys()], ["crobots-battle-18"]);
    assert.ok(has((await new Opened(kept, Date.now, 1e7).begin()).store, "main() { 1; }"));
});

test("two tabs with a battle keep both", async () => {
    const kept = device("both");
    const one = await written(kept), other = await new Opened(kept, Date.now, 1e7).begin();
    other.store.write(other.store.robots[0].key, "main() { /* the other tab */ }");
    one.store.share();
    one.store.write(one.store.robots[0].key, "main() { /* this tab */ }");
    assert.equal(one.store.takeApart(), true);
    await Promise.all([one, other].map(it => it.keeper.idle()));
    const {store} = await new Opened(kept, Date.now, 1e7).begin();
    assert.ok(has(store, "main() { /* the other tab */ }") && has(store, "main() { /* this tab */ }"));
    assert.equal(store.archive.heads.length, 2);
});

test("drafts become versions in whatever order they are read", () => {
    const random = chance(76);
    for (let time = 0; time < 300; time += 1) {
        const versions = Array.from({length: random.below(4)}, (_, at) => version(`v${at}`, random.of(["x", "y"]), 10 * at + 5, random.of(["a", "b", "c"])));
        const times = Array.from({length: 1 + random.below(5)}, (_, at) => 7 * at + random.below(7)).sort((a, b) => a - b);
        const drafts = times.map((at, number) => ({place: `p${number}`, version: version(`p${number}`, random.of(["x", "y"]), at, random.of(["a", "b", "c"]))}));
        // by hand: one after another by time, each is a version unless the newest of its line has the same text
        const wanted = [...versions];
        const newest = line => wanted.filter(it => it.line === line).sort((a, b) => a.time - b.time).at(-1);
        const gone = [];
        drafts.forEach(({place, version: it}) => newest(it.line)?.battle.robots[0].source === it.battle.robots[0].source ? gone.push(place) : wanted.push(it));
        const told = it => `${it.line} ${it.time} ${it.battle.robots[0].source}`;
        const undrafted = [];
        const keeper = {put() {}, remove() {}, undraft({place}) { undrafted.push(place); }};
        const store = new Store({keeper, known: [], newKey: () => `n${count += 1}`, now: () => 1e6, most: 1e7});
        store.take({versions, drafts: shuffled(drafts, random)});
        assert.deepEqual(store.archive.versions.map(told), wanted.sort((a, b) => a.time - b.time).map(told));
        assert.deepEqual(undrafted.sort(), gone.sort());
    }
});

test("what is dropped for drafts is older than each of them", () => {
    const random = chance(77);
    for (let time = 0; time < 200; time += 1) {
        const drafts = Array.from({length: 2 + random.below(5)}, (_, at) => ({place: `p${at}`, version: version(`p${at}`, `l${at}`, 10 * at, `${at}`.repeat(300))}));
        const keeper = {put() {}, remove() {}, undraft() {}};
        const room = 1 + random.below(drafts.length);
        const store = new Store({keeper, known: [], newKey: () => `n${count += 1}`, now: () => 1e6, most: room * bytesOf(drafts[0].version)});
        store.take({versions: [], drafts: shuffled(drafts, random)});
        assert.deepEqual(store.archive.versions.map(it => it.time), drafts.slice(-room).map(it => it.version.time));
    }
});

test("an older version comes back as a new one", async () => {
    const {store} = await written();
    const {key} = store.robots[0];
    store.run();
    store.write(key, `${own} /* newer */`);
    const [{version, robot: was}] = store.archive.historyOf(key);
    assert.equal(was.source, own);
    store.replaceRobot(key, was, true);
    assert.deepEqual(store.archive.historyOf(key).map(it => it.robot.source), [`${own} /* newer */`, own]);
    store.write(key, "main() { /* newest */ }");
    store.openVersion(version.id);
    assert.equal(store.robots[0].source, own);
    assert.ok(has(store, "main() { /* newest */ }"));
});

test("versions are found, named, written to a file and read again", async () => {
    const {store} = await written();
    store.run();
    store.write(store.robots[0].key, "main() { cannon(1, 2); }");
    store.run();
    const {id} = store.archive.versions[0];
    store.nameVersion(id, " the \u202efirst\n");
    assert.deepEqual([store.archive.get(id).label, store.archive.found("CANNON").length, store.archive.found("first").length, store.archive.found("zz").length],
        ["the first", 1, 1, 0]);
    const text = exported(store.archive.versions);
    const {store: other} = await written();
    assert.deepEqual([other.readVersions(imported(text).versions), other.readVersions(imported(text).versions)], [2, 0]);
    assert.deepEqual(imported(text.replace(own, "\ud800")).unread, 0);
    assert.deepEqual(["", "[]", "{}", "null", "{\"kind\":\"x\",\"versions\":[]}", "{\"kind\":\"crobots battles\"}"].map(imported), Array(6).fill(null));
    assert.equal(imported("{\"kind\":\"crobots battles\",\"versions\":[null,{},{\"id\":\"a\",\"line\":\"b\",\"time\":1,\"battle\":{\"robots\":[]}}]}").unread, 3);
});

test("no version is dropped for one that can't fit", async () => {
    const page = await written({local: new Storage(20000), database: null});
    for (let time = 0; time < 5; time += 1) {
        page.store.write(page.store.robots[0].key, `${own} ${time}`);
        page.store.run();
    }
    page.store.write(page.store.robots[0].key, "z".repeat(50000));
    await page.keeper.idle();
    assert.ok(page.keeper.isFull && page.store.takeDropped().length === 0 && page.store.archive.versions.length === 5);
});

test("differences by lines", () => {
    const told = (one, other) => diffOf(one, other).map(({kind, text}) => kind + text);
    assert.deepEqual(told("a\nb\nc", "a\nc"), [" a", "-b", " c"]);
    assert.deepEqual(told("a\nc", "a\nb\nc"), [" a", "+b", " c"]);
    assert.deepEqual(told("a\nb\nc\nd", "a\nx\nc\ny"), [" a", "-b", "+x", " c", "-d", "+y"]);
    assert.deepEqual(told("", "a"), ["-", "+a"]);
    assert.deepEqual(told("a\na", "a"), [" a", "-a"]);
    assert.deepEqual(told("same", "same"), [" same"]);
    const many = Array.from({length: 3000}, (_, n) => `${n}`).join("\n");
    assert.equal(diffOf(many, many.replaceAll("1", "2")).filter(({kind}) => kind !== "+").map(({text}) => text).join("\n"), many);
});

test("letters that go", () => {
    assert.deepEqual([lostBetween("abc", "abc"), lostBetween("abc", "ac"), lostBetween("abc", ""), lostBetween("aaa", "aa"), lostBetween("abc", "xyz")], [0, 1, 3, 1, 3]);
});
