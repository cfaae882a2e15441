// Tests of contests, sweeps and what runs them, with an engine whose matches are known: no module is needed.
//
// CROBOTS_WEB names a folder with the modules of web/ as Node takes them. What has to come out is worked out by hand, or by the test
// alone from the outcomes that it drew.
import assert from "node:assert/strict";
import path from "node:path";
import {test} from "node:test";
import {pathToFileURL} from "node:url";

const load = name => import(pathToFileURL(path.join(process.env.CROBOTS_WEB, `${name}.js`)));
const {Trials, opponentsOf, playedOf} = await load("trials");
const {contestOf, matchesOf} = await load("contests");
const {sweepOf, matchesOf: matchesOfSweep} = await load("sweeps");
const {Bench, Caller: CallerOfWorker, STOPPED} = await load("calling");
globalThis.CROBOTS_HASH = (await load("hashes")).hashOf;

const SETTINGS = {limit: 1000, profile: 2, seed: "7"};
const POINTS = {won: 3, tied: 1, lost: 0};
const DAMAGES = {won: [40, 100], tied: [60, 70], lost: [100, 5]};
const FACES = [{name: "a.r", source: "a"}, {name: "b.r", source: "b"}];

/** A report as the engine writes it, of what the first robot did in matches from a number on. */
function reportOf(first, dids, names) {
    const robots = (did, at) => `  ${at + 1}) ${DAMAGES[did][at] === 100 ? "dead " : "alive"} damage ${String(DAMAGES[did][at]).padStart(3)}% ${names[at]}\n`;
    const matches = dids.map((did, at) => `Match ${first + at}: cycles = ${900 + at}\n${robots(did, 0)}${robots(did, 1)}`);
    return `${matches.join("")}Totals: ${dids.length} matches\n  1) won 9 tied 9 lost 9 ${names[0]}\n  2) won 9 tied 9 lost 9 ${names[1]}\n`;
}

const flipped = {won: "lost", tied: "tied", lost: "won"};

/** An engine whose matches are told by `didOf`: what `source` does against `opponent`, in seat 1 or 2, in the match with this number. */
function engineOf(isVersion, didOf) {
    const calls = [];
    const call = async (settings, robots) => {
        const seat = isVersion(robots[0].source) ? 1 : 2;
        const [mine, other] = seat === 1 ? robots : [...robots].reverse();
        calls.push({...settings, seat, source: mine.source, opponent: other.source});
        const dids = Array.from({length: settings.matches}, (_, at) => didOf(mine.source, other.source, seat, settings.first + at));
        return {ending: 0, text: reportOf(settings.first, seat === 1 ? dids : dids.map(it => flipped[it]), robots.map(({name}) => name)), faults: ""};
    };
    return {call, calls};
}

/** Which matches were asked for, each once: seat, opponent, source, seed and number. */
const matchesIn = calls => calls.flatMap(({seat, opponent, source, seed, first, matches}) =>
    Array.from({length: matches}, (_, at) => `${source} ${opponent} ${seat} ${seed} ${first + at}`));

test("a report of matches", () => {
    const text = reportOf(5, ["won", "tied", "lost"], ["1", "2"]);
    assert.deepEqual(playedOf(text, true), [{number: 5, cycles: 900, did: "won"}, {number: 6, cycles: 901, did: "tied"}, {number: 7, cycles: 902, did: "lost"}]);
    assert.deepEqual(playedOf(text, false).map(({did}) => did), ["lost", "tied", "won"]);
    const both = "Match 1: cycles = 9\n  1) dead  damage 100% 1\n  2) dead  damage 109% 2\n";
    assert.deepEqual([playedOf(both, true)[0].did, playedOf(both, false)[0].did], ["lost", "lost"]);
});

test("opponents are none of the versions, and each once", () => {
    const several = [...FACES, {name: "copy of a.r", source: "a"}, {name: "new.r", source: "new"}];
    assert.deepEqual(opponentsOf(several, ["new", "old"]).map(({name}) => name), ["a.r", "b.r"]);
});

test("a contest by hand", async () => {
    // against a the new version wins all, the old one those of seat 1; against b both tie
    const did = (source, opponent, seat) => opponent === "b" ? "tied" : source === "new" || seat === 1 ? "won" : "lost";
    const {call, calls} = engineOf(it => it === "new" || it === "old", did);
    let slices = 0;
    const found = await contestOf({call, settings: SETTINGS, fresh: "new", old: "old", opponents: [FACES[1], FACES[0]], each: 4, onSlice: count => { slices += count; }});
    assert.equal(slices, matchesOf(FACES, 4));
    assert.deepEqual(found.opponents.map(({name, fresh, old, change}) => [name, fresh, old, change.value]), [["a.r", 3, 1.5, 1.5], ["b.r", 1, 1, 0]]);
    assert.deepEqual([found.all.fresh, found.all.old, found.all.change.value], [2, 1.25, 0.75]);
    // the differences 0 0 0 0 3 3 3 3 have the variance 18/7; seven degrees of freedom have the quantile 2.3646
    const half = 2.3646 * Math.sqrt(18 / 7 / 8);
    assert.ok(Math.abs(found.opponents[0].change.high - 1.5 - half) < 2e-3 && Math.abs(found.all.change.high - 0.75 - half / 2) < 1e-3);
    assert.deepEqual([found.opponents[1].change.low, found.opponents[1].change.high], [0, 0]);
    assert.deepEqual(found.flipped.map(({opponent, isFirst, number, old, fresh}) => [opponent.name, isFirst, number, old.did, fresh.did]),
        [1, 2, 3, 4].map(number => ["a.r", false, number, "lost", "won"]));
    assert.equal(found.count, 16);
    assert.ok(calls.every(({limit, profile}) => limit === 1000 && profile === 2));
});

/** Numbers of a seed (mulberry32). */
function chance(seed) {
    let state = seed;
    return () => {
        state = state + 0x6D2B79F5 | 0;
        let it = Math.imul(state ^ state >>> 15, 1 | state);
        it = it + Math.imul(it ^ it >>> 7, 61 | it) ^ it;
        return ((it ^ it >>> 14) >>> 0) / 2 ** 32;
    };
}

test("drawn contests: pairs have the same seeds and numbers, points are the means, what differs flipped", async () => {
    for (let seed = 1; seed <= 100; seed += 1) {
        const next = chance(seed);
        const outcomes = new Map();
        const did = (...key) => {
            const name = key.join(" ");
            outcomes.set(name, outcomes.get(name) ?? ["won", "tied", "lost"][Math.floor(3 * next())]);
            return outcomes.get(name);
        };
        const {call, calls} = engineOf(it => it === "new" || it === "old", did);
        const each = 2 + Math.floor(30 * next());
        const found = await contestOf({call, settings: {...SETTINGS, seed: `${seed}`}, fresh: "new", old: "old", opponents: FACES, each, onSlice() {}});
        const asked = matchesIn(calls);
        assert.equal(new Set(asked).size, asked.length);
        assert.equal(asked.length, 8 * each);
        const [fresh, old] = ["new", "old"].map(version => asked.filter(it => it.startsWith(`${version} `)).map(it => it.slice(4)).sort());
        assert.deepEqual(fresh, old);
        assert.equal(new Set(calls.map(it => it.seed)).size, 4);
        const pointsOf = version => [...outcomes].filter(([name]) => name.startsWith(version)).map(([, it]) => POINTS[it]);
        const mean = numbers => numbers.reduce((sum, it) => sum + it, 0) / numbers.length;
        assert.ok(Math.abs(found.all.fresh - mean(pointsOf("new"))) < 1e-9 && Math.abs(found.all.change.value - mean(pointsOf("new")) + mean(pointsOf("old"))) < 1e-9);
        const differing = [...outcomes].filter(([name, it]) => name.startsWith("new ") && outcomes.get(name.replace("new", "old")) !== it).length;
        assert.equal(found.flipped.length, differing);
        assert.deepEqual(found.flipped.map(({gain}) => gain), found.flipped.map(({gain}) => gain).sort((one, other) => one - other));
    }
});

const NUMBER = {name: "near", line: 1, column: 4, begin: 4, end: 6, value: 20, low: 0, high: 40, step: 10};
const SWEPT = "x = 20; y = 20;";

test("a sweep by hand", async () => {
    // a value wins in as many of ten matches as it has tens; so today's has 2 wins of 10, or 0.6 points
    const valueOf = source => Number(/^x = (\d+); y = 20;$/.exec(source)[1]);
    const {call, calls} = engineOf(it => it.startsWith("x"), (source, _opponent, _seat, number) => number % 10 < valueOf(source) / 10 ? "won" : "lost");
    const looks = [];
    const rows = await sweepOf({call, settings: SETTINGS, source: SWEPT, number: NUMBER, opponents: [...FACES, {name: "x.r", source: SWEPT}], each: 50,
        onSlice() {}, onLook: it => looks.push(it[0].matches)});
    assert.deepEqual(looks, [20, 40, 80, 160, 200]);
    assert.deepEqual(rows.map(({value, points, matches}) => [value, Number(points.toFixed(9)), matches]), [[0, 0, 200], [10, 0.3, 200], [20, 0.6, 200], [30, 0.9, 200], [40, 1.2, 200]]);
    assert.deepEqual(rows.map(({change}) => Number(change.value.toFixed(9))), [-0.6, -0.3, 0, 0.3, 0.6]);
    assert.deepEqual(rows.map(({verdict}) => verdict), ["worse", "worse", "today's", "better", "better"]);
    assert.ok(rows.every(({change}) => change.low <= change.value && change.value <= change.high));
    const asked = matchesIn(calls);
    assert.equal(new Set(asked).size, asked.length);
    assert.equal(asked.length, matchesOfSweep(NUMBER, FACES, 50));
    const starts = source => asked.filter(it => it.startsWith(source)).map(it => it.slice(SWEPT.length + (source.includes("= 0") ? -1 : 0))).sort();
    assert.deepEqual(starts("x = 0;"), starts("x = 40;"));
});

test("a number that changes nothing", async () => {
    const {call} = engineOf(it => it.startsWith("x"), (_source, _opponent, seat, number) => (number + seat) % 3 ? "won" : "lost");
    const rows = await sweepOf({call, settings: SETTINGS, source: SWEPT, number: NUMBER, opponents: FACES, each: 10, onSlice() {}, onLook() {}});
    assert.deepEqual(new Set(rows.map(({verdict}) => verdict)), new Set(["today's", "no difference that these matches could show"]));
});

test("of values that all are alike in truth hardly a sweep calls one better or worse", async () => {
    const number = {...NUMBER, low: 0, high: 190, step: 10};
    let mistaken = 0;
    for (let seed = 1; seed <= 200; seed += 1) {
        const next = chance(seed);
        const {call} = engineOf(it => it.startsWith("x"), () => ["won", "tied", "lost"][Math.floor(3 * next())]);
        const rows = await sweepOf({call, settings: SETTINGS, source: SWEPT, number, opponents: FACES, each: 20, onSlice() {}, onLook() {}});
        mistaken += Number(rows.some(({verdict}) => ["better", "worse"].includes(verdict)));
        assert.ok(rows.every(({change, verdict}) => (verdict === "better") === change.low > 0 && (verdict === "worse") === change.high < 0));
    }
    // one in a hundred is stated; more than 7 of 200 come by chance once in 900 times
    assert.ok(mistaken <= 7, `${mistaken}`);
});

test("what is stopped asks for nothing more", async () => {
    for (const most of [0, 1, 3, 7]) {
        let count = 0;
        const {call} = engineOf(it => it === "new" || it === "old", () => "won");
        const stopping = (settings, robots) => {
            count += 1;
            return count > most ? Promise.reject(new Error(STOPPED)) : call(settings, robots);
        };
        await assert.rejects(contestOf({call: stopping, settings: SETTINGS, fresh: "new", old: "old", opponents: FACES, each: 50, onSlice() {}}), {message: STOPPED});
        assert.equal(count, most + 1);
    }
});

test("a robot with a fault, and an engine that refuses", async () => {
    const trials = faults => new Trials(async () => ({ending: 1, text: "", faults}), SETTINGS, () => {}).play("new", {opponent: FACES[0], isFirst: true, seed: "1"}, 1, 5);
    await assert.rejects(trials("1:1: syntax error\n"), {message: "1:1: syntax error\n"});
    await assert.rejects(trials(""), {message: "The engine refused these matches."});
});

test("slices grow and fall with the time that they take, and have each match once", async () => {
    const sizes = [];
    let slow = 0;
    const {call} = engineOf(it => it === "new", () => "won");
    const trials = new Trials(async (settings, robots) => {
        sizes.push(settings.matches);
        const end = performance.now() + slow * settings.matches;
        while (performance.now() < end);
        return call(settings, robots);
    }, SETTINGS, () => {});
    const start = {opponent: FACES[0], isFirst: true, seed: "1"};
    assert.deepEqual((await trials.play("new", start, 11, 1500)).map(({number}) => number), Array.from({length: 1500}, (_, at) => 11 + at));
    assert.ok(Math.max(...sizes) > 100 && Math.max(...sizes) <= 500);
    slow = 40;
    const from = sizes.length;
    await trials.play("new", start, 1, 40);
    assert.ok(sizes.slice(from + 1).every(it => it <= 3), `${sizes.slice(from)}`);
});

/** A caller of a worker that answers when it is told to. */
class Caller {
    constructor() {
        this.waiting = new Map();
        this.stops = 0;
    }

    call(call) {
        return new Promise((done, fail) => this.waiting.set(call, {done, fail}));
    }

    stop() {
        this.stops += 1;
        const failing = [...this.waiting.values()];
        this.waiting.clear();
        failing.forEach(({fail}) => fail(new Error(STOPPED)));
    }
}

test("a bench starts its engine when it is needed, and does one thing at a time", async () => {
    const made = [];
    const bench = new Bench(() => made[made.push(new Caller()) - 1]);
    bench.stop();
    assert.equal(made.length, 0);
    const first = bench.begin();
    const running = first.call("a");
    const second = bench.begin();
    await assert.rejects(running, {message: STOPPED});
    await assert.rejects(first.call("b"), {message: STOPPED});
    const other = second.call("c");
    made[0].waiting.get("c").done(5);
    assert.equal(await other, 5);
    made[0].waiting.clear();
    bench.stop();
    assert.deepEqual([made.length, made[0].stops], [1, 1]);
    await assert.rejects(second.call("d"), {message: STOPPED});
});

test("what is asked for ahead is asked for once, and its answer is taken by the first that asks for just that", async () => {
    const workers = [];
    globalThis.Worker = class {
        constructor() {
            this.calls = [];
            workers.push(this);
        }

        postMessage({call}) {
            this.calls.push(...call ? [call] : []);
        }

        terminate() {}
    };
    const caller = new CallerOfWorker("address", []);
    caller.askAhead("windows", {limit: 5, seed: "1"}, FACES);
    const asked = [caller.call("windows", {limit: 5, seed: 1n}, FACES), caller.call("windows", {seed: "1", limit: 5}, FACES),
        caller.call("windows", {seed: "1", limit: 5}, FACES)];
    assert.deepEqual(workers[0].calls, ["windows", "windows", "windows"]);
    ["ahead", "another", "again"].forEach((result, at) => workers[0].onmessage({data: {number: at + 1, result}}));
    assert.deepEqual(await Promise.all(asked), ["another", "ahead", "again"]);
    caller.askAhead("film", {}, FACES);
    caller.stop();
    caller.call("film", {}, FACES);
    assert.deepEqual(workers[1].calls, ["film"]);
});
