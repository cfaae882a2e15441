// blocks.mjs MODULE COUNT SEED: calls the module alone, COUNT times, with blocks whose numbers and bytes may be anything.
//
// It writes what the module imports and exports, how often each code was answered, and what calls by addresses outside of
// the memory ended with, in JSON. The calls have no long match: a limit is small, or too great.
import fs from "node:fs";
import {Engine} from "./loaded.mjs";

const [path, count, seed] = process.argv.slice(2);
const bytes = fs.readFileSync(path);
const engine = await Engine.load(bytes);
const ROBOT_BYTES = (engine.text - engine.robots) / 4;
const SOURCE = new TextEncoder().encode("main(){ while (1) { cannon(rand(360), 99); drive(rand(360), 50); } }\x1a");
// each call with how many words it takes
const CALLS = {run: 5, film: 5, film_windows: 5, moment: 6, find: 6, places: 5, explain: 4, turns: 4};
const MOST = 2 ** 32 - 1;
const SIZES = [0, 1, 68, 69, 255, 256, 1048576, 1048577, 1048578, MOST];
const NUMBERS = [0, 1, 2, 26, 27, 2 ** 31, MOST];
const ORDERS = {mode: [0, 1, 1, 2, MOST], matches: [0, 1, 2, 1000001, MOST], limit: [0, 1, 15, 400, 1000000001, MOST],
    profile: [0, 1, 2, 3, MOST], first: [0, 1, 1000000, 1000001, MOST], skipped: [0, 1, MOST]};

let state = Number(seed) * 2 + 1;

/** A random number below a limit. */
function below(limit) {
    state = Math.imul(state, 1664525) + 1013904223 >>> 0;
    return (state >>> 8) % limit;
}

const oneOf = list => list[below(list.length)];

/** Fills bytes at an address with random ones. */
function spoil(at, size) {
    const view = new Uint8Array(engine.memory.buffer, at, size);
    view.forEach((_, n) => { view[n] = below(256); });
}

/** Fills the order: mostly with good numbers, so that much of it is run. */
function putOrder() {
    const view = new DataView(engine.memory.buffer, engine.order, 40);
    spoil(engine.order, 40);
    Object.values(ORDERS).forEach((several, n) => view.setUint32(8 + 4 * n, below(8) ? several[1] : oneOf(several), true));
    // the windows of a film
    [32, 36].forEach(at => view.setUint32(at, oneOf(NUMBERS), true));
}

/** Fills a robot: with a source, and maybe bytes of any kind over it, and sizes of any kind. */
function putRobot(number) {
    const at = engine.robots + number * ROBOT_BYTES;
    const view = new DataView(engine.memory.buffer, at, 8);
    view.setUint32(0, below(4) ? 3 : oneOf(SIZES), true);
    view.setUint32(4, below(3) ? SOURCE.length : oneOf(SIZES), true);
    new Uint8Array(engine.memory.buffer, at + 8).fill(65, 0, 255);
    new Uint8Array(engine.memory.buffer, at + 8 + 255).set(SOURCE);
    if (!below(4)) {
        spoil(at + 8, 255 + below(90));
    }
}

/** Makes a call by such blocks, and counts its code. */
function call(codes) {
    putOrder();
    [0, 1, 2, 3].forEach(putRobot);
    spoil(engine.target, 16 + 4000);
    for (const sheet of [engine.text, engine.faults]) {
        spoil(sheet, 16 + 512);
    }
    const robots = below(6) ? 1 + below(4) : 0;
    const name = oneOf(Object.keys(CALLS));
    const targets = CALLS[name] > 5 ? [engine.target] : [];
    const addresses = [engine.order, engine.robots, robots, ...targets, engine.text, engine.faults].map(BigInt);
    const code = engine.exports[name](...addresses.slice(0, CALLS[name]));
    codes[code] = (codes[code] ?? 0) + 1;
}

const compiled = await WebAssembly.compile(bytes);

/** What a call ends with of whose words one is outside of the memory, by a module of its own. */
function outside(call, at, word) {
    const {exports} = new WebAssembly.Instance(compiled);
    // there all is 0, which isn't within the limits
    const words = [0n, 0n, 1n, 0n, 0n, 0n].slice(0, CALLS[call]);
    words[at] = word;
    try {
        return exports[call](...words);
    } catch (fault) {
        return fault.constructor === WebAssembly.RuntimeError ? "ended" : String(fault);
    }
}

const codes = {};
for (let n = 0; n < Number(count); n++) {
    call(codes);
}
// the memory's end, numbers whose lower half is an address, and the last ones
const beyond = size => [size, 1n << 32n, (1n << 32n) - 8n, (1n << 32n) + 4096n, 1n << 62n, (1n << 64n) - 9n];
const sizes = beyond(BigInt(new WebAssembly.Instance(compiled).exports.memory.buffer.byteLength));
const ends = Object.entries(CALLS).flatMap(([call, count]) =>
    [...Array(count).keys()].flatMap(at => sizes.map(word => outside(call, at, word))));
const inside = Object.keys(CALLS).map(call => outside(call, 0, 0n));
const imports = WebAssembly.Module.imports(compiled);
const exports = WebAssembly.Module.exports(compiled).map(it => it.name);
console.log(JSON.stringify({imports, exports, codes, inside, ends}));
