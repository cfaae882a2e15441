// The proved engine as a WebAssembly module: the only file that knows where the module's memory holds what.
//
// The module's calls take the addresses of blocks that this file laid out once, behind the module's own memory, and
// never anything else. The blocks hold numbers and bytes alone, and every value of them is allowed.
import {Ending, Limits, NAME_BYTES, Usual} from "./limits.js";

const PAGE_BYTES = 65536;
const ORDER_BYTES = 40;
const ROBOT_BYTES = 8 + NAME_BYTES + Limits.sourceBytes;
const FRAME_BYTES = 256;
const FRAMES = 32768;
const SHEET_BYTES = 16 + FRAMES * FRAME_BYTES;
const MARKS = 4000;
const TARGET_BYTES = 16 + MARKS;
const MOST_ROWS = 1000000;

/**
 * What the module exports. Addresses and counts are numbers of 64 bits.
 * @typedef {(...words: bigint[]) => number} Call
 * @typedef {{memory: WebAssembly.Memory, run: Call, film: Call, film_windows: Call, moment: Call, find: Call, places: Call,
 *     explain: Call, turns: Call, order_bytes: () => bigint, robot_bytes: () => bigint, target_bytes: () => bigint, sheet_bytes: () => bigint}} Exports
 * @type {(keyof Exports)[]}
 */
const CALLS = ["run", "film", "film_windows", "moment", "find", "places", "explain", "turns", "order_bytes", "robot_bytes",
    "target_bytes", "sheet_bytes"];

const encoder = new TextEncoder();
const decoder = new TextDecoder();

/** Counts a letter in a text. */
function countOf(letter, text) {
    let count = 0;
    for (let at = text.indexOf(letter); at >= 0; at = text.indexOf(letter, at + 1)) {
        count += 1;
    }
    return count;
}

/** The module with the blocks that it works on. */
export class Engine {
    /** Makes the engine of a module's bytes. */
    static async load(bytes) {
        const {instance} = await WebAssembly.instantiate(bytes, {});
        return new Engine(instance.exports);
    }

    constructor(exports) {
        /** @type {Exports} */
        this.exports = exports;
        this.memory = exports.memory;
        this.checkCalls();
        this.checkSizes();
        const start = this.memory.buffer.byteLength;
        this.order = start;
        this.robots = this.order + ORDER_BYTES;
        this.target = this.robots + Limits.robots * ROBOT_BYTES;
        this.text = this.target + TARGET_BYTES;
        this.faults = this.text + SHEET_BYTES;
        const end = this.faults + SHEET_BYTES;
        this.memory.grow(Math.ceil((end - start) / PAGE_BYTES));
    }

    /** Throws if the module lacks a call that this file makes. */
    checkCalls() {
        const lacking = CALLS.filter(name => typeof this.exports[name] !== "function");
        if (lacking.length || !(this.memory instanceof WebAssembly.Memory)) {
            throw new Error(`the module and the page differ: it lacks ${lacking.join(", ") || "a memory"}`);
        }
    }

    /** Does nothing: it answers once the module is there. */
    ready() {
        return true;
    }

    /** Throws if the module's blocks are not laid out as this file has them. */
    checkSizes() {
        const sizes = ["order", "robot", "target", "sheet"].map(name => this.exports[`${name}_bytes`]());
        if (sizes.map(Number).join() !== [ORDER_BYTES, ROBOT_BYTES, TARGET_BYTES, SHEET_BYTES].join()) {
            throw new Error(`the module and the page differ: ${sizes}`);
        }
    }

    /**
     * Runs robots, each {name, source}, by settings {matches, limit, seed, profile, first}.
     * Returns {ending, text, faults}: as the program's status, standard output and standard error.
     */
    run(settings, robots) {
        return this.runIn(1, settings, robots);
    }

    /** Lists the code of robots. Returns {ending, text, faults}. */
    list(settings, robots) {
        return this.runIn(0, settings, robots);
    }

    /** Lists where the instructions of robots come from. Returns {ending, text, faults}. */
    places(settings, robots) {
        return this.runIn(1, settings, robots, this.exports.places);
    }

    /**
     * Explains the first robot's source: the ending is DONE if it compiles, and the text has the warnings, or FAULTY, and the
     * text has those before its fault and then explains that. It is FULL if there is no room. Returns {ending, text}.
     */
    explain(settings, robots, call = this.exports.explain) {
        this.putOrder(0, settings);
        this.putRobots(robots);
        const ending = call(...[this.order, this.robots, robots.length, this.text].map(BigInt));
        return {ending, text: this.textOf(this.text)};
    }

    /**
     * Tells what a turn of each loop of the first robot takes: a row for each, as a film has, with its line, the fewest cycles
     * and the most, as far as there are. The ending is as that of `explain`. Returns {ending, text}.
     */
    turns(settings, robots) {
        return this.explain(settings, robots, this.exports.turns);
    }

    /** Plays the first match of the settings. Returns {ending, text, faults}, whose text is its film. */
    film(settings, robots) {
        return this.inParts(settings, robots, this.exports.film);
    }

    /**
     * Plays the first match of the settings up to their update `from`, and films the next `windows` of 15 cycles. Any
     * numbers from 0 to 2 ** 32 - 1 will do. Returns {ending, text, faults}; the ending is GOES_ON if the match goes on.
     */
    windows(settings, robots) {
        return this.inParts(settings, robots, this.exports.film_windows);
    }

    /**
     * Makes a film. One that is longer than a sheet comes in parts: the match is played anew for each. After a million rows
     * it is cut off.
     */
    inParts(settings, robots, call) {
        let film = "";
        for (let skipped = 0; ; ) {
            const {ending, text, faults} = this.runIn(1, {...settings, skipped}, robots, call);
            const rows = text.slice(text.indexOf("\n") + 1);
            film += film ? rows : text;
            skipped += countOf("\n", rows);
            if (ending !== Ending.FULL || skipped >= MOST_ROWS) {
                return {ending, text: film, faults};
            }
        }
    }

    /**
     * Plays the first match of the settings, and reports where their `robot`, counted from 0, is after their `cycle`. Returns
     * {ending, text, faults}; the text has rows, as a film has.
     */
    moment(settings, robots) {
        this.putTarget(settings);
        return this.runIn(1, settings, robots, this.exports.moment, [this.target]);
    }

    /**
     * Plays the first match of the settings, and finds the first cycle after their `cycle`, or the last one before it if it is to go
     * `backwards`, after which their `robot` is at one of the addresses of their `marks`, with at most `frames` frames. Returns
     * {ending, text, faults}; the text has a row `found` if there is one.
     */
    find(settings, robots) {
        this.putTarget(settings);
        return this.runIn(1, settings, robots, this.exports.find, [this.target]);
    }

    putTarget({robot = 0, cycle = 0, frames = 2 ** 32 - 1, backwards = false, marks = []}) {
        const view = new DataView(this.memory.buffer, this.target, 16);
        [robot, cycle, frames, Number(backwards)].forEach((n, i) => view.setUint32(4 * i, n, true));
        const bytes = new Uint8Array(this.memory.buffer, this.target + 16, MARKS).fill(0);
        marks.forEach(address => { bytes[address] = 1; });
    }

    runIn(mode, settings, robots, call = this.exports.run, targets = []) {
        this.putOrder(mode, settings);
        this.putRobots(robots);
        const blocks = [this.order, this.robots, robots.length, ...targets, this.text, this.faults].map(BigInt);
        const ending = call(...blocks);
        return {ending, text: this.textOf(this.text), faults: this.textOf(this.faults)};
    }

    putOrder(mode, settings) {
        const {matches = Usual.matches, limit = Usual.limit, seed = Usual.seed, profile = Usual.profile, first = Usual.first} = settings;
        const {skipped = 0, from = 0, windows = 0} = settings;
        const view = new DataView(this.memory.buffer, this.order, ORDER_BYTES);
        view.setBigUint64(0, BigInt(seed), true);
        [mode, matches, limit, profile, first, skipped, from, windows]
            .forEach((n, i) => view.setUint32(8 + 4 * i, n, true));
    }

    putRobots(robots) {
        if (robots.length > Limits.robots) {
            throw new RangeError(`There are more than ${Limits.robots} robots.`);
        }
        robots.forEach((robot, i) => this.putRobot(this.robots + i * ROBOT_BYTES, robot));
    }

    putRobot(at, {name, source}) {
        const nameBytes = encoder.encode(name);
        const sourceBytes = (typeof source === "string" ? encoder.encode(source) : source).subarray(0, Limits.sourceBytes);
        if (nameBytes.length > NAME_BYTES) {
            throw new RangeError(`A robot's name has more than ${NAME_BYTES} bytes.`);
        }
        const view = new DataView(this.memory.buffer, at, 8);
        view.setUint32(0, nameBytes.length, true);
        view.setUint32(4, sourceBytes.length, true);
        const bytes = new Uint8Array(this.memory.buffer, at + 8, ROBOT_BYTES - 8);
        bytes.set(nameBytes);
        bytes.set(sourceBytes, NAME_BYTES);
    }

    /** Returns the bytes of the sheet at this address. */
    bytesOf(sheet) {
        const used = Number(new DataView(this.memory.buffer, sheet, 8).getBigUint64(0, true));
        const frames = new Uint8Array(this.memory.buffer, sheet + 16, used * FRAME_BYTES);
        let size = 0;
        for (let at = 0; at < frames.length; at += FRAME_BYTES) {
            size += frames[at];
        }
        const bytes = new Uint8Array(size);
        let end = 0;
        for (let at = 0; at < frames.length; at += FRAME_BYTES) {
            bytes.set(frames.subarray(at + 1, at + 1 + frames[at]), end);
            end += frames[at];
        }
        return bytes;
    }

    textOf(sheet) {
        return decoder.decode(this.bytesOf(sheet));
    }
}
