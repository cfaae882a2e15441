// Moments: where a robot is after a cycle of a match, by the names and the lines of its source.
import {instructionsOf, partsOf} from "./listings.js";

/** A robot's code: its instructions with their lines, and the names of its externals and of its functions' variables. */
export class Code {
    /** `listing` is the code's, `places` what its source has where, both as the module writes them. */
    constructor(listing, places) {
        const {externals, functions, code} = partsOf(places);
        this.externals = externals;
        this.functions = functions;
        this.code = code;
        this.lines = code.map(({line}) => line);
        this.instructions = instructionsOf(listing, code.length);
    }

    /** The function of an address. */
    functionOf(address) {
        return this.functions[this.code[address].of];
    }

    /** Returns the name in the instruction of an address, "" if it has none. */
    nameIn(address) {
        return this.code[address].name;
    }

    /** Returns the addresses at which one of some lines, or of all, is entered. */
    entriesOf(lines = new Set(this.lines)) {
        return this.code.flatMap(({line, isEntry}, at) => isEntry && lines.has(line) ? [at] : []);
    }
}

/** Reads where a robot is, as the module reports it: null if it reports nothing. */
export function momentOf(text) {
    const moment = {frames: [], words: [], externals: []};
    const kinds = {
        moment: (cycle, [address, home, alive, over]) =>
            Object.assign(moment, {cycle, address: Number(address), home: Number(home), isAlive: alive === "1", isOver: over === "1"}),
        asks: (_, values) => { moment.asks = callIn(values); },
        asked: (cycle, values) => { moment.asked = {cycle, call: callIn(values), reply: Number(values[4])}; },
        restarts: (_, [cause]) => { moment.restarts = cause; },
        frame: (_, [base, back]) => moment.frames.push({base: Number(base), back: Number(back)}),
        word: (_, [value]) => moment.words.push(Number(value)),
        external: (_, [value]) => moment.externals.push(Number(value)),
    };
    for (const row of text.trimEnd().split("\n").slice(1)) {
        const [cycle, , kind, ...values] = row.split("\t");
        kinds[kind](Number(cycle), values);
    }
    return moment.address === undefined ? null : moment;
}

/** A call in words, with the arguments that its function uses. */
function callIn([name, count, ...values]) {
    return `${name}(${values.slice(0, Number(count)).join(", ")})`;
}

/**
 * Returns the open calls of a robot, the innermost first, each {line, name, variables, frames}: the last says how many frames are
 * open with it. A frame of a call whose arguments are being worked out is none yet: it has no address to return to.
 */
export function callsOf(code, {address, frames, words}) {
    const calls = [];
    let at = address;
    for (const [depth, {base, back}] of [...frames.entries()].reverse()) {
        if (depth === 0 || back > 0) {
            const {name, variables} = code.functionOf(at);
            calls.push({line: code.lines[at], name, variables: valuesOf(variables, words.slice(base)), frames: depth + 1});
            at = back - 1;
        }
    }
    return calls;
}

/** Returns names with their values, each {name, value}. */
export function valuesOf(names, values) {
    return names.map((name, at) => ({name, value: values[at]}));
}

/** Returns the cycle that the module found, null if it found none. */
export function foundIn(text) {
    const [, row] = text.split("\n");
    return row ? Number(row.split("\t")[0]) : null;
}
