// Numbers of a robot that may be changed: those with a mark in the comment behind them, by the rules of crobots-tune.
//
// The proved module says where constants stand: its listing has them, and of each instruction the place in the source. Between a
// constant and the next token are blanks and comments alone. Places count bytes, so a source is looked at as its bytes.

import {instructionsOf, partsOf} from "./listings.js";

/**
 * @typedef {{line: number, column: number}} Place
 * @typedef {{low: number, high: number, step: number | null, name: string}} Range
 * @typedef {Place & Range & {begin: number, end: number, value: number}} Tunable
 */

// what a constant of the language can be, and so many values a sweep has at most if no step is given
const MOST = 2 ** 31 - 1;
const VALUES = 20;
const NAME = /^[A-Za-z_][A-Za-z0-9_]{0,30}$/;
const BOUNDS = /^([0-9]{1,10})\.\.([0-9]{1,10})$/;
// what a mark begins with, and how a comment begins that may be meant as one: a word, and numbers that are perhaps a range
const WORD = "tune";
const PAIR = /^([A-Za-z]+)[ :=]{0,2}-?[0-9]+ ?(?:[-.,:;\ufffd]{1,3}|to) ?-?[0-9]+/;
const BLANKS = /^[\t-\r ]*$/;

const encoder = new TextEncoder();
const decoder = new TextDecoder("utf-8", {ignoreBOM: true});

/** A source as its bytes, a letter for each. */
class Bytes {
    constructor(source) {
        this.bytes = encoder.encode(source);
        this.text = new TextDecoder("latin1").decode(this.bytes);
        this.begins = [0, ...[...this.text.matchAll(/\n/g)].map(({index}) => index + 1)];
    }

    /** Where a place is. */
    at({line, column}) {
        return this.begins[line - 1] + column - 1;
    }

    /** Where the digits at a place end; nowhere if there are none. */
    endOf(place) {
        const at = this.at(place);
        const digits = /\d*/y;
        digits.lastIndex = at;
        const [{length}] = digits.exec(this.text);
        return length ? at + length : Infinity;
    }

    /** The line and the column of a byte, as one writes them. */
    placed(at) {
        const line = this.begins.findLastIndex(begin => begin <= at) + 1;
        return `${line}:${at - this.begins[line - 1] + 1}`;
    }

    /** How many letters stand before a byte. */
    letters(at) {
        return decoder.decode(this.bytes.subarray(0, at)).length;
    }

    /** All comments: where each begins, and its words with a blank between them. */
    comments() {
        return [...this.text.matchAll(/\/\*([^]*?)\*\//g)].map(({1: inner, index}) => {
            const words = inner.split(/[\t-\r\x1c- ]+/).filter(it => it);
            return {at: index, text: words.join(" ").replace(/[^\0-\x7f]/g, "\ufffd")};
        });
    }
}

/**
 * Returns where the constants of a source stand, of its listing and of the places of its instructions. Some instructions push a
 * constant that nobody wrote.
 * @returns {Place[]}
 */
export function constantsOf(source, listing, places) {
    const bytes = new Bytes(source);
    const {code} = partsOf(places);
    const instructions = instructionsOf(listing, code.length);
    const pushed = code.filter((_, address) => instructions[address].startsWith("CONST "));
    return pushed.map(({line, column}) => ({line, column})).filter(place => Number.isFinite(bytes.endOf(place)));
}

/** Whether a comment is meant as a mark: it begins with 'tune' and a number, before which there may be a sign or dots. */
const isMark = text => /^tune [-+.]*\d/.test(text);

const inOrder = word => [...word].sort().join("");

/** Whether a word is 'tune', or that with one letter more, less or another, or with its letters in another order. */
function isNear(word) {
    const same = [...WORD].findIndex((letter, at) => word[at] !== letter);
    const at = same < 0 ? WORD.length : same;
    const [here, there] = [word.slice(at), WORD.slice(at)];
    return here === there || [here, here.slice(1)].includes(there.slice(1)) || here.slice(1) === there || inOrder(here) === inOrder(there);
}

/** Whether a comment that is no mark is hardly meant as anything else: two numbers as a range, behind a word that is nearly 'tune'. */
function isNearlyMark(text) {
    const found = PAIR.exec(text);
    return found !== null && !isMark(text) && isNear(found[1].toLowerCase());
}

/**
 * The range of bounds as 100..900 and a step.
 * @returns {Range}
 */
function ranged(bounds, step, where, name) {
    const found = BOUNDS.exec(bounds);
    if (!found && (bounds.startsWith("-") || bounds.split("..")[1]?.startsWith("-"))) {
        throw new Error(`${where}: ${bounds} goes below 0, and a number is 0 or more: a minus before it is an operator`);
    }
    if (!found) {
        throw new Error(`${where}: '${bounds}' is no range as 100..900`);
    }
    const [low, high] = found.slice(1).map(Number);
    if (low >= high || high > MOST) {
        throw new Error(`${where}: ${bounds} has to rise, up to ${MOST} at most`);
    }
    if (step !== undefined && !(/^\d+$/.test(step) && Number(step.slice(0, 11)) >= 1 && Number(step) <= high - low)) {
        throw new Error(`${where}: '${step}' is no step from 1 to ${high - low}`);
    }
    return {low, high, step: step === undefined ? null : Number(step), name};
}

/**
 * The range of a mark.
 * @returns {Range}
 */
function rangeOf(text, where) {
    const [bounds, ...words] = text.split(" ").slice(1);
    const names = words.filter((_, at) => at % 2 === 0);
    const isKnown = names.every(it => it === "step" || it === "name");
    if (words.length % 2 || !isKnown || new Set(names).size < names.length) {
        throw new Error(`${where}: a mark is 'tune LOW..HIGH', and perhaps 'step STEP' and 'name NAME', not '${text}'`);
    }
    const options = Object.fromEntries(names.map((name, at) => [name, words[2 * at + 1]]));
    if (options.name !== undefined && !NAME.test(options.name)) {
        throw new Error(`${where}: '${options.name}' is no name`);
    }
    return ranged(bounds, options.step, where, options.name ?? "");
}

/**
 * The number of a constant with its mark's range.
 * @returns {Tunable}
 */
function tunable(bytes, place, end, range) {
    const begin = bytes.at(place);
    const value = Number(bytes.text.slice(begin, end));
    if (value < range.low || value > range.high) {
        throw new Error(`${bytes.placed(begin)}: today's value is ${value}, which ${range.low}..${range.high} leaves out`);
    }
    const name = range.name || `${place.line}:${place.column}`;
    return {...place, ...range, name, begin: bytes.letters(begin), end: bytes.letters(end), value};
}

/** Nothing, unless something is so that mustn't be. */
function refusedIf(isSo, why) {
    if (isSo) {
        throw new Error(why);
    }
    return [];
}

/**
 * Returns the numbers of a source that have a mark, in their order: each with its place, where its letters are, its value, and the
 * values that it may have. Throws what is wrong with a mark. `constants` are the places of all constants.
 * @param {Place[]} constants
 * @returns {Tunable[]}
 */
export function tunablesOf(source, constants) {
    const bytes = new Bytes(source);
    const known = constants.map(place => ({place, end: bytes.endOf(place)}));
    const found = bytes.comments().filter(({text}) => isMark(text) || isNearlyMark(text)).flatMap(({at, text}) => {
        const where = bytes.placed(at);
        const before = known.find(({end}) => end <= at && BLANKS.test(bytes.text.slice(end, at)));
        if (isNearlyMark(text)) {
            return refusedIf(before, `${where}: '${text}' is nearly a mark, which is a comment as /* tune 100..900 */`);
        }
        if (!before) {
            throw new Error(`${where}: the mark '${text}' has no number before it`);
        }
        return [{...before, range: rangeOf(text, where)}];
    }).map(({place, end, range}) => tunable(bytes, place, end, range));
    const twice = found.find(({name}, at) => found.findIndex(it => it.name === name) < at);
    if (twice) {
        const first = found.find(({name}) => name === twice.name);
        throw new Error(`${twice.line}:${twice.column}: the number at ${first.line}:${first.column} has the name ${twice.name}, too`);
    }
    return found;
}

/** The next of 1, 2, 5, 10, 20, .. by which a width has at most so many steps. */
function coarse(width, many) {
    for (let power = 1; ; power *= 10) {
        const factor = [1, 2, 5].find(it => it * power * many >= width);
        if (factor) {
            return factor * power;
        }
    }
}

const stepOf = ({low, high, step}) => step ?? coarse(high - low, VALUES);

/** How many values a sweep has, but for today's if that isn't one of its steps. */
export const countOf = range => Math.ceil((range.high - range.low) / stepOf(range)) + 1;

/** The values of a sweep in their order: both ends, what is between them in steps, and today's. */
export function valuesOf(range) {
    const {low, high, value} = range;
    const values = Array.from({length: countOf(range)}, (_, at) => Math.min(low + at * stepOf(range), high));
    return [...new Set([...values, value])].sort((one, other) => one - other);
}

/** The source with another value of a number; one that keeps its value keeps its digits. */
export const withValue = (source, {begin, end, value}, other) =>
    other === value ? source : source.slice(0, begin) + other + source.slice(end);
