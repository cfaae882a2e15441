// Matches of pairs that are played for their results alone: in slices, so that one sees how far they are and can end them.
import {DEADLY, Ending} from "./limits.js";
import {matchesOf} from "./results.js";
import {CHALLENGER, keyOf, seatingsOf} from "./seatings.js";

/** What a match is worth. */
export const POINTS = Object.freeze({won: 3, tied: 1, lost: 0});
export const MOST_MATCHES = 10000;
const MILLISECONDS_OF_A_SLICE = 80;
const FIRST_SLICE = 5;
const MOST_OF_A_SLICE = 500;

/** @typedef {{number: number, cycles: number, did: "won" | "tied" | "lost"}} Played */

/**
 * What the robot with the first damage did.
 * @returns {"won" | "tied" | "lost"}
 */
function didOf(mine, other) {
    return mine >= DEADLY ? "lost" : other >= DEADLY ? "won" : "tied";
}

/**
 * Returns the matches of a report of two robots, by what the first of them did, or the second.
 * @returns {Played[]}
 */
export function playedOf(report, isFirst) {
    return matchesOf(report).map(({number, cycles, damages: [first, second]}) =>
        ({number, cycles, did: isFirst ? didOf(first, second) : didOf(second, first)}));
}

/** Returns robots without those whose source is among some others, or comes twice. */
export function opponentsOf(robots, sources) {
    const seen = new Set(sources);
    return robots.filter(({source}) => !seen.has(source) && seen.add(source));
}

/** The seats of versions of a robot with each opponent: {opponent, isFirst, seed}. */
export async function startsOf(seed, opponents) {
    const found = await Promise.all(opponents.map(async opponent =>
        (await seatingsOf(seed, CHALLENGER, await keyOf(opponent.source))).map(seating => ({opponent, ...seating}))));
    return found.flat();
}

/** Two robots as they sit. The report names them by their seats. */
export function seated(source, opponent, isFirst) {
    const pair = isFirst ? [source, opponent] : [opponent, source];
    return pair.map((text, at) => ({name: `${at + 1}`, source: text}));
}

export class Trials {
    /** `call` asks the engine to run robots by settings; `onSlice` is called after each slice with how many matches it had. */
    constructor(call, {limit, profile}, onSlice) {
        this.call = call;
        this.rules = {limit, profile};
        this.onSlice = onSlice;
        this.size = FIRST_SLICE;
    }

    /**
     * Plays matches from a number on of a robot's source in its seat. Throws what ended them before.
     * @returns {Promise<Played[]>}
     */
    async play(source, {opponent, isFirst, seed}, first, count) {
        const robots = seated(source, opponent.source, isFirst);
        const found = [];
        while (found.length < count) {
            const matches = Math.min(this.size, count - found.length);
            found.push(...await this.slice(robots, {...this.rules, seed, first: first + found.length, matches}, isFirst));
        }
        return found;
    }

    async slice(robots, settings, isFirst) {
        const begun = performance.now();
        const {ending, text, faults} = await this.call(settings, robots);
        const played = playedOf(text, isFirst);
        if (ending !== Ending.DONE || played.length !== settings.matches) {
            throw new Error(faults || "The engine refused these matches.");
        }
        const fitting = Math.round(settings.matches * MILLISECONDS_OF_A_SLICE / Math.max(1, performance.now() - begun));
        this.size = Math.max(1, Math.min(fitting, 4 * this.size, MOST_OF_A_SLICE));
        this.onSlice(settings.matches);
        return played;
    }
}
