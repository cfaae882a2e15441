// A sweep: each value of a number against the same opponents in the same matches, as crobots-tune does. Nothing here knows of a
// browser.
import {isSure, meanOf, outward} from "./intervals.js";
import {POINTS, Trials, opponentsOf, startsOf} from "./trials.js";
import {valuesOf, withValue} from "./tuning.js";

/**
 * @typedef {import("./intervals.js").Interval} Interval
 * @typedef {{value: number, points: number, matches: number, change: Interval, verdict: string}} Row
 */

// how often a sweep of a number that changes nothing may call any of its values better or worse
const MISTAKEN = 0.01;
// the first look, in matches of each seat; each one has twice as many as the one before
const FIRST_LOOK = 5;
export const NOTHING = "no difference that these matches could show";

const average = numbers => numbers.reduce((whole, it) => whole + it, 0) / numbers.length;

/** After how many matches of a seat the curve is shown. */
function looksOf(each) {
    const found = [Math.min(FIRST_LOOK, each)];
    while (found.at(-1) < each) {
        found.push(Math.min(2 * found.at(-1), each));
    }
    return found;
}

/** What a value is called whose change has this interval, which is the one that is shown. */
const verdictOf = change => isSure(change) ? change.low > 0 ? "better" : "worse" : NOTHING;

/**
 * A value's points, by its match, of each opponent, beside today's.
 * @returns {Row}
 */
function rowOf(value, mine, today, level) {
    const differences = mine.map((points, at) => points.map((it, match) => it - today[at][match]));
    const facts = {value, points: average(mine.map(average)), matches: mine.flat().length};
    const change = outward(meanOf(differences, POINTS.won, level), POINTS.won);
    return mine === today ? {...facts, change: {value: 0, low: 0, high: 0}, verdict: "today's"} : {...facts, change, verdict: verdictOf(change)};
}

/** How many matches a sweep has. */
export const matchesOf = (number, opponents, each) => 2 * valuesOf(number).length * opponents.length * each;

/**
 * Plays each value of a number, `each` matches in each seat with each opponent. `onLook` has the rows so far. Returns those of all
 * matches. Their intervals hold for all of them at once in 99 of 100 sweeps, and a verdict goes by its interval alone.
 */
export async function sweepOf({call, settings, source, number, opponents, each, onSlice, onLook}) {
    const trials = new Trials(call, settings, onSlice);
    const others = opponentsOf(opponents, [source]);
    const starts = await startsOf(settings.seed, others);
    const values = valuesOf(number);
    const points = values.map(() => others.map(() => []));
    const level = 1 - MISTAKEN / Math.max(values.length - 1, 1);
    let rows = [];
    let played = 0;
    for (const look of looksOf(each)) {
        for (const [at, value] of values.entries()) {
            for (const start of starts) {
                const found = await trials.play(withValue(source, number, value), start, played + 1, look - played);
                points[at][others.indexOf(start.opponent)].push(...found.map(({did}) => POINTS[did]));
            }
        }
        played = look;
        const today = points[values.indexOf(number.value)];
        rows = values.map((value, at) => rowOf(value, points[at], today, level));
        onLook(rows);
    }
    return rows;
}
