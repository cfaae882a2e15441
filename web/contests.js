// What a change of a robot is worth: the older version and the newer one play the same robots in the same matches, as
// crobots-challenge does. Nothing here knows of a browser.
import {meanOf} from "./intervals.js";
import {POINTS, Trials, opponentsOf, startsOf} from "./trials.js";

/**
 * @typedef {import("./intervals.js").Interval} Interval
 * @typedef {import("./trials.js").Played} Played
 * @typedef {{name: string, fresh: number, old: number, change: Interval}} Worth
 * @typedef {{opponent: any, isFirst: boolean, seed: string, number: number, fresh: Played, old: Played, gain: number}} Pair
 */

const average = numbers => numbers.reduce((whole, it) => whole + it, 0) / numbers.length;
const pointsOf = (pairs, version) => pairs.map(it => POINTS[it[version].did]);

/**
 * What pairs of matches are worth: a class for each opponent.
 * @returns {Worth}
 */
function worthOf(name, classes) {
    const pairs = classes.flat();
    return {
        name, fresh: average(pointsOf(pairs, "fresh")), old: average(pointsOf(pairs, "old")),
        change: meanOf(classes.map(it => it.map(({gain}) => gain))),
    };
}

/** How many matches of both versions a contest has. */
export const matchesOf = (opponents, each) => 4 * opponents.length * each;

/**
 * Plays both sources against the opponents, `each` matches in each seat. Returns the worth of the change: `all`, that against each
 * opponent, the best first, and the pairs of matches that `flipped`, those first that cost most.
 */
export async function contestOf({call, settings, fresh, old, opponents, each, onSlice}) {
    const others = opponentsOf(opponents, [fresh, old]);
    const trials = new Trials(call, settings, onSlice);
    /** @type {Map<any, Pair[]>} */
    const classes = new Map(others.map(it => [it, []]));
    for (const start of await startsOf(settings.seed, others)) {
        const [mine, theirs] = [await trials.play(fresh, start, 1, each), await trials.play(old, start, 1, each)];
        classes.get(start.opponent).push(...mine.map((it, at) =>
            ({...start, number: it.number, fresh: it, old: theirs[at], gain: POINTS[it.did] - POINTS[theirs[at].did]})));
    }
    const worths = [...classes].map(([opponent, pairs]) => worthOf(opponent.name, [pairs]));
    const pairs = [...classes.values()].flat();
    return {
        all: worthOf("all", [...classes.values()]),
        opponents: worths.sort((one, other) => other.change.value - one.change.value),
        flipped: pairs.filter(({gain}) => gain !== 0).sort((one, other) => one.gain - other.gain),
        count: pairs.length,
    };
}
