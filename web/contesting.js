// What a change of a robot is worth: a version and the robot as it is now play in the same matches, beside the list of versions.
import {buttonOf, reveal} from "./asking.js";
import {Choice, Far, tableOf} from "./benching.js";
import {STOPPED} from "./calling.js";
import {contestOf, matchesOf} from "./contests.js";
import {byId, made} from "./dom.js";
import {fixed, isSure, withSign} from "./intervals.js";
import {opponentsOf, seated} from "./trials.js";

// of the matches that changed so many can be pressed
const MOST_SHOWN = 40;
const HEADS = ["against", "now", "version", "change", "95 % interval"];

const signed = value => withSign(value, 2);
const cellsOf = ({name, fresh, old, change}) =>
    [name, fixed(fresh, 2), fixed(old, 2), signed(change.value), `${signed(change.low)} to ${signed(change.high)}`];

/** What a change is, in words. */
function verdictOf(change) {
    const kind = change.low > 0 ? "a gain" : "a loss";
    return isSure(change) ? `The interval excludes 0: ${kind}.` : "No difference that these matches could show.";
}

/** The result in words. */
function toldOf({all, opponents}, each, name) {
    const listed = is => opponents.filter(({change}) => is(change)).map(it => it.name).join(", ") || "none";
    const {value, low, high} = all.change;
    return `${name} as it is now, in place of its version: ${signed(value)} points a match, 95 % interval ${signed(low)} to `
        + `${signed(high)}, by ${2 * each} matches against each of ${opponents.length}. ${verdictOf(all.change)} `
        + `Gained on: ${listed(it => it.low > 0)}. Lost on: ${listed(it => it.high < 0)}.`;
}

export class Contesting {
    /**
     * `duo` shows two films beside each other.
     * @param {import("./store.js").Store} store
     * @param {import("./calling.js").Bench} bench
     * @param {import("./duos.js").Duo} duo
     */
    constructor(store, bench, samples, duo) {
        this.store = store;
        this.bench = bench;
        this.duo = duo;
        this.choice = new Choice(byId("contest-choice"), store, samples, false);
        this.far = new Far(byId("contest-far"), () => bench.stop());
        store.onChange(() => this.follow());
    }

    /** The choice is that of the battle; what was found goes with the robot. */
    follow() {
        this.choice.offer();
        const {key, source} = this.store.robot;
        if (key !== this.key) {
            this.key = key;
            this.weighed = source;
            this.far.end(this.far.run, () => this.bench.stop());
            byId("contest").replaceChildren();
            this.tell("");
        }
        byId("contest-age").hidden = source === this.weighed || !byId("contest-told").textContent;
    }

    tell(text) {
        byId("contest-told").textContent = text;
    }

    /** Plays a version and the robot as it is now. */
    async weigh(old) {
        const {choice, store} = this;
        const {each} = choice;
        const fresh = store.robot;
        const opponents = opponentsOf(choice.robots, [fresh.source, old.source]);
        if (!each || !opponents.length) {
            this.tell(each ? "There is no other robot to play against: choose others." : "");
            return;
        }
        const settings = {...store.battle.settings};
        const task = {name: fresh.name, fresh: fresh.source, old: old.source, settings, each, opponents};
        const run = this.bench.begin();
        byId("contest").replaceChildren();
        this.tell("Both are playing.");
        this.weighed = fresh.source;
        this.follow();
        this.far.begin(run, matchesOf(opponents, each));
        reveal(byId("contest-told"));
        try {
            this.show(task, await contestOf({...task, call: run.run, onSlice: count => this.far.add(run, count)}));
        } catch (fault) {
            this.far.end(run, () => this.tell(fault.message === STOPPED ? "Stopped." : fault.message));
        }
        this.far.end(run);
    }

    show(task, found) {
        this.tell(toldOf(found, task.each, task.name));
        const table = tableOf(HEADS, [...found.opponents, found.all].map(cellsOf), "Points a match");
        const {flipped, count} = found;
        const rows = flipped.slice(0, MOST_SHOWN).map(pair => this.pairRow(task, pair));
        const more = flipped.length > MOST_SHOWN ? [made("p", `${flipped.length - MOST_SHOWN} more changed.`)] : [];
        const list = made("ol", "", "flipped");
        list.append(...rows);
        const told = `${flipped.length} of ${count} matches changed${rows.length ? "; press one to see both films" : ""}.`;
        byId("contest").replaceChildren(table, made("p", told), list, ...more);
    }

    /** A match that changed, as a button that shows both. */
    pairRow(task, pair) {
        const {number, opponent, isFirst, old, fresh} = pair;
        const row = made("li");
        const text = `Match ${number} against ${opponent.name}, seat ${isFirst ? 1 : 2}: the version ${old.did}, now ${fresh.did}`;
        row.append(buttonOf(text, () => this.duo.show(this.battles(task, pair), text)));
        return row;
    }

    /** The match with the version, and with the robot as it is now. */
    battles({name, old, fresh, settings: {limit, profile}}, {opponent, isFirst, seed, number}) {
        const settings = {limit, profile, seed, first: number};
        const names = isFirst ? [name, opponent.name] : [opponent.name, name];
        const named = source => seated(source, opponent.source, isFirst).map((it, at) => ({...it, name: names[at]}));
        return {settings, battles: [old, fresh].map(named), heads: ["The version", "Now"]};
    }
}
