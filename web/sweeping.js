// Sweeps of the numbers of the robot that is edited: those with a mark have a button, and a curve by the page's own engine.
import {buttonOf, reveal} from "./asking.js";
import {Choice, Far, tableOf} from "./benching.js";
import {STOPPED} from "./calling.js";
import {curveOf} from "./curves.js";
import {byId, made} from "./dom.js";
import {difference, fixed} from "./intervals.js";
import {NOTHING, matchesOf, sweepOf} from "./sweeps.js";
import {opponentsOf} from "./trials.js";
import {constantsOf, countOf, tunablesOf} from "./tuning.js";

const HEADS = ["points", "change", "at least", "at most", "matches", "verdict"];

// of a number with more values one learns nothing that one of fewer steps wouldn't say, and the page would be busy for long
const MOST_VALUES = 100;
const captionOf = ({value}) => `Points a match, and how many more than with ${value}: in 99 of 100 sweeps all changes lie between 'at least' and `
    + "'at most' at once, and a verdict goes by these alone";

function cellsOf({value, points, change, matches, verdict}) {
    return [`${value}`, fixed(points, 3), ...[change.value, change.low, change.high].map(difference), matches.toLocaleString("en"), verdict];
}

/** The result in words. */
function toldOf(rows, {name, value}) {
    const [better, worse] = ["better", "worse"].map(verdict => rows.filter(it => it.verdict === verdict));
    better.sort((one, other) => other.points - one.points);
    const listed = several => several.map(it => it.value).join(", ") || "none";
    return `${name}: surely better than today's ${value}: ${listed(better)}. Surely worse: ${listed(worse)}. `
        + `Of the others: ${NOTHING}.`;
}

export class Sweeping {
    /**
     * @param {import("./store.js").Store} store
     * @param {import("./calling.js").Bench} bench
     */
    constructor(store, editor, bench, samples) {
        this.store = store;
        this.editor = editor;
        this.bench = bench;
        this.choice = new Choice(byId("sweep-choice"), store, samples, true);
        this.far = new Far(byId("sweep-far"), () => bench.stop());
        /**
         * What is swept, or was.
         * @type {{key: string, source: string, isOld: boolean} | null}
         */
        this.swept = null;
        store.onChange(() => this.follow());
    }

    /** What is written ends a sweep of what was there before; another robot has none. */
    follow() {
        const {key, source} = this.store.robot;
        this.choice.offer();
        const {swept} = this;
        if (!swept || swept.key === key && (swept.isOld || swept.source === source)) {
            return;
        }
        const isOther = swept.key !== key;
        const told = this.far.isRunning ? "The sweep was stopped: the source has changed." : "This sweep is of an older text.";
        this.swept = isOther ? null : {...swept, isOld: true};
        this.far.end(this.far.run, () => this.bench.stop());
        this.tell(isOther ? "" : told);
        if (isOther) {
            byId("sweep").replaceChildren();
        }
    }

    /** Offers the numbers of a source, by its listing and the places of its instructions; none of one with a fault. */
    offer(source, compiled) {
        const {found, fault} = this.numbersOf(source, compiled);
        const lineOf = ({end}) => source.lastIndexOf("\n", end - 1) + 1;
        this.editor.offer(found.map(it => ({line: it.line, at: it.end - lineOf(it), call: () => this.sweep(source, it)})));
        const told = fault ? [made("span", fault, "fault")] : [];
        byId("sweep-numbers").replaceChildren(...found.map(it => this.button(source, it)), ...told);
        byId("sweeps").hidden = !found.length && !fault && !byId("sweep").children.length;
    }

    numbersOf(source, compiled) {
        try {
            return {found: compiled ? tunablesOf(source, constantsOf(source, compiled.listing, compiled.places)) : [], fault: ""};
        } catch (fault) {
            return {found: [], fault: `A mark is wrong: ${fault.message}.`};
        }
    }

    button(source, it) {
        const called = it.name.includes(":") ? "" : ` ${it.name}`;
        return buttonOf(`Sweep${called}: line ${it.line}, ${it.value} in ${it.low}..${it.high}`, () => this.sweep(source, it));
    }

    async sweep(source, number) {
        const {each} = this.choice;
        const opponents = opponentsOf(this.choice.robots, [source]);
        const count = countOf(number);
        if (!each || !opponents.length || count > MOST_VALUES) {
            const many = `${number.name} has ${count.toLocaleString("en")} values, and ${MOST_VALUES} are the most here: give its mark a greater step.`;
            this.tell(!each ? "" : opponents.length ? many : "There is no other robot to play against: choose others.");
            return;
        }
        const run = this.bench.begin();
        this.swept = {key: this.store.robot.key, source, isOld: false};
        byId("sweep").replaceChildren();
        this.tell(`The values of ${number.name} are playing.`);
        this.far.begin(run, matchesOf(number, opponents, each));
        reveal(byId("sweep-told"));
        await this.play({source, number, opponents, each, settings: {...this.store.battle.settings}}, run);
        this.far.end(run);
    }

    tell(text) {
        byId("sweep-told").textContent = text;
    }

    async play(task, run) {
        const {number} = task;
        const draw = rows => byId("sweep").replaceChildren(curveOf(rows, number));
        try {
            const rows = await sweepOf({...task, call: run.run, onSlice: count => this.far.add(run, count), onLook: draw});
            this.tell(toldOf(rows, number));
            const table = made("details");
            table.append(made("summary", "Numbers"), tableOf([number.name, ...HEADS], rows.map(cellsOf), captionOf(number)));
            byId("sweep").append(table);
        } catch (fault) {
            this.far.end(run, () => this.tell(fault.message === STOPPED ? "Stopped." : fault.message));
        }
    }
}
