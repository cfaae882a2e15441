// What trials look like while they run: against whom they are, how far they are, and a button that ends them.
import {buttonOf} from "./asking.js";
import {made} from "./dom.js";
import {MOST_MATCHES} from "./trials.js";

const USUAL_MATCHES = 100;

/** The groups of opponents that one may choose: {name, robots}; the others of a battle first, if there are any. */
function groupsOf(samples, others) {
    const levels = [...new Set(samples.map(({level}) => level))];
    const groups = levels.map(level => ({name: `samples of level ${level}`, robots: samples.filter(it => it.level === level)}));
    const mine = others.length ? [{name: "the others of this battle", robots: others}] : [];
    return [...mine, ...groups, {name: "all samples", robots: samples}];
}

/** Where one chooses the opponents and how many matches are played against each. */
export class Choice {
    /** Fills a box; `store` has the battle. The choice is a level at first if it is `byLevel`, else the others of the battle. */
    constructor(box, store, samples, byLevel) {
        this.store = store;
        this.samples = samples;
        this.select = document.createElement("select");
        this.matches = Object.assign(document.createElement("input"),
            {type: "number", min: "4", max: `${MOST_MATCHES}`, required: true, value: `${USUAL_MATCHES}`});
        this.byLevel = byLevel;
        box.replaceChildren(...Object.entries({Against: this.select, "Matches against each": this.matches}).map(([name, field]) => {
            const label = made("label", `${name} `);
            label.append(field);
            return label;
        }));
    }

    /** Offers the groups that there are now; what was chosen stays chosen. */
    offer() {
        const {key} = this.store.robot;
        this.groups = groupsOf(this.samples, this.store.robots.filter(it => it.key !== key));
        const names = this.groups.map(({name}) => name);
        const {value} = this.select;
        if (names.join() !== [...this.select.options].map(it => it.value).join()) {
            this.select.replaceChildren(...names.map(name => new Option(name, name)));
            const usual = names.find(name => !this.byLevel || name.startsWith("samples"));
            this.select.value = names.includes(value) ? value : usual ?? names[0];
        }
    }

    get robots() {
        return this.groups.find(({name}) => name === this.select.value).robots;
    }

    /** How many matches are played in each seat against each; nothing if that is wrong, which is said. */
    get each() {
        return this.matches.reportValidity() ? Math.ceil(Number(this.matches.value) / 2) : 0;
    }
}

/** A line that says how far trials are. */
export class Far {
    constructor(box, stop) {
        this.box = box;
        this.bar = Object.assign(document.createElement("progress"), {max: 1, ariaLabel: "Matches played"});
        this.words = made("span");
        box.classList.add("going");
        box.replaceChildren(this.bar, this.words, buttonOf("Stop", stop));
        box.hidden = true;
        this.run = null;
        this.all = 1;
        this.played = 0;
    }

    get isRunning() {
        return this.run !== null;
    }

    /** Shows how far a run is, and no other one. */
    begin(run, all) {
        Object.assign(this, {run, all, played: 0});
        this.box.hidden = false;
        this.add(run, 0);
    }

    add(run, count) {
        if (run === this.run) {
            this.played += count;
            this.bar.value = this.played / this.all;
            this.words.textContent = `${this.played.toLocaleString("en")} of ${this.all.toLocaleString("en")} matches`;
        }
    }

    /** The run has ended; calls back if it is shown. */
    end(run, call = () => {}) {
        if (run && run === this.run) {
            this.run = null;
            this.box.hidden = true;
            call();
        }
    }
}

/** A table of rows of texts; the first cell of each names it. */
export function tableOf(heads, rows, caption) {
    const table = made("table", "", "trials");
    const [head, body] = [made("thead"), made("tbody")];
    const line = made("tr");
    line.append(...heads.map(text => Object.assign(made("th", text), {scope: "col"})));
    head.append(line);
    body.append(...rows.map(([name, ...cells]) => {
        const row = made("tr");
        row.append(Object.assign(made("th", name), {scope: "row"}), ...cells.map(text => made("td", text)));
        return row;
    }));
    table.append(made("caption", caption), head, body);
    return table;
}
