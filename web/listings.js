// The listing of a robot's code beside its source: each instruction with its address and its line, and what turns of loops take.
import {Ending} from "./limits.js";

/**
 * Reads what a robot's source has where, as the module lists it: the names of its externals and of its functions' variables, where
 * functions begin, and of each instruction its line, its column, whether the line is entered at it, the number of its function, and
 * the name in it.
 */
export function partsOf(places) {
    const parts = {externals: [], functions: [], code: []};
    const kinds = {
        external: ([name]) => parts.externals.push(name),
        function: ([begin, name]) => parts.functions.push({name, begin: Number(begin), variables: []}),
        variable: ([of, name]) => parts.functions[of].variables.push(name),
        code: ([line, column, entry, of, name]) =>
            parts.code.push({line: Number(line), column: Number(column), isEntry: entry === "1", of: Number(of), name}),
    };
    for (const row of places.split("\n").slice(1, -1)) {
        const [, , kind, ...values] = row.split("\t");
        kinds[kind](values);
    }
    return parts;
}

/** Returns the instructions of a listing as it has them, by their addresses: its last rows, so many. */
export function instructionsOf(listing, count) {
    return count ? listing.trimEnd().split("\n").slice(-count).map((row, address) => row.trim().slice(`${address} `.length)) : [];
}

/** Returns what is known of the turns of loops, as the module reports it: {line, text} of each. */
export function turnsOf({ending, text}) {
    const rows = ending === Ending.DONE ? text.split("\n").slice(0, -1) : [];
    return rows.map(row => {
        const [line, , , least, most] = row.split("\t");
        const cycles = most === undefined ? `at least ${least}` : least === most ? least : `${least} to ${most}`;
        return {line, text: `Line ${line}: ${least === undefined ? "the loop never begins again" : `a turn takes ${cycles} cycles`}`};
    });
}

/** The listing as a list, from which one goes to the source's lines. */
export class Listing {
    /** Fills a list box; `goTo` is called with the line of the row that is chosen. */
    constructor(box, goTo) {
        this.box = box;
        this.goTo = goTo;
        this.rows = [];
        this.chosen = null;
        box.addEventListener("click", event => this.choose(event.target.closest("[role=option]"), true));
        box.addEventListener("keydown", event => this.press(event));
    }

    /** Shows a listing, whose instructions come from these places, and what turns of loops take, each before its loop. */
    show(text, code, turns) {
        const rows = text.trimEnd().split("\n").slice(1);
        const headings = rows.slice(0, rows.length - code.length);
        const instructions = instructionsOf(text, code.length).map((instruction, address) => ({address, instruction, line: code[address].line}));
        this.rows = [...headings.map(row => ({instruction: row.trim()})), ...instructions].map((parts, at) => this.row(parts, at));
        turns.forEach((turn, at) => {
            const row = this.row({instruction: turn.text}, `turn-${at}`);
            row.dataset.line = turn.line;
            const begin = this.rows.findIndex(it => !it.matches(".heading") && it.dataset.line === turn.line);
            this.rows.splice(begin < 0 ? this.rows.length : begin, 0, row);
        });
        this.box.replaceChildren(...this.rows);
        this.chosen = null;
        this.box.removeAttribute("aria-activedescendant");
    }

    /**
     * Makes a row: of an instruction with its line and its address, or of a heading.
     * @param {{line?: number, address?: number, instruction: string}} parts
     * @param {number | string} at
     */
    row({line, address, instruction}, at) {
        const row = Object.assign(document.createElement("div"), {id: `row-${at}`, role: "option", ariaSelected: "false"});
        const isHeading = address === undefined;
        const parts = isHeading ? {instruction} : {line, address: String(address).padStart(5), instruction};
        row.append(...Object.entries(parts).map(([name, value]) =>
            Object.assign(document.createElement("span"), {className: name, textContent: value})));
        row.classList.toggle("heading", isHeading);
        if (!isHeading) {
            row.dataset.line = String(line);
            row.ariaLabel = `line ${line}, address ${address}: ${instruction}`;
        }
        return row;
    }

    /** Marks the rows of a line of the source, and shows them. */
    mark(line) {
        const rows = this.rows.filter(row => row.classList.toggle("marked", row.dataset.line === String(line)));
        if (rows.length) {
            this.scrollTo(rows[0], rows.at(-1));
        }
    }

    /** Scrolls the list, and nothing else, until the rows from one to another are seen. */
    scrollTo(first, last = first) {
        const {box} = this;
        const isAbove = first.offsetTop < box.scrollTop;
        if (isAbove || last.offsetTop + last.offsetHeight > box.scrollTop + box.clientHeight) {
            box.scrollTop = first.offsetTop - box.clientHeight / 3;
        }
    }

    choose(row, goes) {
        if (!row) {
            return;
        }
        this.chosen?.setAttribute("aria-selected", "false");
        this.chosen = row;
        row.setAttribute("aria-selected", "true");
        this.box.setAttribute("aria-activedescendant", row.id);
        this.scrollTo(row);
        if (goes && row.dataset.line) {
            this.goTo(Number(row.dataset.line));
        }
    }

    /** The arrow keys choose a row, and Enter goes to its line. */
    press(event) {
        const step = {ArrowDown: 1, ArrowUp: -1}[event.key];
        if (step) {
            event.preventDefault();
            const at = this.chosen ? this.rows.indexOf(this.chosen) + step : 0;
            this.choose(this.rows[at], false);
        } else if (event.key === "Enter" && !event.ctrlKey && !event.metaKey) {
            // the source takes the focus, and must not get the key too
            event.preventDefault();
            this.choose(this.chosen, true);
        }
    }
}
