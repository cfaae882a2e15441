// A robot from inside: its source with the line that it was at after the last update, and its last question.
import {made, shown} from "./elements.js";
import {countAtMost} from "./sorted.js";
import {UPDATE_CYCLES} from "./terms.js";

const MOST_LINES = 5000;

/** The part of the page with the source of a robot. */
export class Sources {
    /** Makes it the last part before the foot of the page. */
    constructor(main, match) {
        this.match = match;
        this.number = 0;
        this.heading = made("h2");
        this.place = made("p", "place");
        this.asked = made("p", "asked");
        this.source = made("ol", "source");
        this.source.tabIndex = 0;
        this.source.setAttribute("aria-label", "Source");
        const part = made("section", "inside");
        part.setAttribute("aria-label", "A robot from inside");
        part.append(this.heading, this.place, this.asked, this.source);
        main.classList.add("with-inside");
        main.querySelector("footer").before(part);
    }

    /** Shows where the robot of a number was after the last update up to a cycle. */
    show(cycle, number) {
        const robot = this.match.robots[number - 1];
        if (number !== this.number) this.#begin(robot);
        const {lines, asked, death} = robot;
        const at = countAtMost(lines.cycle, cycle) - 1, last = countAtMost(asked.cycle, cycle) - 1;
        const update = Math.floor(cycle / UPDATE_CYCLES) * UPDATE_CYCLES;
        const dead = death !== null && death <= cycle;
        const after = dead ? "When it died" : update ? `After cycle ${shown(update)}` : "At the start";
        this.place.textContent = at < 0 ? "Nothing is known before the next update." : `${after}: line ${lines.line[at]}, ${lines.name[at]}`;
        this.asked.textContent = last < 0 ? "" : `Last question: ${asked.call[last]} gave ${asked.reply[last]} in cycle ${shown(asked.when[last])}`;
        this.#mark(at < 0 ? 0 : lines.line[at]);
    }

    /** Shows the source of another robot. */
    #begin({number, name, source}) {
        this.number = number;
        this.heading.textContent = `Inside ${number}) ${name} (1 to ${this.match.robots.length} choose)`;
        this.rows = source.slice(0, MOST_LINES).map(text => made("li", "", text));
        this.source.replaceChildren(...this.rows);
        this.current = null;
    }

    /** Marks the line at which the robot is, and has it in sight. */
    #mark(line) {
        const row = this.rows[line - 1] ?? null;
        if (row === this.current) return;
        for (const it of [this.current, row]) it?.classList.toggle("current", it === row);
        this.current?.removeAttribute("aria-current");
        row?.setAttribute("aria-current", "step");
        this.current = row;
        const box = this.source;
        if (row && (row.offsetTop < box.scrollTop || row.offsetTop + row.offsetHeight > box.scrollTop + box.clientHeight)) {
            box.scrollTop = row.offsetTop - box.clientHeight / 3;
        }
    }
}
