// What happened last, as a list.
import {made, shown} from "./elements.js";

const EVENTS_SHOWN = 6;

/** The last events before a cycle; each leads to its cycle. */
export class Events {
    constructor(list, match, seek) {
        this.match = match;
        this.last = -1;
        this.rows = Array.from({length: EVENTS_SHOWN}, () => {
            const [row, button] = [made("li"), made("button")];
            button.type = "button";
            button.addEventListener("click", () => seek(Number(button.dataset.cycle)));
            row.append(button);
            list.append(row);
            return button;
        });
    }

    show(cycle) {
        const count = this.match.eventsUpTo(cycle);
        if (count === this.last) return;
        this.last = count;
        this.rows.forEach((button, row) => {
            const index = count - 1 - row;
            button.hidden = index < 0;
            if (index >= 0) this.#fill(button, this.match.event(index));
        });
        if (!count) {
            this.rows[0].hidden = false;
            const {first} = this.match;
            this.rows[0].dataset.cycle = `${first}`;
            this.rows[0].replaceChildren(made("span", "cycle", shown(first)), made("span", "", first ? "the replay begins" : "the match begins"));
        }
    }

    #fill(button, {cycle, robot, text}) {
        const said = made("span");
        const name = made("b", "", `${robot}) ${this.match.robots[robot - 1].name}`);
        said.style.setProperty("--colour", `var(--robot-${robot})`);
        said.append(name, ` ${text}`);
        button.dataset.cycle = `${cycle}`;
        button.replaceChildren(made("span", "cycle", shown(cycle)), said);
    }
}
