// The report of a battle: its text, in which the head of each match is a button that leads to its film.

import {Limits} from "./limits.js";
import {matchesOf} from "./results.js";

// of a very long report the first matches are buttons
const MOST_BUTTONS = 5000;

/** Says how many matches can be pressed, and how the others are watched. */
function leftOut(count, left) {
    return count < MOST_BUTTONS ? `Matches after number ${Limits.first.toLocaleString("en")} can't be watched.`
        : `The first ${count.toLocaleString("en")} matches can be pressed. Watch one of the other ${left.toLocaleString("en")} by its number.`;
}

/** The report, whose matches are watched by a click, or by the arrow keys and Enter. */
export class Report {
    /** Fills an element; `watch` is called with the number of the match that is chosen. */
    constructor(box, watch) {
        this.box = box;
        box.addEventListener("click", event => {
            const head = event.target.closest("button");
            if (head) {
                this.choose(head);
                watch(Number(head.dataset.match));
            }
        });
        box.addEventListener("keydown", event => this.press(event));
    }

    show(text) {
        const all = matchesOf(text);
        const matches = all.slice(0, MOST_BUTTONS).filter(({number}) => number <= Limits.first);
        const parts = matches.flatMap(({begin, end, number}, at) =>
            [text.slice(matches[at - 1]?.end ?? 0, begin), this.head(text.slice(begin, end), number)]);
        this.box.replaceChildren(...parts.filter(it => it !== ""), text.slice(matches.at(-1)?.end ?? 0));
        this.heads = parts.filter(it => typeof it !== "string");
        this.tellLeft(all.length - matches.length);
        if (this.heads.length) {
            this.heads[0].tabIndex = 0;
        }
    }

    /** Says how many matches are no buttons. */
    tellLeft(left) {
        const line = document.getElementById("report-left");
        line.hidden = left === 0;
        line.textContent = left ? leftOut(this.heads.length, left) : "";
    }

    head(text, match) {
        const head = Object.assign(document.createElement("button"), {type: "button", textContent: text, tabIndex: -1, title: "Watch this match"});
        head.dataset.match = match;
        return head;
    }

    /** Of all heads one is reached by the tab key. */
    choose(head) {
        this.heads.forEach(it => { it.tabIndex = it === head ? 0 : -1; });
    }

    press(event) {
        const step = {ArrowDown: 1, ArrowUp: -1}[event.key];
        const at = this.heads?.indexOf(document.activeElement) ?? -1;
        const next = at >= 0 && step ? this.heads[at + step] : null;
        if (next) {
            event.preventDefault();
            this.choose(next);
            next.focus();
        }
    }
}
