// Finds a text in the source that is edited, in all its lines, also in those that aren't drawn.
import {byId} from "./dom.js";

// how many places are marked at once
const MOST_MARKED = 1000;

/** A text in small letters, each at its place: one whose small letter takes more room stays as it is. */
const lowered = text => Array.from(text, letter => letter.toLowerCase().length === letter.length ? letter.toLowerCase() : letter).join("");

/** Returns where a text stands in another one, whatever the case of its letters. */
export function placesOf(wanted, text) {
    const places = [];
    const [low, within] = [lowered(wanted), lowered(text)];
    for (let at = low ? within.indexOf(low) : -1; at >= 0; at = within.indexOf(low, at + low.length)) {
        places.push(at);
    }
    return places;
}

/** The bar by which one finds. */
export class Finder {
    constructor(editor) {
        this.editor = editor;
        this.at = -1;
        byId("wanted").addEventListener("input", () => this.look());
        byId("found-after").addEventListener("click", () => this.go(1));
        byId("found-before").addEventListener("click", () => this.go(-1));
        byId("found-end").addEventListener("click", () => this.close());
        byId("find").addEventListener("click", () => this.open());
        byId("finding").addEventListener("keydown", event => this.press(event));
        byId("desk").addEventListener("keydown", event => {
            if (event.key.toLowerCase() === "f" && (event.ctrlKey || event.metaKey) && !event.shiftKey && !event.altKey) {
                event.preventDefault();
                event.stopPropagation();
                this.open();
            }
        }, true);
    }

    open() {
        byId("finding").hidden = false;
        byId("wanted").value = this.editor.selected || byId("wanted").value;
        byId("wanted").select();
        this.look();
    }

    close() {
        byId("finding").hidden = true;
        this.editor.markAll([], 0);
        this.editor.focus();
    }

    /** Finds all places anew. */
    look() {
        const wanted = byId("wanted").value;
        this.places = placesOf(wanted, this.editor.text);
        this.at = -1;
        this.editor.markAll(this.places.slice(0, MOST_MARKED), wanted.length);
        this.tell();
    }

    /** Goes to the next place, or to the one before. */
    go(step) {
        this.look();
        const {places} = this;
        if (places.length) {
            const {from, to} = this.editor.selection;
            const next = step > 0 ? places.findIndex(it => it >= to && it !== from) : places.findLastIndex(it => it < from);
            this.at = next >= 0 ? next : step > 0 ? 0 : places.length - 1;
            this.editor.select(places[this.at], places[this.at] + byId("wanted").value.length);
        }
        this.tell();
    }

    tell() {
        const count = this.places.length;
        const all = count === 1 ? "1 place" : `${count} places`;
        byId("found").textContent = this.at < 0 ? all : `${this.at + 1} of ${all}`;
    }

    press(event) {
        if (event.key === "Enter" && !event.ctrlKey && !event.metaKey && event.target.id === "wanted") {
            event.preventDefault();
            this.go(event.shiftKey ? -1 : 1);
        } else if (event.key === "Escape") {
            event.preventDefault();
            this.close();
        }
    }
}
