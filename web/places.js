// The three places of the page: to write, to fight and to watch. Where there is room they stand side by side, else one is shown.
import {byId} from "./dom.js";

const NAMES = ["write", "fight", "watch"];
const WIDE = matchMedia("(min-width: 60.01rem)");

export class Places {
    /** `focus` says where the focus goes from the links at the page's start: to the editor, and to the field. */
    constructor(focus) {
        NAMES.forEach(name => byId(`to-${name}`).addEventListener("click", () => this.go(name)));
        for (const [id, name] of [["to-editor", "write"], ["to-field", "watch"]]) {
            byId(id).addEventListener("click", event => {
                event.preventDefault();
                this.go(name);
                focus[name]();
            });
        }
        // what stays in sight while one steps stands below the bar
        new ResizeObserver(([{borderBoxSize: [{blockSize}]}]) => byId("replay").style.setProperty("--bar", `${blockSize}px`)).observe(byId("bar"));
        WIDE.addEventListener("change", () => this.go(this.shown));
        this.go("write");
    }

    /** Whether all places are shown side by side. */
    get isWide() {
        return WIDE.matches;
    }

    /** Shows what the first match had to come before. */
    reveal() {
        byId("main").classList.remove("early");
    }

    /** Shows a place. */
    go(name) {
        if (name !== "watch" && this.shown) {
            this.reveal();
        }
        this.shown = name;
        byId("main").dataset.place = name;
        NAMES.forEach(it => byId(`to-${it}`).setAttribute("aria-pressed", String(it === name)));
        // the focus would go into a film that isn't shown
        document.querySelectorAll(".place").forEach(it => { /** @type {HTMLElement} */ (it).inert = !this.isWide && !it.classList.contains(name); });
        window.dispatchEvent(new Event("resize"));
    }
}
