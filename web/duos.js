// Two films beside each other, in step, with a mark where they first differ.
import {byId} from "./dom.js";
import {Screen} from "./replays.js";

const CALM = matchMedia("(prefers-reduced-motion: reduce)");
const MILLISECONDS_OF_A_STILL = 500;
// cycles a second, and how long two films take at most
const USUAL_SPEED = 300;
const MOST_SECONDS = 45;
// so many cycles before the first difference the films begin
const CYCLES_BEFORE = 300;
const LEAST_HEIGHT = 150;
// how much of the window's height the dialog may have, as the style says, and its borders, in pixels
const PART = 0.98;
const BORDERS = 2;
const STACKED = matchMedia("(orientation: portrait)");

const shown = cycle => Math.floor(cycle).toLocaleString("en");

/** A film that is led by the buttons below it. */
class Half extends Screen {
    /** What all else in the dialog leaves, for each of two frames if they stand one above the other. */
    get room() {
        const frames = ["duo-old", "duo-fresh"].map(id => byId(id).offsetHeight);
        const taken = STACKED.matches ? frames[0] + frames[1] : Math.max(...frames);
        const left = window.innerHeight * PART - BORDERS - (byId("duo").scrollHeight - taken);
        return Math.max(LEAST_HEIGHT, left / (STACKED.matches ? 2 : 1));
    }

    measure() {
        this.inside.documentElement.classList.add("led");
        super.measure();
    }

    fit() {
        super.fit();
        const over = this.frame.offsetHeight - this.room;
        if (this.player && over > 0) {
            // names and bars below the field take more room in some letters
            this.inside.documentElement.style.setProperty("--height", `${this.room - over}px`);
            this.resize();
        }
    }

    /** Shows a cycle, or the film's end. */
    go(cycle) {
        const {player} = this;
        player.cycle = Math.max(player.match.first, Math.min(cycle, player.match.cycles));
        player.show();
    }
}

export class Duo {
    /** @param {import("./calling.js").Bench} bench */
    constructor(bench) {
        this.bench = bench;
        this.halves = ["duo-old", "duo-fresh"].map(id => new Half(byId(id), {isWide: false}));
        this.halves.forEach(it => { it.isBeside = true; });
        this.isPlaying = false;
        byId("duo-play").addEventListener("click", () => this.play(!this.isPlaying));
        byId("duo-parting").addEventListener("click", () => this.jump(this.parting));
        byId("duo-slider").addEventListener("input", event => this.jump(Number(event.target.value)));
        byId("duo-close").addEventListener("click", () => byId("duo").close());
        byId("duo").addEventListener("close", () => this.end());
        byId("duo").addEventListener("keydown", event => this.press(event));
    }

    /** Plays a match with both robots, and shows both films from before where they differ. */
    async show({settings, battles, heads}, title) {
        const run = this.bench.begin();
        byId("duo-title").textContent = title;
        byId("duo-told").textContent = "Both matches are being played.";
        byId("duo").classList.add("waiting");
        byId("duo").showModal();
        try {
            const {films, parting} = await run.call("compare", settings, battles);
            await this.open(films, parting, heads, settings.first);
        } catch (fault) {
            byId("duo-told").textContent = fault.message;
        }
    }

    async open(films, parting, heads, number) {
        if (films.some(({film}) => !film)) {
            throw new Error(films.map(({faults}) => faults).find(it => it) || "There is no film of these matches.");
        }
        byId("duo").classList.remove("waiting");
        ["duo-head-old", "duo-head-fresh"].forEach((id, at) => { byId(id).textContent = heads[at]; });
        for (const [at, half] of this.halves.entries()) {
            await half.show(films[at].film, number, {});
        }
        if (!byId("duo").open) {
            return;
        }
        this.parting = parting;
        this.last = Math.max(...films.map(({film}) => film.cycles));
        this.speed = Math.max(USUAL_SPEED, this.last / MOST_SECONDS);
        this.scale();
        this.jump(Math.max(0, (parting ?? 0) - CYCLES_BEFORE));
        this.play(!CALM.matches);
        byId("duo-play").focus();
    }

    /** The slider, and the mark on it. */
    scale() {
        byId("duo-slider").max = `${this.last}`;
        byId("duo-mark").hidden = byId("duo-parting").disabled = this.parting === null;
        byId("duo-mark").style.setProperty("--part", `${(this.parting ?? 0) / this.last}`);
        const told = `To the first difference: cycle ${shown(this.parting ?? 0)}`;
        byId("duo-parting").textContent = this.parting === null ? "They never differ" : told;
    }

    /** Goes to a cycle, and pauses there. */
    jump(cycle) {
        this.play(false);
        this.go(cycle);
    }

    go(cycle) {
        this.cycle = Math.max(0, Math.min(this.last, cycle));
        this.halves.forEach(it => it.go(this.cycle));
        byId("duo-slider").value = `${Math.floor(this.cycle)}`;
        const isApart = this.parting !== null && this.cycle >= this.parting;
        byId("duo").classList.toggle("apart", isApart);
        const told = isApart ? `apart since cycle ${shown(this.parting)}` : "the same so far";
        byId("duo-told").textContent = `cycle ${shown(this.cycle)} of ${shown(this.last)}: ${told}`;
    }

    play(isPlaying) {
        const begins = isPlaying && !this.isPlaying;
        this.isPlaying = isPlaying;
        byId("duo-play").textContent = isPlaying ? "Pause" : "Play";
        if (begins) {
            this.go(this.cycle >= this.last ? 0 : this.cycle);
            this.before = this.drawn = performance.now();
            requestAnimationFrame(now => this.frame(now));
        }
    }

    frame(now) {
        if (!this.isPlaying) {
            return;
        }
        const isDue = !CALM.matches || now - this.drawn >= MILLISECONDS_OF_A_STILL;
        if (isDue) {
            this.go(this.cycle + Math.min(CALM.matches ? 1 : 0.25, Math.max(0, now - this.before) / 1000) * this.speed);
            this.before = this.drawn = now;
        }
        if (this.cycle >= this.last) {
            this.play(false);
        }
        requestAnimationFrame(next => this.frame(next));
    }

    /** The space key plays and pauses, if it isn't a button's. */
    press(event) {
        if (event.key === " " && event.target.tagName !== "BUTTON" && !byId("duo").classList.contains("waiting")) {
            event.preventDefault();
            this.play(!this.isPlaying);
        }
    }

    /** The dialog was closed, if it isn't open for another match already. */
    end() {
        if (!byId("duo").open) {
            this.isPlaying = false;
            this.bench.stop();
            this.halves.forEach(({frame}) => { frame.hidden = true; });
        }
    }
}
