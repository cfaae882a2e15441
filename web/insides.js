// The panel on a robot from inside: its source with the line that it is at, its calls and variables, at the film's cycle.
import {byId, made} from "./dom.js";
import {Ending} from "./limits.js";
import {STOPPED} from "./calling.js";
import {Code, callsOf, foundIn, momentOf, valuesOf} from "./moments.js";

// how often the film's cycle is looked up, and after how many milliseconds a search may be stopped by the page's button
const LOOK_EVERY = 50;
const STOP_AFTER = 300;
const MOST_LINES = 5000;
const CAUSES = {words: "its stack is full", frames: "too many calls are open", returned: "main returned"};
const FILE = {name: "robot"};

/** Returns a row of a table: a heading over it, or a name and its value. */
function rowOf({name, value, heading}) {
    const row = made("tr", "");
    if (heading) {
        row.append(Object.assign(made("th", heading), {colSpan: 2, scope: "rowgroup"}));
    } else {
        row.append(Object.assign(made("th", name), {scope: "row"}), made("td", value));
    }
    return row;
}

// What is looked for from a moment on: {marks, frames} each, of which the one that is met first counts, and its name in a
// sentence. These are the steps of crobots-step. The `frames` of a call are those that are open with it.

/** The next line that is entered. */
const into = code => ({aims: [{marks: code.entriesOf()}], what: "another line"});

/** Where the call of this function has ended. */
const out = (code, {frames}) =>
    ({aims: frames > 1 ? [{marks: [...code.instructions.keys()], frames: frames - 1}] : [], what: "the end of this call"});

/** The next line that is entered, but not in a call from here; or where the call of this function has ended, if it ends before. */
const over = (code, call) => ({...into(code), aims: [{marks: code.entriesOf(), frames: call.frames}, ...out(code, call).aims]});

/** The panel. */
export class Inside {
    /** `screen` shows the film, `runner` calls the engine, and `playing` has the button by which a search is stopped. */
    constructor(screen, runner, playing) {
        this.screen = screen;
        this.runner = runner;
        this.playing = playing;
        this.marks = new Set();
        this.panel = byId("inside");
        this.panel.addEventListener("toggle", event => event.target === this.panel && this.begin());
        byId("inside-robot").addEventListener("change", () => this.choose());
        byId("inside-source").addEventListener("click", event => this.mark(event.target.closest("button")));
        this.actions = {
            "cycle-before": () => this.step(-1), "cycle-after": () => this.step(1),
            "line-before": () => this.search(() => this.toLine(), true), "line-after": () => this.search(() => this.toLine()),
            "step-into": () => this.search(into), "step-over": () => this.search(over), "step-out": () => this.search(out),
        };
        Object.entries(this.actions).forEach(([id, act]) => byId(id).addEventListener("click", act));
        this.panel.addEventListener("keydown", event => this.press(event));
        // the film takes these keys too
        screen.onShow = () => screen.inside.addEventListener("keydown", event => this.press(event));
        setInterval(() => this.follow(), LOOK_EVERY);
        // also once a screen was turned
        new ResizeObserver(() => this.scroll()).observe(byId("inside-source"));
    }

    /** Whether the panel is open, and a film is there to follow. */
    get isOpen() {
        return Boolean(this.wish) && this.panel.open && Boolean(this.screen.player);
    }

    get robot() {
        return byId("inside-robot").selectedIndex;
    }

    /** Follows the film of a match from now on; none if there is no wish. */
    watch(wish = null) {
        this.wish = wish;
        this.panel.hidden = byId("inside-place").hidden = !wish;
        if (wish) {
            const names = wish.robots.map(({name}) => name);
            const robots = names.length === 1 ? [...names, ...names] : names;
            const chosen = Math.min(Math.max(0, this.robot), robots.length - 1);
            byId("inside-robot").replaceChildren(...robots.map((name, at) => new Option(`${at + 1}) ${name}`)));
            byId("inside-robot").selectedIndex = chosen;
            this.choose();
        }
    }

    /** An open panel stands in the other column than the film, where there are two. What has the focus in it keeps it. */
    begin() {
        const {open} = this.panel;
        const place = byId("inside-place");
        const focused = /** @type {HTMLElement} */ (document.activeElement);
        if (open) {
            byId("left").prepend(place);
        } else {
            byId("replay").after(place);
        }
        if (place.contains(focused)) {
            focused.focus({preventScroll: true});
        }
        byId("main").classList.toggle("stepping", open);
        this.screen.beside(open);
        if (this.isOpen && !this.code) {
            this.choose();
        }
    }

    /** Looks into the robot that is chosen. */
    async choose() {
        this.code = this.shown = null;
        this.marks.clear();
        if (this.isOpen) {
            const {wish, robot} = this;
            const {source} = wish.robots[Math.min(robot, wish.robots.length - 1)];
            const asked = ["list", "places"].map(call => this.ask(call, {}, [{...FILE, source}]));
            const [listed, places] = await Promise.all(asked);
            if (listed?.ending === Ending.DONE && wish === this.wish && robot === this.robot) {
                this.showSource(source);
                this.code = new Code(listed.text, places.text);
            }
        }
    }

    /** Asks the engine about the match that is watched; null if the call was stopped. */
    async ask(call, more, robots = this.wish.robots) {
        const {settings, number} = this.wish;
        try {
            return await this.runner.call(call, {...settings, first: number, ...more}, robots);
        } catch (fault) {
            this.say(fault.message === STOPPED ? "Stopped." : fault.message);
            return null;
        }
    }

    say(text) {
        byId("inside-said").textContent = text;
    }

    /** Shows the moment at which the film is, one after another. */
    async follow() {
        if (this.isOpen && this.code && !this.isFollowing) {
            this.isFollowing = true;
            await this.look();
            this.isFollowing = false;
        }
    }

    /** Shows the moment at which the film is, if that isn't shown. Returns it, null if it isn't known. */
    async look() {
        const {wish, code, robot} = this;
        const cycle = Math.floor(this.screen.player.cycle);
        if (cycle !== this.shown?.cycle) {
            const told = await this.ask("moment", {robot, cycle});
            const moment = told && momentOf(told.text);
            if (!moment || wish !== this.wish || code !== this.code) {
                return null;
            }
            this.shown = {cycle, moment};
            this.show(moment);
        }
        return this.shown.moment;
    }

    showSource(source) {
        const lines = source.replace(/\n$/, "").split("\n").slice(0, MOST_LINES);
        this.rows = lines.map((text, at) => {
            const row = made("li", "");
            const number = Object.assign(made("button", at + 1), {type: "button", ariaLabel: `mark line ${at + 1}`, ariaPressed: "false"});
            row.append(number, made("code", text));
            return row;
        });
        byId("inside-source").replaceChildren(...this.rows);
    }

    /** Marks a line, or takes its mark away. */
    mark(button) {
        if (button) {
            const line = Number(button.textContent);
            const isNew = !this.marks.delete(line);
            if (isNew) {
                this.marks.add(line);
            }
            button.setAttribute("aria-pressed", String(isNew));
        }
    }

    show(moment) {
        const {code} = this;
        const line = code.lines[moment.address];
        const calls = callsOf(code, moment);
        this.showLine(line);
        byId("inside-at").setAttribute("aria-live", this.screen.player?.isPlaying ? "off" : "polite");
        byId("inside-at").textContent = this.placeOf(moment, line);
        byId("inside-next").textContent = this.nextOf(moment);
        byId("inside-asked").textContent = moment.asked
            ? `Last question: ${moment.asked.call} gave ${moment.asked.reply} in cycle ${moment.asked.cycle}` : "It has asked nothing yet.";
        const named = calls.flatMap(({name, line: at, variables}) => [{heading: `${name}, line ${at}`}, ...variables]);
        const externals = valuesOf(code.externals, moment.externals);
        byId("inside-calls").replaceChildren(...[...named, ...(externals.length ? [{heading: "externals"}, ...externals] : [])].map(rowOf));
        byId("inside-stack").textContent = moment.words.join(" ") || "empty";
        this.say("");
    }

    showLine(line) {
        this.current?.classList.remove("current");
        this.current?.removeAttribute("aria-current");
        this.current = this.rows[line - 1];
        this.current?.classList.add("current");
        this.current?.setAttribute("aria-current", "step");
        this.scroll();
    }

    /** Scrolls the source, and nothing else, until the line is seen. */
    scroll() {
        const box = byId("inside-source");
        const {offsetTop: top, offsetHeight: height} = this.current ?? {};
        if (top < box.scrollTop || top + height > box.scrollTop + box.clientHeight) {
            box.scrollTop = top - box.clientHeight / 3;
        }
    }

    placeOf({cycle, address, isAlive, isOver}, line) {
        const state = [isAlive ? "" : "dead", isOver ? "the match is over" : ""].filter(it => it);
        return [`Cycle ${cycle}`, `line ${line}, ${this.code.functionOf(address).name}`, ...state].join(" · ");
    }

    nextOf({address, asks, restarts, isAlive, isOver}) {
        const name = this.code.nameIn(address);
        const instruction = `${address} ${this.code.instructions[address]}${name ? ` (${name})` : ""}`;
        const does = [asks ? `it asks ${asks}` : "", restarts ? `it restarts: ${CAUSES[restarts]}` : ""].filter(it => it);
        return [`${isAlive && !isOver ? "Next" : "It stopped at"}: ${instruction}`, ...does].join(" · ");
    }

    /** Goes a number of cycles on in the film. */
    step(by) {
        if (this.isOpen) {
            this.goTo(Math.floor(this.screen.player.cycle) + by);
        }
    }

    /** Pauses the film, and goes to a cycle. Returns whether the film has it. */
    goTo(cycle) {
        const {player} = this.screen;
        if (player.isPlaying) {
            player.toggle();
        }
        player.seek(cycle);
        return player.cycle === cycle;
    }

    /** What is looked for by lines: a marked one, or the present one if none is marked. */
    toLine() {
        const lines = this.marks.size ? this.marks : new Set([this.code.lines[this.shown.moment.address]]);
        return {aims: [{marks: this.code.entriesOf(lines)}], what: this.marks.size ? "a marked line" : `line ${[...lines][0]}`};
    }

    /** Goes to the next cycle, or back to the last one, after which the robot is where it is to be, as `aimsOf` says it. */
    async search(aimsOf, backwards = false) {
        if (!this.isOpen || !this.code || this.playing.isRunning) {
            return;
        }
        const {code} = this;
        const here = await this.look();
        if (!here) {
            return;
        }
        this.say("");
        const {aims, what} = aimsOf(code, callsOf(code, here)[0]);
        const told = await this.patiently(aims.map(aim => this.ask("find", {robot: this.robot, cycle: here.cycle, backwards, ...aim})));
        if (told.every(it => it) && code === this.code) {
            const cycles = told.map(({text}) => foundIn(text)).filter(it => it !== null);
            this.tellFound(cycles.length ? (backwards ? Math.max : Math.min)(...cycles) : null, backwards, what);
        }
    }

    /** Waits for answers, which may be stopped by the page's button if they take long. */
    async patiently(asked) {
        let isSlow = false;
        const timer = setTimeout(() => {
            isSlow = !this.playing.isRunning;
            if (isSlow) {
                this.playing.busy(true);
            }
        }, STOP_AFTER);
        const told = await Promise.all(asked);
        clearTimeout(timer);
        if (isSlow) {
            this.playing.busy(false);
        }
        return told;
    }

    tellFound(cycle, backwards, what) {
        if (cycle === null) {
            this.say(`Nothing: ${backwards ? "before" : "after"} this cycle it doesn't come to ${what}.`);
        } else if (!this.goTo(cycle)) {
            this.say(`It comes to ${what} after cycle ${cycle}, which this film doesn't have.`);
        }
    }

    press(event) {
        const id = {
            ",": "cycle-before", ".": "cycle-after", "[": "line-before", "]": "line-after", F10: "step-over",
            F11: event.shiftKey ? "step-out" : "step-into",
        }[event.key];
        // some keyboards have brackets behind AltGr
        const isPlain = !event.ctrlKey && !event.metaKey && !event.altKey || event.getModifierState("AltGraph");
        // the film has gone a cycle on or back by itself
        if (id && isPlain && this.isOpen && !event.defaultPrevented && event.target.tagName !== "SELECT") {
            event.preventDefault();
            this.actions[id]();
        }
    }
}
