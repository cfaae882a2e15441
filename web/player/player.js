// Plays a match: the controls of the page, its keys, and what it shows beside the pictures.
import {Cards} from "./cards.js";
import {DamageDrawing, FieldDrawing, coloursOf} from "./drawing.js";
import {element, made, shown} from "./elements.js";
import {Events} from "./events.js";
import {Speaker} from "./speaking.js";
import {UPDATE_CYCLES} from "./terms.js";

// Cycles a second.
const SPEEDS = [15, 75, 150, 300, 600, 1200, 2400, 4800, 9600, 19200];
const LONGEST_SHOW = 90;
const SHORTEST_SHOW = 6;
const LEAST_GLOW = 60;
const MOST_GLOW = 1200;
const SECONDS_OF_GLOW = 0.35;
// For those who want no motion the match plays by still pictures, this many milliseconds apart.
const CALM = matchMedia("(prefers-reduced-motion: reduce)");
const MILLISECONDS_OF_A_STILL = 500;
// How long the address stays as it is: browsers refuse to change it more often.
const MILLISECONDS_OF_AN_ADDRESS = 500;

/** What plays a match on the page. */
export class Player {
    /**
     * Shows a match from a cycle on, and plays it if it is to; a robot may be chosen. `sources` shows the robot that is chosen from
     * inside, if it is there. A page that is framed by another one has no address of its own, which would follow the cycle, and draws its
     * chart while that is in sight.
     */
    constructor(match, {from = match.first, isPlaying = false, chosen = 0, sources = null, isFramed = false} = {}) {
        this.match = match;
        this.sources = sources;
        this.cycle = this.#within(from);
        this.isFramed = isFramed;
        this.isChartSeen = !isFramed;
        this.#follow(location.hash);
        this.chosen = 0;
        this.isPlaying = false;
        this.shownAt = -Infinity;
        this.speed = this.#fittingSpeed();
        const colours = coloursOf(document.documentElement);
        this.field = new FieldDrawing(element("field"), colours);
        this.damage = new DamageDrawing(element("damage"), colours);
        this.cards = new Cards(element("robots"), match, number => this.#choose(number));
        this.events = new Events(element("events"), match, cycle => this.seek(cycle));
        this.speaker = new Speaker(element("said"), match, this.cycle);
        this.#limits();
        this.#listen();
        this.#marks();
        this.addressed = Math.floor(this.cycle);
        this.#choose(chosen);
        if (isPlaying) this.toggle(); else this.show();
    }

    /** Goes to a cycle, and shows it. */
    seek(cycle) {
        this.cycle = this.#within(cycle);
        this.speaker.follow(this.cycle, true);
        this.show();
    }

    /** Plays, or pauses; from the end it plays from the start. */
    toggle() {
        this.isPlaying = !this.isPlaying;
        if (this.isPlaying) {
            if (this.cycle >= this.match.cycles) this.cycle = this.match.first;
            this.before = performance.now();
            requestAnimationFrame(now => this.#frame(now));
        }
        this.show();
    }

    /** How many cycles a second it plays. */
    get pace() {
        return SPEEDS[this.speed];
    }

    show() {
        const {match, cycle} = this;
        const whole = Math.floor(cycle);
        this.shownAt = performance.now();
        const moment = match.moment(cycle, this.#glow());
        this.cards.show(moment);
        this.events.show(whole);
        this.sources?.show(whole, this.chosen || 1);
        this.#clock(whole);
        if (whole !== this.addressed) this.#address();
        if (whole !== this.describedAt) element("described").textContent = "";
        if (!this.isPlaying) element("field").setAttribute("aria-label", this.#described(moment));
        // what is drawn is as large as the texts leave it
        this.field.draw(moment);
        this.#drawChart();
    }

    #drawChart() {
        if (this.isChartSeen) this.damage.draw(this.match, this.cycle, element("whole").checked);
    }

    /** For how many cycles a burst is seen: while the match plays, long enough for an eye. */
    #glow() {
        const seen = this.isPlaying ? SPEEDS[this.speed] * SECONDS_OF_GLOW : 0;
        return Math.max(LEAST_GLOW, Math.min(MOST_GLOW, seen));
    }

    #frame(now) {
        if (!this.isPlaying) return;
        this.cycle += Math.min(0.25, Math.max(0, now - this.before) / 1000) * SPEEDS[this.speed];
        this.before = now;
        if (this.cycle >= this.match.cycles) {
            this.cycle = this.match.cycles;
            this.isPlaying = false;
        }
        this.speaker.follow(Math.floor(this.cycle), false);
        if (this.#isDue(now)) this.show();
        if (this.isPlaying) requestAnimationFrame(next => this.#frame(next));
    }

    /** Whether a picture is drawn now. */
    #isDue(now) {
        return !CALM.matches || !this.isPlaying || now - this.shownAt >= MILLISECONDS_OF_A_STILL;
    }

    /** The speed at which the match is neither over at once nor too long; that of 300 cycles a second if it can be. */
    #fittingSpeed() {
        const seconds = at => (this.match.cycles - this.match.first) / SPEEDS[at];
        let at = SPEEDS.indexOf(300);
        while (at < SPEEDS.length - 1 && seconds(at) > LONGEST_SHOW) at++;
        while (at > 0 && seconds(at) < SHORTEST_SHOW) at--;
        return at;
    }

    /** The limits of the controls. */
    #limits() {
        SPEEDS.forEach((speed, at) => element("speed").add(new Option(`${shown(speed)} cycles/s`, `${at}`)));
        element("slider").min = `${this.match.first}`;
        element("slider").max = `${this.match.cycles}`;
    }

    #clock(cycle) {
        const {slider, clock} = {slider: element("slider"), clock: element("clock")};
        slider.value = `${cycle}`;
        slider.setAttribute("aria-valuetext", `cycle ${cycle} of ${this.match.cycles}`);
        clock.replaceChildren("cycle ", made("b", "", shown(cycle)), ` of ${shown(this.match.cycles)}`);
        const button = element("play-pause"), does = this.isPlaying ? "pause" : "play";
        if (button.getAttribute("aria-label") !== does) {
            button.setAttribute("aria-label", does);
            button.querySelector("use").setAttribute("href", `#${does}`);
        }
        element("speed").value = `${this.speed}`;
    }

    #described(moment) {
        const robots = moment.robots.map(robot => `robot ${robot.number}, ${robot.name}, ${robot.dead ? "dead"
            : `at ${Math.floor(robot.x / 10)}, ${Math.floor(robot.y / 10)} metres, heading ${robot.heading} degrees, damage ${robot.damage} percent`}`);
        return `The field at cycle ${Math.floor(moment.cycle)}: ${robots.join("; ")}`;
    }

    /** Says the moment in words, where one sees them too; they go with the next cycle. */
    #describe() {
        const {cycle, robots} = this.match.moment(Math.floor(this.cycle), LEAST_GLOW);
        const texts = robots.map(({number, dead, x, y, damage}) =>
            dead ? `${number} dead` : `${number} at ${Math.floor(x / 10)}, ${Math.floor(y / 10)}, damage ${damage} percent`);
        this.#tell(`Cycle ${cycle}: ${texts.join("; ")}`);
    }

    /** Says something until the next cycle. */
    #tell(text) {
        element("described").textContent = text;
        this.describedAt = Math.floor(this.cycle);
    }

    /** Chooses the robot whose hits and restarts keys lead to, or all robots if it is the one. */
    #choose(number) {
        if (!this.match.robots[number - 1]) return;
        this.chosen = this.chosen === number ? 0 : number;
        this.cards.mark(this.chosen);
        this.show();
        const whose = this.chosen ? `robot ${number}, ${this.match.robots[number - 1].name}` : "all robots";
        this.#tell(`hits and restarts of ${whose}`);
    }

    /** Has the address follow the cycle. A page within another one may have no address of its own. */
    #address() {
        if (this.isFramed || this.addressing) return;
        this.addressing = setTimeout(() => {
            this.addressing = 0;
            this.addressed = Math.floor(this.cycle);
            try {
                history.replaceState(null, "", `#${this.addressed}`);
            } catch {
                this.addressing = -1;
            }
        }, MILLISECONDS_OF_AN_ADDRESS);
    }

    /** Goes to the cycle of an address that ends with one, such as #4035. */
    #follow(hash) {
        if (!this.isFramed && /^#\d+$/.test(hash)) this.cycle = this.#within(Number(hash.slice(1)));
    }

    /** The nearest cycle that the page has. */
    #within(cycle) {
        return Math.max(this.match.first, Math.min(this.match.cycles, cycle));
    }

    /** Shows the match on the whole screen, or no more; a browser may refuse it. */
    #fill() {
        const done = document.fullscreenElement ? document.exitFullscreen() : document.documentElement.requestFullscreen?.();
        done?.catch(() => this.#tell("this browser has no whole screen for it"));
    }

    #faster(by) {
        this.speed = Math.max(0, Math.min(SPEEDS.length - 1, this.speed + by));
        this.show();
    }

    /** Pauses, and goes to a cycle. */
    #step(cycle) {
        this.isPlaying = false;
        this.seek(cycle);
    }

    /** Pauses, and goes to the next restart; stays if there is none. */
    #restart() {
        const cycle = this.match.restartAfter(this.cycle, this.chosen);
        this.#step(cycle ?? this.cycle);
        if (cycle === undefined) this.#tell("no restart follows");
    }

    /** What each button does, by its name in the page, and what more keys do. */
    get #actions() {
        const {match, cycle, chosen} = this, update = Math.floor(cycle / UPDATE_CYCLES) * UPDATE_CYCLES;
        return {
            "play-pause": () => this.toggle(),
            "to-start": () => this.seek(match.first),
            "to-end": () => this.#step(match.cycles),
            "update-after": () => this.#step(update + UPDATE_CYCLES),
            "update-before": () => this.#step(update < cycle ? update : update - UPDATE_CYCLES),
            "hit-after": () => this.#step(match.hitAfter(cycle, chosen) ?? match.cycles),
            "hit-before": () => this.#step(match.hitBefore(cycle, chosen) ?? match.first),
            "cycle-after": () => this.#step(Math.floor(cycle) + 1),
            "cycle-before": () => this.#step(Math.ceil(cycle) - 1),
            "restart-after": () => this.#restart(),
            describe: () => this.#describe(),
            "whole-screen": () => this.#fill(),
            faster: () => this.#faster(1),
            slower: () => this.#faster(-1),
        };
    }

    /** The action of a key, if it has one. */
    #named(event) {
        const arrow = event.shiftKey ? "cycle" : "update";
        const keys = {
            " ": "play-pause", Home: "to-start", End: "to-end", n: "hit-after", p: "hit-before", r: "restart-after",
            d: "describe", f: "whole-screen", ",": "cycle-before", ".": "cycle-after",
            ArrowRight: `${arrow}-after`, ArrowLeft: `${arrow}-before`, ArrowUp: "faster", ArrowDown: "slower",
        };
        return keys[event.key.length === 1 ? event.key.toLowerCase() : event.key];
    }

    #press(event) {
        const tag = event.target.tagName, isBlankOnButton = event.key === " " && tag === "BUTTON";
        if (event.ctrlKey || event.metaKey || event.altKey || tag === "SELECT" || isBlankOnButton) return;
        if (/^[1-9]$/.test(event.key)) return this.#choose(Number(event.key));
        const name = this.#named(event);
        if (!name) return;
        event.preventDefault();
        this.#actions[name]();
    }

    #listen() {
        document.addEventListener("keydown", event => this.#press(event));
        for (const button of document.querySelectorAll(".controls button")) {
            button.addEventListener("click", () => this.#actions[button.id]());
        }
        element("slider").addEventListener("input", event => this.seek(Number(event.target.value)));
        element("speed").addEventListener("change", event => this.#faster(Number(event.target.value) - this.speed));
        element("whole").addEventListener("change", () => this.show());
        this.#listenToChart(element("damage"));
        element("more").addEventListener("toggle", () => this.#marks());
        new ResizeObserver(() => { if (!this.field.isFitting) this.show(); }).observe(element("field"));
        document.addEventListener("fullscreenchange", () =>
            document.documentElement.classList.toggle("full", Boolean(document.fullscreenElement)));
        window.addEventListener("hashchange", () => { this.#follow(location.hash); this.show(); });
        matchMedia("(prefers-color-scheme: dark)").addEventListener("change", () => this.#recolour());
    }

    /** The chart leads to the cycle that is pressed. */
    #listenToChart(chart) {
        if (this.isFramed) new IntersectionObserver(seen => { this.isChartSeen = seen.at(-1).isIntersecting; this.#drawChart(); }).observe(chart);
        const seek = event => this.seek(this.damage.cycleAt(event.clientX - chart.getBoundingClientRect().left));
        chart.addEventListener("pointerdown", event => { chart.setPointerCapture(event.pointerId); seek(event); });
        chart.addEventListener("pointermove", event => { if (event.buttons) seek(event); });
    }

    #recolour() {
        this.field.colours = this.damage.colours = coloursOf(document.documentElement);
        this.#marks();
        this.show();
    }

    /** Draws the legend's marks, if they are seen. */
    #marks() {
        if (!element("more").open) return;
        for (const canvas of /** @type {NodeListOf<HTMLCanvasElement>} */ (document.querySelectorAll("[data-mark]"))) {
            new FieldDrawing(canvas, this.field.colours).mark(canvas.dataset.mark);
        }
    }
}
