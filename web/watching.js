// Watches a match: has it filmed, and shows the film.
import {Ending} from "./limits.js";
import {STOPPED} from "./calling.js";
import {UPDATE_CYCLES} from "./player/terms.js";

// how many windows of 15 cycles of a match are shown while the rest is made, and after how many milliseconds
const FIRST_WINDOWS = 1000;
const SHOW_AFTER = 300;

/** What is to be watched: the match with this number of a battle, from a cycle on; whether it plays at once, and which robot is followed. */
export class Wish {
    constructor({robots, settings}, number, cycle, {isPlaying = false, robot = 0} = {}) {
        this.robots = robots;
        this.settings = settings;
        this.number = number;
        this.cycle = cycle;
        this.from = Math.floor(cycle / UPDATE_CYCLES);
        this.isPlaying = isPlaying;
        this.robot = robot;
    }

    /** Where the film begins, as the player has it. */
    get place() {
        return {from: this.cycle, isPlaying: this.isPlaying, chosen: this.robot};
    }
}

// a link to a moment leads to so many cycles before it
const CYCLES_BEFORE = 300;
const CALM = matchMedia("(prefers-reduced-motion: reduce)");

/** The wish to see a moment of a battle, from some cycles before it on. Who wants no motion sees it stand. */
export function wishOf(battle, {number, cycle, robot = 0}) {
    return new Wish(battle, number, Math.max(0, cycle - CYCLES_BEFORE), {isPlaying: !CALM.matches, robot});
}

/** The call of the engine by which a wish begins to be shown. */
export function callOf({settings, number, from, robots}) {
    return ["windows", {...settings, first: number, from, windows: FIRST_WINDOWS}, robots];
}

export class Watcher {
    /** `runner` calls the engine, `screen` shows films, `say` shows how it goes. */
    constructor(runner, screen, say) {
        this.runner = runner;
        this.screen = screen;
        this.say = say;
    }

    async ask(call, settings, robots) {
        try {
            return await this.runner.call(call, settings, robots);
        } catch (fault) {
            return {ending: null, film: null, faults: fault.message};
        }
    }

    /**
     * Plays a match, and shows it. If that takes long, the windows after the cycle that is asked for are shown before, and they
     * stay if all that the page can keep of the match ends before them. Returns whether a film is shown.
     */
    async watch(wish) {
        try {
            return await this.show(wish);
        } catch (fault) {
            this.say(fault.message, true);
            return false;
        }
    }

    async show(wish) {
        const windows = await this.ask(...callOf(wish));
        const isAll = windows.ending === Ending.DONE && wish.from === 0;
        const isPart = windows.ending === Ending.DONE || windows.ending === Ending.GOES_ON;
        return isPart && !isAll ? this.showBoth(wish, windows) : this.showWhole(wish, windows);
    }

    /** Shows some windows of a match if the film of all of it takes long, and then all of it. */
    async showBoth(wish, windows) {
        // a film that is cut off before the cycle that is asked for isn't read if these windows have it
        const beyond = windows.film === null ? {} : {beyond: wish.cycle};
        const film = this.ask("film", {...wish.settings, first: wish.number, ...beyond}, wish.robots);
        const isSlow = await Promise.race([film.then(() => false), new Promise(done => setTimeout(done, SHOW_AFTER, true))]);
        // a match that ended before has nothing in these windows
        const isShown = isSlow && windows.film !== null;
        if (isShown) {
            await this.showWindows(wish, windows);
        }
        const whole = await film;
        if (whole.ending === null) {
            this.say(reasonOf(null, whole.faults), true);
            return isShown;
        }
        if (whole.film !== null || windows.film === null) {
            return this.showWhole(wish, whole, isShown ? this.screen.place : undefined);
        }
        if (!isShown) {
            await this.showWindows(wish, windows);
        }
        this.say(`Match ${wish.number} can be watched below from cycle ${wish.from * UPDATE_CYCLES} to ${windows.film.cycles}. Ask for another cycle to see more.`);
        return true;
    }

    /** Shows some windows of a match. */
    async showWindows({number, from, place}, {film}) {
        await this.screen.show(film, number, place);
        this.say(`Match ${number} is shown below from cycle ${from * UPDATE_CYCLES} to ${film.cycles}. The rest is being played.`);
    }

    /** Shows all that there is of a match's film, at the cycle that was asked for, or where it is shown already. */
    async showWhole({number, place: begin}, {ending, film, faults}, place = begin) {
        if (film === null) {
            this.say(reasonOf(ending, faults), true);
            return false;
        }
        await this.screen.show(film, number, place);
        this.say(`Match ${number} can be watched below${ending === Ending.FULL ? `, up to cycle ${film.cycles}` : ""}.`);
        return true;
    }
}

/** Returns in words why there is no film. */
function reasonOf(ending, faults) {
    if (ending === Ending.FAULTY) {
        return "No match was played: a robot has a fault.";
    }
    return faults === STOPPED ? "Stopped. The match wasn't played to its end." : faults || "The settings were refused.";
}
