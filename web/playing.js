// The settings, the run of a battle with its report, and the match that is watched.
import {FIRST_MATCH, areSame, checked, copyOf, isSeed} from "./battles.js";
import {STOPPED} from "./calling.js";
import {byId} from "./dom.js";
import {Ending, Limits} from "./limits.js";
import {Filming} from "./filming.js";
import {Inside} from "./insides.js";
import {Screen} from "./replays.js";
import {Report} from "./reports.js";
import {totalsOf} from "./results.js";
import {Series, ended} from "./series.js";
import {Watcher, Wish, wishOf} from "./watching.js";

const NUMBERS = ["matches", "limit", "first", "profile"];
// the settings that a match depends on, beside its number
const RULES = ["limit", "seed", "profile"];

/** Says a text in a line of the page. */
export function tell(id, text, isFault = false) {
    byId(id).textContent = text;
    byId(id).classList.toggle("faulty", isFault);
}

/** Says how it goes with the match that is watched. */
const tellWatched = (text, isFault) => tell("told", text, isFault);

/** Returns whether two battles differ in their robots or in one of these settings. */
function differ(one, other, names) {
    return !areSame(one.robots, other.robots) || names.some(name => one.settings[name] !== other.settings[name]);
}

/** What the tab keeps of its last report, so that it is there after a reload; a long one isn't. */
const KEPT_REPORT = "crobots-report";
const MOST_KEPT_LETTERS = 1000000;

function keepReport(battle, text) {
    try {
        sessionStorage.removeItem(KEPT_REPORT);
        if (text.length <= MOST_KEPT_LETTERS) {
            sessionStorage.setItem(KEPT_REPORT, JSON.stringify({battle, text}));
        }
    } catch {
        // it is played again then
    }
}

/** The last report of the tab, and its battle; null if there is none. */
function keptReport() {
    try {
        const {battle, text} = JSON.parse(sessionStorage.getItem(KEPT_REPORT));
        const read = checked(battle);
        return read && typeof text === "string" ? {battle: copyOf(read), text} : null;
    } catch {
        return null;
    }
}

/** Calls back when a form is sent, which goes nowhere. */
function onSubmit(id, call) {
    byId(id).addEventListener("submit", event => {
        event.preventDefault();
        call();
    });
}

export class Playing {
    /**
     * `runner` calls the engine; `reprofiled` is called after a change of the language's profile.
     * @param {import("./store.js").Store} store
     * @param {import("./calling.js").Caller} runner
     * @param {import("./places.js").Places} places
     * @param {Screen} screen
     */
    constructor(store, runner, places, screen, reprofiled) {
        this.store = store;
        this.runner = runner;
        this.places = places;
        this.reprofiled = reprofiled;
        this.screen = screen;
        this.filming = new Filming(this.screen, tellWatched);
        this.inside = new Inside(this.screen, runner, this);
        this.report = new Report(byId("report"), number => this.watch(new Wish(this.reported, number, 0)));
        byId("settings").addEventListener("input", event => this.takeSettings(event.target.id));
        onSubmit("settings", () => this.run());
        onSubmit("watching", () => this.watchAsked());
        byId("run").addEventListener("click", () => this.run());
        byId("stop").addEventListener("click", () => this.stop());
        byId("from").addEventListener("change", event => this.screen.jumpTo(Number(event.target.value)));
        document.addEventListener("keydown", event => {
            if (event.key === "Enter" && (event.ctrlKey || event.metaKey)) {
                event.preventDefault();
                this.run();
            }
        });
        store.onChange(() => this.follow());
    }

    get battle() {
        return this.store.battle;
    }

    /**
     * Begins: the engine answers, the tab's last report is there again, and a match plays: that of a moment, or the first one. What is asked
     * for meanwhile comes in place of it.
     */
    async begin(moment, isFirst) {
        if (moment || isFirst) {
            // the film's frame is there when the engine is
            this.welcome(isFirst);
            this.places.go("watch");
            this.screen.prepare();
        } else {
            this.screen.leave();
        }
        const {current} = this.store;
        const battle = copyOf(this.battle);
        await this.engine();
        const kept = keptReport();
        if (kept && !this.reported) {
            this.showReport(kept.battle, kept.text);
        }
        if (this.isAsked || current !== this.store.current) {
            this.screen.leave();
        } else if (isFirst) {
            await this.present(wishOf(battle, {number: FIRST_MATCH, cycle: 0}), () => {});
        } else if (moment) {
            await this.present(wishOf(battle, moment), tellWatched);
        }
    }

    /** Waits for the engine, also if a press on Stop starts it anew; throws if it doesn't start. */
    async engine() {
        try {
            await this.runner.call("ready");
        } catch (fault) {
            if (fault.message !== STOPPED) {
                throw new Error(`The page's engine doesn't start: ${fault.message}. Unpack or copy all files of the page once more.`);
            }
            await this.engine();
        }
    }

    /** The focus goes to the film, or to where one asks for it. */
    focus() {
        if (this.screen.player) {
            this.screen.focus();
        } else {
            byId("watched").focus();
        }
    }

    /** Shows the settings of another battle than before. */
    follow() {
        if (this.store.current !== this.current || this.store.current.isTouched) {
            this.welcome(false);
        }
        if (this.store.current !== this.current) {
            this.current = this.store.current;
            for (const [id, value] of Object.entries(this.battle.settings)) {
                byId(id).value = value;
            }
            byId("watched").value = this.battle.settings.first;
        }
        this.judgeAges();
    }

    takeSettings(id) {
        const numbers = NUMBERS.map(name => [name, Number(byId(name).value)]);
        if (id === "first") {
            byId("watched").value = byId("first").value;
        }
        this.store.set({...Object.fromEntries(numbers), seed: byId("seed").value});
        if (id === "profile") {
            this.reprofiled();
        }
    }

    /** Whether the settings, and what else is asked for, can be run; says what is wrong if they can't. */
    isReady(place, ...forms) {
        if (this.isRunning) {
            return false;
        }
        const wrong = forms.find(id => !byId(id).checkValidity());
        if (wrong) {
            // what is wrong is to be seen
            this.places.go(wrong === "settings" ? "fight" : "watch");
            byId(wrong).reportValidity();
            return false;
        }
        const isFit = isSeed(byId("seed").value);
        if (!isFit) {
            tell(place, `The seed is at most ${Limits.seed}.`, true);
        }
        return isFit;
    }

    /** Ends what runs, also if the engine wasn't asked for it yet. */
    stop() {
        this.isStopped = this.isRunning;
        this.runner.stop();
    }

    /** Calls the engine; fails if what runs was stopped. */
    call(name, settings, robots) {
        return this.isStopped ? Promise.reject(new Error(STOPPED)) : this.runner.call(name, settings, robots);
    }

    busy(isRunning) {
        this.isRunning = isRunning;
        this.isStopped = false;
        if (isRunning) {
            this.focused = /** @type {HTMLElement} */ (document.activeElement);
        }
        byId("run").disabled = isRunning;
        byId("watch").disabled = isRunning;
        byId("stop").disabled = !isRunning;
        if (!isRunning && document.activeElement === document.body) {
            // a button that is disabled loses the focus
            this.focused.focus();
        }
    }

    /** Runs the battle, and shows its report. */
    async run() {
        if (!this.isReady("said", "settings")) {
            return;
        }
        this.busy(true);
        if (this.places.shown === "write" || this.isFirst) {
            this.places.go("fight");
        }
        await this.endPresenting();
        const battle = this.store.run();
        tell("said", "The battle runs.");
        const begun = performance.now();
        const call = settings => this.call("run", settings, battle.robots);
        const series = new Series(battle.settings, call, played => this.showProgress(played, battle.settings.matches));
        const end = await series.play();
        byId("going").hidden = true;
        this.busy(false);
        const text = series.text + (end.ending === null ? "" : end.faults);
        this.showReport(battle, text);
        keepReport(battle, text);
        tell("said", ended(series, end, performance.now() - begun), end.ending !== Ending.DONE);
    }

    showProgress(played, all) {
        byId("going").hidden = false;
        byId("progress").value = played / all;
        byId("far").textContent = `${played.toLocaleString("en")} of ${all.toLocaleString("en")} matches`;
    }

    showReport(battle, text) {
        this.reported = battle;
        this.report.show(text);
        byId("totals").textContent = battle.settings.matches > 1 ? totalsOf(text) : "";
        byId("totals").hidden = !byId("totals").textContent;
        this.judgeAges();
    }

    /** Says of the report and of the film whether they are of an older battle. */
    judgeAges() {
        const isOld = (shown, names) => shown !== undefined && differ(shown, this.battle, names);
        byId("report-age").hidden = !isOld(this.reported, ["matches", "first", ...RULES]);
        byId("film-age").hidden = !isOld(this.filmed, RULES);
    }

    /** Plays the match of a moment; none if there is none. */
    async watchMoment(moment) {
        if (moment) {
            await this.watch(wishOf(copyOf(this.battle), moment));
        }
    }

    /** Plays a match of its own accord, until something is asked for; what has the focus keeps it. */
    async present(wish, say) {
        this.presented = this.show(wish, (text, isFault) => this.isRunning || say(text, isFault));
        const isShown = await this.presented;
        this.presented = null;
        if (!isShown) {
            this.screen.leave();
        }
        if (!isShown && !this.isRunning) {
            this.places.go("write");
        }
    }

    /** Whether the words for who comes for the first time are shown. */
    get isFirst() {
        return !byId("welcome").hidden;
    }

    welcome(isFirst) {
        byId("welcome").hidden = !isFirst;
        byId("controls").hidden = isFirst;
    }

    /** What the page shows of its own accord gives way to what is asked for. */
    async endPresenting() {
        this.isAsked = true;
        this.welcome(false);
        if (this.presented) {
            this.runner.stop();
            await this.presented;
        }
    }

    watchAsked() {
        if (this.isReady("told", "settings", "watching")) {
            this.watch(new Wish(this.store.run(), Number(byId("watched").value), Number(byId("from").value)));
        }
    }

    /** Plays a match, and shows its film. */
    async watch(wish) {
        if (this.isRunning) {
            return;
        }
        this.busy(true);
        this.places.go("watch");
        await this.endPresenting();
        tell("told", "The match is being played.");
        const isShown = await this.show(wish, tellWatched);
        this.busy(false);
        if (isShown) {
            this.screen.focus();
        }
    }

    /** Has a match filmed, and shows the film. Returns whether there is one. */
    async show(wish, say) {
        byId("watched").value = wish.number;
        this.inside.watch();
        const isShown = await new Watcher(this, this.screen, say).watch(wish);
        this.inside.watch(isShown ? wish : this.filmed);
        if (isShown) {
            this.filmed = wish;
            this.filming.show();
            this.judgeAges();
            this.screen.fit();
        }
        return isShown;
    }
}
