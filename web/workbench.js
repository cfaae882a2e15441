// The robots of the battle: a tab for each, its name, its source, its listing and its first fault. The store has them.
import {adviceOf} from "./advice.js";
import {byId} from "./dom.js";
import {Ending} from "./limits.js";
import {faultOf, showExplanation, warningsOf} from "./explaining.js";
import {Listing, partsOf, turnsOf} from "./listings.js";
import {freeName, nameInWork} from "./names.js";
import {NEW_SOURCE} from "./store.js";

const COMPILE_AFTER = 250;

/** Waits for an answer of the engine; what a call failed by stands in place of the faults. */
async function answered(call) {
    try {
        return await call;
    } catch (fault) {
        return {ending: Ending.REFUSED, text: "", faults: fault.message};
    }
}

export class Workbench {
    /**
     * `compiler` calls the engine.
     * @param {import("./store.js").Store} store
     */
    constructor(store, editor, compiler) {
        this.store = store;
        this.editor = editor;
        this.compiler = compiler;
        this.faults = new Map();
        /**
         * Is called with a source that was compiled, and with its listing and places if it has no fault.
         * @type {((source: string, compiled: {listing: string, places: string} | null) => void) | null}
         */
        this.onCompile = null;
        this.listing = new Listing(byId("code"), line => editor.goTo(line));
        editor.onChange(() => this.edited());
        editor.onMove(line => this.listing.mark(line));
        byId("name").addEventListener("input", event => this.rename(event.target));
        byId("name").addEventListener("change", event => { event.target.value = this.robot.name; });
        byId("add").addEventListener("click", () => this.addNew());
        byId("tabs").addEventListener("keydown", event => this.moveTab(event));
        store.onChange(() => this.follow());
    }

    get robot() {
        return this.store.robot;
    }

    /** Shows what the store has, as far as that isn't shown. */
    follow() {
        const {robots, shown, current} = this.store;
        const tabs = JSON.stringify([robots.map(({key, name}) => [key, name]), shown]);
        const isOther = current !== this.current;
        this.current = current;
        if (isOther) {
            this.editor.forget(new Set(robots.map(({key}) => key)));
            this.faults.clear();
        }
        if (isOther || tabs !== this.tabs) {
            this.tabs = tabs;
            this.showTabs();
        }
        this.showRobot();
        if (isOther || robots.length !== this.count) {
            this.count = robots.length;
            this.compileOthers();
        }
    }

    /** Shows a tab for each robot. */
    showTabs() {
        const hadFocus = byId("tabs").contains(document.activeElement);
        const tabs = this.store.robots.map((robot, at) => this.tab(robot, at));
        byId("tabs").replaceChildren(...tabs);
        byId("add").disabled = byId("add-sample").disabled = this.store.isFull;
        byId("remove").disabled = tabs.length === 1;
        byId("panel").setAttribute("aria-labelledby", `tab-${this.store.shown}`);
        if (hadFocus) {
            byId(`tab-${this.store.shown}`).focus();
        }
    }

    /** @param {import("./battles.js").Robot} robot */
    tab({key, name}, at) {
        const tab = Object.assign(document.createElement("button"), {type: "button", textContent: name, id: `tab-${at}`});
        const isShown = at === this.store.shown;
        tab.dataset.number = `${at + 1}`;
        tab.tabIndex = isShown ? 0 : -1;
        tab.classList.toggle("faulty", Boolean(this.faults.get(key)));
        Object.entries({role: "tab", "aria-selected": `${isShown}`, "aria-controls": "panel"}).forEach(([word, value]) => tab.setAttribute(word, value));
        tab.addEventListener("click", () => this.store.show(at));
        return tab;
    }

    /** Goes to the tab before or after by the arrow keys. */
    moveTab(event) {
        const step = {ArrowLeft: -1, ArrowRight: 1}[event.key];
        const count = this.store.robots.length;
        if (step && event.target.getAttribute("role") === "tab") {
            this.store.show((this.store.shown + step + count) % count);
        }
    }

    /** Shows the robot that is chosen, and compiles it if it is another one, or if another hand than the editor's wrote it. */
    showRobot() {
        const {key, name, source} = this.robot;
        const isOther = key !== this.key || source !== this.source;
        this.key = key;
        this.source = source;
        if (document.activeElement !== byId("name") || isOther) {
            byId("name").value = name;
        }
        if (isOther) {
            this.editor.show(this.robot);
            this.compile();
        }
    }

    addNew() {
        this.store.addRobots([{name: freeName(this.store.robots), source: NEW_SOURCE}]);
        byId("name").focus();
    }

    /** Gives the robot a name, which is then the same in the tab and in the report: without blanks around it. */
    rename(field) {
        const text = nameInWork(field.value);
        if (field.value !== text) {
            field.value = text;
        }
        this.store.rename(this.robot.key, text);
    }

    edited() {
        const {text} = this.editor;
        const {key, source} = this.robot;
        if (text !== source && key === this.key) {
            this.editor.take(key);
            this.source = text;
            this.store.write(key, text);
            clearTimeout(this.timer);
            this.timer = setTimeout(() => this.compile(), COMPILE_AFTER);
        }
    }

    ask(call, {source}) {
        return answered(this.compiler.call(call, {profile: this.store.battle.settings.profile}, [{name: "robot", source}]));
    }

    /** Compiles the robot that is edited, and shows its warnings, and its listing or its diagnostic with what explains it. */
    async compile() {
        const {key, source} = this.robot;
        const {current} = this.store;
        const [listed, places, explained, turns] = await Promise.all(["list", "places", "explain", "turns"].map(call => this.ask(call, {source})));
        if (current === this.store.current && key === this.robot.key && source === this.robot.source) {
            const fault = this.take(key, listed);
            this.editor.mark(fault?.line ?? null, fault ? `${fault.text}. ${adviceOf(fault.text)}` : "");
            this.editor.warn(warningsOf(explained).filter(({line}) => line !== fault?.line));
            this.listing.show(listed.text, partsOf(places.text).code, turnsOf(turns));
            this.listing.mark(this.editor.line);
            this.onCompile?.(source, listed.ending === Ending.DONE ? {listing: listed.text, places: places.text} : null);
            this.showDiagnostic(fault, listed);
            showExplanation(byId("explanation"), explained, line => this.editor.goTo(line));
        }
    }

    /** Compiles the robots that aren't shown, for the marks of their tabs. */
    async compileOthers() {
        const {current} = this.store;
        for (const {key, source} of this.store.robots.filter(it => it.key !== this.key)) {
            const listed = await this.ask("list", {source});
            if (current !== this.store.current) {
                return;
            }
            this.take(key, listed);
        }
    }

    /** Compiles all robots anew, by another profile. */
    compileAll() {
        this.compile();
        this.compileOthers();
    }

    /** Takes note of a robot's fault, in its tab too. Returns it, or null if there is none. */
    take(key, {ending, faults}) {
        const fault = ending === Ending.FAULTY ? faultOf(faults) : null;
        this.faults.set(key, fault);
        const at = this.store.robots.findIndex(it => it.key === key);
        byId(`tab-${at}`)?.classList.toggle("faulty", fault !== null);
        return fault;
    }

    showDiagnostic(fault, {ending, faults}) {
        const place = byId("diagnostic");
        place.classList.toggle("faulty", fault !== null || ending !== Ending.DONE);
        if (!fault) {
            place.textContent = ending === Ending.DONE ? "No fault." : faults || "The source was refused.";
            return;
        }
        const go = Object.assign(document.createElement("button"), {type: "button", textContent: "Go there"});
        go.addEventListener("click", () => this.editor.goTo(fault.line));
        place.replaceChildren(`Line ${fault.line}: ${fault.text}. ${adviceOf(fault.text)} `, go);
    }
}
