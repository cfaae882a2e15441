// The page: what it is built with, and what happens at its buttons.
import {ask, buttonOf} from "./asking.js";
import {FIRST_MATCH, FIRST_WINNER, checked, copyOf, firstBattle} from "./battles.js";
import {Caller} from "./calling.js";
import {byId} from "./dom.js";
import {makeEditor} from "./editor.js";
import {Alone} from "./embedding.js";
import {onDrop, readFiles, save} from "./files.js";
import {Finder} from "./finding.js";
import {helpWriting} from "./helping.js";
import {Histories} from "./histories.js";
import {Keeping} from "./keeping.js";
import {battleOf, isBattle, linkedMoment} from "./links.js";
import {granted} from "./opening.js";
import {Places} from "./places.js";
import {Playing, tell} from "./playing.js";
import {Screen, later, pictures} from "./replays.js";
import {DatabaseShelf, Keeper, LocalShelf} from "./shelves.js";
import {NEW_SOURCE, Store} from "./store.js";
import {callOf, wishOf} from "./watching.js";
import {Workbench} from "./workbench.js";
import {Worths} from "./worths.js";

// how much room versions take at most: in a database, and where there is only the storage of texts
const MOST_BYTES = 24 * 1024 * 1024;
const MOST_LOCAL_BYTES = 6 * 1024 * 1024;
// what does nothing before the editor is there
const FURNISHED = ["add", "name", "find", "new", "wanted-battle", "export"];
// for so long the editor waits for the match that is shown, and for so many of its pictures
const MILLISECONDS_FIRST = 1500;
const FIRST_PICTURES = 4;

let count = 0;

/** Returns a word that no other call in any tab returns. */
function newKey() {
    count += 1;
    return `${Date.now().toString(36)}-${count}-${Math.random().toString(36).slice(2, 10)}`;
}

/** What keeps versions and drafts in this browser. */
async function keeperOf() {
    const opened = await globalThis.CROBOTS_DATABASE;
    return new Keeper({local: new LocalShelf(granted("localStorage")), database: opened && new DatabaseShelf(opened), tab: newKey()});
}

/** Whether who comes is likely to see the first match: no link is followed, and nothing is kept that is found at once. */
function isLikelyFirst() {
    const storage = granted("localStorage");
    return !isBattle(location.hash) && !Object.keys(storage ?? {}).some(it => it.startsWith("crobots"));
}

/** Returns the samples as choices, those of a level together, the easiest first. */
function levels(samples) {
    const numbers = [...new Set(samples.map(({level}) => level))];
    return numbers.map(number => {
        const group = Object.assign(document.createElement("optgroup"), {label: `Level ${number}`});
        group.append(...samples.filter(({level}) => level === number).map(({name}) => new Option(name)));
        return group;
    });
}

class Page {
    /**
     * What the page has first: its battle, and the match that is watched. `runner` calls the engine, `keeper` keeps, and `screen` shows
     * films in one of the `places`.
     */
    constructor({data, runner, keeper, places, screen}) {
        this.data = data;
        this.keeper = keeper;
        const known = [...data.robots, ...data.steps].map(({source}) => source);
        const most = keeper.database ? MOST_BYTES : MOST_LOCAL_BYTES;
        this.store = new Store({keeper, known, newKey, now: Date.now, most});
        this.places = places;
        this.playing = new Playing(this.store, runner, places, screen, () => this.workbench?.compileAll());
        this.keeping = new Keeping(this.store, keeper, moment => this.playing.watchMoment(moment));
        this.listen();
    }

    /** Adds the editor, and all that robots are written with. */
    furnish(editor, newCaller) {
        const {data, store} = this;
        this.editor = editor;
        this.workbench = new Workbench(store, editor, newCaller());
        this.histories = new Histories(store, text => this.keeping.noted.say(text), async () => store.take(await this.keeper.load()),
            robot => this.worths.weigh(robot));
        this.worths = new Worths(this.workbench, data.robots, newCaller);
        this.finder = new Finder(editor);
        helpWriting(editor, data.functions);
        this.showSteps();
        FURNISHED.forEach(id => { byId(id).disabled = false; });
        store.changed();
    }

    listen() {
        const {store} = this;
        byId("sample").append(...levels(this.data.robots));
        const presses = {
            "add-sample": () => store.addRobots([this.sample]), replace: () => store.replaceRobot(store.robot.key, this.sample),
            remove: () => this.remove(), save: () => save(store.robot), open: () => byId("files").click(),
            import: () => byId("files").click(), link: () => this.keeping.share((text, isFault) => tell("said", text, isFault)),
            "link-moment": () => this.shareMoment(), beat: () => this.beat(),
        };
        Object.entries(presses).forEach(([id, call]) => byId(id).addEventListener("click", call));
        byId("files").addEventListener("change", event => this.take([...event.target.files]));
        onDrop(files => this.take(files));
    }

    get sample() {
        const {name, source} = this.data.robots[byId("sample").selectedIndex];
        return {name, source};
    }

    /** The focus goes to the editor, or to the field that will be it, which hands it on. */
    focusEditor() {
        (this.editor ?? byId("source")).focus();
    }

    /** Makes a link to the moment that the film shows. */
    shareMoment() {
        const {filmed, screen} = this.playing;
        if (filmed && screen.player) {
            const {cycle, chosen} = screen.player;
            const moment = {number: filmed.number, cycle: Math.floor(cycle), robot: chosen};
            this.keeping.sendLink(copyOf(filmed), moment, (text, isFault) => tell("told", text, isFault));
        }
    }

    /** Begins a robot of one's own against the winner of the match that who comes first sees. */
    beat() {
        const {name, source} = this.data.robots.find(it => it.name === FIRST_WINNER);
        this.store.beginNew(checked({robots: [{name: "robot1.r", source: NEW_SOURCE}, {name, source}]}));
        this.keeping.noted.say(`Here is your robot, and ${name} is against it. Change it, and press Run.`);
        this.places.go("write");
        this.focusEditor();
    }

    async remove() {
        const {key, name} = this.store.robot;
        if (await ask(`Remove ${name} from this battle?`, "Remove it")) {
            this.store.removeRobot(key);
        }
    }

    /** Takes files: robots, and battles, of which a single one is opened beside one's own. */
    async take(files) {
        const {robots, battles, refused} = await readFiles(files);
        const count = this.store.addRobots(robots);
        const left = [...robots.slice(count).map(({name}) => name), ...refused];
        const why = left.length ? ` Not opened: ${left.join(", ")}. A battle has at most four robots, and a robot at most 1 MiB.` : "";
        this.keeping.noted.say(`${count + battles.length} of ${files.length} files opened.${battles.map(it => this.takeBattles(it)).join("")}${why}`);
        byId("files").value = "";
    }

    takeBattles({versions, unread}) {
        if (versions.length === 1 && !unread) {
            this.store.openLink(versions[0].battle);
            return "";
        }
        const count = this.store.readVersions(versions);
        return ` ${count} versions came into 'My battles', ${versions.length - count} were there${unread ? `, ${unread} can't be read` : ""}.`;
    }

    showSteps() {
        byId("steps").replaceChildren(...this.data.steps.map(step => this.step(step)));
    }

    step({title, text, name, source, against}) {
        const row = document.createElement("li");
        const made = (tag, textContent) => Object.assign(document.createElement(tag), {textContent});
        const code = Object.assign(made("pre", source), {tabIndex: 0});
        row.append(made("h3", title), made("p", text), code, buttonOf(`Try it against ${against}`, () => {
            const other = this.data.robots.find(it => it.name === against);
            this.store.beginNew(checked({robots: [{name, source}, other], settings: {matches: 10}}));
            this.keeping.noted.say(`This is a new battle: ${name} against ${against}.`, {Run: () => this.playing.run()});
        }));
        return row;
    }
}

/** Shows the field alone, in a page that has no more. */
export async function embed() {
    const data = globalThis.CROBOTS;
    byId("main").hidden = false;
    await new Alone(new Caller(globalThis.CROBOTS_ENGINE, data.module), data.robots).show();
}

/** Makes the page of what it is built with: from a file nothing can be fetched, so all of it is a script. */
export async function make() {
    const data = globalThis.CROBOTS;
    const engine = globalThis.CROBOTS_ENGINE;
    const newCaller = () => new Caller({...engine, worker: null}, data.module);
    const runner = new Caller(engine, data.module);
    const places = new Places({write: () => page.focusEditor(), watch: () => page.playing.focus()});
    const screen = new Screen(byId("film"), places);
    if (isLikelyFirst()) {
        runner.askAhead(...callOf(wishOf(firstBattle(data.robots, null), {number: FIRST_MATCH, cycle: 0})));
        // what the browser does for the worker comes first
        await later(0);
        screen.prepare();
    }
    const [battle, keeper] = await Promise.all([battleOf(location.hash), keeperOf()]);
    const kept = await keeper.load();
    const page = new Page({data, runner, keeper, places, screen});
    page.store.take(kept);
    // seen when each press is heard
    byId("main").hidden = false;
    const isFirst = page.keeping.begin(battle, data.robots);
    const shown = page.playing.begin(battle && (linkedMoment(location.hash, battle) ?? {number: battle.settings.first, cycle: 0}), isFirst);
    byId("source").value = page.store.robot.source;
    // what is seen first comes first: a match that moves
    if (battle || isFirst) {
        await Promise.race([shown.then(() => pictures(FIRST_PICTURES)), later(MILLISECONDS_FIRST)]);
    }
    places.reveal();
    page.furnish(await makeEditor(byId("source"), data.editor), newCaller);
    await shown;
}
