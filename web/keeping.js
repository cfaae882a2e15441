// Says what the store keeps and what it can't, follows links, and asks before a page is left that has something unkept.
import {Notice, reveal} from "./asking.js";
import {copyOf, isSame, unfit} from "./battles.js";
import {byId} from "./dom.js";
import {saveText} from "./files.js";
import {BROKEN, MOST_LINK, battleOf, fragmentOf, isBattle, linkedMoment} from "./links.js";
import {exported} from "./versions.js";

const REFUSED = "This browser keeps nothing of this page: its storage is blocked or full. Save your robots as files before you leave.";
const FULL = "The storage is full: your last changes aren't kept. Delete versions in 'My battles', or save your robots as files before you leave.";
const APART = "Another tab has changed this battle too. Yours is now a battle of its own; both are in 'My battles'.";
const OTHER = "This battle was changed in another tab.";
const LINKED = "This battle came with a link, and stands beside your own.";
const ON_A_FILE = "This page is a file of this computer, so a link would lead nowhere else. Send the battle as a file: this page opens it.";
const TOO_LONG = "The battle is too long for a link. Send it as a file: this page opens it.";
const WORDS = {matches: "matches", limit: "most cycles of each", first: "first match", seed: "seed", profile: "language"};

/** Returns how many versions there are, in words. */
const counted = count => `${count} version${count === 1 ? "" : "s"}`;

export class Keeping {
    /**
     * `watch` is called with the moment that a link names.
     * @param {import("./store.js").Store} store
     * @param {import("./shelves.js").Keeper} keeper
     */
    constructor(store, keeper, watch) {
        this.watch = watch;
        this.store = store;
        this.keeper = keeper;
        this.noted = new Notice("noted");
        this.linked = new Notice("linked");
        store.onChange(() => this.follow());
        keeper.onChange = () => this.sayKept();
        keeper.onOther(window, line => this.sayOther(line));
        window.addEventListener("hashchange", () => this.followLink());
        window.addEventListener("beforeunload", event => {
            if (keeper.isUnkept || keeper.isFull && store.current.isTouched) {
                event.preventDefault();
                event.returnValue = "";
            }
        });
    }

    /** Begins with the battle of a link, or with the one that was kept last, or with samples. Returns whether it is with samples. */
    begin(linked, samples) {
        const isBroken = isBattle(location.hash) && !linked;
        const isFirst = this.store.begin(linked, samples);
        if (isBroken) {
            this.noted.say(`${BROKEN} This is another one.`);
        }
        this.sayKept();
        return isFirst;
    }

    /** Says what became of the battle that is current. */
    follow() {
        const {store} = this;
        if (store.current !== this.current) {
            this.current = store.current;
            this.noted.clear();
            this.sayLinked();
        }
        if (store.current.isTouched) {
            this.leaveLink();
        }
        if (store.takeApart()) {
            this.noted.say(APART);
        }
        if (store.undoable !== this.undoable) {
            this.undoable = store.undoable;
            this.sayUndo();
        }
        this.sayKept();
    }

    sayLinked() {
        const {last, current} = this.store;
        if (current.isLinked) {
            this.linked.say(LINKED, last ? {"Back to my robots": () => this.store.openVersion(last.id)} : {});
        } else {
            this.linked.clear();
        }
    }

    /** Says what was removed or replaced, with the way back for just that. */
    sayUndo() {
        const {undoable} = this;
        if (undoable) {
            const {did, robot, by} = undoable;
            const text = did === "removed" ? `${robot.name} was removed.` : `${robot.name} was replaced by ${by.name}.`;
            this.noted.say(text, {Undo: () => this.undo(robot.name)});
        } else {
            this.noted.clear();
        }
    }

    undo(name) {
        if (!this.store.undo()) {
            this.noted.say(`There is no room for ${name} beside what was written since. It is in 'My battles'.`);
        }
    }

    /** Says what isn't kept, as long as it is so, and what was dropped to make room. */
    sayKept() {
        const {store, keeper} = this;
        const box = byId("unkept");
        const text = keeper.isRefused ? REFUSED : keeper.isFull ? FULL : "";
        const isNew = text !== "" && box.textContent !== text;
        box.textContent = text;
        box.hidden = text === "";
        if (isNew) {
            reveal(box);
        }
        const gone = store.takeDropped();
        if (gone.length) {
            const until = new Date(gone.at(-1).time).toLocaleString([], {dateStyle: "medium", timeStyle: "short"});
            this.noted.say(`To make room, the oldest ${counted(gone.length)} without a name went, up to that of ${until}. A name keeps one; 'My battles' writes all into a file.`);
        }
    }

    /** Another tab changed a battle of this line. */
    sayOther(line) {
        if (line === this.store.current.line) {
            this.store.share();
            this.noted.say(OTHER, {"Show it here": () => this.takeOther(line)});
        }
    }

    async takeOther(line) {
        this.store.take(await this.keeper.load());
        this.store.openVersion(this.store.archive.newestOf(line).id);
    }

    /** The address of a link stays only as long as its battle is shown unchanged. */
    leaveLink() {
        const isSent = this.sent && isSame(this.sent, this.store.battle);
        if (isBattle(location.hash) && !isSent) {
            history.replaceState(null, "", location.href.split("#")[0]);
        }
    }

    /** Shows the battle of a link that is followed in the open page. */
    async followLink() {
        const {hash} = location;
        const battle = await battleOf(hash);
        if (battle) {
            this.store.openLink(battle);
            this.watch(linkedMoment(hash, battle));
        } else if (isBattle(hash)) {
            this.noted.say(`${BROKEN} This is another one.`);
        }
    }

    /** Makes a link to the battle. `say` says how it went. */
    async share(say) {
        const wrong = unfit(this.store.battle.settings);
        if (wrong.length) {
            say(`No link: ${wrong.map(name => WORDS[name]).join(", ")} out of the limits.`, true);
        } else {
            await this.sendLink(this.store.send(), null, say);
        }
    }

    /** Makes a link to a battle, and to a moment of it if there is one, or offers a file where a link would be no use. */
    async sendLink(battle, moment, say) {
        const fragment = location.protocol === "file:" ? "" : await fragmentOf(battle, moment);
        if (!fragment || fragment.length > MOST_LINK) {
            const text = fragment ? TOO_LONG : ON_A_FILE;
            say(text);
            this.noted.say(text, {"Save the battle as a file": () => this.saveBattle(battle)});
            return;
        }
        this.sent = battle;
        history.replaceState(null, "", fragment);
        try {
            await navigator.clipboard.writeText(location.href);
            say("The link is copied.");
        } catch {
            say("The link stands in the address bar.");
        }
    }

    saveBattle(battle) {
        const version = {id: this.store.newKey(), line: this.store.newKey(), time: Date.now(), why: "sent", label: "", isLinked: true, isTouched: true, battle: copyOf(battle)};
        saveText("battle.json", exported([version]));
    }
}
