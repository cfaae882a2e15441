// The list of one's battles with their versions, and the versions of a robot beside what it is now.
import {ask, buttonOf} from "./asking.js";
import {namesOf} from "./battles.js";
import {diffOf} from "./diffs.js";
import {byId, made} from "./dom.js";
import {saveText} from "./files.js";
import {exported} from "./versions.js";

// of a long list so much is shown; what is looked for narrows it
const MOST_SHOWN = 50;
// of a long text that stayed the same so many lines around what differs
const AROUND = 3;
const CAUSES = {
    run: "run", replaced: "before a robot was replaced", removed: "before a robot was removed", cut: "before much was cut",
    opened: "left", closed: "left", sent: "sent", read: "read from what was kept before",
};

const timeOf = ({time}) => new Date(time).toLocaleString([], {dateStyle: "medium", timeStyle: "short"});
const roomOf = bytes => bytes < 1024 * 1024 ? `${Math.max(1, Math.round(bytes / 1024))} KB` : `${(bytes / 1024 / 1024).toFixed(1)} MB`;

/** Returns the rows of a difference that are shown: what differs, with some lines around, and dots for the rest. */
export function shortened(rows) {
    const isNear = rows.map((_, at) => rows.slice(Math.max(0, at - AROUND), at + AROUND + 1).some(({kind}) => kind !== " "));
    return rows.flatMap((row, at) => isNear[at] ? [row] : at === 0 || isNear[at - 1] ? [{kind: " ", text: "..."}] : []);
}

/** Returns a difference as text with lines that are coloured. */
function shownDiff(before, after) {
    const box = Object.assign(made("pre", "", "diff"), {tabIndex: 0, ariaLabel: "Differences: lines with - are the version's, lines with + today's"});
    const rows = shortened(diffOf(before, after));
    box.append(...rows.map(({kind, text}) => made("span", `${kind} ${text}\n`, {"-": "gone", "+": "new"}[kind] ?? "")));
    if (rows.every(({kind}) => kind === " ")) {
        box.textContent = "No line differs.";
    }
    return box;
}

export class Histories {
    /**
     * `say` says what was done; `refresh` reads what other tabs have kept; `weigh` says what a change is worth since a robot's version.
     * @param {import("./store.js").Store} store
     */
    constructor(store, say, refresh, weigh) {
        this.weigh = weigh;
        this.store = store;
        this.say = say;
        byId("kept").addEventListener("toggle", async () => {
            await refresh();
            this.show();
        });
        byId("new").addEventListener("click", () => store.beginNew());
        byId("wanted-battle").addEventListener("input", () => this.show());
        byId("export").addEventListener("click", () => saveText("crobots-battles.json", exported(store.archive.versions)));
        byId("versions").addEventListener("toggle", () => this.showRobot());
        store.onChange(() => {
            this.show();
            this.showRobot();
        });
    }

    /** Shows the list, if it is open: the newest version of each battle, or all those that are looked for. */
    show() {
        if (!byId("kept").open) {
            return;
        }
        const {archive, current} = this.store;
        const wanted = byId("wanted-battle").value;
        const found = wanted ? archive.found(wanted) : archive.heads;
        byId("entries").replaceChildren(...found.slice(0, MOST_SHOWN).map(it => this.row(it, !wanted, current)));
        byId("kept-room").textContent = `${archive.versions.length === 1 ? "1 version takes" : `${archive.versions.length} versions take`} ${roomOf(archive.bytes)}.`
            + (found.length > MOST_SHOWN ? ` ${found.length - MOST_SHOWN} more battles aren't shown: find them by a word of their names or sources.` : "");
    }

    row(version, isHead, {line}) {
        const row = made("li");
        const isCurrent = isHead && version.line === line;
        const open = buttonOf(namesOf(version.battle), () => this.store.openVersion(version.id));
        open.setAttribute("aria-current", String(isCurrent));
        row.append(open, ` ${this.factsOf(version)} `, ...this.actions(version));
        const older = isHead ? this.store.archive.versionsOf(version.line).slice(1) : [];
        if (older.length) {
            const box = made("details");
            box.append(made("summary", `${older.length} earlier`));
            box.addEventListener("toggle", () => box.open && box.children.length === 1 && box.append(this.list(older)), {once: true});
            row.append(box);
        }
        return row;
    }

    list(versions) {
        const list = made("ol");
        list.append(...versions.slice(0, MOST_SHOWN).map(it => this.row(it, false, this.store.current)));
        return list;
    }

    factsOf(version) {
        const {label, isLinked, why} = version;
        return [label ? `"${label}"` : "", timeOf(version), CAUSES[why], isLinked ? "from a link" : ""].filter(it => it).join(", ");
    }

    actions(version) {
        const {id} = version;
        const name = Object.assign(document.createElement("input"), {value: version.label, maxLength: 60, placeholder: "name it", ariaLabel: "Name of this version"});
        name.addEventListener("change", () => this.store.nameVersion(id, name.value));
        return [name, buttonOf("Delete", () => this.drop(version))];
    }

    async drop(version) {
        if (await ask(`Delete the version of ${namesOf(version.battle)}, ${timeOf(version)}, for good?`, "Delete it")) {
            this.say(`Deleted: that frees ${roomOf(this.store.deleteVersion(version.id))}.`);
        }
    }

    /** Shows the versions of the robot that is shown, if they are open. */
    showRobot() {
        const {store} = this;
        const {key, source, name} = store.robot;
        const box = byId("versions");
        const shown = `${key} ${source} ${name} ${store.archive.versions.length}`;
        if (box.open && shown !== this.shown) {
            this.shown = shown;
            const found = store.archive.historyOf(key).slice(0, MOST_SHOWN);
            byId("robot-versions").replaceChildren(...found.length ? found.map(it => this.robotRow(it)) : [made("li", "None yet: a version is kept when the robot is run, replaced or left.")]);
        }
    }

    robotRow({version, robot}) {
        const {store} = this;
        const row = made("li", "");
        const compare = buttonOf("Compare with now", () => {
            const there = row.querySelector(".diff");
            there?.remove();
            if (!there) {
                row.append(shownDiff(robot.source, store.robot.source));
            }
        });
        const isNow = robot.source === store.robot.source;
        const back = buttonOf("Bring back", () => store.replaceRobot(store.robot.key, robot, true));
        const worth = Object.assign(buttonOf("Play both", () => this.weigh(robot)), {title: "What is the change since then worth?"});
        back.disabled = worth.disabled = isNow;
        row.append(`${robot.name}, ${this.factsOf(version)}${isNow ? ": as it is now" : ""} `, compare, " ", worth, " ", back);
        return row;
    }
}
