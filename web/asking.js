// Asks before something is lost, and says what was done, with a way back.
import {byId} from "./dom.js";

/** Makes a button with a text, which calls back when it is pressed. */
export function buttonOf(text, call) {
    const button = Object.assign(document.createElement("button"), {type: "button", textContent: text});
    button.addEventListener("click", call);
    return button;
}

/** Asks a question to which one says yes, by these words, or no. */
export function ask(question, yes) {
    const dialog = byId("asking");
    byId("question").textContent = question;
    return new Promise(done => {
        const end = isYes => {
            dialog.onclose = null;
            dialog.close();
            done(isYes);
        };
        byId("answers").replaceChildren(buttonOf(yes, () => end(true)), buttonOf("Cancel", () => end(false)));
        dialog.onclose = () => end(false);
        dialog.showModal();
    });
}

/** Shows a line of the page, and scrolls to it if it isn't in sight: what was pressed may stand far from it. */
export function reveal(box) {
    box.hidden = false;
    box.scrollIntoView({block: "nearest"});
}

/** A line that says what was done, with buttons for what may be done next. */
export class Notice {
    constructor(id) {
        this.box = byId(id);
    }

    /** Says a text. Each action, by its name, is a button; the line goes once one was pressed. */
    say(text, actions = {}) {
        const buttons = Object.entries(actions).map(([name, act]) => buttonOf(name, () => {
            this.clear();
            act();
        }));
        const words = Object.assign(document.createElement("span"), {textContent: text});
        this.box.replaceChildren(words, ...buttons);
        reveal(this.box);
    }

    clear() {
        this.box.replaceChildren();
        this.box.hidden = true;
    }
}
