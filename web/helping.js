// Help where one writes: the arguments of the function at the cursor, and what a word that is begun may become.
import {byId} from "./dom.js";
import {WORDS} from "./language.js";

// how many characters before the cursor are read
const MOST_LOOKED_AT = 2000;
const MOST_NAMES = 500;
const SHORTEST_BEGIN = 2;
const TOKEN = /[A-Za-z_]\w*|[(),;{}]/g;

/** Returns a source's text with blanks in place of its comments. */
function withoutComments(text) {
    return text.replace(/\/\*[^]*?(?:\*\/|$)/g, comment => comment.replace(/[^\n]/g, " "));
}

/** Returns the call that is open at the end of a text, of one of these functions, with the number of its argument. */
export function openCall(text, names) {
    let open = [];
    let last = null;
    for (const [token] of withoutComments(text.slice(-MOST_LOOKED_AT)).matchAll(TOKEN)) {
        if (token === "(") {
            open.push({name: last, argument: 0});
        } else if (token === ")") {
            open.pop();
        } else if (token === "," && open.length) {
            open.at(-1).argument += 1;
        } else if (";{}".includes(token)) {
            open = [];
        }
        last = token;
    }
    return open.findLast(({name}) => names.has(name)) ?? null;
}

/** Returns the name that a place of a text is in or beside; empty if there is none. */
export function wordAt(text, place) {
    return /\w*$/.exec(text.slice(0, place))[0] + /^\w*/.exec(text.slice(place))[0];
}

/** Returns what a word that is begun may become: functions, words of the language, names of the source. */
export function completions(begin, text, functions) {
    const names = new Set(withoutComments(text).match(/[A-Za-z_]\w*/g)?.slice(0, MOST_NAMES));
    const known = [...functions.keys(), ...WORDS];
    const all = [...known, ...[...names].filter(it => !known.includes(it))];
    return all.filter(it => it.startsWith(begin) && it !== begin);
}

/** The line that shows the arguments of the function at the cursor. */
class Signature {
    constructor(editor, functions) {
        this.editor = editor;
        this.functions = functions;
        this.box = byId("signature");
        this.shown = "";
        editor.onMove(() => this.follow());
        byId("writing").addEventListener("focusout", () => this.show(null));
        byId("writing").addEventListener("keydown", event => event.key === "Escape" && this.show(null));
        byId("writing").addEventListener("mouseover", event => this.hover(event.target));
    }

    /** Shows the function whose call or name the cursor is in. */
    follow() {
        const {editor, functions} = this;
        if (!byId("writing").contains(document.activeElement)) {
            return;
        }
        const {from, to} = editor.selection;
        const {text} = editor;
        const word = wordAt(text, from);
        const call = functions.has(word) ? {name: word, argument: -1} : openCall(text.slice(0, from), functions);
        this.show(from === to ? call : null, editor.cursorBox);
    }

    /** Shows the function whose name the pointer is on. */
    hover(target) {
        const name = target.classList.contains("cm-builtin") ? target.textContent : "";
        if (this.functions.has(name)) {
            this.show({name, argument: -1}, target.getBoundingClientRect());
        } else if (this.isHovered) {
            this.show(null);
        }
        this.isHovered = this.functions.has(name);
    }

    /** Shows the arguments of a function, above a place of the window if that is known. */
    show(call, place = null) {
        this.box.hidden = call === null;
        if (call === null) {
            this.shown = "";
            return;
        }
        const {parameters, text} = this.functions.get(call.name);
        const shown = `${call.name} ${call.argument}`;
        if (shown !== this.shown) {
            this.shown = shown;
            this.box.replaceChildren(`${call.name}(`, ...listOf(parameters, call.argument), "): ", text);
        }
        this.box.classList.toggle("floating", place !== null);
        if (place) {
            this.put(place);
        }
    }

    put({left, top, bottom}) {
        const {offsetWidth, offsetHeight} = this.box;
        const isRoom = top - offsetHeight > 4;
        this.box.style.left = `${Math.max(4, Math.min(left, document.documentElement.clientWidth - offsetWidth - 4))}px`;
        this.box.style.top = `${isRoom ? top - offsetHeight - 2 : bottom + 2}px`;
    }
}

/** Returns parameters with commas between them; the present one is marked. */
function listOf(parameters, present) {
    return parameters.flatMap((name, at) => {
        const shown = Object.assign(document.createElement(at === present ? "b" : "span"), {textContent: name});
        return at ? [", ", shown] : [shown];
    });
}

/** Completes words in CodeMirror: by Ctrl and the space key, and while one writes. */
class Completion {
    constructor(mirror, functions) {
        this.mirror = mirror;
        this.functions = functions;
        mirror.setOption("extraKeys", {...mirror.getOption("extraKeys"), "Ctrl-Space": () => this.show(0)});
        mirror.on("inputRead", (_, {text}) => /^\w$/.test(text.join("\n")) && this.show(SHORTEST_BEGIN));
    }

    /** Shows what fits, if so much of a word is there. */
    show(shortest) {
        const {mirror} = this;
        const cursor = mirror.getCursor();
        const begin = /\w*$/.exec(mirror.getLine(cursor.line).slice(0, cursor.ch))[0];
        if (begin.length >= shortest && !/^\d/.test(begin) && mirror.getTokenTypeAt(cursor) !== "comment") {
            mirror.showHint({completeSingle: false, hint: () => this.hint()});
        }
    }

    hint() {
        const {mirror} = this;
        const to = mirror.getCursor();
        const [begin] = /\w*$/.exec(mirror.getLine(to.line).slice(0, to.ch));
        const from = {line: to.line, ch: to.ch - begin.length};
        const list = completions(begin, mirror.getValue(), this.functions).map(name => this.entry(name));
        return {list, from, to};
    }

    entry(name) {
        const known = this.functions.get(name);
        return known ? {text: name, displayText: `${name}(${known.parameters.join(", ")})`, hint: (...words) => this.putCall(...words)} : name;
    }

    /** Puts a function with its brackets, and the cursor between them if there is something to be written. */
    putCall(mirror, {from, to}, {text}) {
        const hasBrackets = mirror.getRange(to, {...to, ch: to.ch + 1}) === "(";
        mirror.replaceRange(hasBrackets ? text : `${text}()`, from, to, "complete");
        const isInside = hasBrackets || this.functions.get(text).parameters.length > 0;
        mirror.setCursor({line: from.line, ch: from.ch + text.length + (isInside ? 1 : 2)});
    }
}

/** Lets the editor help with these functions, which are what the manual says of each. */
export function helpWriting(editor, list) {
    const functions = new Map(list.map(it => [it.name, it]));
    new Signature(editor, functions);
    if (editor.mirror) {
        new Completion(editor.mirror, functions);
    }
}
