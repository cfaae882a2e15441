// The field in which a source is edited: CodeMirror, or a plain text field where it or a part of it is lacking.
//
// Each robot has a document of its own, with its own undo.
import {defineLanguage} from "./language.js";

const LONG_LINE = 5000;
const MOST_LINES = 50000;

/** Loads a part of the page; answers when it is there, and fails if it isn't. */
function load(tag, place, values) {
    return new Promise((done, fail) => {
        const it = Object.assign(document.createElement(tag), values, {onload: done, onerror: fail});
        document.head[place](it);
    });
}

const script = () => load("script", "append", {src: "codemirror/codemirror.js"});
// before the page's own style, which says more
const style = () => load("link", "prepend", {rel: "stylesheet", href: "codemirror/codemirror.css"});

/** The text field, in which nothing could be written before. */
const freed = field => Object.assign(field, {readOnly: false, value: ""});

/** Makes the editor of a text field; with CodeMirror if all of it is there. */
export async function makeEditor(field, hasCodeMirror) {
    if (!hasCodeMirror) {
        return new PlainEditor(freed(field));
    }
    try {
        await Promise.all([script(), style()]);
        defineLanguage(window.CodeMirror);
        return new ColouredEditor(freed(field));
    } catch {
        return new PlainEditor(freed(field));
    }
}

/** Returns the number of the line in which a place of a text is. */
function lineAt(text, place) {
    return text.slice(0, place).split("\n").length;
}

/** Forgets what a map has by other keys than these. */
function forget(map, keys) {
    [...map.keys()].filter(key => !keys.has(key)).forEach(key => map.delete(key));
}

/** A plain text field for each robot, one of which is shown. */
class PlainEditor {
    constructor(field) {
        this.field = field;
        this.blank = field.cloneNode();
        /** The field of each robot by its key, and the source that it was given. */
        this.fields = new Map();
        this.calls = {input: [], move: []};
    }

    /** Shows a robot's source. */
    show({key, source}) {
        const shown = this.fields.get(key) ?? {field: this.fieldOf(source), source};
        this.fields.set(key, shown);
        if (this.field !== shown.field) {
            this.field.replaceWith(shown.field);
            this.field = shown.field;
        }
        if (shown.source !== source) {
            shown.source = source;
            shown.field.value = source;
        }
    }

    /** Takes note that the text that is written is this robot's source now. */
    take(key) {
        this.fields.get(key).source = this.text;
    }

    /** Forgets all robots but these. */
    forget(keys) {
        forget(this.fields, keys);
    }

    fieldOf(text) {
        const field = Object.assign(this.blank.cloneNode(), {value: text});
        const tell = () => this.calls.move.forEach(call => call(lineAt(field.value, field.selectionStart)));
        field.addEventListener("input", () => this.calls.input.forEach(call => call()));
        field.addEventListener("click", tell);
        field.addEventListener("keyup", tell);
        return field;
    }

    get text() {
        return this.field.value;
    }

    onChange(call) {
        this.calls.input.push(call);
    }

    /** Calls back with the cursor's line when it moves. */
    onMove(call) {
        this.calls.move.push(call);
    }

    get line() {
        return lineAt(this.text, this.field.selectionStart);
    }

    /** Marks a line as faulty, and no other; none if it is null. */
    mark(line) {
        this.field.setAttribute("aria-invalid", String(line !== null));
        this.field.dataset.line = line ?? "";
    }

    /** A plain field can't mark lines. */
    warn() {}

    /** Puts the cursor on a line. */
    goTo(line) {
        const at = line > 1 ? this.text.split("\n").slice(0, line - 1).join("\n").length + 1 : 0;
        this.select(at, at);
    }

    focus() {
        this.field.focus();
    }

    get selection() {
        return {from: this.field.selectionStart, to: this.field.selectionEnd};
    }

    get selected() {
        return this.text.slice(this.field.selectionStart, this.field.selectionEnd);
    }

    select(from, to) {
        this.field.focus();
        this.field.setSelectionRange(from, to);
    }

    /** A plain field can't mark places. */
    markAll() {}

    /** Nor has it room for buttons. */
    offer() {}

    /** Where the cursor is drawn isn't known. */
    get cursorBox() {
        return null;
    }
}

/** CodeMirror in the place of a text field. */
class ColouredEditor {
    constructor(field) {
        this.mirror = window.CodeMirror.fromTextArea(field, {
            mode: "crobots", lineNumbers: true, indentUnit: 2, matchBrackets: true, autoCloseBrackets: true,
            styleActiveLine: true, inputStyle: "contenteditable", lineWrapping: true, cursorScrollMargin: 40,
            gutters: ["CodeMirror-linenumbers", "faults"],
            // the tab key leaves the field, as keyboards need it
            extraKeys: {Tab: false, "Shift-Tab": false},
        });
        this.describe(field);
        /** The document of each robot by its key, and the source that it was given. */
        this.documents = new Map();
        this.marks = new WeakMap();
        this.found = [];
        this.offered = [];
    }

    /** Says to assistive technology what the field is. */
    describe(field) {
        const names = ["aria-label", "aria-describedby"];
        const values = {role: "textbox", "aria-multiline": "true", ...Object.fromEntries(names.map(it => [it, field.getAttribute(it)]))};
        const input = this.mirror.getInputField();
        Object.entries(values).forEach(([name, value]) => input.setAttribute(name, value));
    }

    /** Shows a robot's source. Another one than before can be undone by the editor's own keys. */
    show({key, source}) {
        const shown = this.documents.get(key) ?? {document: new window.CodeMirror.Doc(source, "crobots"), source};
        this.documents.set(key, shown);
        this.fit(source);
        if (this.mirror.getDoc() !== shown.document) {
            this.mirror.swapDoc(shown.document);
        }
        if (shown.source !== source) {
            shown.source = source;
            shown.document.setValue(source);
        }
    }

    /** Takes note that the text that is written is this robot's source now. */
    take(key) {
        this.documents.get(key).source = this.text;
    }

    /** Forgets all robots but these. */
    forget(keys) {
        forget(this.documents, keys);
    }

    get text() {
        return this.mirror.getValue();
    }

    /** Leaves out what takes long in very long lines. */
    fit(text) {
        const longest = text.split("\n", MOST_LINES).reduce((most, line) => Math.max(most, line.length), 0);
        const isShort = longest <= LONG_LINE;
        for (const name of ["lineWrapping", "matchBrackets", "styleActiveLine"]) {
            if (this.mirror.getOption(name) !== isShort) {
                this.mirror.setOption(name, isShort);
            }
        }
    }

    onChange(call) {
        this.mirror.on("change", call);
    }

    /** Calls back with the cursor's line when it moves. */
    onMove(call) {
        this.mirror.on("cursorActivity", () => call(this.line));
    }

    get line() {
        return this.mirror.getCursor().line + 1;
    }

    /** Marks a line as faulty, with these words below it, and no other; none if it is null. */
    mark(line, words = "") {
        const {mirror} = this;
        const shown = mirror.getDoc();
        const last = this.marks.get(shown);
        mirror.operation(() => {
            mirror.clearGutter("faults");
            if (last) {
                mirror.removeLineClass(last.line, "background", "faulty");
                last.words.clear();
                this.marks.delete(shown);
            }
            if (line !== null) {
                this.marks.set(shown, this.marked(line, words));
            }
        });
    }

    marked(line, words) {
        const {mirror} = this;
        const handle = mirror.addLineClass(Math.min(line, mirror.lineCount()) - 1, "background", "faulty");
        const sign = Object.assign(document.createElement("span"), {className: "fault-sign", textContent: "●", title: `fault in line ${line}`});
        mirror.setGutterMarker(handle, "faults", sign);
        // a screen reader has these words from the line above the field
        const told = Object.assign(document.createElement("p"), {className: "fault-words", textContent: words, ariaHidden: "true"});
        return {line: handle, words: mirror.addLineWidget(handle, told)};
    }

    /** Marks the lines of warnings, each {line, text}: others than that of a fault, which has its own mark. */
    warn(warnings) {
        const {mirror} = this;
        const words = new Map();
        warnings.forEach(({line, text}) => words.set(line, [...words.get(line) ?? [], text]));
        mirror.operation(() => words.forEach((texts, line) => {
            const sign = Object.assign(document.createElement("span"), {className: "warning-sign", textContent: "▲", title: texts.join("\n")});
            mirror.setGutterMarker(Math.min(line, mirror.lineCount()) - 1, "faults", sign);
        }));
    }

    /** Puts the cursor on a line. */
    goTo(line) {
        this.mirror.focus();
        this.mirror.setCursor(line - 1, 0);
    }

    focus() {
        this.mirror.focus();
    }

    /** Where the cursor's line is drawn in the window. */
    get cursorBox() {
        return this.mirror.cursorCoords(true, "window");
    }

    get selection() {
        const [from, to] = ["from", "to"].map(side => this.mirror.indexFromPos(this.mirror.getCursor(side)));
        return {from, to};
    }

    get selected() {
        return this.mirror.getSelection();
    }

    select(from, to) {
        const ends = [from, to].map(at => this.mirror.posFromIndex(at));
        this.mirror.setSelection(...ends);
        this.mirror.scrollIntoView({from: ends[0], to: ends[1]}, 60);
    }

    /** Offers a sweep behind numbers, each {line, at, call}, and behind no others. */
    offer(numbers) {
        const {mirror} = this;
        mirror.operation(() => {
            this.offered.forEach(it => it.clear());
            this.offered = numbers.map(({line, at, call}) => {
                // who has no pointer finds the same below the editor
                const widget = Object.assign(document.createElement("button"), {type: "button", className: "sweep", textContent: "sweep", tabIndex: -1, ariaHidden: "true"});
                widget.addEventListener("click", call);
                return mirror.setBookmark({line: line - 1, ch: at}, {widget, insertLeft: true});
            });
        });
    }

    /** Marks the places of a text of this length, and no others. */
    markAll(places, length) {
        const {mirror} = this;
        mirror.operation(() => {
            this.found.forEach(it => it.clear());
            this.found = places.map(at => mirror.markText(mirror.posFromIndex(at), mirror.posFromIndex(at + length), {className: "found"}));
        });
    }
}
