// Reads the links that Python made by the page's own links.js, and makes its own; colours sources as the page's editor.
import {readFileSync} from "node:fs";
import {pathToFileURL} from "node:url";

const web = process.argv[2];
const {battleOf, fragmentOf} = await import(pathToFileURL(`${web}/links.js`));
const {defineLanguage} = await import(pathToFileURL(`${web}/language.js`));

/** A line of a text, as CodeMirror gives it to a mode. */
class Stream {
    constructor(text) {
        Object.assign(this, {text, at: 0, start: 0});
    }
    eatSpace() {
        return Boolean(this.match(/\s+/));
    }
    match(what) {
        const rest = this.text.slice(this.at);
        if (typeof what === "string") {
            const is = rest.startsWith(what);
            this.at += is ? what.length : 0;
            return is;
        }
        const found = what.exec(rest);
        if (!found || found.index) {
            return null;
        }
        this.at += found[0].length;
        return found;
    }
    next() {
        this.at += 1;
        return this.text[this.at - 1];
    }
    skipToEnd() {
        this.at = this.text.length;
    }
    current() {
        return this.text.slice(this.start, this.at);
    }
}

/** Returns the kinds of a source's letters, line by line. */
function kindsOf(source) {
    let mode = null;
    defineLanguage({defineMode: (name, make) => { mode = make({indentUnit: 2}); }});
    const state = mode.startState();
    return source.split("\n").map(line => {
        const stream = new Stream(line);
        const kinds = [];
        while (stream.at < line.length) {
            stream.start = stream.at;
            const kind = mode.token(stream, state);
            kinds.push(...Array(stream.at - stream.start).fill(kind));
        }
        return kinds;
    });
}

const {battles, fragments, sources} = JSON.parse(readFileSync(0, "utf8"));
const read = await Promise.all(fragments.map(battleOf));
const made = await Promise.all(battles.map(it => fragmentOf(it)));
process.stdout.write(JSON.stringify({read, made, kinds: sources.map(kindsOf)}));
