// Robots from files and to files of one's own computer, and files with battles.
import {Limits} from "./limits.js";
import {cleanName} from "./names.js";
import {imported} from "./versions.js";

// a file with battles may be as long as all that a browser keeps
const MOST_BATTLES_BYTES = 64 * 1024 * 1024;

/** Returns a file's text: of UTF-8, of which a byte order mark is a letter, or else of a byte a letter, as the language has it. */
export function textOf(bytes) {
    try {
        return new TextDecoder("utf-8", {fatal: true, ignoreBOM: true}).decode(bytes);
    } catch {
        return new TextDecoder("windows-1252").decode(bytes);
    }
}

/** Reads a file as a robot, or as battles. */
async function read(file) {
    if (file.size > MOST_BATTLES_BYTES) {
        throw new RangeError(file.name);
    }
    const source = textOf(await file.arrayBuffer());
    const battles = source.startsWith("{") ? imported(source) : null;
    if (!battles && file.size >= Limits.sourceBytes) {
        throw new RangeError(file.name);
    }
    return battles ?? {name: cleanName(file.name, "robot.r"), source};
}

/** Reads files; returns robots, versions of battles, and the names of files that are too long or can't be read. */
export async function readFiles(files) {
    const robots = [], battles = [], refused = [];
    for (const file of files) {
        try {
            const found = await read(file);
            ("versions" in found ? battles : robots).push(found);
        } catch {
            refused.push(cleanName(file.name, "a file"));
        }
    }
    return {robots, battles, refused};
}

/** Saves a text as a file. */
export function saveText(name, text) {
    saveBlob(name, new Blob([text], {type: "text/plain"}));
}

/** Saves something as a file. */
export function saveBlob(name, blob) {
    const address = URL.createObjectURL(blob);
    const link = Object.assign(document.createElement("a"), {href: address, download: name});
    link.click();
    // the browser has begun to read it by then
    setTimeout(() => URL.revokeObjectURL(address), 60000);
}

/** Saves a robot as a file, whose name ends in .r. */
export function save({name, source}) {
    saveText(name.endsWith(".r") ? name : `${name}.r`, source);
}

/** Calls back with the files that are dropped on the page. */
export function onDrop(call) {
    const hasFiles = event => event.dataTransfer?.types.includes("Files");
    const mark = isOver => document.body.classList.toggle("dropping", isOver);
    document.addEventListener("dragover", event => {
        if (hasFiles(event)) {
            event.preventDefault();
            mark(true);
        }
    }, true);
    document.addEventListener("dragleave", event => event.relatedTarget === null && mark(false));
    document.addEventListener("drop", event => {
        if (hasFiles(event)) {
            event.preventDefault();
            event.stopPropagation();
            mark(false);
            call([...event.dataTransfer.files]);
        }
    }, true);
}
