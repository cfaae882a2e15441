// What the engine says of a source: why it has a fault, and what fits and is hardly meant.
import {buttonOf} from "./asking.js";
import {Ending} from "./limits.js";

const MOST_SHOWN = 20;

// a row LINE:COLUMN: warning: TEXT; those that explain a fault begin with blanks
const isWarning = row => !row.startsWith(" ") && row.split(": ")[1] === "warning";

/** Returns the fault that the diagnostic of a robot names: {line, text}. */
export function faultOf(diagnostic) {
    const [, line, ...words] = diagnostic.trimEnd().split(":");
    return {line: Number(line), text: words.join(":").trim()};
}

/** Returns the warnings of an explanation, each {line, text}. Those of a source with a fault stand before that. */
export function warningsOf({ending, text}) {
    const rows = [Ending.DONE, Ending.FAULTY].includes(ending) ? text.split("\n").filter(isWarning) : [];
    return rows.map(row => row.split(": ")).map(([place, , ...words]) => ({line: parseInt(place, 10), text: words.join(": ")}));
}

/** Returns what explains a fault: the source's line with a mark, and what was met, what fits there, and a hint. */
export function reasonOf({ending, text}) {
    const rows = ending === Ending.FAULTY ? text.trimEnd().split("\n") : [];
    const lines = rows.filter(row => !isWarning(row)).slice(1);
    const isMarked = line => line.startsWith("    ");
    return {marked: lines.filter(isMarked).map(line => line.slice(4)), said: lines.filter(line => !isMarked(line)).map(line => line.trim())};
}

const made = (tag, textContent, more) => Object.assign(document.createElement(tag), {textContent, ...more});

/** Shows in a place why a source has a fault, and the warnings, which lead to their lines by `goTo`. */
export function showExplanation(place, explained, goTo) {
    const {marked, said} = reasonOf(explained);
    const warnings = warningsOf(explained);
    const rows = warnings.slice(0, MOST_SHOWN).map(({line, text}) => {
        const row = made("li", ` ${text}`);
        row.prepend(buttonOf(`Line ${line}`, () => goTo(line)));
        return row;
    });
    const left = warnings.length > MOST_SHOWN ? [made("li", `${warnings.length - MOST_SHOWN} more`)] : [];
    const list = made("ul", "", {ariaLabel: "Warnings"});
    list.append(...rows, ...left);
    const code = marked.length ? [made("pre", marked.join("\n"), {tabIndex: 0, ariaLabel: "The line with the fault"})] : [];
    place.replaceChildren(...code, ...said.map(text => made("p", text)), ...rows.length ? [list] : []);
    place.hidden = !place.children.length;
}
