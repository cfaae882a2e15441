// What reports of matches say, line by line: their format is the game's, and stands still.

const MATCH = "Match ", TOTALS = "Totals: ", DAMAGE = "damage";

/**
 * Returns the matches of a report: where the head of each stands in the text, its number, its cycles, and the damages of its robots.
 * @returns {{begin: number, end: number, number: number, cycles: number, damages: number[]}[]}
 */
export function matchesOf(report) {
    const found = [];
    let begin = 0;
    for (const line of report.split("\n")) {
        if (line.startsWith(TOTALS)) {
            break;
        }
        if (line.startsWith(MATCH)) {
            const [number, cycles] = line.slice(MATCH.length).split(": cycles = ");
            found.push({begin, end: begin + line.length, number: Number(number), cycles: Number(cycles), damages: []});
        } else if (line) {
            found.at(-1)?.damages.push(parseInt(line.slice(line.indexOf(DAMAGE) + DAMAGE.length), 10));
        }
        begin += line.length + 1;
    }
    return found;
}

/** Returns the totals at the end of a report, "" if it has none. */
export function totalsOf(report) {
    const at = report.lastIndexOf(`\n${TOTALS}`);
    return at < 0 ? "" : report.slice(at + 1);
}

/** Returns the rows of totals: of each robot how many matches it won, tied and lost, and its name. */
export function countsOf(totals) {
    return totals.trimEnd().split("\n").slice(1).map(line => {
        const [, won, , tied, , lost, ...name] = line.trimStart().split(" ").slice(1);
        return {counts: [won, tied, lost].map(Number), name: name.join(" ")};
    });
}
