// Where two films first differ. The rows of an update come robot by robot; so rows are compared cycle by cycle.

const rowsOf = text => text.trimEnd().split("\n").slice(1);
const cycleOf = row => Number(row.slice(0, row.indexOf("\t")));

/**
 * Rows by their cycles, those of a cycle in one order.
 * @returns {Map<number, string>}
 */
function byCycle(rows) {
    const found = new Map();
    rows.forEach(row => found.set(cycleOf(row), [...found.get(cycleOf(row)) ?? [], row]));
    found.forEach((several, cycle) => found.set(cycle, several.sort().join("\n")));
    return found;
}

/** Returns the first cycle after which two films have other rows; null if there is none. */
export function partingOf(one, other) {
    const [rows, others] = [rowsOf(one), rowsOf(other)];
    let same = 0;
    while (same < rows.length && rows[same] === others[same]) {
        same += 1;
    }
    const [mine, theirs] = [byCycle(rows.slice(same)), byCycle(others.slice(same))];
    const cycles = [...mine.keys(), ...theirs.keys()].filter(cycle => mine.get(cycle) !== theirs.get(cycle));
    return cycles.length ? cycles.reduce((least, it) => Math.min(least, it)) : null;
}
