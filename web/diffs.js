// The difference of two texts by their lines.

// of longer texts the middle is told as gone and new, and not compared line by line
const MOST_CELLS = 4000000;

/** The lengths of the longest common parts of the rests of two lists. */
function commonLengths(before, after) {
    const width = after.length + 1;
    const lengths = new Uint16Array((before.length + 1) * width);
    for (let at = before.length - 1; at >= 0; at -= 1) {
        for (let to = after.length - 1; to >= 0; to -= 1) {
            lengths[at * width + to] = before[at] === after[to]
                ? lengths[(at + 1) * width + to + 1] + 1 : Math.max(lengths[(at + 1) * width + to], lengths[at * width + to + 1]);
        }
    }
    return (at, to) => lengths[at * width + to];
}

const rows = (kind, lines) => lines.map(text => ({kind, text}));

/** The rows of lists that begin and end differently. */
function middle(before, after) {
    if (before.length * after.length > MOST_CELLS) {
        return [...rows("-", before), ...rows("+", after)];
    }
    const common = commonLengths(before, after);
    const found = [];
    let at = 0, to = 0;
    while (at < before.length || to < after.length) {
        if (at < before.length && to < after.length && before[at] === after[to]) {
            found.push({kind: " ", text: before[at]});
            at += 1;
            to += 1;
        } else if (to === after.length || at < before.length && common(at + 1, to) >= common(at, to + 1)) {
            found.push({kind: "-", text: before[at]});
            at += 1;
        } else {
            found.push({kind: "+", text: after[to]});
            to += 1;
        }
    }
    return found;
}

/** Returns the rows of a difference, each {kind, text}: "-" is in the first text alone, "+" in the second alone, and " " in both. */
export function diffOf(one, other) {
    const [before, after] = [one.split("\n"), other.split("\n")];
    const most = Math.min(before.length, after.length);
    let start = 0;
    while (start < most && before[start] === after[start]) {
        start += 1;
    }
    let end = 0;
    while (end < most - start && before.at(-1 - end) === after.at(-1 - end)) {
        end += 1;
    }
    const [from, to] = [before.length - end, after.length - end];
    return [...rows(" ", before.slice(0, start)), ...middle(before.slice(start, from), after.slice(start, to)), ...rows(" ", before.slice(from))];
}
