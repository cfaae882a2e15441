// Sorted lists of cycles.

/** Returns how many numbers of a sorted list are at most a limit. */
export function countAtMost(sorted, limit) {
    let low = 0;
    let high = sorted.length;
    while (low < high) {
        const middle = (low + high) >> 1;
        if (sorted[middle] <= limit) {
            low = middle + 1;
        } else {
            high = middle;
        }
    }
    return low;
}

/** Merges sorted lists of cycles: the cycles, and of each the number of its list and its row there. Of equals the first list goes first. */
export function merged(lists) {
    const size = lists.reduce((sum, {length}) => sum + length, 0);
    const all = {cycle: new Int32Array(size), list: new Uint8Array(size), row: new Uint32Array(size)};
    const next = lists.map(() => 0);
    for (let at = 0; at < size; at++) {
        let least = 0;
        for (let number = 0, first = Infinity; number < lists.length; number++) {
            if (next[number] < lists[number].length && lists[number][next[number]] < first) {
                first = lists[number][next[number]];
                least = number;
            }
        }
        all.cycle[at] = lists[least][next[least]];
        all.list[at] = least;
        all.row[at] = next[least]++;
    }
    return all;
}
