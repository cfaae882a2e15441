// Seats and starts as tournaments have them: a pair plays in both orders, and each order has a seed of its own.
//
// The seed is drawn from that of the battle and from what stands for the robots; so a version's matches don't depend on its text.

// what stands for a robot of which there are several versions
export const CHALLENGER = "challenger";

const hash = text => globalThis.CROBOTS_HASH(new TextEncoder().encode(text));

/** What stands for a robot: the SHA-256 of its source. */
export const keyOf = hash;

/** The seed of the matches in which robots with these keys sit in this order, as a text. */
async function drawn(seed, keys) {
    const digest = await hash(["crobots seating", BigInt(seed), ...keys].join("\n"));
    return String(BigInt(`0x${digest.slice(0, 16)}`));
}

/** Both orders of a pair: of each `isFirst`, whether the first one of the pair sits first, and its seed. */
export async function seatingsOf(seed, one, other) {
    return [{isFirst: true, seed: await drawn(seed, [one, other])}, {isFirst: false, seed: await drawn(seed, [other, one])}];
}
