// Unpacks what LZMA packed, as the page carries its module: literals and copies of what came before, as bits that were coded by how likely
// each is, as it was learnt from those before it. https://www.7-zip.org/sdk.html describes the format.
//
// Literals go by the three highest bits of the byte before, nothing goes by the place (lc = 3, lp = 0, pb = 0), and no head is written but
// how many bytes there are: 32 bits, the lowest first. What is known stands in variables of functions and not in fields: the page waits for
// this, and browsers run that faster the first time.

const WHOLE = 2048, LEARNING = 5, LEAST_RANGE = 2 ** 24, BYTE = 256, HEAD = 4, FIRST_BYTES = 5;
const LITERAL_BITS = 3, LITERAL_CHANCES = 0x300;
const STATES = 12, AFTER_LITERALS = 7;
const LEAST_LENGTH = 2, SLOT_KINDS = 4, SLOT_BITS = 6, FIRST_WITH_BITS = 4, FIRST_WITH_DIRECT = 14, ALIGN_BITS = 4;
// where the chances of bits of each kind begin: whether a copy comes, and of which kind, by the state; of lengths those of two kinds, and
// of short, middle and long ones; of how far back a copy begins the slots, and the further bits of near ones, and the lowest of others
const IS_COPY = LITERAL_CHANCES << LITERAL_BITS;
const IS_REPEATED = IS_COPY + STATES, IS_EARLIER = IS_REPEATED + STATES, IS_THIRD = IS_EARLIER + STATES, IS_FOURTH = IS_THIRD + STATES;
const IS_LONG = IS_FOURTH + STATES, LENGTHS = IS_LONG + STATES;
const SHORT = 2, MIDDLE = 10, LONG = 18, ALL_LENGTHS = 274;
const REPEATED_LENGTHS = LENGTHS + ALL_LENGTHS, SLOTS = REPEATED_LENGTHS + ALL_LENGTHS, NEAR = SLOTS + (SLOT_KINDS << SLOT_BITS), LOW = NEAR + 128;
const ALL = LOW + (1 << ALIGN_BITS);

/** What reads the bits of packed bytes. Of which it isn't known yet how likely each is, 0 and 1 are. */
function bitsOf(packed) {
    const likely = new Uint16Array(ALL).fill(WHOLE / 2);
    // what the next bits are is told by a number below another one: that one first, each of 32 bits
    const numbers = new Uint32Array([2 ** 32 - 1, new DataView(packed.buffer, packed.byteOffset).getUint32(HEAD + 1)]);
    let at = HEAD + FIRST_BYTES;

    /** Takes a further byte if the range got small. */
    function widen() {
        if (numbers[0] < LEAST_RANGE) {
            numbers[0] <<= 8;
            numbers[1] = numbers[1] << 8 | packed[at++];
        }
    }

    /** The next bit, by how likely it is that it is 0. */
    function next(place) {
        const chance = likely[place];
        const bound = (numbers[0] >>> 11) * chance;
        let bit = 0;
        if (numbers[1] < bound) {
            numbers[0] = bound;
            likely[place] = chance + (WHOLE - chance >> LEARNING);
        } else {
            numbers[1] -= bound;
            numbers[0] -= bound;
            likely[place] = chance - (chance >> LEARNING);
            bit = 1;
        }
        widen();
        return bit;
    }

    /** A number of so many bits, of which each is as likely as the other. */
    function even(count) {
        let number = 0;
        for (let left = count; left > 0; left -= 1) {
            numbers[0] >>>= 1;
            const bit = numbers[1] >= numbers[0] ? 1 : 0;
            numbers[1] -= bit * numbers[0];
            number = number * 2 + bit;
            widen();
        }
        return number;
    }

    /** A number of so many bits, the highest first: each goes by those before it. */
    function ordered(count, begin) {
        const end = 1 << count;
        let node = 1;
        while (node < end) {
            node = node * 2 + next(begin + node);
        }
        return node - end;
    }

    /** A number of so many bits, the lowest first. */
    function reversed(count, begin) {
        let node = 1, number = 0;
        for (let place = 0; place < count; place += 1) {
            const bit = next(begin + node);
            node = node * 2 + bit;
            number += bit << place;
        }
        return number;
    }

    /** The length of a copy. */
    function length(begin) {
        if (!next(begin)) {
            return ordered(3, begin + SHORT);
        }
        return next(begin + 1) ? 16 + ordered(8, begin + LONG) : 8 + ordered(3, begin + MIDDLE);
    }

    /** How far back a copy begins: in slots, of which the greater ones have further bits. */
    function way(kind) {
        const slot = ordered(SLOT_BITS, SLOTS + (kind << SLOT_BITS));
        if (slot < FIRST_WITH_BITS) {
            return slot;
        }
        const count = (slot >> 1) - 1;
        const first = (2 + slot % 2) * 2 ** count;
        if (slot < FIRST_WITH_DIRECT) {
            return first + reversed(count, NEAR + first - slot);
        }
        return first + even(count - ALIGN_BITS) * (1 << ALIGN_BITS) + reversed(ALIGN_BITS, LOW);
    }

    return {next, length, way};
}

/** Returns the bytes that were packed. */
export function unpackedBytes(packed) {
    const {next, length, way} = bitsOf(packed);
    const made = new Uint8Array(new DataView(packed.buffer, packed.byteOffset).getUint32(0, true));
    // how far back the last four copies begin, the last one first
    const ways = [0, 0, 0, 0];
    let at = 0, state = 0;

    function literal() {
        const begin = LITERAL_CHANCES * ((at ? made[at - 1] : 0) >> 8 - LITERAL_BITS);
        let node = 1;
        if (state >= AFTER_LITERALS) {
            // it differs from what a copy would go on with
            let other = made[at - ways[0] - 1];
            for (let isSame = true; isSame && node < BYTE;) {
                const bit = other >> 7;
                other = other << 1 & 255;
                const found = next(begin + (1 + bit << 8) + node);
                node = node * 2 + found;
                isSame = found === bit;
            }
        }
        while (node < BYTE) {
            node = node * 2 + next(begin + node);
        }
        made[at++] = node;
        state = state < 4 ? 0 : state < 10 ? state - 3 : state - 6;
    }

    function take(count) {
        const back = ways[0] + 1;
        for (const end = at + count; at < end; at += 1) {
            made[at] = made[at - back];
        }
    }

    function copy() {
        const count = length(LENGTHS);
        ways.unshift(way(Math.min(count, SLOT_KINDS - 1)));
        ways.pop();
        state = state < AFTER_LITERALS ? 7 : 10;
        take(count + LEAST_LENGTH);
    }

    /** A copy that begins as far back as one of the last four; of the last one it may be a single byte. */
    function repeat() {
        const isFirst = !next(IS_EARLIER + state);
        if (isFirst && !next(IS_LONG + state)) {
            state = state < AFTER_LITERALS ? 9 : 11;
            take(1);
            return;
        }
        if (!isFirst) {
            ways.unshift(...ways.splice(!next(IS_THIRD + state) ? 1 : !next(IS_FOURTH + state) ? 2 : 3, 1));
        }
        const count = length(REPEATED_LENGTHS);
        state = state < AFTER_LITERALS ? 8 : 11;
        take(count + LEAST_LENGTH);
    }

    while (at < made.length) {
        (!next(IS_COPY + state) ? literal : !next(IS_REPEATED + state) ? copy : repeat)();
    }
    return made;
}
