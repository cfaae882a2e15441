// SHA-256 of bytes: by the browser, or worked out here where it has none, as for a page that is no file and came without encryption.

const BLOCK = 64;

/** The first 32 bits of the fractions of roots of the first primes. */
function fractions(count, root) {
    const found = [];
    for (let number = 2; found.length < count; number += 1) {
        let isPrime = true;
        for (let divisor = 2; divisor * divisor <= number; divisor += 1) {
            isPrime &&= number % divisor !== 0;
        }
        if (isPrime) {
            const value = number ** root;
            found.push((value - Math.floor(value)) * 2 ** 32 | 0);
        }
    }
    return found;
}

const FACTORS = fractions(64, 1 / 3);
const START = fractions(8, 1 / 2);

const turned = (word, bits) => word >>> bits | word << 32 - bits;

/** The bytes with their end, so that they are whole blocks: a bit, zeros, and how many bits there were. */
function padded(bytes) {
    const blocks = new Uint8Array(Math.ceil((bytes.length + 9) / BLOCK) * BLOCK);
    blocks.set(bytes);
    blocks[bytes.length] = 0x80;
    new DataView(blocks.buffer).setBigUint64(blocks.length - 8, BigInt(bytes.length) * 8n);
    return new DataView(blocks.buffer);
}

/** The words of a block's rounds. */
function wordsOf(view, at, words) {
    for (let round = 0; round < 64; round += 1) {
        if (round < 16) {
            words[round] = view.getInt32(at + 4 * round);
        } else {
            const [far, near] = [words[round - 15], words[round - 2]];
            const low = turned(far, 7) ^ turned(far, 18) ^ far >>> 3;
            const high = turned(near, 17) ^ turned(near, 19) ^ near >>> 10;
            words[round] = words[round - 16] + low + words[round - 7] + high | 0;
        }
    }
}

function mixed(state, words) {
    let [a, b, c, d, e, f, g, h] = state;
    for (let round = 0; round < 64; round += 1) {
        const chosen = (turned(e, 6) ^ turned(e, 11) ^ turned(e, 25)) + (e & f ^ ~e & g);
        const one = h + chosen + FACTORS[round] + words[round] | 0;
        const two = (turned(a, 2) ^ turned(a, 13) ^ turned(a, 22)) + (a & b ^ a & c ^ b & c) | 0;
        [h, g, f, e, d, c, b, a] = [g, f, e, d + one | 0, c, b, a, one + two | 0];
    }
    return [a, b, c, d, e, f, g, h].map((word, at) => word + state[at] | 0);
}

/** The hash of bytes, worked out here. */
export function workedOut(bytes) {
    const view = padded(bytes);
    const words = new Int32Array(64);
    let state = START;
    for (let at = 0; at < view.byteLength; at += BLOCK) {
        wordsOf(view, at, words);
        state = mixed(state, words);
    }
    return state.map(word => (word >>> 0).toString(16).padStart(8, "0")).join("");
}

/** The hash of bytes, in digits of base 16. */
export async function hashOf(bytes) {
    try {
        const hash = await crypto.subtle.digest("SHA-256", bytes);
        return Array.from(new Uint8Array(hash), byte => byte.toString(16).padStart(2, "0")).join("");
    } catch {
        return workedOut(bytes);
    }
}
