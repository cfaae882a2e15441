// Unpacks what a page carries: texts that were deflated and written in base 64, and films.
import {bytesOfBase64} from "./base64.js";

const WORDED = new Set(["name", "restart", "source", "line", "asked"]);

/** Reads a stream's bytes, and no more than `most`: a stream that has more is given up at once. */
export async function bytesOf(stream, most = Infinity) {
    const reader = stream.getReader();
    const parts = [];
    for (let size = 0; ;) {
        const {done, value} = await reader.read();
        if (done) {
            return new Uint8Array(await new Blob(parts).arrayBuffer());
        }
        parts.push(value);
        size += value.length;
        if (size > most) {
            await reader.cancel();
            throw new RangeError(`more than ${most} bytes`);
        }
    }
}

/** Returns the bytes that a text in base 64 packs, if they aren't more than `most`. */
export function unpacked(text, most = Infinity) {
    const packed = new Blob([bytesOfBase64(text)]).stream();
    return bytesOf(packed.pipeThrough(new DecompressionStream("deflate-raw")), most);
}

/**
 * Returns a film's text, of which a page carries each number as a difference: a row's cycle from that of the row before, and the
 * others from those of the last row of the same robot and kind. Values that are no numbers alone are carried as they are.
 */
export function summed(text) {
    const [header, ...lines] = text.trimEnd().split("\n");
    const last = new Map();
    let cycle = 0;
    const sums = lines.map(line => {
        const [difference, robot, kind, ...values] = line.split("\t");
        cycle += Number(difference);
        const key = robot + kind;
        if (!WORDED.has(kind)) {
            last.set(key, values.map((value, at) => Number(value) + (last.get(key)?.[at] ?? 0)));
        }
        return [cycle, robot, kind, ...(last.get(key) ?? values)].join("\t");
    });
    return [header, ...sums, ""].join("\n");
}
