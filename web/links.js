// Links that carry a battle: its robots and its settings, packed into the fragment of the address; and a moment, if one is meant.
import {checked, copyOf} from "./battles.js";
import {Limits} from "./limits.js";
import {bytesOf, unpacked} from "./player/packing.js";

const MARK = "#battle=";
/** What is said of a link that can't be read. */
export const BROKEN = "The link carries no battle that can be read.";
// four sources of the greatest length, with room for what stands between them
const MOST_BYTES = 6 * 1024 * 1024;
/** How many letters a link's fragment has at most: programs that pass links on cut off much longer ones. */
export const MOST_LINK = 32000;

function toText(bytes) {
    let binary = "";
    for (let at = 0; at < bytes.length; at += 8192) {
        binary += String.fromCharCode(...bytes.subarray(at, at + 8192));
    }
    return btoa(binary).replaceAll("+", "-").replaceAll("/", "_").replaceAll("=", "");
}

/** What stands in a fragment for a moment: the match, the cycle, and the robot that is followed if one is. */
function textOf({number, cycle, robot}) {
    return `&match=${number}&cycle=${cycle}${robot ? `&robot=${robot}` : ""}`;
}

/** Returns the fragment that carries this battle, and a moment {number, cycle, robot} of one of its matches if there is one. */
export async function fragmentOf(battle, moment = null) {
    const packed = new Blob([JSON.stringify(copyOf(battle))]).stream().pipeThrough(new CompressionStream("deflate-raw"));
    return MARK + toText(await bytesOf(packed)) + (moment ? textOf(moment) : "");
}

/**
 * Returns the moment that a fragment names, of a match of its battle that can be watched; null if it names none. Its robot is 0 if none
 * is followed. A battle of one robot has it twice.
 */
export function linkedMoment(fragment, {robots}) {
    const found = /&match=(\d{1,10})&cycle=(\d{1,10})(?:&robot=([1-9]))?$/.exec(fragment);
    const [number, cycle, robot] = found ? found.slice(1).map(it => Number(it ?? 0)) : [0, 0, 0];
    const isFit = number >= 1 && number <= Limits.first && cycle <= Limits.cycles && robot <= Math.max(2, robots.length);
    return isFit ? {number, cycle, robot} : null;
}

/** Returns whether a fragment is one that is to carry a battle. */
export function isBattle(fragment) {
    return fragment.startsWith(MARK);
}

/** Returns the battle that a fragment carries, or null if it carries none. */
export async function battleOf(fragment) {
    if (!isBattle(fragment)) {
        return null;
    }
    try {
        const bytes = await unpacked(fragment.slice(MARK.length).split("&")[0], MOST_BYTES);
        const battle = checked(JSON.parse(new TextDecoder().decode(bytes)));
        return battle && copyOf(battle);
    } catch {
        return null;
    }
}
