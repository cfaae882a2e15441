// Names of robots: one line of text, all of which is seen, in the order in which it stands.

const MOST_LETTERS = 60;
// ends of lines, control characters, marks of direction and others that aren't seen, halves of letters
const UNSEEN = /[\p{Cc}\p{Cf}\p{Zl}\p{Zp}\p{Cs}/]/gu;

/** Returns a name without what isn't seen, as it may be while it is written. */
export function nameInWork(text) {
    return [...text.replace(UNSEEN, "")].slice(0, MOST_LETTERS).join("");
}

/** Returns a name without what isn't seen, and without blanks around it; `other` if nothing is left. */
export function cleanName(text, other) {
    return nameInWork(text).trim() || other;
}

/** Returns the first name of its kind that none of these robots has. */
export function freeName(robots) {
    const names = new Set(robots.map(({name}) => name));
    for (let number = 1; ; number += 1) {
        if (!names.has(`robot${number}.r`)) {
            return `robot${number}.r`;
        }
    }
}
