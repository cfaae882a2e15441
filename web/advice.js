// A sentence of advice for each diagnostic, by its text: a page with another diagnostic isn't built.

const ADVICE = {
    "bad character": "The language has no such character: no quotes, no brackets for arrays, no fractions, no # and no ?.",
    "comment not closed": "A comment that begins with /* has to end with */.",
    "name too long": "A name has at most 31 letters, digits and underscores: choose a shorter one.",
    "constant too large": "The largest number is 2147483647.",
    "source too long": "A robot has at most 1,048,576 bytes: leave something out.",
    "syntax error": "Something before this place is missing or too much: look for a semicolon, a bracket or a brace, here and on the line before.",
    "reserved word": "This word of C is not in the language: loops are written with while, and all variables are whole numbers.",
    "nested too deeply": "At most 64 brackets, blocks and calls are open at once: split this into several statements or functions.",
    "too many variables": "A function has at most 64 variables, and the file at most 64 externals; a misspelled name counts as one more.",
    "too many functions": "A robot has at most 64 functions: join some of them.",
    "function defined twice": "Another function above has this name already: rename one of the two.",
    "intrinsic redefined": "This is one of the thirteen functions of every robot: give yours another name, or look for a } too many above.",
    "bad parameter declaration": "Each parameter is named once between the brackets, and only those may be declared behind them.",
    "too much code": "A robot has at most 2,000 instructions in the first profile, and 4,000 in the second: shorten it, or choose the second.",
    "function not defined": "No function has this name: check how it is spelled, and whether it is in the file.",
    "no main function": "A robot begins in its function main, so write main() { .. }.",
};

/** Returns what may help with a diagnostic. */
export function adviceOf(text) {
    return ADVICE[text];
}
