// Colours for the language in the editor: a mode for CodeMirror.

const words = (kind, text) => text.split(" ").map(word => [word, kind]);

/** The words of the language that are suggested. */
export const WORDS = "if else while return int".split(" ");

const KINDS = new Map([
    ...words("keyword", "if else while return"),
    ...words("type", "int long auto register"),
    ...words("builtin", "scan cannon drive damage speed loc_x loc_y rand sqrt sin cos tan atan"),
    ...words("error", "for do break continue switch case default goto struct union typedef char float double static extern short unsigned sizeof void"),
    ["main", "def"],
]);

const MOST_NAME = 31;

/** Takes the rest of a comment, up to its end or the line's. */
function comment(stream, state) {
    state.inComment = !stream.match(/.*?\*\//);
    if (state.inComment) {
        stream.skipToEnd();
    }
    return "comment";
}

/** Takes a token and returns its kind. */
function token(stream, state) {
    if (state.inComment) {
        return comment(stream, state);
    }
    if (stream.eatSpace()) {
        return null;
    }
    if (stream.match("/*")) {
        return comment(stream, state);
    }
    if (stream.match(/\d+/)) {
        return "number";
    }
    const name = stream.match(/[A-Za-z_]\w*/);
    if (name) {
        return name[0].length > MOST_NAME ? "error" : KINDS.get(name[0]) ?? "variable";
    }
    return /["'#$.:?@`[\\\]]/.test(stream.next()) ? "error" : "operator";
}

/** Tells CodeMirror the language. */
export function defineLanguage(codeMirror) {
    codeMirror.defineMode("crobots", config => ({
        startState: () => ({inComment: false, depth: 0}),
        token(stream, state) {
            const kind = token(stream, state);
            if (kind === "operator") {
                state.depth += {"{": 1, "}": -1}[stream.current()] ?? 0;
            }
            return kind;
        },
        indent: (state, after) => Math.max(0, state.depth - (after.startsWith("}") ? 1 : 0)) * config.indentUnit,
        electricInput: /^\s*\}$/,
        blockCommentStart: "/*",
        blockCommentEnd: "*/",
    }));
}
