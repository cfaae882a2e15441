// A series of matches: a long one is played in pieces, so that one sees how far it is.
//
// The report of a match is the same in each series that has it. So the reports of pieces, one after another, are those of
// the whole series, and its totals are the sums of theirs. No piece may begin after the greatest first match: those behind it
// are the end of a piece that begins there, whose other matches were played before.
import {Ending, Limits} from "./limits.js";
import {STOPPED} from "./calling.js";
import {countsOf} from "./results.js";

// a series of at most this number of matches is one piece, and its report is the engine's as it stands
const ONE_PIECE = 10;
const MOST_OF_A_PIECE = 500;
const MILLISECONDS_OF_A_PIECE = 250;
// how much of the matches' reports is kept
const MOST_LETTERS = 4000000;

/** The totals of the pieces so far. */
class Totals {
    constructor() {
        this.matches = 0;
        this.rows = [];
    }

    /** Adds those of a piece with this number of matches; or takes them away, as those of matches that count already. */
    add(matches, text, sign = 1) {
        this.matches += sign * matches;
        countsOf(text).forEach(({counts, name}, at) => {
            const row = this.rows[at] ??= {counts: [0, 0, 0], name};
            counts.forEach((count, kind) => { row.counts[kind] += sign * count; });
        });
    }

    toString() {
        const rows = this.rows.map(({counts: [won, tied, lost], name}, at) => `  ${at + 1}) won ${won} tied ${tied} lost ${lost} ${name}\n`);
        return this.matches ? `Totals: ${this.matches} matches\n${rows.join("")}` : "";
    }
}

/** A series that is played. */
export class Series {
    /** `call` asks the engine to run a number of matches from a number on; `onPiece` is called after each piece. */
    constructor(settings, call, onPiece) {
        this.settings = settings;
        this.call = call;
        this.onPiece = onPiece;
        this.totals = new Totals();
        this.reports = [];
        this.letters = 0;
        this.leftOut = 0;
        this.size = settings.matches <= ONE_PIECE ? settings.matches : 1;
    }

    get played() {
        return this.totals.matches;
    }

    /** The report: that of the only piece as it stands, or else what the pieces add up to. */
    get text() {
        if (this.whole !== undefined) {
            return this.whole;
        }
        const more = this.leftOut ? [`(${this.leftOut} more matches were played. Their reports are left out here.)\n`] : [];
        return [...this.reports, ...more, this.totals].join("");
    }

    /** The number of the next match. */
    get next() {
        return this.settings.first + this.played;
    }

    /** How many matches are played at once: a piece that isn't the last one ends before the greatest first match, or begins there. */
    get wanted() {
        const left = this.settings.matches - this.played;
        const room = Limits.first - this.next;
        return this.size >= left ? left : room > 0 ? Math.min(this.size, room) : this.size;
    }

    /** Plays it all. Returns how it ended: as a run, or that it was stopped or failed, with the faults or the reason. */
    async play() {
        for (;;) {
            const begun = performance.now();
            const matches = this.wanted;
            const again = Math.max(0, this.next - Limits.first);
            const {ending, text, faults} = await this.piece(again + matches, this.next - again);
            const isTooLong = ending === Ending.FULL && matches > 1;
            if (ending !== Ending.DONE && !isTooLong) {
                return {ending, faults};
            }
            if (!isTooLong) {
                this.take(matches, again, text);
                if (this.played === this.settings.matches) {
                    return {ending, faults};
                }
                this.onPiece(this.played);
            }
            const fitting = this.fitting(matches, performance.now() - begun);
            // of matches that are played again there are at most as many as of others
            this.size = isTooLong ? Math.ceil(matches / 2) : Math.max(this.next - Limits.first, fitting);
        }
    }

    async piece(matches, first) {
        try {
            return await this.call({...this.settings, matches, first});
        } catch (fault) {
            return {ending: null, text: "", faults: fault.message};
        }
    }

    /** How many matches take as long as a piece is to take; a piece grows and falls by steps. */
    fitting(matches, milliseconds) {
        const wanted = Math.round(matches * MILLISECONDS_OF_A_PIECE / Math.max(1, milliseconds));
        return Math.max(1, Math.min(wanted, 4 * matches, MOST_OF_A_PIECE));
    }

    /** Takes the report of a piece, whose first matches may count already. */
    take(matches, again, text) {
        const {next} = this;
        this.whole = matches === this.settings.matches ? text : undefined;
        // a name has no line break, so these are no parts of one
        const at = text.lastIndexOf("\nTotals: ") + 1;
        const from = again ? text.indexOf(`\nMatch ${next}: `) + 1 : 0;
        if (again) {
            this.totals.add(again, this.tail, -1);
        }
        this.tail = text.slice(at);
        this.totals.add(again + matches, this.tail);
        // behind a report that is left out all are: those that are shown follow one another
        if (this.leftOut || this.letters + at - from > MOST_LETTERS) {
            this.leftOut += matches;
        } else {
            this.reports.push(text.slice(from, at));
            this.letters += at - from;
        }
    }
}

/** Returns in words who won. */
function won({totals: {matches, rows}}) {
    if (matches > 1) {
        return `Won: ${rows.map(({name, counts}) => `${name} ${counts[0].toLocaleString("en")}`).join(", ")}.`;
    }
    const winner = rows.find(({counts}) => counts[0] > 0);
    return winner ? `${winner.name} won.` : "Nobody won.";
}

/** Returns in words how a series ended. */
export function ended(series, {ending, faults}, milliseconds) {
    switch (ending) {
    case Ending.DONE:
        return `Done in ${(milliseconds / 1000).toFixed(2)} seconds. ${won(series)}`;
    case Ending.FAULTY:
        return "No match was played: a robot has a fault.";
    case Ending.REFUSED:
        return "The settings were refused.";
    default:
        return faults === STOPPED ? stoppedAt(series) : faults || "The report is longer than the page can keep.";
    }
}

function stoppedAt({played, settings}) {
    const all = settings.matches.toLocaleString("en");
    return played ? `Stopped. ${played.toLocaleString("en")} of ${all} matches were played.` : "Stopped. No match was played to its end.";
}
