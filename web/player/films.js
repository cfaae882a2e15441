// Films of matches: what there is to see of one, as crobots-trace and the module of the page write it.
//
// A film is lines of tab-separated fields: cycle, robot, kind, and up to five values. Robots count from 1. Places are in
// tenths of a metre, angles in degrees, ranges in metres, damage and speed in percent, times in cycles. A film of some windows
// of a match has also where the robots stand at their start and end, and which missiles fly at their start.
import {Kind, UPDATE_CYCLES} from "./terms.js";

const HEADER = "cycle\trobot\tkind\ta\tb\tc\td\te";
const FIELD = 9999;
const MOST_RANGE = 700;
const MOST_RESOLUTION = 10;
const DEADLY = 100;
const TENTHS_OF_UPDATE = 500;

/** The kinds of rows that are shown: one of a shot that was refused isn't. */
const KINDS = new Set("name at stands scan shot flies burst hurt collision wall restart death end stop source line asked".split(" "));
/** Those whose values are no numbers alone. */
const TEXTS = new Set(["name", "restart", "source", "line", "asked"]);

const between = (least, number, most) => Math.max(least, Math.min(most, number));

/** A shot with the end that is to be expected; the film's burst, if it comes, says it better. */
function fired(robot, cycle, [degree, range, x, y]) {
    const metres = between(0, range, MOST_RANGE);
    const updates = Math.floor((cycle - 1) / UPDATE_CYCLES) + Math.max(1, Math.ceil(10 * metres / TENTHS_OF_UPDATE));
    const angle = degree * Math.PI / 180;
    const toX = between(0, Math.round(x + 10 * metres * Math.cos(angle)), FIELD);
    const toY = between(0, Math.round(y + 10 * metres * Math.sin(angle)), FIELD);
    return {robot, cycle, x, y, burst: updates * UPDATE_CYCLES, toX, toY};
}

/** How far a shot's end is from a burst: in cycles and, of equals, in tenths of a metre. */
function farness(shot, cycle, x, y) {
    return [Math.abs(shot.burst - cycle), Math.abs(shot.toX - x) + Math.abs(shot.toY - y)];
}

const placeOf = (...numbers) => numbers.join();

/** Rows of whole numbers as a list for each of their columns. Such lists are handed from a worker to a page by their bytes, at once. */
function columns(names, rows) {
    return Object.fromEntries(names.split(" ").map((name, at) => [name, Int32Array.from(rows.map(row => row[at]))]));
}

/** What the rows of a film have said so far. Each kind of row has a method. */
class Rows {
    constructor(names) {
        this.robots = [];
        names.forEach((name, at) => this.name(0, at + 1, [name]));
        this.shots = [];
        this.hurts = [];
        this.restarts = [];
        this.whys = new Map();
        this.cycles = 0;
        this.flying = [];
        this.harms = new Map();
        this.ended = new Set();
    }

    take(line) {
        const [cycle, robot, kind, ...values] = line.split("\t");
        this.cycles = Math.max(this.cycles, Number(cycle));
        if (KINDS.has(kind)) {
            this[kind](Number(cycle), Number(robot), TEXTS.has(kind) ? values : values.map(Number));
        }
    }

    name(_cycle, robot, [name]) {
        this.robots[robot - 1] ??= {name, places: [], damages: [], scans: [], restarts: [], death: null, source: [], lines: [], asked: []};
    }

    damaged(cycle, robot, percent) {
        const {damages} = this.robots[robot - 1];
        if (damages.at(-1)?.[1] !== percent) {
            damages.push([cycle, percent]);
        }
    }

    /** Where a robot is. One that the film finds with full damage is dead. */
    at(cycle, robot, [x, y, heading, speed, damage]) {
        const it = this.robots[robot - 1];
        if (it.places.at(-1)?.[0] !== cycle) {
            it.places.push([cycle, x, y, heading, speed]);
        }
        this.damaged(cycle, robot, damage);
        if (damage >= DEADLY) {
            it.death ??= cycle;
        }
    }

    /** Where a robot is at the start or the end of some windows. */
    stands(cycle, robot, values) {
        this.at(cycle, robot, values);
    }

    scan(cycle, robot, [degree, resolution, reply]) {
        this.robots[robot - 1].scans.push([cycle, (degree % 360 + 360) % 360, between(0, resolution, MOST_RESOLUTION), reply]);
    }

    shot(cycle, robot, values) {
        const shot = fired(robot, cycle, values);
        this.shots.push(shot);
        this.flying.push(shot);
    }

    /** A missile that was fired before the windows begin. */
    flies(cycle, robot, values) {
        this.shot(cycle, robot, values);
    }

    /**
     * A burst is that of the robot's missile from which it is least expected to differ. If the film begins within the match, the
     * missile may have been fired before it: then the burst alone is shown.
     */
    burst(cycle, robot, [x, y]) {
        const far = it => farness(it, cycle, x, y);
        const [shot] = this.flying.filter(it => it.robot === robot).sort((a, b) => far(a)[0] - far(b)[0] || far(a)[1] - far(b)[1]);
        const beginsLate = this.robots[robot - 1].places[0]?.[0] !== 0;
        if (!shot || beginsLate && shot.burst !== cycle) {
            this.shots.push({robot, cycle, x, y, burst: cycle, toX: x, toY: y});
        } else {
            this.flying.splice(this.flying.indexOf(shot), 1);
            Object.assign(shot, {burst: cycle, toX: x, toY: y});
        }
    }

    hurt(cycle, robot, [damage, by, x, y]) {
        this.hurts.push([cycle, robot, Kind.SHOT, damage, by]);
        const place = placeOf(cycle, by, x, y);
        this.harms.set(place, (this.harms.get(place) ?? 0) + damage);
    }

    collision(cycle, robot, [damage, by]) {
        this.hurts.push([cycle, robot, Kind.COLLISION, damage, by]);
    }

    wall(cycle, robot, [damage]) {
        this.hurts.push([cycle, robot, Kind.WALL, damage, 0]);
    }

    /** A restart, with the number of its cause, function and line: these are kept once. */
    restart(cycle, robot, why) {
        const text = why.join("\t");
        this.whys.set(text, this.whys.get(text) ?? this.whys.size);
        this.restarts.push([cycle, robot, this.whys.get(text)]);
        this.robots[robot - 1].restarts.push(cycle);
    }

    death(cycle, robot) {
        this.robots[robot - 1].death = cycle;
    }

    end(cycle, robot, [damage]) {
        this.damaged(cycle, robot, damage);
        this.ended.add(robot);
    }

    stop(cycle, robot, [damage]) {
        this.damaged(cycle, robot, damage);
    }

    /** A line of a robot's source. */
    source(_cycle, robot, [text]) {
        this.robots[robot - 1].source.push(text);
    }

    /** Where a robot is in its source. */
    line(cycle, robot, [line, name]) {
        this.robots[robot - 1].lines.push([cycle, Number(line), name]);
    }

    /** What a robot asked last: the call in words, the reply, and the cycle of it. */
    asked(cycle, robot, [name, first, second, reply, when]) {
        const used = [first, second].filter(it => it !== "");
        this.robots[robot - 1].asked.push([cycle, Number(reply), Number(when), `${name}(${used.join(", ")})`]);
    }

    /** The shots, sorted by their cycles: one that was in the air at the start of a window was fired before. */
    shotRows() {
        const harmOf = it => this.harms.get(placeOf(it.burst, it.robot, it.toX, it.toY)) ?? 0;
        return this.shots.sort((a, b) => a.cycle - b.cycle)
            .map(it => [it.cycle, it.robot, it.x, it.y, it.burst, it.toX, it.toY, harmOf(it)]);
    }
}

function robotOf({name, places, damages, scans, restarts, death, source, lines, asked}) {
    const inside = {
        source,
        lines: {...columns("cycle line", lines), name: lines.map(row => row[2])},
        asked: {...columns("cycle reply when", asked), call: asked.map(row => row[3])},
    };
    return {
        name, death,
        restarts: Int32Array.from(restarts),
        path: columns("cycle x y heading speed", places),
        damage: columns("cycle percent", damages),
        scans: columns("cycle degree resolution reply", scans),
        ...source.length ? inside : {},
    };
}

/** Returns the last cycle of a film. */
export function cyclesOf(text) {
    return Number(text.slice(text.lastIndexOf("\n", text.length - 2) + 1).split("\t")[0]);
}

/** Returns whether a film has where robots are at its start: that of windows after a match's end has none. */
export function isFilm(text) {
    return /\tstands\t|^0\t1\tat\t/m.test(text);
}

/**
 * Reads a film. Robots have these names, or else those that the film names. Returns the film's `first` and last cycle, `cycles`;
 * whether the match `goesOn` after it; and what happened, as a list for each column: of each of the `robots` its `path`, `damage`,
 * `scans` and the cycles of its `restarts`, and if it shows robots from inside its `source`, `lines` and questions `asked`; `shots`,
 * `hurts` and `restarts`, and the `whys` of these.
 */
export function filmOf(text, names = []) {
    const [header, ...lines] = text.trimEnd().split("\n");
    if (header !== HEADER) {
        throw new Error("this is no film");
    }
    const rows = new Rows(names);
    lines.forEach(line => rows.take(line));
    return {
        first: Math.min(...rows.robots.map(({places}) => places[0]?.[0] ?? 0)),
        cycles: rows.cycles,
        goesOn: rows.ended.size < rows.robots.length,
        robots: rows.robots.map(robotOf),
        shots: columns("cycle robot x y burst toX toY harm", rows.shotRows()),
        hurts: columns("cycle robot kind damage by", rows.hurts),
        restarts: columns("cycle robot why", rows.restarts),
        whys: [...rows.whys.keys()].map(text => text.split("\t")).map(([cause, name, line]) => [cause, name, Number(line)]),
    };
}
