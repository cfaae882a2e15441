// A match: what there is to see of it at a cycle.
//
// Places are in tenths of a metre, angles in degrees, ranges in metres, damage and speed in percent, times in cycles.
// A robot is known by its number, which counts from 1.
import {countAtMost, merged} from "./sorted.js";
import {Kind, UPDATE_CYCLES} from "./terms.js";

const TRAIL = 40 * UPDATE_CYCLES;
const CAUSES = {words: "its stack is full", frames: "too many calls are open", returned: "main returned"};

/** The cycles of the hits of a robot of this number; the number 0 is any robot. */
function cyclesOf({cycle, robot}, number) {
    return number ? cycle.filter((_, at) => robot[at] === number) : cycle;
}

function mixed(from, to, part) {
    return from + (to - from) * part;
}

/** A match, of which its film is known. */
export class Match {
    /** The match of a film, as `filmOf` reads it. */
    constructor(film) {
        this.first = film.first;
        this.cycles = film.cycles;
        this.goesOn = film.goesOn;
        this.shots = film.shots;
        this.hurts = film.hurts;
        this.restarts = film.restarts;
        this.whys = film.whys;
        this.robots = film.robots.map((robot, at) => ({...robot, number: at + 1}));
        const {cycle, burst} = this.shots;
        this.longestFlight = burst.reduce((most, end, at) => Math.max(most, end - cycle[at]), 0);
        this.events = this.#events();
    }

    /** What there is to see at a cycle. What happened is seen for some cycles after it: `glow`. */
    moment(cycle, glow) {
        const {missiles, bursts} = this.#shots(cycle, glow);
        return {cycle, robots: this.robots.map(robot => this.#robot(robot, cycle, glow)), missiles, bursts};
    }

    /** The damage of a robot at a cycle. */
    damageOf(number, cycle) {
        const {cycle: cycles, percent} = this.robots[number - 1].damage;
        return percent[Math.max(0, countAtMost(cycles, cycle) - 1)] ?? 0;
    }

    /** The next cycle after one at which a robot is hurt, and the one before; none at the end. The number 0 is any robot. */
    hitAfter(cycle, number = 0) {
        const cycles = cyclesOf(this.hurts, number);
        return cycles[countAtMost(cycles, cycle)];
    }

    hitBefore(cycle, number = 0) {
        const cycles = cyclesOf(this.hurts, number);
        return cycles[countAtMost(cycles, Math.ceil(cycle) - 1) - 1];
    }

    /** The next cycle after one in which a robot restarts; none at the end. */
    restartAfter(cycle, number = 0) {
        const cycles = number ? this.robots[number - 1].restarts : this.restarts.cycle;
        return cycles[countAtMost(cycles, cycle)];
    }

    /** How many events there were up to a cycle. */
    eventsUpTo(cycle) {
        return countAtMost(this.events.cycle, cycle);
    }

    /** An event in words: its cycle, the robot that it happened to, and what. */
    event(index) {
        const {cycle, list, row, ends} = this.events, at = row[index];
        const kinds = [
            () => [this.hurts.robot[at], this.#hurtText(at)],
            () => [this.restarts.robot[at], this.#restartText(at)],
            () => [ends[at].number, this.#endText(ends[at])],
        ];
        const [robot, text] = kinds[list[index]]();
        return {cycle: cycle[index], robot, text};
    }

    #robot(robot, cycle, glow) {
        const place = this.#place(robot.path, cycle);
        const dead = robot.death !== null && robot.death <= cycle;
        return {
            number: robot.number, name: robot.name, dead, ...place,
            damage: this.damageOf(robot.number, cycle),
            trail: this.#trail(robot.path, cycle, place),
            scan: dead ? null : this.#scan(robot.scans, cycle, glow),
            harm: this.#harm(robot.number, cycle, glow),
            restarts: countAtMost(robot.restarts, cycle),
            restart: dead ? null : this.#restart(robot.restarts, cycle, glow),
        };
    }

    /** Where a robot is: between two places of its path it drives straight and evenly. */
    #place(path, cycle) {
        const at = Math.max(0, countAtMost(path.cycle, cycle) - 1);
        const next = Math.min(at + 1, path.cycle.length - 1);
        const part = next > at ? Math.max(0, (cycle - path.cycle[at]) / (path.cycle[next] - path.cycle[at])) : 0;
        const seen = part > 0 ? next : at;
        return {
            x: mixed(path.x[at], path.x[next], part), y: mixed(path.y[at], path.y[next], part),
            heading: path.heading[seen] ?? 0, speed: path.speed[seen] ?? 0,
        };
    }

    /** The places of a robot in its last updates, the oldest first, each with its age from 0 to 1. */
    #trail(path, cycle, place) {
        const from = Math.max(this.first, cycle - TRAIL);
        const first = countAtMost(path.cycle, from), end = countAtMost(path.cycle, cycle);
        /** @type {any[]} */
        const trail = [{...this.#place(path, from), age: (cycle - from) / TRAIL}];
        for (let at = first; at < end; at++) {
            trail.push({x: path.x[at], y: path.y[at], age: (cycle - path.cycle[at]) / TRAIL});
        }
        trail.push({...place, age: 0});
        return trail;
    }

    #scan(scans, cycle, glow) {
        const at = countAtMost(scans.cycle, cycle) - 1;
        const age = at < 0 ? 1 : (cycle - scans.cycle[at]) / Math.max(2 * UPDATE_CYCLES, glow);
        return age < 1 ? {degree: scans.degree[at], resolution: scans.resolution[at], reply: scans.reply[at], age} : null;
    }

    /** What a robot lost of late, and how long ago that began to be seen. */
    #harm(number, cycle, glow) {
        let damage = 0, age = 1;
        for (let at = countAtMost(this.hurts.cycle, cycle) - 1; at >= 0; at--) {
            const past = (cycle - this.hurts.cycle[at]) / glow;
            if (past >= 1) break;
            if (this.hurts.robot[at] === number) {
                damage += this.hurts.damage[at];
                age = Math.min(age, past);
            }
        }
        return damage ? {damage, age} : null;
    }

    /** How long ago a robot restarted, if it did of late: from 0 to 1. */
    #restart(restarts, cycle, glow) {
        const count = countAtMost(restarts, cycle);
        const age = count ? (cycle - restarts[count - 1]) / Math.max(4 * UPDATE_CYCLES, glow) : 1;
        return age < 1 ? age : null;
    }

    /** The missiles in flight and the bursts of late. */
    #shots(cycle, glow) {
        const shots = this.shots, missiles = [], bursts = [];
        const first = countAtMost(shots.cycle, cycle - this.longestFlight - glow), end = countAtMost(shots.cycle, cycle);
        for (let at = first; at < end; at++) {
            const [x, y] = [shots.x[at], shots.y[at]];
            const to = {x: shots.toX[at], y: shots.toY[at]};
            const part = (cycle - shots.cycle[at]) / Math.max(1, shots.burst[at] - shots.cycle[at]);
            const age = (cycle - shots.burst[at]) / glow;
            if (age < 0) {
                missiles.push({robot: shots.robot[at], from: {x, y}, x: mixed(x, to.x, part), y: mixed(y, to.y, part)});
            } else if (age < 1) {
                bursts.push({robot: shots.robot[at], ...to, age, harm: shots.harm[at]});
            }
        }
        return {missiles, bursts};
    }

    /** All events, sorted by their cycles: each is the row of a list. Their texts are made when they are asked for. */
    #events() {
        const ends = this.robots.map(robot => ({cycle: robot.death ?? this.cycles, robot}));
        ends.sort((a, b) => a.cycle - b.cycle || Number(a.robot.death === null) - Number(b.robot.death === null));
        const lists = [this.hurts.cycle, this.restarts.cycle, ends.map(end => end.cycle)];
        return {...merged(lists), ends: ends.map(end => end.robot)};
    }

    #endText({number, death}) {
        if (death !== null) return "is dead";
        return `is alive ${this.goesOn ? "then" : "at the end"}, with damage ${this.damageOf(number, this.cycles)}%`;
    }

    #hurtText(at) {
        const {kind, damage, by, robot} = this.hurts;
        const loses = `loses ${damage[at]}%`;
        if (kind[at] === Kind.WALL) return `${loses} at a wall`;
        if (kind[at] === Kind.COLLISION) return `${loses} as it meets robot ${by[at]}`;
        return by[at] === robot[at] ? `${loses} to its own shot` : `${loses} to robot ${by[at]}`;
    }

    #restartText(at) {
        const [cause, name, line] = this.whys[this.restarts.why[at]];
        return `restarts: ${CAUSES[cause] ?? cause}, in ${name}${line ? `, line ${line}` : ""}`;
    }
}
