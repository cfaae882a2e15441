// Draws on canvases: a moment of a match on the field, damage over time, and the marks of the legend.
//
// A moment is {cycle, robots, missiles, bursts}, as `Match.moment` makes it; any page that can say so much can draw it.
// Sides and places on a canvas are in its pixels. Colours are those of the page's style, those of robots with six digits.
import {shown} from "./elements.js";
import {countAtMost} from "./sorted.js";

const FIELD_SIDE = 10000;
const LEAST_SIDE = 100;
const NARROW = 500;
// a smaller field has no room for five numbers along a border
const LEAST_SIDE_OF_FIFTHS = 220;
const EDGE = 20;
const RINGS = [400, 200, 50];
const MOST_SCAN = 14143;

/** The colours of the page, as its style has them now. */
export function coloursOf(element) {
    const style = getComputedStyle(element);
    const colour = name => style.getPropertyValue(`--${name}`).trim();
    const names = ["panel", "field", "grid", "border", "ink", "muted", "burst", "on-robot"];
    return {
        ...Object.fromEntries(names.map(name => [name.replace("on-robot", "onRobot"), colour(name)])),
        robots: [1, 2, 3, 4].map(number => colour(`robot-${number}`)),
    };
}

/** How sharp the screen is, and a canvas' size there and in pixels of the page. */
function sizesOf(canvas) {
    const scale = window.devicePixelRatio || 1;
    const width = canvas.clientWidth, height = canvas.clientHeight;
    return {scale, width, height, wide: Math.round(width * scale), high: Math.round(height * scale)};
}

/** Makes a canvas as sharp as the screen; answers its context, cleared, and its size in pixels of the page. */
function prepared(canvas) {
    const {scale, width, height, wide, high} = sizesOf(canvas);
    if (canvas.width !== wide || canvas.height !== high) {
        canvas.width = wide;
        canvas.height = high;
    }
    const context = canvas.getContext("2d");
    context.setTransform(scale, 0, 0, scale, 0, 0);
    context.clearRect(0, 0, width, height);
    return {context, width, height};
}

/** A font of the page's letters. */
function fontOf(size, weight = "normal") {
    return `${weight} ${size}px system-ui, "DejaVu Sans", sans-serif`;
}

/** What draws the field. */
export class FieldDrawing {
    constructor(canvas, colours) {
        this.canvas = canvas;
        this.colours = colours;
    }

    /** Whether what was drawn has the size that the canvas has now. */
    get isFitting() {
        const {wide, high} = sizesOf(this.canvas);
        return this.canvas.width === wide && this.canvas.height === high;
    }

    /** Draws a moment. */
    draw(moment) {
        const {context, width} = prepared(this.canvas);
        if (width < LEAST_SIDE) return;
        const margin = width < NARROW ? 22 : 30;
        this.context = context;
        this.left = margin;
        this.top = EDGE;
        this.scale = (width - margin - EDGE) / FIELD_SIDE;
        this.#ground();
        context.save();
        this.#clip();
        moment.robots.forEach(robot => this.#scan(robot));
        moment.robots.forEach(robot => this.#trail(robot));
        moment.bursts.forEach(burst => this.#burst(burst));
        context.restore();
        moment.missiles.forEach(missile => this.#missile(missile));
        moment.robots.filter(robot => robot.dead).forEach(robot => this.#dead(robot));
        moment.robots.filter(robot => !robot.dead).forEach(robot => this.#robot(robot));
        moment.robots.forEach(robot => this.#harm(robot));
    }

    /** The column and the row of a place. */
    x(tenths) {
        return this.left + tenths * this.scale;
    }

    y(tenths) {
        return this.top + (FIELD_SIDE - tenths) * this.scale;
    }

    colour(number) {
        return this.colours.robots[(number - 1) % this.colours.robots.length];
    }

    #clip() {
        const side = FIELD_SIDE * this.scale;
        this.context.beginPath();
        this.context.rect(this.left, this.top, side, side);
        this.context.clip();
    }

    #ground() {
        const {context, colours, left, top} = this, side = FIELD_SIDE * this.scale;
        context.fillStyle = colours.field;
        context.fillRect(left, top, side, side);
        context.strokeStyle = colours.grid;
        context.lineWidth = 1;
        context.beginPath();
        for (let tenths = 1000; tenths < FIELD_SIDE; tenths += 1000) {
            const [column, row] = [Math.round(this.x(tenths)) + 0.5, Math.round(this.y(tenths)) + 0.5];
            context.moveTo(column, top);
            context.lineTo(column, top + side);
            context.moveTo(left, row);
            context.lineTo(left + side, row);
        }
        context.stroke();
        context.strokeStyle = colours.border;
        context.strokeRect(left - 0.5, top - 0.5, side + 1, side + 1);
        this.#numbers();
    }

    /** The metres along two borders. */
    #numbers() {
        const {context, colours} = this;
        context.fillStyle = colours.muted;
        context.font = fontOf(this.left < 30 ? 9 : 11);
        const step = FIELD_SIDE * this.scale < LEAST_SIDE_OF_FIFTHS ? 250 : 200;
        for (let metres = 0; metres < 1000; metres += step) {
            context.textAlign = "center";
            context.textBaseline = "top";
            context.fillText(`${metres}`, this.x(metres * 10), this.y(0) + 5);
            context.textAlign = "right";
            context.textBaseline = "middle";
            if (metres) context.fillText(`${metres}`, this.left - 5, this.y(metres * 10));
        }
        context.textBaseline = "top";
        context.fillText("1000 m", this.x(FIELD_SIDE) + 8, this.y(0) + 5);
    }

    /** The arc of a scan: as far as the robot that was seen, or over the field if none was. */
    #scan({number, x, y, scan}) {
        if (!scan) return;
        const {context} = this, strength = 1 - scan.age;
        const half = Math.max(0.7, scan.resolution) * Math.PI / 180, middle = -scan.degree * Math.PI / 180;
        const reach = (scan.reply > 0 ? scan.reply * 10 : MOST_SCAN) * this.scale;
        context.globalAlpha = (scan.reply > 0 ? 0.26 : 0.12) * strength;
        context.fillStyle = this.colour(number);
        context.beginPath();
        context.moveTo(this.x(x), this.y(y));
        context.arc(this.x(x), this.y(y), reach, middle - half, middle + half);
        context.closePath();
        context.fill();
        if (scan.reply > 0) {
            context.globalAlpha = 0.9 * strength;
            context.strokeStyle = this.colour(number);
            context.lineWidth = 1.5;
            context.beginPath();
            context.arc(this.x(x), this.y(y), reach, middle - half, middle + half);
            context.stroke();
        }
        context.globalAlpha = 1;
    }

    /** The way of late, the older the fainter. */
    #trail({number, trail, dead}) {
        if (dead) return;
        const {context} = this;
        const faded = age => `${this.colour(number)}${Math.round(150 * (1 - Math.min(1, age))).toString(16).padStart(2, "0")}`;
        context.lineWidth = 2;
        context.lineCap = "butt";
        for (let at = 1; at < trail.length; at++) {
            const [from, to] = [trail[at - 1], trail[at]];
            const ends = [this.x(from.x), this.y(from.y), this.x(to.x), this.y(to.y)];
            const paint = context.createLinearGradient(...ends);
            paint.addColorStop(0, faded(from.age));
            paint.addColorStop(1, faded(to.age));
            context.strokeStyle = paint;
            context.beginPath();
            context.moveTo(ends[0], ends[1]);
            context.lineTo(ends[2], ends[3]);
            context.stroke();
        }
    }

    #missile({robot, from, x, y}) {
        const {context} = this;
        context.strokeStyle = this.colour(robot);
        context.lineWidth = 1;
        context.globalAlpha = 0.45;
        context.beginPath();
        context.moveTo(this.x(from.x), this.y(from.y));
        context.lineTo(this.x(x), this.y(y));
        context.stroke();
        context.globalAlpha = 1;
        this.#disc(x, y, 3.2, this.colours.ink);
        this.#disc(x, y, 2, this.colour(robot));
    }

    /** The rings of a burst, filled if it hurt a robot. */
    #burst({x, y, age, harm}) {
        const {context, colours} = this;
        RINGS.forEach((radius, ring) => {
            context.beginPath();
            context.arc(this.x(x), this.y(y), Math.max(1.5, radius * this.scale), 0, 2 * Math.PI);
            context.globalAlpha = (1 - age) * (harm ? [0.2, 0.3, 0.95][ring] : [0.03, 0.05, 0.3][ring]);
            context.fillStyle = colours.burst;
            context.fill();
            context.globalAlpha = (1 - age) * (harm ? 0.9 : 0.4);
            context.strokeStyle = colours.burst;
            context.lineWidth = harm ? 1.25 : 1;
            context.stroke();
        });
        context.globalAlpha = 1;
    }

    #disc(x, y, radius, colour) {
        const {context} = this;
        context.fillStyle = colour;
        context.beginPath();
        context.arc(this.x(x), this.y(y), radius, 0, 2 * Math.PI);
        context.fill();
    }

    /** How large a robot is drawn: much larger than it is, so that it can be seen. */
    get #radius() {
        return Math.max(7, Math.min(10, this.scale * 160));
    }

    #robot({number, x, y, heading, speed, restart}) {
        const {context} = this, radius = this.#radius, angle = -heading * Math.PI / 180;
        const [column, row] = [this.x(x), this.y(y)];
        const point = (turn, far) => [column + far * Math.cos(angle + turn), row + far * Math.sin(angle + turn)];
        if (restart !== null && restart !== undefined) this.#flash(column, row, restart);
        context.fillStyle = this.colour(number);
        context.strokeStyle = this.colours.field;
        context.lineWidth = 1.5;
        context.beginPath();
        context.moveTo(...point(0.62, radius));
        context.lineTo(...point(0, radius + 5 + speed * 0.06));
        context.lineTo(...point(-0.62, radius));
        context.arc(column, row, radius, angle - 0.62, angle + 0.62, true);
        context.closePath();
        context.stroke();
        context.fill();
        context.fillStyle = this.colours.onRobot;
        context.font = fontOf(Math.round(radius * 1.35), "bold");
        context.textAlign = "center";
        context.textBaseline = "middle";
        context.fillText(`${number}`, column, row + 0.5);
    }

    /** The ring of a restart: it grows and fades. */
    #flash(column, row, age) {
        const {context} = this;
        context.globalAlpha = 1 - age;
        context.strokeStyle = this.colours.ink;
        context.lineWidth = 3;
        context.setLineDash([5, 4]);
        context.beginPath();
        context.arc(column, row, this.#radius + 7 + 8 * age, 0, 2 * Math.PI);
        context.stroke();
        context.setLineDash([]);
        context.globalAlpha = 1;
    }

    #dead({number, x, y}) {
        const {context} = this, arm = this.#radius * 0.8;
        context.lineCap = "round";
        for (const [width, colour] of [[6, this.colours.field], [3.5, this.colour(number)]]) {
            context.strokeStyle = colour;
            context.lineWidth = width;
            context.beginPath();
            context.moveTo(this.x(x) - arm, this.y(y) - arm);
            context.lineTo(this.x(x) + arm, this.y(y) + arm);
            context.moveTo(this.x(x) - arm, this.y(y) + arm);
            context.lineTo(this.x(x) + arm, this.y(y) - arm);
            context.stroke();
        }
    }

    /** What a robot lost of late, above it, or below it at the upper border. */
    #harm({x, y, harm}) {
        if (!harm) return;
        const {context} = this, radius = this.#radius;
        const row = this.y(y) - radius - 10 - 12 * harm.age;
        context.globalAlpha = 1 - harm.age * harm.age;
        context.font = fontOf(14, "bold");
        context.textAlign = "center";
        context.textBaseline = "middle";
        context.lineWidth = 4;
        context.lineJoin = "round";
        context.strokeStyle = this.colours.field;
        context.fillStyle = this.colours.burst;
        const place = [`−${harm.damage}%`, Math.min(Math.max(this.x(x), 36), this.x(FIELD_SIDE) - 16), row < 20 ? this.y(y) + radius + 14 : row];
        context.strokeText(...place);
        context.fillText(...place);
        context.globalAlpha = 1;
    }

    /** Draws one of the legend's marks in the middle of a small canvas. */
    mark(kind) {
        const {context, width, height} = prepared(this.canvas);
        const scale = kind === "restart" ? 0.02 : 0.03;
        this.context = context;
        this.scale = scale;
        this.left = width / 2 - 5000 * scale;
        this.top = height / 2 - 5000 * scale;
        /** @type {any} */
        const robot = {number: 1, x: 5000, y: 5000, heading: 0, speed: 100};
        const marks = {
            robot: () => { this.#trail({...robot, trail: [{x: 4400, y: 5000, age: 0.6}, {...robot, age: 0}]}); this.#robot(robot); },
            scan: () => this.#scan({...robot, x: 4500, scan: {degree: 0, resolution: 10, reply: 100, age: 0}}),
            missile: () => this.#missile({robot: 1, from: {x: 4400, y: 4800}, x: 5300, y: 5150}),
            burst: () => this.#burst({x: 5000, y: 5000, age: 0, harm: 10}),
            restart: () => this.#robot({...robot, speed: 0, restart: 0}),
            dead: () => this.#dead(robot),
        };
        marks[kind]();
    }
}

/** A step between lines of a chart: a round number, so that at most `most` fit. */
function roundStep(span, most) {
    const least = span / most, power = 10 ** Math.floor(Math.log10(Math.max(least, 1)));
    return [1, 2, 5, 10].map(factor => factor * power).find(step => step >= least);
}

/** What draws damage over time. */
export class DamageDrawing {
    constructor(canvas, colours) {
        this.canvas = canvas;
        this.colours = colours;
    }

    /**
     * Draws the damage of a match's robots up to this cycle, with a line there; the rest too, fainter, if `isWhole`. It needs of a
     * match: its `cycles`, and the `first` of them that is shown if that isn't 0;
     * of each of its `robots` the number, and the columns `cycle` and `percent` of its damage; the columns `cycle` and
     * `robot` of its `restarts`; and `damageOf`.
     */
    draw(match, cycle, isWhole = false) {
        const {context, width, height} = prepared(this.canvas);
        if (width < LEAST_SIDE) return;
        this.context = context;
        this.match = match;
        this.end = isWhole ? match.cycles : cycle;
        this.first = match.first ?? 0;
        this.left = 44;
        this.right = width - 34;
        this.top = 12;
        this.bottom = height - 26;
        this.#ground();
        this.#restarts();
        match.robots.forEach(robot => this.#steps(robot, cycle));
        this.#ends();
        this.#line(cycle);
    }

    /** The cycle at a column of the canvas. */
    cycleAt(column) {
        const part = (column - this.left) / (this.right - this.left);
        return this.first + Math.round(Math.max(0, Math.min(1, part)) * (this.match.cycles - this.first));
    }

    #x(cycle) {
        return this.left + (this.right - this.left) * (cycle - this.first) / Math.max(1, this.match.cycles - this.first);
    }

    #y(percent) {
        return this.bottom - (this.bottom - this.top) * percent / 100;
    }

    #ground() {
        const {context, colours, match} = this;
        context.strokeStyle = colours.grid;
        context.fillStyle = colours.muted;
        context.font = fontOf(11);
        context.lineWidth = 1;
        context.textAlign = "right";
        context.textBaseline = "middle";
        for (const percent of [0, 50, 100]) {
            const row = Math.round(this.#y(percent)) + 0.5;
            context.strokeStyle = percent ? colours.grid : colours.border;
            context.beginPath();
            context.moveTo(this.left, row);
            context.lineTo(this.right, row);
            context.stroke();
            context.fillText(`${percent}%`, this.left - 6, row);
        }
        context.textAlign = "center";
        context.textBaseline = "top";
        const step = roundStep(match.cycles - this.first, Math.max(2, (this.right - this.left) / 75));
        for (let cycle = Math.ceil(this.first / step) * step; cycle <= match.cycles; cycle += step) {
            context.fillText(shown(cycle), this.#x(cycle), this.bottom + 7);
        }
    }

    /** A tick for each restart, above the line of no damage; at most one a column. */
    #restarts() {
        const {context, match} = this, {cycle: cycles, robot: robots} = match.restarts;
        const column = (match.cycles - this.first) / (this.right - this.left);
        for (let at = 0; at < cycles.length && cycles[at] <= this.end; at = countAtMost(cycles, cycles[at] + column)) {
            context.fillStyle = this.colours.robots[robots[at] - 1];
            context.fillRect(Math.round(this.#x(cycles[at])), this.bottom - 6, 1.5, 6);
        }
    }

    /** The damage of a robot, faint after the present cycle. */
    #steps({number, damage}, now) {
        const {context} = this;
        for (const [from, to, alpha] of [[now, this.end, 0.38], [this.first, now, 1]].filter(part => part[1] > part[0])) {
            context.save();
            context.beginPath();
            context.rect(this.#x(from) - (from > this.first ? 0 : 2), 0, this.#x(to) - this.#x(from) + 2, this.bottom + 4);
            context.clip();
            context.globalAlpha = alpha;
            context.strokeStyle = this.colours.robots[number - 1];
            context.lineWidth = 2;
            context.lineJoin = "round";
            context.beginPath();
            const lift = 1.2 * (number - 1);
            let row = this.#y(damage.percent[0] ?? 0) - lift;
            context.moveTo(this.#x(this.first), row);
            damage.cycle.forEach((cycle, at) => {
                context.lineTo(this.#x(cycle), row);
                row = this.#y(damage.percent[at]) - lift;
                context.lineTo(this.#x(cycle), row);
            });
            context.lineTo(this.#x(this.match.cycles), row);
            context.stroke();
            context.restore();
        }
    }

    /** The robots' numbers, as high as the ends of their lines, none over another. */
    #ends() {
        const {context, match} = this, apart = 19;
        const ends = match.robots.map(({number}) => ({number, row: this.#y(match.damageOf(number, this.end))}));
        ends.sort((a, b) => b.row - a.row || a.number - b.number);
        let below = this.bottom + apart;
        for (const end of ends) below = end.row = Math.min(end.row, below - apart);
        let above = this.top - apart;
        for (const end of ends.reverse()) above = end.row = Math.max(end.row, above + apart);
        for (const {number, row} of ends) {
            context.fillStyle = this.colours.robots[number - 1];
            context.beginPath();
            context.arc(this.right + 18, row, 8.5, 0, 2 * Math.PI);
            context.fill();
            context.fillStyle = this.colours.onRobot;
            context.font = fontOf(11, "bold");
            context.textAlign = "center";
            context.textBaseline = "middle";
            context.fillText(`${number}`, this.right + 18, row + 0.5);
        }
    }

    #line(cycle) {
        const {context} = this, column = Math.round(this.#x(cycle)) + 0.5;
        context.strokeStyle = this.colours.ink;
        context.lineWidth = 1;
        context.beginPath();
        context.moveTo(column, this.top - 6);
        context.lineTo(column, this.bottom + 4);
        context.stroke();
    }
}
