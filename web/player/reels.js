// Films as one file, by the drawing of the field: an SVG that moves, and a video where the browser can record one.
import {FieldDrawing} from "./drawing.js";
import {shown} from "./elements.js";

const SIDE = 640;
const ROW = 26;
const FRAMES_A_SECOND = 10;
const MOST_SECONDS = 20;
// how long the last picture stays
const SECONDS_OF_END = 2;
const MOST_NAME = 24;
// of a robot's way every so many places are drawn: a file with all of them would be some megabytes
const PLACES_OF_TRAIL = 6;
const LEAST_GLOW = 60;
const SECONDS_OF_GLOW = 0.35;
const MILLISECONDS_OF_RECORDED = 40;
const MILLISECONDS_OF_A_PART = 250;
const VIDEO = "video/webm";

const rounded = number => `${Math.round(number * 10) / 10}`;
const escaped = text => text.replace(/[&<>"]/g, letter => `&#${letter.charCodeAt(0)};`);
const ANCHORS = {left: "start", center: "middle", right: "end"};
const BASELINES = {top: "hanging", middle: "central", alphabetic: "alphabetic"};

/** The opacity of a colour, which eight digits have. */
const opacityOf = colour => /^#[0-9a-f]{8}$/i.test(colour) ? parseInt(colour.slice(7), 16) / 255 : 1;

/** The red, green and blue of a style, and its opacity. A gradient has its last colour, and the mean of its opacities. */
function colourOf(style) {
    const stops = typeof style === "string" ? [style] : style.stops;
    return [stops.at(-1).slice(0, 7), stops.map(opacityOf).reduce((sum, alpha) => sum + alpha, 0) / stops.length];
}

/** What draws on a canvas, as far as the field needs it, and writes down what is drawn, as elements of an SVG. */
export class SvgContext {
    constructor() {
        this.shapes = [];
        this.clearRect();
    }

    /** Begins a picture anew: no state of the one before is left. */
    clearRect() {
        /** @type {string[]} */
        this.parts = [];
        this.saved = [];
        this.clips = 0;
        this.path = "";
        this.fillStyle = this.strokeStyle = "#000000";
        this.lineWidth = this.globalAlpha = 1;
        this.dash = [];
        this.lineCap = "butt";
        this.lineJoin = "miter";
        this.font = "normal 10px sans-serif";
        this.textAlign = "left";
        this.textBaseline = "alphabetic";
    }

    setTransform() {
        // an SVG is as sharp as each screen
    }

    beginPath() {
        this.path = "";
    }

    moveTo(x, y) {
        this.path += `M${rounded(x)} ${rounded(y)}`;
    }

    lineTo(x, y) {
        this.path += `${this.path ? "L" : "M"}${rounded(x)} ${rounded(y)}`;
    }

    rect(x, y, width, height) {
        this.path += `M${rounded(x)} ${rounded(y)}h${rounded(width)}v${rounded(height)}h${rounded(-width)}z`;
    }

    closePath() {
        this.path += "z";
    }

    arc(x, y, radius, from, to, isBack = false) {
        const at = angle => `${rounded(x + radius * Math.cos(angle))} ${rounded(y + radius * Math.sin(angle))}`;
        const turn = isBack ? from - to : to - from, r = rounded(radius);
        if (turn >= 2 * Math.PI) {
            this.path += `M${at(from)}A${r} ${r} 0 1 1 ${at(from + Math.PI)}A${r} ${r} 0 1 1 ${at(from)}z`;
            return;
        }
        const size = (turn + 4 * Math.PI) % (2 * Math.PI);
        this.path += `${this.path ? "L" : "M"}${at(from)}A${r} ${r} 0 ${size > Math.PI ? 1 : 0} ${isBack ? 0 : 1} ${at(to)}`;
    }

    setLineDash(dash) {
        this.dash = dash;
    }

    /** A way that fades is made of short pieces, each of one colour. */
    createLinearGradient() {
        const stops = [];
        return {stops, addColorStop: (_, colour) => stops.push(colour)};
    }

    save() {
        this.saved.push(this.clips);
    }

    restore() {
        const before = this.saved.pop();
        for (; this.clips > before; this.clips -= 1) {
            this.parts.push("</g>");
        }
    }

    /** What is drawn from now on is seen within the path alone. */
    clip() {
        this.shapes = this.shapes.includes(this.path) ? this.shapes : [...this.shapes, this.path];
        this.clips += 1;
        this.parts.push(`<g clip-path="url(#c${this.shapes.indexOf(this.path)})">`);
    }

    /** The shapes within which something is seen. */
    get definitions() {
        return this.shapes.map((path, at) => `<clipPath id="c${at}"><path d="${path}"/></clipPath>`).join("");
    }

    /** Writes how something is painted; nothing of what is usual. */
    paint(kind, style) {
        const [colour, strength] = colourOf(style), alpha = strength * this.globalAlpha;
        return ` ${kind}="${colour}"${alpha < 1 ? ` ${kind}-opacity="${Math.round(alpha * 100) / 100}"` : ""}`;
    }

    stroked() {
        const dash = this.dash.length ? ` stroke-dasharray="${this.dash.join(" ")}"` : "";
        const ends = this.lineCap === "round" ? ' stroke-linecap="round"' : "";
        const joins = this.lineJoin === "round" ? ' stroke-linejoin="round"' : "";
        return `${this.paint("stroke", this.strokeStyle)}${this.lineWidth === 1 ? "" : ` stroke-width="${rounded(this.lineWidth)}"`}${ends}${joins}${dash}`;
    }

    fill() {
        this.parts.push(`<path d="${this.path}"${this.paint("fill", this.fillStyle)}/>`);
    }

    stroke() {
        this.parts.push(`<path d="${this.path}" fill="none"${this.stroked()}/>`);
    }

    fillRect(x, y, width, height) {
        this.parts.push(`<rect ${this.box(x, y, width, height)}${this.paint("fill", this.fillStyle)}/>`);
    }

    strokeRect(x, y, width, height) {
        this.parts.push(`<rect ${this.box(x, y, width, height)} fill="none"${this.stroked()}/>`);
    }

    box(x, y, width, height) {
        return `x="${rounded(x)}" y="${rounded(y)}" width="${rounded(width)}" height="${rounded(height)}"`;
    }

    fillText(text, x, y) {
        this.write(text, x, y, this.paint("fill", this.fillStyle));
    }

    strokeText(text, x, y) {
        this.write(text, x, y, ` fill="none"${this.stroked()}`);
    }

    write(text, x, y, paint) {
        const [, weight, size] = /^(\S+) ([\d.]+)px/.exec(this.font) ?? ["", "normal", "10"];
        const bold = weight === "bold" ? ' font-weight="bold"' : "";
        const place = `x="${rounded(x)}" y="${rounded(y)}" font-size="${size}"${bold} text-anchor="${ANCHORS[this.textAlign]}"`;
        this.parts.push(`<text ${place} dominant-baseline="${BASELINES[this.textBaseline]}"${paint}>${escaped(text)}</text>`);
    }
}

/** A canvas of a film's size, by what draws on it. */
function sheetOf(context, height, canvas = {width: 0, height: 0}) {
    return {clientWidth: SIDE, clientHeight: height, getContext: () => context,
        get width() { return canvas.width; }, set width(width) { canvas.width = width; },
        get height() { return canvas.height; }, set height(high) { canvas.height = high; }};
}

/** What draws the pictures of a match, with the robots' names and damage below the field. */
class Reel {
    /** `sheet` is the canvas, of which the field takes the upper part. */
    constructor(match, sheet, context, colours, speed) {
        this.match = match;
        this.context = context;
        this.colours = colours;
        this.glow = Math.max(LEAST_GLOW, speed * SECONDS_OF_GLOW);
        this.field = new FieldDrawing(sheet, colours);
    }

    draw(cycle) {
        const moment = this.match.moment(cycle, this.glow);
        const robots = moment.robots.map(robot => ({...robot, trail: robot.trail.filter((_, at, all) => at % PLACES_OF_TRAIL === 0 || at === all.length - 1)}));
        this.field.draw({...moment, robots});
        robots.forEach((robot, at) => this.name(robot, 12 + at % 2 * SIDE / 2, SIDE + Math.floor(at / 2) * ROW));
    }

    /** A robot's name, its damage, and a bar for that. */
    name({number, name, dead, damage}, x, y) {
        const {context, colours} = this, width = SIDE / 2 - 24;
        const text = name.length > MOST_NAME ? `${name.slice(0, MOST_NAME)}…` : name;
        context.font = "bold 14px system-ui, sans-serif";
        context.textBaseline = "top";
        context.fillStyle = colours.robots[number - 1];
        context.textAlign = "left";
        context.fillText(`${number}) ${text}`, x, y);
        context.textAlign = "right";
        context.fillText(dead ? "dead" : `damage ${damage}%`, x + width, y);
        context.globalAlpha = 0.25;
        context.fillRect(x, y + 17, width, 4);
        context.globalAlpha = 1;
        context.fillRect(x, y + 17, width * damage / 100, 4);
    }
}

/** How high a film with these robots is. */
const heightOf = ({robots}) => SIDE + Math.ceil(robots.length / 2) * ROW + 4;

/** The cycles of a film's pictures: from a cycle on, by so many a second, for some seconds at most. */
export function picturesOf({cycles}, from, speed) {
    const count = Math.min(MOST_SECONDS * FRAMES_A_SECOND, Math.ceil((cycles - from) * FRAMES_A_SECOND / speed) + 1);
    return Array.from({length: count}, (_, at) => Math.min(cycles, from + at * speed / FRAMES_A_SECOND));
}

/** How many parts all pictures begin with alike. */
function alike(pictures) {
    const [first, ...others] = pictures;
    const end = first.findIndex((part, at) => part.startsWith("<g") || others.some(it => it[at] !== part));
    return end < 0 ? first.length : end;
}

/** The style by which each picture is seen in its time; who wants no motion sees the first one. */
function styleOf(count) {
    const each = 1 / FRAMES_A_SECOND, all = count * each + SECONDS_OF_END, part = seconds => `${(seconds / all * 100).toFixed(4)}%`;
    const seen = (name, seconds) => `@keyframes ${name}{0%{visibility:visible}${part(seconds)}{visibility:hidden}}`;
    return `g.f{visibility:hidden;animation:f ${all.toFixed(1)}s step-end infinite}g.a{visibility:visible}g.e{animation-name:e}`
        + `${seen("f", each)}${seen("e", each + SECONDS_OF_END)}@media(prefers-reduced-motion:reduce){g.f{animation:none}}text{font-family:system-ui,sans-serif}`;
}

/** Returns a film as an SVG that moves: a match from a cycle on, so many cycles a second. */
export function svgOf(match, title, {from, speed, colours}) {
    const height = heightOf(match), context = new SvgContext();
    const reel = new Reel(match, sheetOf(context, height), context, colours, speed);
    const pictures = picturesOf(match, from, speed).map(cycle => {
        reel.draw(cycle);
        return context.parts;
    });
    const common = alike(pictures), last = pictures.length - 1;
    const groups = pictures.map((parts, at) => {
        const kind = `f${at ? "" : " a"}${at && at === last ? " e" : ""}`;
        return `<g class="${kind}" style="animation-delay:${(at / FRAMES_A_SECOND).toFixed(1)}s">${parts.slice(common).join("")}</g>\n`;
    });
    const ground = `<rect width="${SIDE}" height="${height}" fill="${colours.panel}"/>${pictures[0].slice(0, common).join("")}`;
    const size = `width="${SIDE}" height="${height}" viewBox="0 0 ${SIDE} ${height}"`;
    const words = `${escaped(title)}, cycles ${shown(Math.floor(from))} to ${shown(Math.floor(Math.min(match.cycles, from + last * speed / FRAMES_A_SECOND)))}`;
    return `<svg xmlns="http://www.w3.org/2000/svg" ${size} role="img"><title>${words}</title><style>${styleOf(pictures.length)}</style>${context.definitions}\n${ground}\n${groups.join("")}</svg>\n`;
}

/** Whether this browser records videos of what is drawn. */
export function canRecord() {
    return typeof MediaRecorder === "function" && "captureStream" in HTMLCanvasElement.prototype && MediaRecorder.isTypeSupported(VIDEO);
}

/** Records a film as a video, which takes as long as the film; `isOver` says whether it is to end before. */
export async function webmOf(match, {from, speed, colours}, isOver) {
    const canvas = document.createElement("canvas"), context = canvas.getContext("2d");
    const reel = new Reel(match, sheetOf(context, heightOf(match), canvas), context, colours, speed);
    reel.draw(from);
    const recorder = new MediaRecorder(canvas.captureStream(), {mimeType: VIDEO}), parts = [];
    const ended = new Promise(done => { recorder.onstop = done; });
    recorder.ondataavailable = ({data}) => parts.push(data);
    recorder.start(MILLISECONDS_OF_A_PART);
    // who ends it at once gets a film of at least a part
    const isEnough = () => isOver() && parts.some(({size}) => size);
    const begun = performance.now();
    for (let seconds = 0; seconds < MOST_SECONDS && from + seconds * speed < match.cycles + SECONDS_OF_END * speed && !isEnough();) {
        await new Promise(done => setTimeout(done, MILLISECONDS_OF_RECORDED));
        seconds = (performance.now() - begun) / 1000;
        reel.draw(Math.min(match.cycles, from + seconds * speed));
    }
    recorder.stop();
    await ended;
    return new Blob(parts, {type: VIDEO});
}
