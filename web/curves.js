// The curve of a sweep: the change in points over the values, with the band of its intervals; today's value is at 0.
import {difference} from "./intervals.js";

const WIDTH = 640, HEIGHT = 300;
const LEFT = 76, RIGHT = 16, TOP = 12, BOTTOM = 54;
const TICKS = 6;
const SPACE = "http://www.w3.org/2000/svg";

/** An element of a drawing. */
function drawn(tag, attributes, ...parts) {
    const it = document.createElementNS(SPACE, tag);
    Object.entries(attributes).forEach(([name, value]) => it.setAttribute(name, `${value}`));
    it.append(...parts);
    return it;
}

/** Round values from one to another, some six. */
function ticksOf(low, high) {
    const rough = (high - low) / TICKS;
    const power = 10 ** Math.floor(Math.log10(rough));
    const step = [1, 2, 5, 10].find(it => it * power >= rough * 0.999) * power;
    const count = Math.floor(high / step) - Math.ceil(low / step) + 1;
    return Array.from({length: count}, (_, at) => (Math.ceil(low / step) + at) * step);
}

const scaleOf = (low, high, from, to) => value => from + (value - low) / (high - low) * (to - from);

/** What is drawn of a row: its dot with what a pointer says of it. */
function dotOf({value, change, verdict}, x, y) {
    const kind = {better: "better", worse: "worse", "today's": "today"}[verdict] ?? "value";
    const [middle, low, high] = [change.value, change.low, change.high].map(difference);
    const words = `${value}: ${middle} (${low} to ${high}), ${verdict}`;
    return drawn("circle", {cx: x, cy: y, r: kind === "today" ? 5 : 4, class: kind}, drawn("title", {}, words));
}

/**
 * The lines and the numbers beside and below the curve.
 * @param {number[][]} ends
 */
function axes(up, along, ends) {
    const [heights, widths] = ends.map(([low, high]) => ticksOf(low, high));
    const lines = heights.flatMap(tick => [
        drawn("line", {x1: LEFT, x2: WIDTH - RIGHT, y1: up(tick), y2: up(tick), class: Math.abs(tick) < 1e-9 ? "zero" : "grid"}),
        drawn("text", {x: LEFT - 6, y: up(tick) + 4, "text-anchor": "end"}, difference(tick)),
    ]);
    const feet = widths.filter(Number.isInteger).map(tick =>
        drawn("text", {x: along(tick), y: HEIGHT - BOTTOM + 18, "text-anchor": "middle"}, `${tick}`));
    return [...lines, ...feet];
}

/** What the numbers beside and below the curve are. */
function titles({name, value}) {
    const [x, y] = [14, (TOP + HEIGHT - BOTTOM) / 2];
    return [
        drawn("text", {x: (LEFT + WIDTH - RIGHT) / 2, y: HEIGHT - 8, "text-anchor": "middle"}, `value of ${name}`),
        drawn("text", {x, y, "text-anchor": "middle", transform: `rotate(-90 ${x} ${y})`}, `points a match, more than with ${value}`),
    ];
}

/** Draws the rows of a sweep of a number. */
export function curveOf(rows, number) {
    const ends = rows.flatMap(({change}) => [change.low, change.high]);
    const room = Math.max(0.05 * (Math.max(...ends) - Math.min(...ends)), 0.01);
    const heights = [Math.min(...ends) - room, Math.max(...ends) + room];
    const widths = [rows[0].value, rows.at(-1).value];
    const up = scaleOf(heights[0], heights[1], HEIGHT - BOTTOM, TOP);
    const along = scaleOf(widths[0], widths[1], LEFT, WIDTH - RIGHT);
    const way = rows.map(({value, change}) => `${along(value)},${up(change.value)}`);
    const [top, bottom] = ["high", "low"].map(side => rows.map(({value, change}) => `${along(value)},${up(change[side])}`));
    const x = along(number.value);
    const label = `Change in points by ${number.name}; the table below has the numbers`;
    return drawn("svg", {viewBox: `0 0 ${WIDTH} ${HEIGHT}`, role: "img", "aria-label": label, class: "curve"},
        ...axes(up, along, [heights, widths]),
        drawn("line", {x1: x, x2: x, y1: TOP, y2: HEIGHT - BOTTOM, class: "now"}),
        drawn("polygon", {points: [...top, ...bottom.reverse()].join(" "), class: "band"}),
        drawn("polyline", {points: way.join(" "), class: "way"}),
        ...rows.map(row => dotOf(row, along(row.value), up(row.change.value))),
        drawn("text", {x, y: HEIGHT - BOTTOM + 32, "text-anchor": "middle", class: "now"}, `today's ${number.value}`),
        ...titles(number));
}
