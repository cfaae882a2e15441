// units.mjs FOLDER: tests parts of the page that need no browser, by Node. FOLDER has the modules of web/ as Node takes them.
//
// It writes what is wrong, in JSON. Expected values are worked out by hand.
import path from "node:path";
import {pathToFileURL} from "node:url";
import zlib from "node:zlib";

const wrong = [];
const load = name => import(pathToFileURL(path.join(process.argv[2], `${name}.js`)));
const {cleanName, freeName, nameInWork} = await load("names");
const {checked, isSeed, unfit} = await load("battles");
const {readFiles, textOf} = await load("files");
const {hashOf, workedOut} = await load("hashes");
const {shortened} = await load("histories");
const {battleOf, fragmentOf, linkedMoment} = await load("links");
const {placesOf} = await load("finding");
const {completions, openCall, wordAt} = await load("helping");
const {Series, ended} = await load("series");
const {adviceOf} = await load("advice");
const {turnsOf} = await load("listings");
const {reasonOf, warningsOf} = await load("explaining");
const {filmOf} = await load("player/films");
const {DamageDrawing, FieldDrawing} = await load("player/drawing");
const {shown: withCommas} = await load("player/elements");
const {Match} = await load("player/matches");
const {SvgContext, picturesOf, svgOf} = await load("player/reels");
const {countAtMost, merged} = await load("player/sorted");
const {countsOf, matchesOf, totalsOf} = await load("results");
const {Code, callsOf, foundIn, momentOf, valuesOf} = await load("moments");

function check(name, got, wanted) {
    const [shown, right] = [JSON.stringify(got), JSON.stringify(wanted)];
    if (shown !== right) {
        wrong.push(`${name}: ${shown}, not ${right}`);
    }
}

check("a name", [cleanName("a/b\n\u202e\u0007\u2028c.r ", "x"), cleanName(" \u200e ", "x"), nameInWork("a b "), cleanName("\ud800é😀", "x")],
    ["abc.r", "x", "a b ", "é😀"]);
check("a long name", [...cleanName("😀".repeat(99), "x")].length, 60);
check("a free name", freeName([{name: "robot1.r"}, {name: "robot3.r"}]), "robot2.r");
check("seeds", ["0", "18446744073709551615", "18446744073709551616", "", "-1", "1e3", " 1"].map(isSeed), [true, true, false, false, false, false, false]);
check("seeds with zeros before them", ["000000000000000000000001", `${"0".repeat(99)}18446744073709551615`, `${"0".repeat(9)}18446744073709551616`].map(isSeed), [true, true, false]);
const fit = {matches: 1, limit: 1, first: 1, profile: 1, seed: "1"};
check("settings out of their limits", [unfit(fit), unfit({...fit, seed: "18446744073709551616", limit: 0}), unfit({...fit, matches: 1000001, first: NaN, profile: 3})],
    [[], ["limit", "seed"], ["matches", "first", "profile"]]);
check("texts of files", [[0xef, 0xbb, 0xbf, 65], [0xc3, 0xa4], [0xe4, 66]].map(bytes => textOf(Uint8Array.from(bytes))), ["\ufeffA", "ä", "äB"]);
// a source has at most 1,048,576 bytes, and a file with battles 64 MiB: of a longer one nothing is read
const fileOf = (size, text = "") => ({name: `${size}.r`, size, arrayBuffer: async () => new TextEncoder().encode(text.padEnd(Math.min(size, 2 ** 22))).buffer});
const unread = {name: "all.r", size: 2 ** 26 + 1, arrayBuffer: () => { wrong.push("a file of over 64 MiB is read"); }};
const kept = '{"kind": "crobots battles", "versions": []}';
const opened = await readFiles([...[0, 1, -1, 0, 1, 2].map((more, at) => fileOf(at < 2 ? more : 2 ** 20 + more)), fileOf(2 ** 20 + 1, kept), fileOf(2 ** 26, kept), unread]);
check("how long files may be", [opened.robots.map(({source}) => source.length), opened.battles.length, opened.refused],
    [[0, 1, 1048575, 1048576], 2, ["1048577.r", "1048578.r", "all.r"]]);
// of FIPS 180-4, and of as many bytes as fill a block or don't
const HASHES = {"": "e3b0c44298fc1c149afbf4c8996fb92427ae41e4649b934ca495991b7852b855", abc: "ba7816bf8f01cfea414140de5dae2223b00361a396177a9cb410ff61f20015ad"};
check("hashes", Object.keys(HASHES).map(it => workedOut(new TextEncoder().encode(it))), Object.values(HASHES));
const lengths = [1, 55, 56, 63, 64, 65, 119, 120, 1000].map(length => Uint8Array.from({length}, (_, at) => at * 7 & 255));
check("hashes of lengths", lengths.map(workedOut), await Promise.all(lengths.map(hashOf)));
const numbers = [0, 7, 99, 100, 999, 1000, 12345, 999999, 1000000, 123456789, 2 ** 31 - 1, -999, -1000];
check("numbers with commas, as the browser writes them", numbers.map(withCommas), numbers.map(it => it.toLocaleString("en")));
const same = text => ({kind: " ", text});
// all patterns of ten rows that differ or don't: what differs is shown with three rows around it, and dots for each run of the rest
for (let pattern = 0; pattern < 1 << 10; pattern += 1) {
    const differs = Array.from({length: 10}, (_, row) => (pattern >> row & 1) === 1);
    const shows = differs.map((_, row) => differs.some((it, other) => it && Math.abs(other - row) <= 3));
    const text = shows.map((it, row) => it ? String(row) : "_").join("").replace(/_+/g, "...");
    const rows_ = differs.map((it, row) => ({kind: it ? "+" : " ", text: String(row)}));
    check(`the rows that differ are ${pattern.toString(2)}`, shortened(rows_).map(({text: it}) => it).join(""), text);
}
check("a difference that is shortened", shortened([..."abcdefgh"].map(same).concat([{kind: "+", text: "x"}], [..."ijklmn"].map(same))).map(({text}) => text).join(""), "...fghxijk...");

const robot = {name: "a.r", source: "main(){}"};
const usual = {matches: 1, limit: 500000, first: 1, profile: 1, seed: "1"};
check("a battle", checked({robots: [{...robot, more: 1}], settings: {matches: 1000001, limit: 0, seed: "x", first: 2.5, profile: "2"}, more: 1}),
    {robots: [robot], settings: {...usual, profile: 2}});
check("no battles", [null, {}, {robots: []}, {robots: Array(5).fill(robot)}, {robots: [{name: 1, source: ""}]}].map(checked), [null, null, null, null, null]);

const packed = text => `#battle=${zlib.deflateRawSync(text).toString("base64url")}`;
const room = 6 * 1024 * 1024;
const battle = source => JSON.stringify({robots: [{name: "a.r", source}]});
const fill = battle("").length;
check("a link and back", await battleOf(await fragmentOf({robots: [robot], settings: usual})), {robots: [robot], settings: usual});
const [one, three] = [1, 3].map(count => ({robots: Array(count).fill(robot)}));
const momentary = await fragmentOf({robots: [robot], settings: usual}, {number: 3, cycle: 450});
check("a link to a moment", [await battleOf(momentary), linkedMoment(momentary, one), linkedMoment(await fragmentOf({robots: [robot], settings: usual}), one)],
    [{robots: [robot], settings: usual}, {number: 3, cycle: 450, robot: 0}, null]);
// one robot fights itself, so there are two
const followed = await Promise.all([[one, 2], [one, 3], [three, 3], [three, 4]].map(async ([it, number]) =>
    linkedMoment(await fragmentOf({...it, settings: usual}, {number: 1, cycle: 0, robot: number}), it)?.robot));
check("the robot that is followed", followed, [2, undefined, 3, undefined]);
const wrongMoments = ["&match=0&cycle=1", "&match=1000001&cycle=1", "&match=1&cycle=1000000001", "&match=1&cycle=-1", "&match=x&cycle=1", "&cycle=1&match=1",
    "&match=1&cycle=1&robot=0", "&match=1&cycle=1&robot=5", "&match=1&cycle=1&robot=", "&match=1&robot=1&cycle=1"];
check("moments that are none", wrongMoments.map(it => linkedMoment(it, three)), wrongMoments.map(() => null));
// sources that are drawn, so that a link has each sign of base 64 many times
let draw = 1;
const drawnLetter = () => { draw = draw * 48271 % 2147483647; return String.fromCharCode(32 + draw % 95); };
const mixed = Array.from({length: 20}, () => Array.from({length: 400}, drawnLetter).join(""));
const carried = await Promise.all(mixed.map(source => fragmentOf({robots: [{name: "a.r", source}], settings: usual})));
check("letters of links", carried.filter(it => !/^#battle=[\w-]+$/.test(it)), []);
check("their signs", [..."-_"].filter(sign => carried.filter(it => it.split(sign).length > 2).length < 5), []);
check("links of any letters", (await Promise.all(carried.map(battleOf))).map(it => it?.robots[0].source), mixed);
check("the largest link", (await battleOf(packed(battle("x".repeat(room - fill)))))?.robots[0].source.length, room - fill);
check("links that are none", [await battleOf(packed(battle("x".repeat(room - fill + 1)))), await battleOf("#battle=%%%"), await battleOf(packed("[")), await battleOf("#x")],
    [null, null, null, null]);

// a film as an SVG: a field of 10000 tenths of a metre has 590 of 640 pixels, 30 from the left and 20 from the top
globalThis.window = {devicePixelRatio: 1};
const rows = ["cycle robot kind a b c d e", "0 1 name a", "0 2 name b", "0 1 at 1000 5000 0 0 0", "0 2 at 6000 5000 0 0 0", "9 1 shot 0 500 1000 5000",
    "150 1 burst 6000 5000", "150 2 hurt 5 1 6000 5000", "150 2 at 6000 5000 0 0 5", "300 1 end 0", "300 2 end 5"];
const match = new Match(filmOf(rows.map(row => row.replaceAll(" ", "\t")).join("\n")));
const colours = {panel: "#ffffff", field: "#fefefe", grid: "#eeeeee", border: "#888888", ink: "#111111", muted: "#555555", burst: "#dd4400", onRobot: "#ffffff",
    robots: ["#0000aa", "#aa0000", "#00aa00", "#aa00aa"]};
const svg = svgOf(match, "a & b", {from: 0, speed: 300, colours});
const groups = svg.split("\n").filter(line => line.startsWith("<g "));
check("pictures of a film", [picturesOf({cycles: 300}, 0, 300), picturesOf({cycles: 300}, 290, 300), picturesOf({cycles: 10 ** 6}, 0, 300).length],
    [[0, 30, 60, 90, 120, 150, 180, 210, 240, 270, 300], [290, 300], 200]);
check("a film as SVG", [groups.length, groups.map(it => /delay:([\d.]+)s/.exec(it)[1]), groups.map(it => /class="([^"]*)"/.exec(it)[1])],
    [11, ["0.0", "0.1", "0.2", "0.3", "0.4", "0.5", "0.6", "0.7", "0.8", "0.9", "1.0"], ["f a", ...Array(9).fill("f"), "f e"]]);
check("its title", /<title>(.*)<\/title>/.exec(svg)[1], "a &#38; b, cycles 0 to 300");
const placed = groups.map(it => /<text x="([\d.]+)" y="([\d.]+)" [^>]*>1<\/text>/.exec(it)?.slice(1));
check("robots in it", placed, Array(11).fill(["89", "315.5"]));
// seen for 105 cycles, a third of a second
check("hits in it", groups.map(it => it.includes(">−5%<")), [false, false, false, false, false, true, true, true, true, false, false]);
check("its ground stands there once", [svg.split("1000 m").length, svg.split("<clipPath").length, svg.split("<g").length === svg.split("</g>").length], [2, 2, true]);
const drawn = (act, context = new SvgContext()) => { context.beginPath(); act(context); context.stroke(); return /d="([^"]*)"/.exec(context.parts[0])[1]; };
check("arcs", [drawn(it => it.arc(10, 10, 5, 0, Math.PI / 2)), drawn(it => it.arc(10, 10, 5, 0, Math.PI / 2, true)), drawn(it => it.arc(10, 10, 5, 0, 2 * Math.PI))],
    ["M15 10A5 5 0 0 1 10 15", "M15 10A5 5 0 1 0 10 15", "M15 10A5 5 0 1 1 5 10A5 5 0 1 1 15 10z"]);

/** A context that keeps what is drawn with which colour: fields, texts, filled ways and lines. */
class Seen extends SvgContext {
    seen = [];

    fillRect(x, y, width, height) {
        this.seen.push({what: "rect", colour: this.fillStyle, x, y, width, height});
    }

    fillText(text, x, y) {
        this.seen.push({what: "text", colour: this.fillStyle, text, x, y, before: this.seen.at(-1)?.colour});
    }

    fill() {
        this.seen.push({what: "fill", colour: this.fillStyle});
    }

    stroke() {
        this.seen.push({what: "stroke", colour: this.strokeStyle, width: this.lineWidth});
    }
}
// four robots of which each restarts in a cycle of its own, and is hurt in another one: all that is drawn of a robot has its colour
const four = [1, 2, 3, 4];
const coloured = {...colours, robots: ["#000001", "#000002", "#000003", "#000004"]};
const several = new Match(filmOf(["cycle robot kind a b c d e", ...four.map(it => `0 ${it} name r${it}`), ...four.map(it => `0 ${it} at ${2000 * it} 5000 0 0 0`),
    ...four.map(it => `${100 * it} ${it} restart words main 3`), ...four.map(it => `450 ${it} shot 90 500 ${2000 * it} 5000`),
    ...four.map(it => `480 ${it} at ${2000 * it} 5000 0 0 ${10 * it}`), ...four.map(it => `1000 ${it} end ${10 * it}`)].map(row => row.replaceAll(" ", "\t")).join("\n")));
function seenBy(Drawing, ...words) {
    const context = new Seen();
    ["setTransform", "clearRect", "clip", "save", "restore"].forEach(name => { context[name] = () => {}; });
    new Drawing({clientWidth: 478, clientHeight: 158, getContext: () => context}, coloured).draw(...words);
    return context.seen;
}
const chart = seenBy(DamageDrawing, several, 1000, true);
// 400 pixels, from 44 on, are 1000 cycles
check("ticks of restarts", chart.filter(({what}) => what === "rect").map(({colour, x}) => [colour, x]), four.map(it => [`#00000${it}`, 44 + 40 * it]));
check("lines of damage", chart.filter(({what, width}) => what === "stroke" && width === 2).map(({colour}) => colour), four.map(it => `#00000${it}`));
const numbersOf = seen => seen.filter(({what, text}) => what === "text" && /^[1-4]$/.test(text)).map(({text, before}) => [Number(text), before]).sort();
check("discs of numbers", numbersOf(chart), four.map(it => [it, `#00000${it}`]));
const ground = seenBy(FieldDrawing, several.moment(465, 60));
check("robots on the field", numbersOf(ground), four.map(it => [it, `#00000${it}`]));
check("missiles on it", ground.filter(({what, width}) => what === "stroke" && width === 1).map(({colour}) => colour).filter(it => coloured.robots.includes(it)), coloured.robots);

// lists of few cycles, drawn: merged they are in their order, of equal cycles in that of the lists, and then in that of the rows
const below = most => { draw = draw * 48271 % 2147483647; return draw % most; };
for (let round = 0; round < 300; round += 1) {
    const lists = Array.from({length: 1 + below(4)}, () => Array.from({length: below(6)}, () => below(5)).sort((one, other) => one - other));
    const wanted = lists.flatMap((list, at) => list.map((cycle, row) => [cycle, at, row])).sort((one, other) => one[0] - other[0] || one[1] - other[1] || one[2] - other[2]);
    const {cycle, list, row} = merged(lists);
    check(`merged lists ${JSON.stringify(lists)}`, wanted.map((_, at) => [cycle[at], list[at], row[at]]), wanted);
    check(`numbers up to a limit of ${lists[0]}`, [-1, 0, 2, 4, 9].map(limit => countAtMost(lists[0], limit)), [-1, 0, 2, 4, 9].map(limit => lists[0].filter(it => it <= limit).length));
}
check("places", [placesOf("ab", "abxABab"), placesOf("", "x"), placesOf("aa", "aaaa")], [[0, 3, 5], [], [0, 2]]);
// the small letter of a dotted I is two, and a sigma has another one at the end of a word
check("places behind letters of all kinds", [placesOf("b", "\u0130\u0130B\u00df\ud83d\ude00b"), placesOf("\u0130", "i\u0130"), placesOf("\u03a3", "\u03a3\u03b1\u03a3")],
    [[2, 6], [1], [0, 2]]);

const functions = new Map([["scan", {}], ["cannon", {}], ["cos", {}]]);
const at = text => openCall(text, functions);
check("open calls", [at("scan("), at("cannon(scan(1), "), at("scan(1)"), at("f(1, 2"), at("cannon(f(1, 2"), at("scan(/* cannon( */ 1,"), at("scan(1; cos(")],
    [{name: "scan", argument: 0}, {name: "cannon", argument: 1}, null, null, {name: "cannon", argument: 0}, {name: "scan", argument: 1}, {name: "cos", argument: 0}]);
check("a word", [wordAt("a = scan(1)", 6), wordAt("a = scan(1)", 4), wordAt("a = ", 2)], ["scan", "scan", ""]);
check("completions", completions("co", "int count; /* cold */ course(); co", functions), ["cos", "count", "course"]);
check("no completion", completions("cos", "", functions), []);

/** A series of an engine that plays to the second robot's win, and fills its sheet with more than a number of matches. */
async function play(matches, most, first = 1) {
    const calls = [];
    const series = new Series({matches, first}, ({matches: count, first: from}) => {
        calls.push([from, count]);
        const reports = Array.from({length: count}, (_, n) => `Match ${from + n}: cycles = 1\n`).join("");
        const totals = `Totals: ${count} matches\n  1) won 0 tied 0 lost ${count} a\n  2) won ${count} tied 0 lost 0 Totals: 9\n`;
        return count > most ? {ending: 4, text: "", faults: ""} : {ending: 0, text: reports + totals, faults: ""};
    }, () => {});
    return {calls, series, end: await series.play()};
}

/** The same, of an engine that refuses a first match over its limit; the first robot wins those of even numbers. */
async function playLate(matches, first, most = Infinity) {
    const calls = [];
    const series = new Series({matches, first}, ({matches: count, first: from}) => {
        calls.push([from, count]);
        if (from > 1000000) return {ending: 2, text: "", faults: ""};
        if (count > most) return {ending: 4, text: "", faults: ""};
        const numbers = Array.from({length: count}, (_, n) => from + n);
        const won = numbers.filter(n => n % 2 === 0).length;
        const totals = `Totals: ${count} matches\n  1) won ${won} tied 0 lost ${count - won} a\n  2) won ${count - won} tied 0 lost ${won} b\n`;
        return {ending: 0, text: numbers.map(n => `Match ${n}: cycles = 1\n`).join("") + totals, faults: ""};
    }, () => {});
    return {calls, end: await series.play(), text: series.text};
}

function lateReport(matches, first) {
    const numbers = Array.from({length: matches}, (_, n) => first + n);
    const won = numbers.filter(n => n % 2 === 0).length;
    return `${numbers.map(n => `Match ${n}: cycles = 1\n`).join("")}Totals: ${matches} matches\n  1) won ${won} tied 0 lost ${matches - won} a\n  2) won ${matches - won} tied 0 lost ${won} b\n`;
}

for (const [matches, first] of [[11, 1000000], [5, 999999], [30, 999985], [300, 999999], [1000, 999500], [12, 999989], [13, 999988]]) {
    const {end, text, calls} = await playLate(matches, first);
    check(`a series of ${matches} from match ${first}`, [end.ending, text === lateReport(matches, first), calls.every(([from]) => from <= 1000000)], [0, true, true]);
}
const cut = await playLate(40, 999999, 20);
check("a series of which a piece is too long", [cut.end.ending, cut.text.startsWith("Match 999999: cycles = 1\nMatch 1000000:"), /Totals: (\d+)/.exec(cut.text)[1]], [4, true, "21"]);

const whole = text => `${text}\nTotals: 30 matches\n  1) won 0 tied 0 lost 30 a\n  2) won 30 tied 0 lost 0 Totals: 9\n`;
const reports = from => Array.from({length: 30}, (_, n) => `Match ${from + n}: cycles = 1`).join("\n");
const [short, long, tight] = [await play(10, 10), await play(30, 99, 5), await play(30, 3)];
check("a short series is one piece", short.calls, [[1, 10]]);
check("a series in pieces", [long.series.text, long.end.ending, long.calls[0]], [whole(reports(5)), 0, [5, 1]]);
check("pieces that are too long", [tight.series.text, tight.end.ending], [whole(reports(1)), 0]);
check("who won", [ended(short.series, short.end, 1234), ended(...Object.values(await play(1, 1)).slice(1), 5)],
    ["Done in 1.23 seconds. Won: a 0, Totals: 9 10.", "Done in 0.01 seconds. Totals: 9 won."]);
// each report has 50,000 letters, and of some four million the rest is left out: whatever the pieces are, each match is shown or counted.
// Where the engine gets slow a small piece follows a large one, and would fit again
for (const [matches, slow] of [[20, 0], [79, 0], [81, 0], [81, 20], [120, 0], [120, 20], [200, 0], [200, 20]]) {
    let time = 0;
    Object.defineProperty(performance, "now", {value: () => time, configurable: true});
    const large = new Series({matches, first: 3}, ({matches: count, first}) => {
        time += first > 3 + slow && slow ? 20_000 : 1;
        const texts = Array.from({length: count}, (_, n) => `Match ${first + n}: cycles = 1\n${" ".repeat(50_000)}\n`);
        return {ending: 0, text: `${texts.join("")}Totals: ${count} matches\n  1) won 0 tied 0 lost ${count} a\n`, faults: ""};
    }, () => {});
    await large.play();
    const told = [...large.text.matchAll(/^Match (\d+): /gm)].map(([, number]) => Number(number));
    const left = Number(/^\((\d+) more matches were played/m.exec(large.text)?.[1] ?? 0);
    check(`long reports of ${matches} matches, slow from ${slow} on`, [told.length + left, told, left > 0, /^Totals: (\d+)/m.exec(large.text)[1]],
        [matches, told.map((_, at) => at + 3), matches > 80, String(matches)]);
}
Reflect.deleteProperty(performance, "now");
const died = new Series({matches: 99, first: 1}, () => { throw new Error("stopped"); }, () => {});
check("a series that is stopped", ended(died, await died.play(), 0), "Stopped. No match was played to its end.");

// int seen; | main() { | while (1) { f(2); } } | f(n) { seen += n; return n; }
const LISTING = `File robot
Externals 1
  0 seen
Function 0 main vars 0 at 0
Function 1 f vars 1 at 10
  0 n
Code 18
    0 CONST 1
    1 BRANCH 8
    2 FRAME
    3 CONST 2
    4 FCALL 1
    5 CHOP
    6 CONST 0
    7 BRANCH 0
    8 CONST 0
    9 RETSUB
   10 FETCH L0
   11 STORE E0 +=
   12 CHOP
   13 FETCH L0
   14 RETSUB
   15 CONST 0
   16 RETSUB
   17 NOP
`;
// main is entered at its first instruction, f at its own: by hand
const NAMED = {4: "f", 10: "n", 11: "seen", 13: "n"};
const PLACES = `number\trobot\tkind\ta\tb\tc\td\te
0\t1\texternal\tseen
0\t1\tfunction\t0\tmain
1\t1\tfunction\t10\tf
0\t1\tvariable\t1\tn
${Array.from({length: 18}, (_, at) => `${at}\t1\tcode\t${at < 10 ? 3 : 4}\t1\t${[0, 10].includes(at) ? 1 : 0}\t${at < 10 ? 0 : 1}\t${NAMED[at] ?? ""}\n`).join("")}`;
const code = new Code(LISTING, PLACES);
check("names in instructions", [0, 4, 10, 11].map(at => code.nameIn(at)), ["", "f", "n", "seen"]);
check("where lines begin", [[3], [4], [3, 4], [2]].map(lines => code.entriesOf(new Set(lines))), [[0], [10], [0, 10], []]);
check("where any line begins", code.entriesOf(), [0, 10]);
const ROWS = "cycle\trobot\tkind\ta\tb\tc\td\te\n";
const inside = momentOf(`${ROWS}6\t1\tmoment\t11\t0\t1\t0\n6\t1\tasks\tscan\t2\t30\t-5\n2\t1\tasked\tdamage\t0\t7\t8\t-9
6\t1\tframe\t0\t0\n6\t1\tframe\t0\t5\n6\t1\tframe\t1\t0\n6\t1\tword\t2\n6\t1\tword\t3\n6\t1\texternal\t4\n`);
check("a moment", [inside.cycle, inside.address, inside.isAlive, inside.isOver, inside.asks, inside.asked, inside.words, inside.externals],
    [6, 11, true, false, "scan(30, -5)", {cycle: 2, call: "damage()", reply: -9}, [2, 3], [4]]);
// the frame that was opened last is of a call whose arguments are being worked out
check("open calls of a robot", callsOf(code, inside), [{line: 4, name: "f", variables: [{name: "n", value: 2}], frames: 2}, {line: 3, name: "main", variables: [], frames: 1}]);
// the line of a call is that of its FCALL, though what follows it comes from another line
const apart = new Code(LISTING, PLACES.replace("\n5\t1\tcode\t3", "\n5\t1\tcode\t9"));
check("the line of a call", [apart.lines[4], apart.lines[5], ...callsOf(apart, inside).map(({line}) => line)], [3, 9, 4, 3]);
check("externals", valuesOf(code.externals, inside.externals), [{name: "seen", value: 4}]);
check("no moment, and what was found", [momentOf(ROWS), foundIn(ROWS), foundIn(`${ROWS}8\t1\tfound\n`)], [null, null, 8]);

check("turns of loops", turnsOf({ending: 0, text: "3\t1\tturn\t14\t63\n4\t1\tturn\t14\n5\t1\tturn\t9\t9\n6\t1\tturn\n"}).map(({line, text}) => line + text),
    ["3Line 3: a turn takes 14 to 63 cycles", "4Line 4: a turn takes at least 14 cycles", "5Line 5: a turn takes 9 cycles", "6Line 6: the loop never begins again"]);
check("no turns", [turnsOf({ending: 1, text: "x"}), turnsOf({ending: 0, text: ""})], [[], []]);
const FAULTY = {ending: 1, text: "3:3: warning: `a` is set\n5:12: syntax error\n      cannon(0 50);\n               ^\n  met: the number 50\n  hint: a warning: none\n"};
check("a fault behind a warning", [warningsOf(FAULTY), reasonOf(FAULTY)],
    [[{line: 3, text: "`a` is set"}], {marked: ["  cannon(0 50);", "           ^"], said: ["met: the number 50", "hint: a warning: none"]}]);
check("warnings without a fault", [warningsOf({ending: 0, text: "3:3: warning: x\n"}), reasonOf({ending: 0, text: "3:3: warning: x\n"})],
    [[{line: 3, text: "x"}], {marked: [], said: []}]);
check("nothing explained", [warningsOf({ending: 4, text: "3:3: warning: x\n"}), reasonOf({ending: 4, text: ""})], [[], {marked: [], said: []}]);
// names may have any words and blanks
const REPORT = `Match 7: cycles = 15
  1) alive  damage   2% a  damage 50%
  2) dead   damage 100% Match 9
Match 8: cycles = 300
  1) alive  damage   0% a  damage 50%
  2) alive  damage  12% Match 9
Totals: 2 matches
  1) won 1 tied 1 lost 0 a  damage 50%
  2) won 0 tied 1 lost 1 Match 9
`;
check("matches of a report", matchesOf(REPORT).map(({begin, end, ...it}) => [REPORT.slice(begin, end), ...Object.values(it).flat()]),
    [["Match 7: cycles = 15", 7, 15, 2, 100], ["Match 8: cycles = 300", 8, 300, 0, 12]]);
check("totals of a report", countsOf(totalsOf(REPORT)), [{counts: [1, 1, 0], name: "a  damage 50%"}, {counts: [0, 1, 1], name: "Match 9"}]);
check("no report", [matchesOf(""), matchesOf("File a\n  0 n\n"), totalsOf("x"), countsOf("")], [[], [], "", []]);
check("advice", adviceOf("no main function"), "A robot begins in its function main, so write main() { .. }.");
console.log(JSON.stringify(wrong));
