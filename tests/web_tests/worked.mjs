// worked.mjs FOLDER [MODULE] < JOBS > ANSWERS: runs parts of the page that need no browser. FOLDER has the modules of web/ as Node takes them.
//
// JOBS is a list in JSON: each has `what` and its `words`. An answer is what it answers, or {fault}. Those of contests and sweeps take
// the module, which plays their matches.
import fs from "node:fs";
import path from "node:path";
import {pathToFileURL} from "node:url";

const load = name => import(pathToFileURL(path.join(process.argv[2], `${name}.js`)));
const {difference, fixed, meanOf, normalQuantile, outward, withSign} = await load("intervals");
const {seatingsOf, keyOf, CHALLENGER} = await load("seatings");
const {constantsOf, countOf, tunablesOf, valuesOf, withValue} = await load("tuning");
const {partingOf} = await load("partings");
const {contestOf} = await load("contests");
const {sweepOf} = await load("sweeps");
const {Engine} = await load("engine");
globalThis.CROBOTS_HASH = (await load("hashes")).hashOf;
const engine = process.argv[3] ? await Engine.load(fs.readFileSync(process.argv[3])) : null;
const call = (settings, robots) => engine.run(settings, robots);
const quiet = () => {};

/** Where constants of a source stand, by the module. */
function constants(source, profile) {
    const [listed, places] = [engine.list({profile}, [{name: "robot", source}]), engine.places({profile}, [{name: "robot", source}])];
    return constantsOf(source, listed.text, places.text);
}

async function sweep(settings, source, opponents, each) {
    const looks = [];
    const [number] = tunablesOf(source, constants(source, settings.profile));
    const rows = await sweepOf({call, settings, source, number, opponents, each, onSlice: quiet, onLook: rows => looks.push(rows[0].matches)});
    return {number, rows, looks};
}

const WORKS = {
    mean: (classes, unseen, level) => meanOf(classes, unseen, level),
    outward: (interval, most) => outward(interval, most),
    written: (value, digits) => [fixed(Math.abs(value), digits), withSign(value, digits), difference(value)],
    normal: chance => normalQuantile(chance),
    seatings: async (seed, source) => seatingsOf(seed, CHALLENGER, await keyOf(source)),
    tunables: (source, places) => tunablesOf(source, places),
    values: number => [countOf(number), valuesOf(number)],
    changed: (source, places, values) => tunablesOf(source, places).reverse().reduce((text, it, at) => withValue(text, it, values.at(-1 - at)), source),
    parting: (one, other) => partingOf(one, other),
    constants,
    contest: (settings, fresh, old, opponents, each) => contestOf({call, settings, fresh, old, opponents, each, onSlice: quiet}),
    sweep,
};

async function answer({what, words}) {
    try {
        return await WORKS[what](...words);
    } catch (fault) {
        return {fault: fault.message};
    }
}

const answers = [];
for (const job of JSON.parse(fs.readFileSync(0, "utf8"))) {
    answers.push(await answer(job) ?? null);
}
console.log(JSON.stringify(answers));
