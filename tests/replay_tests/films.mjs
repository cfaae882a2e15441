// films.mjs PLAYER < JOBS > ANSWERS: reads films by the modules of web/player, in the folder PLAYER as Node takes them.
//
// JOBS is a list in JSON: each has a film's `text`, maybe `names`, and may ask for moments, `[cycle, glow]` each, and for steps,
// `[name, words..]` each. An answer has `film`, `moments`, `steps` and `events`, or `fault` if the text is no film. A job that has
// `packed`, as a page carries it, is answered with its `text`.
import fs from "node:fs";
import path from "node:path";
import {pathToFileURL} from "node:url";

const load = name => import(pathToFileURL(path.join(process.argv[2], `${name}.js`)));
const {cyclesOf, filmOf, isFilm} = await load("films");
const {Match} = await load("matches");
const {summed, unpacked} = await load("packing");

async function answer({packed, text, names, moments = [], steps = []}) {
    try {
        if (packed) {
            return {text: summed(new TextDecoder().decode(await unpacked(packed)))};
        }
        const film = filmOf(text, names);
        const match = new Match(film);
        return {
            film, isFilm: isFilm(text), last: cyclesOf(text),
            moments: moments.map(([cycle, glow]) => match.moment(cycle, glow)),
            steps: steps.map(([name, ...words]) => match[name](...words) ?? null),
            events: Array.from({length: match.eventsUpTo(film.cycles)}, (_, at) => match.event(at)),
        };
    } catch (fault) {
        return {fault: fault.message};
    }
}

const plain = (_, value) => ArrayBuffer.isView(value) ? [...value] : value;
console.log(JSON.stringify(await Promise.all(JSON.parse(fs.readFileSync(0, "utf8")).map(answer)), plain));
