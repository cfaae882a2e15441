// engine.mjs MODULE < JOBS > ANSWERS: runs jobs by the module alone, without a browser.
//
// JOBS is a list in JSON: each has `call` (run, list, places, explain, turns, film or windows), `settings` and `robots`, whose sources are base64. An
// answer has `ending`, `text` and `faults`, the last two in base64.
import fs from "node:fs";
import {Engine} from "./loaded.mjs";

const engine = await Engine.load(fs.readFileSync(process.argv[2]));

function answer(job) {
    const robots = job.robots.map(({name, source}) => ({name, source: Buffer.from(source, "base64")}));
    const {ending, text: film} = engine[job.call](job.settings, robots);
    const [sheet, faults] = [engine.text, engine.faults].map(it => Buffer.from(engine.bytesOf(it)));
    // a long film comes in parts, and the sheet has the last of them
    const text = ["film", "windows"].includes(job.call) ? Buffer.from(film) : sheet;
    return {ending, text: text.toString("base64"), faults: faults.toString("base64")};
}

const jobs = JSON.parse(fs.readFileSync(0, "utf8"));
console.log(JSON.stringify(jobs.map(answer)));
