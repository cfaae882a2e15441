// jsc.mjs MODULE JOBS: runs jobs by the module alone in JavaScriptCore's shell, which has neither files nor texts as Node has.
//
// JOBS is a file with what engine.mjs takes, but sources are lists of bytes, and so are the answers' text and faults.
import "./texts.mjs";
import {Engine} from "../../web/engine.js";

const [path, asked] = arguments;
const engine = await Engine.load(readFile(path, "binary"));

function answer(job) {
    const robots = job.robots.map(({name, source}) => ({name, source: new Uint8Array(source)}));
    const {ending} = engine[job.call](job.settings, robots);
    const [text, faults] = [engine.text, engine.faults].map(it => [...engine.bytesOf(it)]);
    return {ending, text, faults};
}

print(JSON.stringify(JSON.parse(readFile(asked)).map(answer)));
