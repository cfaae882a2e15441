// Runs the engine beside the page, so that the page stays alive while matches are played and their films are read.
import {Engine} from "./engine.js";
import {Ending} from "./limits.js";
import {partingOf} from "./partings.js";
import {bytesOfBase64} from "./player/base64.js";
import {cyclesOf, filmOf, isFilm} from "./player/films.js";
import {unpackedBytes} from "./unpacking.js";

const FILMS = ["film", "windows"];

let bytes;
let engine;

/** Makes the engine of the module's bytes. */
function start() {
    engine = Engine.load(bytes);
    engine.catch(() => {
        // each call reports it
    });
}

/**
 * Reads a film for the player: null if it has none of the cycles that were asked for, or was cut off before one that it has to
 * go `beyond`. One robot fights itself, and then has its name twice.
 */
function read({ending, text, faults}, {beyond = -1}, robots) {
    if (!isFilm(text) || ending === Ending.FULL && cyclesOf(text) <= beyond) {
        return {ending, faults, film: null};
    }
    const names = robots.map(({name}) => name);
    return {ending, faults, film: filmOf(text, names.length === 1 ? [...names, ...names] : names)};
}

/** Plays a match with other robots, and reads the films. `parting` is the cycle in which the first two differ, if they do. */
function compare(filming, settings, battles) {
    const films = battles.map(robots => filming.film(settings, robots));
    const [one, other] = films.map(({text}) => text);
    return {films: films.map((film, at) => read(film, settings, battles[at])), parting: partingOf(one, other)};
}

function resultOf(called, {call, settings, robots}) {
    if (call === "compare") {
        return compare(called, settings, robots);
    }
    const answered = called[call](settings, robots);
    return FILMS.includes(call) ? read(answered, settings, robots) : answered;
}

/** Does what a message asks for, and answers by its number. */
async function answer(data) {
    const {number} = data;
    try {
        postMessage({number, result: resultOf(await engine, data)});
    } catch (fault) {
        if (fault instanceof WebAssembly.RuntimeError) {
            // a call that was cut off leaves its stack; the next one gets a module of its own
            start();
        }
        postMessage({number, fault: fault.message});
    }
}

/** Takes the module, as the page carries it. */
function take(module) {
    bytes = unpackedBytes(bytesOfBase64(module));
    start();
}

onmessage = ({data}) => data.module ? take(data.module) : answer(data);
