// Battles: one to four robots and settings. What comes from a link, a file or the browser's storage is made one here.
//
// A robot has a key, by which it is the same one while its name and its source change; a link carries none.
import {Limits, Usual} from "./limits.js";
import {cleanName} from "./names.js";

/**
 * @typedef {{key?: string, name: string, source: string}} Robot
 * @typedef {{matches: number, limit: number, first: number, profile: number, seed: string}} Settings
 * @typedef {{robots: Robot[], settings: Settings}} Battle
 * @typedef {{name: string, source: string, level: number}} Sample
 */

/** @type {Settings} */
const USUAL = {...Usual, seed: String(Usual.seed)};
const FIRST_ROBOTS = ["hunter.r", "sniper.r"];
/** The match of the first robots that is worth watching: of the first sixteen the closest one. */
export const FIRST_MATCH = 2;
/** Who wins it. */
export const FIRST_WINNER = "sniper.r";
/** @type {Record<string, number>} */
const MOST = {matches: Limits.matches, limit: Limits.cycles, first: Limits.first, profile: Limits.profile};
const SETTINGS = Object.keys(USUAL);

/** Returns a whole number from 1 to the most, or what is usual. */
function numberOf(name, value) {
    const number = Number(value);
    return Number.isInteger(number) && number >= 1 && number <= MOST[name] ? number : USUAL[name];
}

/** Returns whether a text is a seed: digits, of which the first may be zeros. */
export function isSeed(text) {
    return /^0*\d{1,20}$/.test(text) && BigInt(text) <= Limits.seed;
}

/** Returns the settings that are out of their limits, by their names. */
export function unfit(settings) {
    const wrong = Object.keys(MOST).filter(name => numberOf(name, settings[name]) !== Number(settings[name]));
    return isSeed(settings.seed) ? wrong : [...wrong, "seed"];
}

/** @returns {Settings} */
function settingsOf(given) {
    const numbers = Object.keys(MOST).map(name => [name, numberOf(name, given?.[name])]);
    const seed = String(given?.seed ?? USUAL.seed);
    return /** @type {Settings} */ ({...Object.fromEntries(numbers), seed: isSeed(seed) ? seed : USUAL.seed});
}

/** Returns what a battle has to have, and no more; null if it lacks something. */
export function checked(battle) {
    const isRobot = it => typeof it?.name === "string" && typeof it?.source === "string";
    const robots = battle?.robots;
    if (!Array.isArray(robots) || robots.length < 1 || robots.length > Limits.robots || !robots.every(isRobot)) {
        return null;
    }
    return {
        robots: robots.map(({key, name, source}, at) =>
            ({...typeof key === "string" ? {key} : {}, name: cleanName(name, `robot${at + 1}.r`), source})),
        settings: settingsOf(battle.settings),
    };
}

/** Returns the battle to begin with: two samples, or the smallest robot if there are none. */
export function firstBattle(samples, other) {
    const robots = FIRST_ROBOTS.map(name => samples.find(it => it.name === name)).filter(it => it).map(({name, source}) => ({name, source}));
    return {robots: robots.length ? robots : [other], settings: {...USUAL}};
}

/** Returns a copy of a battle that changes no more, as a link carries it and the engine takes it: without keys. */
export function copyOf({robots, settings}) {
    return {robots: robots.map(({name, source}) => ({name, source})), settings: {...settings}};
}

/** Returns whether two lists of robots are the same, by their names and sources. */
export function areSame(robots, others) {
    return robots.length === others.length && robots.every(({name, source}, at) => name === others[at].name && source === others[at].source);
}

/** Returns whether two battles are the same, by what they show when they are played. */
export function isSame(battle, other) {
    return areSame(battle.robots, other.robots) && SETTINGS.every(name => battle.settings[name] === other.settings[name]);
}

/** Returns the names of a battle's robots as in a list. */
export function namesOf({robots}) {
    return robots.map(({name}) => name).join(", ");
}
