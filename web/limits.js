// What the page and its engine in the worker agree on: the limits of a run, what it is if nothing is said, and how one ends.

/**
 * How a run ended, as the program's exit status says it; 2 means that the engine refused the order, and 6 that a match goes
 * on after the windows that were filmed.
 */
export const Ending = Object.freeze({DONE: 0, FAULTY: 1, REFUSED: 2, UNREAD: 3, FULL: 4, GOES_ON: 6});

/** The most bytes of a robot's name, by the module. */
export const NAME_BYTES = 255;

// made by dev/rules from here
/** The limits of a run. */
export const Limits = Object.freeze({
    robots: 4,
    matches: 1000000,
    cycles: 1000000000,
    first: 1000000,
    profile: 2,
    seed: 18446744073709551615n,
    // one more than a source may have: of a longer one this much is enough to be refused
    sourceBytes: 1048577,
});

/** A run of which nothing is said. */
export const Usual = Object.freeze({
    matches: 1, limit: 500000, first: 1, profile: 1, seed: 1n,
});

/** The damage at which a robot is dead. */
export const DEADLY = 100;
// to here
