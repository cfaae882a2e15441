// What films and matches speak of.

/** An update follows each cycle whose number is a multiple of this. */
export const UPDATE_CYCLES = 15;
/** What hurts a robot. */
export const Kind = Object.freeze({SHOT: 0, COLLISION: 1, WALL: 2});
