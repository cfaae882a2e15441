// What screen readers hear while a match plays.

const SECONDS_BETWEEN_WORDS = 2;

/** Says hits and the end to screen readers, not more often than one can follow. */
export class Speaker {
    /** Speaks in a region of the page, of what happens in a match after this cycle. */
    constructor(region, match, cycle) {
        this.region = region;
        this.match = match;
        this.cycle = cycle;
        this.saidAt = -Infinity;
    }

    /** Says what happened since the last words, up to a cycle. */
    follow(cycle, isStep) {
        const now = performance.now() / 1000;
        if (!isStep && cycle < this.match.cycles && now - this.saidAt < SECONDS_BETWEEN_WORDS) return;
        const from = cycle > this.cycle && !isStep ? this.match.eventsUpTo(this.cycle) : this.match.eventsUpTo(cycle - 1);
        const to = this.match.eventsUpTo(cycle);
        this.cycle = cycle;
        if (from === to) return;
        this.saidAt = now;
        const texts = [];
        for (let index = Math.max(from, to - 4); index < to; index++) texts.push(this.#text(this.match.event(index)));
        if (cycle >= this.match.cycles) texts.unshift(this.#end());
        this.region.textContent = texts.join(" ");
    }

    #end() {
        const {goesOn, cycles} = this.match;
        return goesOn ? `The replay ends at cycle ${cycles}.` : `The match ends after ${cycles} cycles.`;
    }

    #text({cycle, robot, text}) {
        return `Cycle ${cycle}: ${robot}, ${this.match.robots[robot - 1].name}, ${text}.`;
    }
}
