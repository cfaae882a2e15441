// The field alone, for other pages: the address says which battle is shown, and nothing is kept.
import {FIRST_MATCH, firstBattle} from "./battles.js";
import {byId} from "./dom.js";
import {BROKEN, battleOf, isBattle, linkedMoment} from "./links.js";
import {Screen} from "./replays.js";
import {Watcher, wishOf} from "./watching.js";

export class Alone {
    /** `runner` calls the engine; of the samples two fight if the address names no battle. */
    constructor(runner, samples) {
        this.runner = runner;
        this.samples = samples;
        this.screen = new Screen(byId("film"), {isWide: true}, true);
        window.addEventListener("hashchange", () => this.show());
    }

    /** Plays what the address names. */
    async show() {
        const {hash} = location;
        byId("whole").href = `index.html${hash}`;
        const linked = await battleOf(hash);
        if (isBattle(hash) && !linked) {
            this.say(BROKEN);
            return;
        }
        const battle = linked ?? firstBattle(this.samples, null);
        const moment = linked ? linkedMoment(hash, linked) ?? {number: linked.settings.first, cycle: 0} : {number: FIRST_MATCH, cycle: 0};
        this.say("");
        await new Watcher(this.runner, this.screen, (text, isFault) => this.say(isFault ? text : "")).watch(wishOf(battle, moment));
    }

    say(text) {
        byId("told").textContent = text;
        this.screen.fit();
    }
}
