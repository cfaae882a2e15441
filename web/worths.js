// What a change and a number of a robot are worth: contests and sweeps, which share an engine of their own.
import {Bench} from "./calling.js";
import {Contesting} from "./contesting.js";
import {Duo} from "./duos.js";
import {Sweeping} from "./sweeping.js";

export class Worths {
    /**
     * @param {import("./workbench.js").Workbench} workbench
     * @param {() => import("./calling.js").Caller} newCaller
     */
    constructor(workbench, samples, newCaller) {
        const {store, editor} = workbench;
        const bench = new Bench(newCaller);
        this.contesting = new Contesting(store, bench, samples, new Duo(bench));
        this.sweeping = new Sweeping(store, editor, bench, samples);
        workbench.onCompile = (source, compiled) => this.sweeping.offer(source, compiled);
    }

    /** Says what the change of the robot that is shown is worth since it was like this. */
    weigh(old) {
        this.contesting.weigh(old);
    }
}
