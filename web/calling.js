// Calls the engine in its worker: one call after another, each with its answer.

/** What a call fails with when it was ended by the page. */
export const STOPPED = "stopped";
const DIED = "The engine ended. It was started anew, so you can try once more.";

/** A call as a text, whatever the order in which its settings were written. */
function textOf(...words) {
    const plain = it => typeof it === "bigint" ? `${it}n` : it?.constructor === Object ? Object.fromEntries(Object.entries(it).sort()) : it;
    return JSON.stringify(words, (_, it) => plain(it));
}

/** What calls the engine in its worker, which takes this module, as the page carries it. */
export class Caller {
    /**
     * The worker has this address, or was started already.
     * @param {{address: string, worker: Worker | null}} engine
     * @param {string} module
     */
    constructor({address, worker}, module) {
        this.address = address;
        this.module = module;
        this.number = 0;
        this.waiting = new Map();
        /**
         * A call that was asked for ahead, as text, and its answer.
         * @type {{asked: string, answer: Promise<any>} | null}
         */
        this.early = null;
        if (worker) {
            this.take(worker);
        } else {
            this.start();
        }
    }

    /** Starts a worker. One that ends by itself is started anew by the next call. */
    start() {
        this.take(new Worker(this.address));
        this.worker.postMessage({module: this.module});
    }

    /** Takes a worker, and what it answers. */
    take(worker) {
        this.worker = worker;
        this.worker.onmessage = ({data}) => this.hear(data);
        this.worker.onerror = event => {
            event.preventDefault();
            this.end(event.message ? `${DIED} (${event.message})` : DIED);
        };
        this.worker.onmessageerror = () => this.end(DIED);
    }

    hear({number, fault, result}) {
        const {done, fail} = this.waiting.get(number);
        this.waiting.delete(number);
        if (fault === undefined) {
            done(result);
        } else {
            fail(new Error(fault));
        }
    }

    /** Asks for a call that is likely to come: the first that asks for just this takes the answer. */
    askAhead(...words) {
        const answer = this.call(...words);
        // who takes it is told
        answer.catch(() => {});
        this.early = {asked: textOf(...words), answer};
    }

    /** Asks for a call of the engine; answers what the worker answers. */
    call(call, settings, robots) {
        const {early} = this;
        if (early && early.asked === textOf(call, settings, robots)) {
            this.early = null;
            return early.answer;
        }
        if (!this.worker) {
            this.start();
        }
        this.number += 1;
        const {number} = this;
        this.worker.postMessage({number, call, settings, robots});
        return new Promise((done, fail) => this.waiting.set(number, {done, fail}));
    }

    /** Ends what runs. */
    stop() {
        this.end(STOPPED);
        this.start();
    }

    /** Ends the worker; what waits for an answer fails for this reason. */
    end(why) {
        this.worker.terminate();
        this.worker = this.early = null;
        const failing = [...this.waiting.values()];
        this.waiting.clear();
        failing.forEach(({fail}) => fail(new Error(why)));
    }
}

/**
 * @typedef {{isOver: boolean, call: (call: string, settings: any, robots: any) => Promise<any>,
 *     run: (settings: any, robots: any) => Promise<any>}} Run
 */

/** An engine of its own for trials, which starts when it is needed. It does one thing at a time: what begins ends what ran. */
export class Bench {
    /** @param {() => Caller} newCaller */
    constructor(newCaller) {
        this.newCaller = newCaller;
        /** @type {Caller | null} */
        this.caller = null;
        /** @type {Run | null} */
        this.run = null;
    }

    /** Begins something. Returns a run, whose `call` calls the engine and fails once it was stopped; `run` is that of matches. */
    begin() {
        this.stop();
        this.caller ??= this.newCaller();
        const {caller} = this;
        const call = (name, ...words) => run.isOver ? Promise.reject(new Error(STOPPED)) : caller.call(name, words[0], words[1]);
        /** @type {Run} */
        const run = {isOver: false, call, run: (settings, robots) => call("run", settings, robots)};
        this.run = run;
        return run;
    }

    /** Ends what runs. */
    stop() {
        if (this.run) {
            this.run.isOver = true;
        }
        if (this.caller?.waiting.size) {
            this.caller.stop();
        }
    }
}
