// Starts the page, if the browser has what it needs and the files are those that were built: it knows their SHA-256.
import {hashOf} from "./hashes.js";
import {openedDatabase} from "./opening.js";

// put in when the page is built; the data have the module, as it is packed, and what unpacks it
const HASHES = {data: "$data", page: "$page"};
const AGAIN = "Unpack or copy all files of the page once more.";

/** Says why the page isn't there, and shows nothing else. */
function lack(text) {
    document.getElementById("main").hidden = true;
    const box = document.getElementById("lacking");
    box.textContent = text;
    box.hidden = false;
}

/** Returns whether this browser takes the module, by a small one: it copies memory, and extends the sign of a BigInt. */
function takesModule() {
    // one function from i64 to i64: i32.const 0, three times, memory.copy; local.get 0, i64.extend8_s
    const bytes = new Uint8Array([0, 97, 115, 109, 1, 0, 0, 0, 1, 6, 1, 96, 1, 126, 1, 126, 3, 2, 1, 0, 5, 3, 1, 0, 0,
        7, 5, 1, 1, 102, 0, 0, 10, 17, 1, 15, 0, 65, 0, 65, 0, 65, 0, 252, 10, 0, 0, 32, 0, 194, 11]);
    try {
        const {exports} = new WebAssembly.Instance(new WebAssembly.Module(bytes));
        return /** @type {any} */ (exports).f(BigInt(129)) === BigInt(-127);
    } catch {
        return false;
    }
}

/** What this browser lacks. */
function lacking() {
    const has = {
        "WebAssembly as the page needs it": takesModule(),
        workers: typeof Worker === "function",
        "streams that unpack": typeof DecompressionStream === "function" && typeof CompressionStream === "function",
        "mixed colours": CSS.supports("color", "color-mix(in srgb, red, blue)"),
    };
    return Object.keys(has).filter(name => !has[name]);
}

/** What a script left here. */
const left = {data: () => globalThis.CROBOTS, page: () => globalThis.CROBOTS_PAGE};
/** The text of what a script left here, with the ends of lines as they were built. */
const textOf = {data: data => JSON.stringify(data), page: page => String(page).replaceAll("\r\n", "\n")};

/** Waits until something happens to one of these. */
const happened = (kinds, ...targets) => new Promise(done => targets.forEach(it => kinds.forEach(kind => it.addEventListener(kind, done))));

/** Waits until a script has run, or can't: each runs as soon as it is there. That one was refused before is known once all are. */
async function scriptOf(name) {
    if (!left[name]() && document.readyState !== "complete") {
        await happened(["load", "error"], window, document.querySelector(`script[src="${name}.js"]`));
    }
    return left[name]();
}

/** Waits until all of the page's text is there. */
async function parsed() {
    if (document.readyState === "loading") {
        await happened(["DOMContentLoaded"], document);
    }
}

/** Waits for a file; throws if it isn't what was built. */
async function checkFile(name) {
    const found = await scriptOf(name);
    if (!found) {
        throw new Error(`The page is not whole: its file ${name}.js is missing, cut off or damaged. ${AGAIN}`);
    }
    if (await hashOf(new TextEncoder().encode(textOf[name](found))) !== HASHES[name]) {
        throw new Error(`The page is damaged: its file ${name}.js isn't the one that was built. ${AGAIN}`);
    }
}

/**
 * Starts the engine in its worker, which unpacks and compiles the module while the page is made. One that fails now is started by the page
 * once more.
 */
function startEngine() {
    const address = URL.createObjectURL(new Blob([globalThis.CROBOTS.worker], {type: "text/javascript"}));
    const worker = typeof Worker === "function" ? new Worker(address) : null;
    const engine = globalThis.CROBOTS_ENGINE = {address, worker};
    if (worker) {
        worker.onerror = () => { engine.worker = null; };
        worker.postMessage({module: globalThis.CROBOTS.module});
    }
}

async function start() {
    // the field alone keeps nothing
    const isAlone = document.documentElement.classList.contains("alone");
    if (!isAlone) {
        globalThis.CROBOTS_DATABASE = openedDatabase();
    }
    await checkFile("data");
    startEngine();
    const lacks = lacking();
    await Promise.all([parsed(), checkFile("page")]);
    if (lacks.length) {
        const [needs] = document.getElementById("lacking").textContent.split(" If your browser");
        lack(`${needs} This browser lacks ${lacks.join(", ")}.`);
        return;
    }
    // the page needs it too
    globalThis.CROBOTS_HASH = hashOf;
    document.getElementById("lacking").hidden = true;
    const {embed, make} = globalThis.CROBOTS_PAGE();
    await (isAlone ? embed : make)();
}

start().catch(async fault => {
    globalThis.CROBOTS_ENGINE?.worker?.terminate();
    await parsed();
    lack(fault.message);
});
