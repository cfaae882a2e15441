// The start of a page that carries the film of the match that it plays.
import {element} from "./elements.js";
import {filmOf} from "./films.js";
import {Match} from "./matches.js";
import {summed, unpacked} from "./packing.js";
import {Player} from "./player.js";
import {Sources} from "./sources.js";

/** Shows the film that the page carries, and robots from inside if it has these; also what its marks and keys are. */
async function show() {
    element("more").open = true;
    const bytes = await unpacked(element("film").textContent);
    const match = new Match(filmOf(summed(new TextDecoder().decode(bytes))));
    const sources = match.robots.some(({source}) => source) ? new Sources(document.querySelector("main"), match) : null;
    globalThis.player = new Player(match, {sources});
}

show().catch(fault => { element("lacking").textContent = `This browser can't show the match: ${fault.message}`; });
