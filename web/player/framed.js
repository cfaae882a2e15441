// The start of the page in a frame of another page, which hands in the film of the match that it plays.
import {element} from "./elements.js";
import {Match} from "./matches.js";
import {Player} from "./player.js";
import {canRecord, svgOf, webmOf} from "./reels.js";

// nothing is laid out before there is a film
document.body.hidden = true;

/** Shows a film, as `filmOf` reads it, with this heading; the options are those of the player. */
globalThis.showFilm = (film, heading, options) => {
    document.body.hidden = false;
    document.title = element("heading").textContent = heading;
    globalThis.player = new Player(new Match(film), {...options, isFramed: true});
};

/** What is filmed: the match from the cycle that is shown on, or from its start if that is the last one, as fast as it plays. */
function reelOf({match, cycle, pace, field}) {
    return {from: cycle < match.cycles ? cycle : match.first, speed: pace, colours: field.colours};
}

globalThis.canRecord = canRecord;
/** Returns the film as an SVG. */
globalThis.filmedSvg = () => svgOf(player.match, document.title, reelOf(player));
/** Records the film as a video, until it is over. */
globalThis.filmedWebm = isOver => webmOf(player.match, reelOf(player), isOver);
