// Shows a film by the page that plays matches, in a frame.

// how high the film is at least, however low the window; what part of it a film has beside a robot from inside, and at least
const LEAST_HEIGHT = 200;
const BESIDE = 0.45;
const LEAST_PART = 0.5;
const BELOW = 12;
// below a field that is alone there is a line of text
const BELOW_ALONE = 44;
// with less height the controls stand beside the field, if there is so much width
const LOW = 380;
const LEAST_WIDTH_OF_LOW = 520;
const REFUSED = "The film's page doesn't run in this browser.";

/** Returns the names of robots as in a sentence. */
function listed(names) {
    return [names.slice(0, -1).join(", "), names.at(-1)].filter(it => it).join(" and ");
}

/** Waits so long. */
export const later = milliseconds => new Promise(done => setTimeout(done, milliseconds));

/** Waits until the browser draws a picture of this number from now on. */
export async function pictures(count) {
    for (let left = count; left > 0; left -= 1) {
        await new Promise(requestAnimationFrame);
    }
}

/** The frame in which a film is shown, as high as what it shows; that fits into the window, beside what stands above it. */
export class Screen {
    /**
     * The first film's frame takes the place of an element, since frames that show nothing yet take time as the page begins. `places` says
     * whether the window is wide. The field is alone if nothing else of the match is to be shown.
     */
    constructor(frame, places, isAlone = false) {
        this.frame = frame;
        this.places = places;
        this.isAlone = isAlone;
        this.isBeside = false;
        /**
         * Is called when a film is shown.
         * @type {(() => void) | null}
         */
        this.onShow = null;
        // whether the page that plays is there, and waits for a film
        this.isPrepared = false;
        window.addEventListener("resize", () => this.fit());
    }

    get inside() {
        return this.frame.contentDocument;
    }

    /** What plays the film that is shown, if one is. */
    get player() {
        return this.frame.hidden ? undefined : this.frame.contentWindow?.player;
    }

    /** Makes the page that plays, in a frame of its own, for the next film. It is written and not loaded, so that it is there at once. */
    prepare() {
        if (this.isPrepared) {
            return;
        }
        const {id, title, inert} = this.frame;
        const frame = Object.assign(document.createElement("iframe"), {id, title, inert, allow: "fullscreen"});
        this.frame.replaceWith(frame);
        this.frame = frame;
        const {contentDocument} = frame;
        contentDocument.open();
        contentDocument.write(globalThis.CROBOTS.player);
        contentDocument.close();
        this.isPrepared = true;
    }

    /** There is no film for the page that was made. */
    leave() {
        this.isPrepared = false;
        this.frame.hidden = !this.frame.contentWindow?.player;
    }

    /** Shows a film of the match with this number, from a place on. */
    async show(film, number, place) {
        this.prepare();
        this.isPrepared = false;
        const {contentWindow} = this.frame;
        if (!contentWindow.showFilm) {
            throw new Error(REFUSED);
        }
        // its first picture has the size that it keeps
        this.measure();
        contentWindow.showFilm(film, `Match ${number}: ${listed(film.robots.map(({name}) => name))}`, place);
        this.onShow?.();
        this.fit();
        new contentWindow.ResizeObserver(() => this.resize()).observe(this.inside.body);
    }

    /** What the film's height may be: it fits into the window with what stands above it. */
    get room() {
        const {innerHeight, scrollY} = window;
        if (this.isBeside && !this.places.isWide) {
            return Math.max(LEAST_HEIGHT, innerHeight * (matchMedia("(orientation: landscape)").matches ? 1 - LEAST_PART / 4 : BESIDE));
        }
        const above = this.frame.getBoundingClientRect().top + scrollY + (this.isAlone ? BELOW_ALONE : BELOW);
        return Math.max(LEAST_HEIGHT, innerHeight * LEAST_PART, innerHeight - above);
    }

    /** Follows the size of the window. */
    fit() {
        if (this.player) {
            this.measure();
            this.resize();
        }
    }

    /** Hands the window's height in: the frame's own is that of what it shows. */
    measure() {
        if (this.frame.offsetWidth) {
            const {style, classList} = this.inside.documentElement;
            const {room} = this;
            // no scroll bar comes and goes, which would change the width and so the height
            style.overflow = "hidden";
            style.setProperty("--height", `${room}px`);
            classList.toggle("low", room < LOW && this.frame.offsetWidth >= LEAST_WIDTH_OF_LOW);
            classList.toggle("mini", this.isBeside);
            classList.toggle("alone", this.isAlone);
        }
    }

    resize() {
        if (this.player && this.frame.offsetWidth) {
            this.frame.style.height = `${this.inside.documentElement.offsetHeight + 2}px`;
        }
    }

    /** Scrolls to the film, and lets its keys work. */
    focus() {
        this.frame.parentElement.scrollIntoView({block: "start"});
        this.frame.focus();
        this.inside.getElementById("play-pause").focus({preventScroll: true});
    }

    /** A robot from inside stands beside the film, or no more. */
    beside(isBeside) {
        this.isBeside = isBeside;
        this.fit();
    }

    /** Goes to a cycle of the match that is shown. */
    jumpTo(cycle) {
        this.player?.seek(cycle);
    }

    /** From where the match goes on, and whether it plays. */
    get place() {
        const {cycle, isPlaying, chosen} = this.player;
        return {from: cycle, isPlaying, chosen};
    }
}
