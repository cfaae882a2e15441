// Saves the film that is shown as one file: an SVG that moves, or a video where the browser records one.
import {byId} from "./dom.js";
import {saveBlob} from "./files.js";

const WIDE_NAME = /[^\w.-]+/g;

export class Filming {
    /** `screen` shows the film, `say` says how it goes. */
    constructor(screen, say) {
        this.screen = screen;
        this.say = say;
        this.isRecording = false;
        byId("film-svg").addEventListener("click", () => this.saveSvg());
        byId("film-webm").addEventListener("click", () => this.isRecording ? this.end() : this.record());
    }

    /** A film is shown: it can be saved. */
    show() {
        byId("saving").hidden = false;
        byId("film-webm").hidden = !this.frame.canRecord();
    }

    get frame() {
        return this.screen.frame.contentWindow;
    }

    /** The name of a file with the film. */
    nameOf(ending) {
        return `${this.screen.inside.title.replace(WIDE_NAME, "-").toLowerCase()}.${ending}`;
    }

    saveSvg() {
        saveBlob(this.nameOf("svg"), new Blob([this.frame.filmedSvg()], {type: "image/svg+xml"}));
        this.say("The film is saved as an SVG.");
    }

    /** Records a video, which takes as long as it plays. */
    async record() {
        const [name, button] = [this.nameOf("webm"), byId("film-webm")];
        this.isRecording = true;
        button.textContent = "End the recording";
        this.say("The film is being recorded, for 20 seconds at most.");
        try {
            saveBlob(name, await this.frame.filmedWebm(() => !this.isRecording));
            this.say("The film is saved as a WebM video.");
        } catch (fault) {
            this.say(`The film can't be recorded: ${fault.message}`, true);
        }
        this.isRecording = false;
        button.textContent = "As WebM";
    }

    end() {
        this.isRecording = false;
    }
}
