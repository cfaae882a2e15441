"""Tests of films in a frame, by Chromium: the parts of the page in the browser that show a match, with an engine that gives films
made by hand."""

from __future__ import annotations

import json
import os
import shutil
from typing import Any

from browsers import Browser
from replays.modules import script_of
from replays.pages import framed_script, put_together, style_of_page

from .made import FILM, tabbed

WEB = os.path.join(os.path.dirname(os.path.abspath(__file__)), "..", "..", "web")
# What a test takes of the page, and what the engine gives: at once some windows, from cycle 150 to 165, and all of the match when the
# test has it `finish`.
SCRIPT = """\
import {filmOf} from "./player/films.js";
import {Screen} from "./replays.js";
import {Watcher, Wish} from "./watching.js";
const names = ["a.r", "<b>.r"];
const films = {film: filmOf(WHOLE), windows: filmOf(PART, names)};
const screen = new Screen(document.getElementById("film"), document.getElementById("controls"));
const said = [];
const told = {film: {ending: 0, film: films.film, faults: ""}, windows: {ending: 6, film: films.windows, faults: ""}};
const call = name => new Promise(done => name === "windows" ? done(told.windows) : globalThis.finish = () => done(told.film));
const watcher = new Watcher({call}, screen, text => said.push(text));

/** Has a match watched from a cycle on, until its windows are shown. */
async function watch(cycle) {
    const count = said.length;
    globalThis.watched = watcher.watch(new Wish({robots: [], settings: {}}, 7, cycle));
    while (said.length === count) {
        await new Promise(done => setTimeout(done, 20));
    }
}

/** Lets the engine end, until the whole match is shown. */
function end() {
    globalThis.finish();
    return globalThis.watched;
}

/** How much higher the frame is than its film, when it has followed it: it does that when the browser has laid the film out, or after ten seconds. */
async function rise() {
    const {defaultView, documentElement} = document.getElementById("film").contentDocument;
    const high = () => defaultView.innerHeight - documentElement.offsetHeight;
    for (let turn = 0; turn < 500 && !(high() >= 0 && high() <= 2); turn++) {
        await new Promise(done => setTimeout(done, 20));
    }
    return high();
}

Object.assign(globalThis, {CROBOTS: {player: PLAYER}, films, screen, said, watch, end, rise});
"""
PART = """\
cycle robot kind a b c d e
150 1 stands 1000 5000 0 0 0
150 2 stands 6350 5000 0 50 5
160 2 restart words refused 3
165 1 stands 1000 5000 0 0 0
165 2 stands 6400 5000 90 0 7
"""
PAGE = '<!DOCTYPE html><meta charset="utf-8"><div id="controls">controls</div><iframe id="film" hidden></iframe><script src="framed.js"></script>'


class Framed:
    """Each method whose name does not begin with _ is a test: it answers what is wrong."""

    browser: Browser

    def __init__(self, folder: str) -> None:
        web = shutil.copytree(WEB, os.path.join(folder, "web"))
        texts = {"WHOLE": tabbed(FILM), "PART": tabbed(PART), "PLAYER": put_together(framed_script(), style_of_page())}
        script = SCRIPT
        for name, text in texts.items():
            script = script.replace(name, json.dumps(text))
        self._write(os.path.join(web, "framed.js"), script)
        self._write(os.path.join(folder, "framed.js"), script_of(os.path.join(web, "framed.js")))
        self._page = os.path.join(folder, "framed.html")
        self._write(self._page, PAGE)

    def _write(self, path: str, text: str) -> None:
        with open(path, "w", encoding="utf-8") as file:
            file.write(text)

    def _value(self, expression: str) -> Any:
        return self.browser.value(expression)

    def _load(self, width: int = 1280) -> None:
        self.browser.look(width, 844)
        self.browser.load(self._page)

    def _inside(self, expression: str) -> Any:
        """What an expression is in the frame, whose document is `it`."""
        return self._value(f"((it) => {expression})(document.getElementById('film').contentDocument)")

    def _clock(self) -> str:
        return str(self._inside("it.getElementById('clock').textContent"))

    def a_film_is_handed_in(self) -> list[str]:
        """It is shown from the cycle that is asked for, with its heading, and as high as it is; the page jumps to other cycles."""
        wrong = []
        for width in (360, 1366):
            self._load(width)
            self._value("screen.show(films.film, 3, {from: 165})")
            heads = self._inside("[it.title, it.querySelector('h1').textContent, String(it.defaultView.player.isPlaying)]")
            seen = [self._clock(), *heads]
            self._value("screen.jumpTo(180)")
            seen.append(self._clock())
            heading = "Match 3: a.r and <b>.r"
            wrong += [] if seen == ["cycle 165 of 300", heading, heading, "false", "cycle 180 of 300"] else [f"{width}: {seen}"]
            high = self._value("rise()")
            wrong += [] if 0 <= high <= 2 else [f"{width}: the frame is {high} points higher than its film"]
        return wrong

    def it_plays_from_a_place(self) -> list[str]:
        self._load()
        self._value("screen.show(films.film, 1, {from: 150, isPlaying: true})")
        self._value("new Promise((done) => setTimeout(done, 400))")
        first, second = (self._value("screen.place") for _ in range(2))
        return [] if first["isPlaying"] and 150 < first["from"] <= second["from"] < 300 else [f"{first} {second}"]

    def a_cycle_beyond_a_film_is_its_end(self) -> list[str]:
        self._load()
        self._value("screen.show(films.windows, 1, {from: 9999})")
        last = self._inside("[...it.querySelectorAll('#events button:not([hidden])')].map((row) => row.innerText.replace(/\\s+/g, ' '))")
        wanted = ["165 2) <b>.r is alive then, with damage 7%", "165 1) a.r is alive then, with damage 0%",
                  "160 2) <b>.r restarts: its stack is full, in refused, line 3"]
        return [] if (self._clock(), last) == ("cycle 165 of 165", wanted) else [f"{self._clock()} {last}"]

    def windows_are_shown_until_the_film_is_there(self) -> list[str]:
        """From the cycle that is asked for; then the whole film goes on where they were, and plays if they did."""
        self._load()
        self._value("watch(152)")
        seen = [self._clock(), self._value("said.at(-1)")]
        self._value("screen.jumpTo(160)")
        self._value("end()")
        seen += [self._clock(), self._value("said.at(-1)"), str(self._value("screen.place.isPlaying"))]
        self._value("watch(152)")
        self._value("screen.player.toggle(), end()")
        seen.append(str(self._value("screen.place.isPlaying && screen.place.from >= 152")))
        wanted = ["cycle 152 of 165", "Match 7 is shown below from cycle 150 to 165. The rest is being played.", "cycle 160 of 300",
                  "Match 7 can be watched below.", "False", "True"]
        return [] if seen == wanted else [f"{seen}"]

    def the_console_stays_empty(self) -> list[str]:
        return self.browser.messages
