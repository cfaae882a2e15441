"""Tests of the modules that read films, by Node: what is read of films made by hand, moments of them, and what happened in words.

All expected values are worked out by hand."""

from __future__ import annotations

import json
import os
import shutil
import subprocess
import tempfile
from typing import Any

import packages
from harness import PATIENCE
from replays.films import Film
from tools.faults import Fault

from .made import BEGIN, END, FILM, INSIDE, tabbed

HERE = os.path.dirname(os.path.abspath(__file__))
PLAYER = os.path.join(HERE, "..", "..", "web", "player")
READ = {
    "first": 0, "cycles": 300, "goesOn": False,
    "robots": [
        {"name": "a.r", "death": None, "restarts": [],
         "path": {"cycle": [0, 45, 180], "x": [1000, 1000, 1000], "y": [5000, 5000, 5000], "heading": [0, 0, 0], "speed": [0, 0, 0]},
         "damage": {"cycle": [0, 180], "percent": [0, 2]},
         "scans": {"cycle": [6], "degree": [0], "resolution": [10], "reply": [500]}},
        {"name": "<b>.r", "death": None, "restarts": [160],
         "path": {"cycle": [0, 45, 150, 165, 180], "x": [6000, 6000, 6350, 6400, 6400], "y": [5000] * 5,
                  "heading": [0, 0, 0, 90, 90], "speed": [0, 50, 50, 0, 0]},
         "damage": {"cycle": [0, 150, 165, 180], "percent": [0, 5, 7, 9]},
         "scans": {"cycle": [], "degree": [], "resolution": [], "reply": []}},
    ],
    "shots": {"cycle": [9], "robot": [1], "x": [1000], "y": [5000], "burst": [150], "toX": [6000], "toY": [5000], "harm": [5]},
    "hurts": {"cycle": [150, 165, 180, 180], "robot": [2, 2, 1, 2], "kind": [0, 2, 1, 1], "damage": [5, 2, 2, 2], "by": [1, 0, 2, 1]},
    "restarts": {"cycle": [160], "robot": [2], "why": [0]},
    "whys": [["words", "refused", 3]],
}
HEAD = "cycle robot kind a b c d e\n"
# Windows from cycle 210 to 225: robot 1 fired in the cycles 4 and 9, as far as a missile flies, and robot 2 is dead.
WINDOWS = HEAD + """\
210 1 stands 1000 1000 0 0 0
210 2 stands 9000 9000 0 0 100
9 1 flies 90 700 1000 1000
4 1 flies 0 700 1000 1000
210 1 burst 1000 8000
210 1 burst 8000 1000
225 1 stands 1000 1000 0 0 0
225 1 at 1000 1000 0 0 0
225 2 stands 9000 9000 0 0 100
"""


def lacking() -> str:
    """What is lacking for these tests."""
    return packages.lacking(["node"])


class Films:
    """Each method whose name does not begin with _ is a test: it answers what is wrong."""

    def __init__(self) -> None:
        """Node takes the modules if a file beside them says what they are."""
        self._place = tempfile.TemporaryDirectory()
        shutil.copytree(PLAYER, self._place.name, dirs_exist_ok=True)
        with open(os.path.join(self._place.name, "package.json"), "w", encoding="ascii") as file:
            file.write('{"type": "module"}')

    def _answers(self, *jobs: dict[str, Any]) -> list[Any]:
        """What the modules make of films that are written with blanks."""
        words = [shutil.which("node") or "node", os.path.join(HERE, "films.mjs"), self._place.name]
        tabs = json.dumps([job | {"text": tabbed(job["text"])} for job in jobs])
        ran = subprocess.run(words, input=tabs, capture_output=True, text=True, check=True, timeout=PATIENCE)
        return list(json.loads(ran.stdout))

    def _answer(self, film: str, **more: Any) -> Any:
        return self._answers({"text": film, **more})[0]

    def _film(self, film: str, **more: Any) -> Any:
        return self._answer(film, **more)["film"]

    def all_that_a_film_tells(self) -> list[str]:
        got = self._film(FILM)
        wrong = [f"{key}: {got.get(key)}, not {value}" for key, value in READ.items() if got.get(key) != value]
        return wrong + ([] if set(got) == set(READ) else [f"{set(got)}"])

    def robots_from_inside(self) -> list[str]:
        """Their sources, lines and questions; without the sources a film has nothing of it."""
        sources = "0 1 source main() {\n0 2 source x;\n0 2 source \n"
        got = self._film(INSIDE.replace("0 1 at", f"{sources.replace('main() {', 'main(){')}0 1 at", 1))["robots"]
        wanted = [{"source": ["main(){"], "lines": {"cycle": [0, 15], "line": [2, 6], "name": ["main", "look"]},
                   "asked": {"cycle": [15], "call": ["scan(0, 10)"], "reply": [500], "when": [6]}},
                  {"source": ["x;", ""], "lines": {"cycle": [0, 45], "line": [1, 2], "name": ["main", "main"]},
                   "asked": {"cycle": [45], "call": ["sqrt(2500)"], "reply": [50], "when": [31]}}]
        wrong = [f"{one}, not {other}" for one, other in zip(got, wanted) if any(one.get(key) != value for key, value in other.items())]
        return wrong + ([] if self._film(INSIDE) == READ else ["a film without sources has something of them"])

    def what_a_page_carries(self) -> list[str]:
        """It is unpacked to the film, but for refused shots, with its names as they are and all that goes down and up."""
        text = tabbed(FILM.replace("a.r", "é😀.r").replace("45 1 at 1000 5000 0 0 0", "45 1 at 10 0 359 100 0"))
        film = Film()
        film.read(text.splitlines(keepends=True))
        got = self._answers({"packed": film.packed(), "text": ""})[0]["text"]
        return [] if got == text.replace(tabbed("10 1 refused 0 500\n"), "") else [got]

    def names_in_their_order(self) -> list[str]:
        """The name of each robot comes once, that of the first one first: else a line can't be read, and the line is told."""
        wrong = []
        for numbers, line in (("12", 0), ("21", 2), ("11", 3), ("13", 3), ("122", 4), ("1231", 5)):
            text = HEAD + "".join(f"0 {number} name {number}.r\n" for number in numbers)
            text += "".join(f"0 {number} at 1 2 0 0 0\n9 {number} end 0\n" for number in sorted({*numbers}))
            try:
                Film().read(tabbed(text).splitlines(keepends=True))
                found = ""
            except Fault as why:
                found = str(why)
            wanted = f"line {line} of the film can't be read" if line else ""
            wrong += [] if found.startswith(wanted) and bool(found) == bool(wanted) else [f"{numbers}: {found!r}"]
        return wrong

    def bursts_belong_to_their_shots(self) -> list[str]:
        """Of two missiles in the air the later one bursts first; the third is in the air at the end: 14 updates and 700 metres."""
        film = BEGIN + ("1 1 shot 0 400 5000 5000\n2 1 shot 90 100 5000 5000\n30 1 burst 5000 6000\n120 1 burst 9000 5000\n"
                        "890 1 shot 180 5000 5000 5000\n") + END
        shots = self._film(film)["shots"]
        wanted = {"cycle": [1, 2, 890], "burst": [120, 30, 15 * (59 + 14)], "toX": [9000, 5000, 0], "toY": [5000, 6000, 5000]}
        return [f"{key}: {shots[key]}, not {value}" for key, value in wanted.items() if shots[key] != value]

    def each_robot_has_its_own_missiles(self) -> list[str]:
        """Both fire at once, and almost to the same place: each burst is that of its robot's missile."""
        film = HEAD + ("0 1 name a.r\n0 2 name b.r\n0 1 at 1000 1000 0 0 0\n0 2 at 3000 1000 0 0 0\n5 1 shot 0 100 1000 1000\n"
                       "5 2 shot 180 100 3000 1000\n30 2 burst 2001 1000\n30 1 burst 2000 1000\n900 1 end 0\n900 2 end 0\n")
        shots = self._film(film)["shots"]
        seen = [shots[name] for name in ("robot", "burst", "toX")]
        return [] if seen == [[1, 2], [30, 30], [2000, 2001]] else [f"{shots}"]

    def a_burst_without_a_missile_is_shown_alone(self) -> list[str]:
        shots = self._film(BEGIN + "15 1 burst 100 200\n" + END)["shots"]
        seen = [shots[name] for name in ("cycle", "robot", "x", "y", "burst", "toX", "toY")]
        return [] if seen == [[15], [1], [100], [200], [15], [100], [200]] else [f"{shots}"]

    def a_film_of_a_span(self) -> list[str]:
        """From cycle 600 to 700: a burst of a missile that was fired before it is shown alone; robot 2 was dead before."""
        film = HEAD + ("0 1 name a.r\n0 2 name b.r\n600 2 burst 3000 3000\n600 1 at 5000 5000 0 0 20\n600 2 at 9000 9000 0 0 100\n"
                       "601 1 shot 0 100 5000 5000\n615 1 burst 7000 5000\n630 1 burst 6000 5000\n700 1 stop 20\n700 2 stop 100\n")
        match = self._film(film)
        shots = match["shots"]
        seen = (match["first"], match["cycles"], match["goesOn"], [robot["death"] for robot in match["robots"]],
                [shots[name] for name in ("cycle", "robot", "burst", "x", "toX")])
        wanted = (600, 700, True, [None, 600], [[600, 601, 615], [2, 1, 1], [600, 630, 615], [3000, 5000, 7000], [3000, 6000, 7000]])
        return [] if seen == wanted else [f"{seen}, not {wanted}"]

    def a_film_of_windows(self) -> list[str]:
        """Names are given; missiles that fly at the beginning are those that burst, in their order; where a robot stands is written once."""
        answer = self._answer(WINDOWS, names=["a.r", "b.r"], moments=[[205, 60], [210, 60]])
        match = answer["film"]
        shots = match["shots"]
        seen = ([robot["name"] for robot in match["robots"]], match["first"], match["cycles"], match["goesOn"],
                match["robots"][0]["path"]["cycle"], match["robots"][1]["death"], [shots[name] for name in ("cycle", "burst", "toX", "toY")])
        wanted = (["a.r", "b.r"], 210, 225, True, [210, 225], 210, [[4, 9], [210, 210], [8000, 1000], [1000, 8000]])
        flies = [(len(it["missiles"]), len(it["bursts"])) for it in answer["moments"]]
        right = seen == wanted and flies == [(2, 0), (0, 2)] and answer["isFilm"] and answer["last"] == 225
        return [] if right else [f"{seen} {flies}, not {wanted}"]

    def names_that_are_given(self) -> list[str]:
        """They stand for those of the film."""
        names = [[robot["name"] for robot in self._film(FILM, names=given)["robots"]] for given in (["x", "y"], [])]
        return [] if names == [["x", "y"], ["a.r", "<b>.r"]] else [f"{names}"]

    def windows_after_the_end(self) -> list[str]:
        """They have ends and no places; a film that begins with the match has places."""
        films = {HEAD + "300 1 end 0\n300 2 end 9\n": False, HEAD + "0 1 at 1 2 0 0 0\n": True, HEAD + "15 1 stands 1 2 0 0 0\n": True}
        answers = self._answers(*({"text": film, "names": ["a.r", "b.r"]} for film in films))
        return [film for (film, wanted), answer in zip(films.items(), answers) if answer["isFilm"] is not wanted]

    def the_cycle_of_an_update_belongs_to_it(self) -> list[str]:
        """A shot in cycle 15 is fired before the first update, one in cycle 16 after it; at range 0 each bursts in the next."""
        bursts = self._film(BEGIN + "15 1 shot 0 0 5000 5000\n16 1 shot 0 0 5000 5000\n" + END)["shots"]["burst"]
        return [] if bursts == [15, 30] else [f"{bursts}"]

    def a_shot_whose_burst_the_film_lacks(self) -> list[str]:
        """It bursts in the first update in which its missile has gone as far as it is to go, by 50 metres an update: ranges beside each
        multiple of that, fired in the cycles round an update."""
        shots = [(cycle, metres) for cycle in (1, 14, 15, 16) for metres in sorted({*range(0, 700, 50), *range(1, 701, 50), *range(49, 700, 50), 700})]
        film = BEGIN + "".join(f"{cycle} 1 shot 0 {metres} 0 5000\n" for cycle, metres in shots) + END
        found = self._film(film)["shots"]["burst"]
        wanted = []
        for cycle, metres in shots:
            update, gone = next(it for it in range(15, 900, 15) if it >= cycle), 50
            while gone < metres:
                update, gone = update + 15, gone + 50
            wanted.append(update)
        return [f"{shot}: {got}, not {right}" for shot, got, right in zip(shots, found, wanted) if got != right][:5]

    def values_outside_their_limits(self) -> list[str]:
        """The field takes angles round the circle, resolutions from 0 to 10, and ranges from 0 to 700 metres."""
        film = BEGIN + "1 1 scan -90 99 0\n2 1 scan 725 -1 0\n3 1 shot -270 -5 5000 5000\n4 1 shot 450 2147483647 5000 5000\n" + END
        match = self._film(film)
        scans, shots = match["robots"][0]["scans"], match["shots"]
        right = (scans["degree"], scans["resolution"]) == ([270, 5], [10, 0]) and (shots["burst"], shots["toY"]) == ([15, 210], [5000, 9999])
        return [] if right else [f"{scans} {shots}"]

    def a_shot_without_harm(self) -> list[str]:
        """Only what a burst takes from robots is its harm: of one that hurts two robots, both."""
        film = HEAD + ("0 1 name a.r\n0 2 name b.r\n0 1 at 1000 1000 0 0 0\n0 2 at 1100 1000 0 0 0\n1 1 shot 0 10 1000 1000\n2 2 shot 0 500 1100 1000\n"
                       "15 1 burst 1100 1000\n15 1 hurt 5 1 1100 1000\n15 2 hurt 10 1 1100 1000\n150 2 burst 6100 1000\n900 1 end 5\n900 2 end 10\n")
        return [] if (harm := self._film(film)["shots"]["harm"]) == [15, 0] else [f"{harm}"]

    def restarts_share_their_causes(self) -> list[str]:
        film = BEGIN + "3 1 restart frames f 7\n5 1 restart returned main 0\n9 1 restart frames f 7\n" + END
        match = self._film(film)
        wanted = ({"cycle": [3, 5, 9], "robot": [1, 1, 1], "why": [0, 1, 0]}, [["frames", "f", 7], ["returned", "main", 0]])
        return [] if (match["restarts"], match["whys"]) == wanted else [f"{match}"]

    def deaths(self) -> list[str]:
        match = self._film(BEGIN + "45 1 death\n45 1 at 5000 5000 0 0 100\n" + END.replace("end 0", "end 100"))
        return [] if match["robots"][0]["death"] == 45 else [f"{match['robots'][0]}"]

    def kinds_that_are_not_known(self) -> list[str]:
        """They are left out, also if they are called as something else is."""
        kinds = ("jump", "constructor", "take", "__proto__")
        plain, *others = self._answers({"text": BEGIN + END}, *({"text": BEGIN + f"15 1 {kind} 3\n" + END} for kind in kinds))
        return [kind for kind, answer in zip(kinds, others) if answer != plain]

    def texts_that_are_no_films(self) -> list[str]:
        answers = self._answers(*({"text": text} for text in ("", "cycle robot\n", "<html>")))
        return [] if answers == [{"fault": "this is no film"}] * 3 else [f"{answers}"]

    def moments(self) -> list[str]:
        """In cycle 79.5 the missile is half way; in 97.5 robot 2 is half way of 350 tenths from cycle 45 to 150."""
        cycles = (79.5, 97.5, 9, 165, 160, 181)
        half, drives, scans, burst, restart, hurt = self._answer(FILM, moments=[[cycle, 60] for cycle in cycles])["moments"]
        seen = [[[one["robot"], one["x"], one["y"]] for one in half["missiles"]],
                [drives["robots"][1][key] for key in ("x", "y", "heading", "speed", "damage")], scans["robots"][0]["scan"],
                [[one["harm"], one["x"], one["age"]] for one in burst["bursts"]],
                [restart["robots"][1]["restart"], restart["robots"][1]["restarts"], restart["robots"][0]["restart"]],
                [robot["harm"] and robot["harm"]["damage"] for robot in hurt["robots"]]]
        wanted = [[[1, 3500, 5000]], [6175, 5000, 0, 50, 0], {"degree": 0, "resolution": 10, "reply": 500, "age": 0.05}, [[5, 6000, 0.25]],
                  [0, 1, None], [2, 9]]
        return [f"cycle {cycle}: {one}, not {other}" for cycle, one, other in zip(cycles, seen, wanted) if one != other]

    def steps_to_hits_and_restarts(self) -> list[str]:
        """Hits are in cycles 150, 165 and 180, the only one of robot 1 in 180; robot 2 restarts in 160."""
        steps = {("hitAfter", 0): 150, ("hitAfter", 150): 165, ("hitAfter", 150, 1): 180, ("hitAfter", 180): None, ("hitBefore", 180): 165,
                 ("hitBefore", 150): None, ("hitBefore", 300, 1): 180, ("restartAfter", 0): 160, ("restartAfter", 0, 1): None,
                 ("restartAfter", 160, 2): None, ("damageOf", 2, 164): 5, ("damageOf", 2, 165): 7}
        got = self._answer(FILM, steps=[list(step) for step in steps])["steps"]
        return [f"{step}: {one}, not {wanted}" for (step, wanted), one in zip(steps.items(), got) if one != wanted]

    def what_happened_in_words(self) -> list[str]:
        """A film that ends before its match says so of the robots that are alive."""
        words = {"loses 5% to robot 1", "restarts: its stack is full, in refused, line 3", "loses 2% at a wall", "loses 2% as it meets robot 1",
                 "loses 2% as it meets robot 2", "is alive at the end, with damage 2%", "is alive at the end, with damage 9%"}
        events, cut = (answer["events"] for answer in self._answers({"text": FILM}, {"text": FILM.replace(" end ", " stop ")}))
        wrong = [] if {it["text"] for it in events} == words and [it["cycle"] for it in events] == [150, 160, 165, 180, 180, 300, 300] else [f"{events}"]
        return wrong + ([] if [it["text"] for it in cut[-2:]] == [f"is alive then, with damage {it}%" for it in (2, 9)] else [f"{cut}"])
