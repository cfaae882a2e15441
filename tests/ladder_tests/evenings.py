"""A class hands in over an evening: each pupil does anything that pages offer, in any order, and each answer is what a model says.

By hand LADDER_PUPILS=25 and LADDER_EVENING=240 make it long."""

from __future__ import annotations

import csv
import io
import os
import random
import re
import threading
import time
from dataclasses import dataclass, field
from typing import Callable, Iterator

from .base import BAD, HERE, Base, Ladder

PUPILS = int(os.environ.get("LADDER_PUPILS", "5"))
SECONDS = float(os.environ.get("LADDER_EVENING", "6"))
SEED = int(os.environ.get("LADDER_SEED", "1"))
ROBOTS = 2
SAMPLES = os.path.join(HERE, "..", "..", "robots")
PAGES = ("/", "/table", "/mine", "/robots/%s", "/wall", "/tag")


@dataclass
class Kept:
    """A robot as a model has it: the sources of its versions, and whether it plays."""

    versions: list[str] = field(default_factory=list)
    plays: bool = False

    def take(self, source: str) -> int:
        """Hands a source in; answers the number of its version."""
        if not self.plays or self.versions[-1] != source:
            self.versions.append(source)
            self.plays = True
        return len(self.versions)


class Pupil:
    """A pupil with a browser, who does one thing after the other."""

    def __init__(self, ladder: Ladder, number: int, token: str, everybody: set[str]) -> None:
        self.number, self._ladder, self._everybody = number, ladder, everybody
        self._chance = random.Random(SEED * 1000 + number)
        self._cookie = ladder.joined(token)
        self.robots = {f"pupil{number}-{at}": Kept() for at in range(ROBOTS)}
        self.wrong: list[str] = []
        self.done = 0

    def act(self) -> None:
        """Does one thing, and compares what is answered."""
        acts: list[Callable[[str, Kept], tuple[int, int, str]]] = [self._hand_in, self._hand_in, self._again, self._faulty, self._third, self._theirs,
                                                                   self._back, self._withdraw, self._read, self._read]
        act, (name, kept) = self._chance.choice(acts), self._chance.choice([*self.robots.items()])
        found, wanted, words = act(name, kept)
        self.done += 1
        if found != wanted:
            self.wrong.append(f"{act.__name__} of {name}: {found}, not {wanted}: {words[:300]}")

    def _post(self, path: str, fields: dict[str, str]) -> tuple[int, str]:
        answer = self._ladder.post(path, fields, cookie=self._cookie)
        return answer.status, answer.text

    def _sent(self, name: str, source: str, kept: Kept) -> tuple[int, int, str]:
        """A source that is to be taken, with the version that the answer says."""
        status, text = self._post("/robots", {"robot": name, "source": source})
        version = kept.take(source)
        self._everybody.add(name)
        return (status, 200, text) if f"taken: {name}, version {version}\n" == text else (-1, 200, f"{text}, not version {version}")

    def _hand_in(self, name: str, kept: Kept) -> tuple[int, int, str]:
        """A sample with a number of this pupil's own."""
        sample = self._chance.choice(sorted(it for it in os.listdir(SAMPLES) if it.endswith(".r")))
        with open(os.path.join(SAMPLES, sample), encoding="utf-8") as file:
            return self._sent(name, f"/* {self.number} {self._chance.randrange(4)} */\n{file.read()}", kept)

    def _again(self, name: str, kept: Kept) -> tuple[int, int, str]:
        return self._sent(name, kept.versions[-1], kept) if kept.versions else self._read(name, kept)

    def _faulty(self, name: str, _: Kept) -> tuple[int, int, str]:
        status, text = self._post("/robots", {"robot": name, "source": BAD})
        return status, 422, text

    def _third(self, name: str, kept: Kept) -> tuple[int, int, str]:
        if not all(it.versions for it in self.robots.values()):
            return self._read(name, kept)
        status, text = self._post("/robots", {"robot": f"{name}-more", "source": "main(){}"})
        return status, 429, text

    def _theirs(self, name: str, kept: Kept) -> tuple[int, int, str]:
        others = sorted({*self._everybody} - {*self.robots})
        if not others:
            return self._read(name, kept)
        what = self._chance.choice(["", "/back", "/withdraw"])
        other = self._chance.choice(others)
        status, text = self._post(f"/robots/{other}{what}", {"version": "1"}) if what else self._post("/robots", {"robot": other, "source": "main(){}"})
        return status, 403, text

    def _back(self, name: str, kept: Kept) -> tuple[int, int, str]:
        if not kept.versions:
            return self._read(name, kept)
        at = self._chance.randrange(len(kept.versions))
        status, text = self._post(f"/robots/{name}/back", {"version": str(at + 1)})
        version = kept.take(kept.versions[at])
        return (status, 200, text) if text == f"taken: {name}, version {version}\n" else (-1, 200, f"{text}, not version {version}")

    def _withdraw(self, name: str, kept: Kept) -> tuple[int, int, str]:
        status, text = self._post(f"/robots/{name}/withdraw", {})
        wanted = 200 if kept.plays else 422 if kept.versions else 404
        kept.plays = False
        return status, wanted, text

    def _read(self, name: str, kept: Kept) -> tuple[int, int, str]:
        path = self._chance.choice([*PAGES, *(["/robots/%s/versions/1"] if kept.versions else [])])
        path = path.replace("%s", name)
        answer = self._ladder.ask("GET", path, cookie=self._cookie)
        wanted = 404 if path.startswith("/robots/") and not kept.versions else 200
        same = not path.endswith("/versions/1") or answer.text == kept.versions[0]
        return (answer.status if same else -1), wanted, answer.text


class Evenings(Base):
    """Tests of an evening, with the player beside the server."""

    _RULES = ("-l20000", "-m", "20")

    def a_class_hands_in_over_an_evening(self) -> Iterator[str]:
        ladder = self._made("class")
        ladder.run("terms", "--robots", str(ROBOTS), "--versions", "10000")
        for name in ("runner", "leader"):
            with open(os.path.join(SAMPLES, f"{name}.r"), encoding="utf-8") as file:
                ladder.add(name, file.read())
        tokens = re.findall(r"/join#([\w-]{22})$", ladder.run("invite", "--count", str(PUPILS), "--group", "7b"), re.MULTILINE)
        ladder.serve()
        everybody: set[str] = set()
        pupils = [Pupil(ladder, at, token, everybody) for at, token in enumerate(tokens, 1)]
        evening(pupils)
        yield from (why for it in pupils for why in it.wrong[:3])
        yield from self._after(ladder, pupils)
        if PUPILS >= 25:
            print(f"an evening: {PUPILS} pupils did {sum(it.done for it in pupils)} things, and handed in {sum(len(kept.versions) for it in pupils for kept in it.robots.values())} "
                  f"versions in {SECONDS:.0f} s", flush=True)

    def _after(self, ladder: Ladder, pupils: list[Pupil]) -> Iterator[str]:
        """The checklist after the final has what the model has, and the archive is right."""
        found = {row["robot"]: row for row in csv.DictReader(io.StringIO(ladder.run("final", "--csv", "--quiet", "--unfinished"))) if row["robot"]}
        wanted = {name: kept for it in pupils for name, kept in it.robots.items() if kept.versions}
        if found.keys() != wanted.keys():
            yield f"robots {sorted(found.keys() ^ wanted.keys())}"
            return
        for name, kept in wanted.items():
            row = found[name]
            if (row["versions"], row["group"], row["rank"] == "left") != (str(len(kept.versions)), "7b", not kept.plays):
                yield f"{name}: {row}, not {len(kept.versions)} versions, plays: {kept.plays}"
        ranks = [int(row["rank"]) for row in found.values() if row["rank"] != "left"]
        if len(ranks) != sum(kept.plays for kept in wanted.values()) or any(not 1 <= it <= len(ranks) + 2 for it in ranks):
            yield f"ranks {sorted(ranks)}"
        ladder.run("terms", "--readers", "all")
        ladder.run("publish", self._at("site"), "--replays=0", "--sums=0")
        archive = next(os.path.join(folder, name) for folder, _, names in os.walk(self._at("site")) for name in names if name.endswith(".zip"))
        if "no differences" not in (said := Ladder(archive, self._environment).verified()):
            yield said


def evening(pupils: list[Pupil]) -> None:
    """All do one thing after the other, each at a pace of its own, until it is late."""
    end = time.monotonic() + SECONDS
    pause = random.Random(SEED)

    def goes_on(it: Pupil, wait: float) -> None:
        while time.monotonic() < end:
            it.act()
            time.sleep(wait)

    them = [threading.Thread(target=goes_on, args=(it, pause.uniform(0, SECONDS / 30))) for it in pupils]
    for thread in them:
        thread.start()
    for thread in them:
        thread.join()
