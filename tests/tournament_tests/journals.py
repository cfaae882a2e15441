"""Journals: what they find again, and which are refused."""

from __future__ import annotations

import hashlib
import resource
import signal
import time

from .base import COUNTER, TABLE, Base, read, unrated, write
from .merges import summed


class Journals(Base):
    def a_line_that_was_cut(self) -> list[str]:
        words = ("-m10", "-l100", "--piece", "5", "--journal", "cut", "a.r", "b.r", "c.r")
        self._run(*words)
        whole = sorted(self._lines("cut"))
        wrong = []
        for cut in (1, 7, 200, len(self._lines("cut")[-1]) - 1):
            text = read(self._at("cut"))
            write(self._at("cut"), text[:-cut])
            ran = self._run(*words)
            ran.stdout = unrated(ran.stdout)
            wrong += self._answers(ran, TABLE, "tournament: the last line of cut was cut, and is dropped\n")
            wrong += [] if sorted(self._lines("cut")) == whole else [f"{cut}"]
        return wrong

    def a_journal_plays_only_what_is_missing(self) -> list[str]:
        """More matches, one robot more, a robot with other bytes: only the new series are added, two for each pair."""
        for name in ("d.r", "e.r"):
            write(self._at(name), f"/* {name} */ {COUNTER}")
        common = ("-l100", "--csv", "--journal", "more", "a.r", "b.r")
        cases = ((("-m6",), 2), (("-m6",), 2), (("-m10",), 4), (("-m10", "d.r"), 8), (("-m10", "d.r", "e.r"), 14), (("-m4", "d.r", "e.r"), 14))
        wrong = []
        for words, series in cases:
            ran = self._run("-j1", "--piece", "5", *common, *words)
            fresh = self._run("-l100", "--csv", "a.r", "b.r", *words)
            wrong += self._answers(ran, fresh.stdout) + ([] if len(self._lines("more")) == series else [f"{words}: {len(self._lines('more'))}"])
        write(self._at("e.r"), "main(){while(1)cannon(1,0);}")
        ran = self._run("-j1", "--piece", "5", *common, "-m10", "d.r", "e.r")
        fresh = self._run("-l100", "-m10", "--csv", "a.r", "b.r", "d.r", "e.r")
        return wrong + self._answers(ran, fresh.stdout) + ([] if len(self._lines("more")) == 20 else [f"{len(self._lines('more'))}"])

    def a_robot_that_changed_its_name(self) -> list[str]:
        """A match is found by bytes: nothing is played again."""
        write(self._at("named.r"), read(self._at("0/sweeper.r")))
        words = ("-m4", "-l500", "--journal", "renamed", "0/runner.r")
        self._run(*words, "0/sweeper.r")
        before = self._lines("renamed")
        ran = self._run(*words, "named.r")
        return [] if "named.r" in ran.stdout and self._lines("renamed") == before else [f"{ran}"]

    def journals_that_are_refused(self) -> list[str]:
        self._run("-m2", "-l100", "--journal", "kept", "a.r", "b.r")
        kept = read(self._at("kept"))
        first = kept.splitlines()[0].partition(" sum=")[0]
        results = first.partition(" results=")[2]
        self._program_of("another", f'exec {self._program} "$@"')
        one, other = (hashlib.sha256(open(it, "rb").read()).hexdigest()[:16] for it in (self._program, self._at("another")))
        write(self._at("spoiled"), kept.replace(" results=90", " results=x") + kept)
        write(self._at("changed"), kept.replace(" results=90", " results=75") + kept)
        write(self._at("impossible"), summed(first.replace(results, "90:101:0")) + "\n" + kept)
        write(self._at("twice"), kept + summed(first.replace(results, "75:100:0")) + "\n")
        write(self._at("older"), "series m=2 l=100 s=1 p=1 robots=2 sizes=2 sample=0 group=1,2 first=1 count=1 sha256=0,1 files=a,b results=90:0:0\n")
        cases = {
            ("-s2", "-l100", "--journal", "kept"): ("kept is a journal of other settings: seed 1, not 2", 2),
            ("-l99", "--journal", "kept"): ("kept is a journal of other settings: limit 100, not 99", 2),
            ("-p2", "-l100", "--journal", "kept"): ("kept is a journal of other settings: profile 1, not 2", 2),
            ("-l100", "--crobots", "./another", "--journal", "kept"): (f"kept is a journal of other settings: program {one}, not {other}", 2),
            ("-l100", "--journal", "spoiled"): ("line 1 of spoiled is cut short, or is no record of a series", 3),
            ("-l100", "--journal", "changed"): ("line 1 of changed was changed: its checksum is another", 3),
            ("-l100", "--journal", "impossible"): ("line 1 of impossible has a result that can't be: 90:101:0 of match 1", 3),
            ("-l100", "--journal", "twice"): ("twice has two results of one match", 3),
            ("-l100", "--journal", "older"): ("older is a journal of an older format, whose robots had one seating only", 3),
            ("-l100", "--journal", "c.r"): ("c.r is no journal", 3),
            ("-l100", "--journal", "gone/j"): ("cannot write gone/j: No such file or directory", 3),
            ("-l100", "--journal", "/dev/full"): ("/dev/full is no regular file", 3),
        }
        before = {name: read(self._at(name)) for name in ("kept", "c.r", "older", "changed")}
        wrong = []
        for words, (fault, status) in cases.items():
            wrong += self._answers(self._run("-m2", *words, "a.r", "b.r"), "", f"tournament: {fault}\n", status)
        return wrong + [f"{name} was written" for name, text in before.items() if read(self._at(name)) != text]

    def a_journal_of_two_at_once(self) -> list[str]:
        child = self._started("-m400", "--piece", "4", "--journal", "shared", *self._forty)
        while child.poll() is None and not self._lines("shared"):
            time.sleep(0.02)
        second = self._run("-m400", "--journal", "shared", *self._forty)
        child.send_signal(signal.SIGTERM)
        child.communicate()
        return self._answers(second, "", "tournament: shared is the journal of a tournament that is being played\n", 3)

    def a_full_disk(self) -> list[str]:
        """A journal that can't grow: what is in it is whole, and one line says why it ended."""
        limit = lambda: resource.setrlimit(resource.RLIMIT_FSIZE, (9000, 9000))  # noqa: E731
        ran = self._run("-m2", "-l15", "-j1", "--journal", "full", *self._forty, preexec_fn=limit)
        text = read(self._at("full"))
        right = text.endswith("\n") and len(text) <= 9000 and text.count("\n") == len(self._lines("full")) > 5
        return self._answers(ran, "", "tournament: cannot write full: File too large\n", 3) + ([] if right else [f"{len(text)} bytes"])
