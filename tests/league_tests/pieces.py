"""Ladders, divisions and gaps, by hand; and copies, of drawn histories."""

from __future__ import annotations

import os
import random
import stat
from collections import Counter
from decimal import Decimal
from unittest.mock import patch

from leagues import archives, entries, ladders, likeness, missing, past, seasons
from leagues.entries import ADD, CHANGE, WITHDRAW, Entry
from leagues.main import command
from leagues.store import made
from leagues.words import Words
from results.scores import Score
from results.standings import NOTHING, Standing, marked, ranked
from results.tallies import Tally, group_of
from tournaments.records import Series

from .base import Base

# Robots and sources of drawn histories.
ROBOTS, SOURCES = ("a", "b", "c", "d"), (b"main(){}", b"main(){1;}", b"main(){2;}")


class Pieces(Base):
    """What is worked out without a league."""

    def commands_are_found(self) -> list[str]:
        """Each command that the words have is a function of its own name, and no other word is one."""
        names = [*Words("league").names]
        wrong = [name for name in names if command(name).__name__ != name.replace("-", "_")]
        try:
            wrong.append(f"{command('tables')}")
        except LookupError:
            pass
        return wrong + ([] if len(names) == 21 else [f"{names}"])

    def scores_by_hand(self) -> list[str]:
        """0 and 1 meet in a match of two and in one of three: in that of three a robot that lived has beaten each that died, and two that
        lived have tied, and so have none that died."""
        tally = Tally()
        tally.add((0, 1), ["wl", "ll", "tt"])
        tally.add((2, 1, 0), ["tlt", "wll", "lll"])
        both = {(0, 1): Score(2, 1, 3, 3), (0, 2): Score(0, 1, 2, 1), (1, 2): Score(0, 0, 3, 1)}
        wrong = [f"{pair}: {tally.pairs().get(pair)}" for pair in both if tally.pairs().get(pair) != both[pair]]
        turned = {(1, 0): Score(0, 1, 5, 3), (2, 0): Score(1, 1, 1, 1), (2, 1): Score(2, 0, 1, 1)}
        wrong += [] if tally.faced() == both | turned else [f"{tally.faced()}"]
        # 0 wins one of two's matches, loses one and ties one; of the three's it ties one and loses two
        sizes = {2: {0: Score(1, 1, 1), 1: Score(0, 1, 2)}, 3: {0: Score(0, 1, 2), 1: Score(0, 0, 3), 2: Score(1, 1, 1)}}
        wrong += [] if tally.scores(len) == sizes else [f"{tally.scores(len)}"]
        wrong += [] if tally.scores(group_of) == {(0, 1): sizes[2], (0, 1, 2): sizes[3]} else [f"{tally.scores(group_of)}"]
        share = both[0, 1].share
        return wrong + ([] if share == 4 / 6 and Score().share == 0.5 else [f"{share}"])

    def ranks_by_hand(self) -> list[str]:
        """Equal points have an equal rank, each division has its own, and one that has a rank keeps it. Who is close is asked of neighbours
        of a division that both have played, by their places."""
        rows = [Standing(name, rank, Score(played), Decimal(points), NOTHING, division=division, place=at)
                for at, (name, division, points, rank, played) in enumerate((
                    ("a", 1, 3, 0, 1), ("b", 1, 3, 0, 1), ("c", 1, 2, 0, 0), ("d", 1, 1, 9, 1), ("e", 2, 1, 0, 1), ("f", 2, 0, 0, 1)))]
        asked: list[tuple[int, int, float]] = []

        def are_close(one: int, other: int, apart: float) -> bool:
            asked.append((one, other, apart))
            return one == 0

        found = [*marked([*ranked(rows)], are_close)]
        told = [(row.robot, row.rank, row.close) for row in found]
        right = [("a", 1, False), ("b", 1, True), ("c", 3, False), ("d", 9, False), ("e", 1, False), ("f", 2, False)]
        return [] if told == right and asked == [(0, 1, 0.0), (4, 5, 1.0)] else [f"{told} {asked}"]

    def ladder_by_hand(self) -> list[str]:
        # robot 0 beats 1, 1 beats 2, 2 beats 0; 3 beats all
        beats = {(0, 1), (1, 2), (2, 0), (3, 0), (3, 1), (3, 2)}

        def won(one: int, other: int) -> bool | None:
            return None if (one, other) in hidden else (one, other) in beats

        hidden: set[tuple[int, int]] = set()
        wrong = []
        # 0; 1 loses to 0; 2 loses to 1; 3 passes all
        for entering, rungs in (
            ((0, 1, 2), (0, 1, 2)),
            ((0, 1, 2, 3), (3, 0, 1, 2)),
            ((2, 1, 0), (1, 2, 0)),
            ((0, 2, 1), (2, 0, 1)),
            ((), ()),
        ):
            if (it := ladders.climbed(entering, won)) != ladders.Ladder(rungs):
                wrong.append(f"{entering} climb to {it}")
        hidden.add((3, 1))
        if (it := ladders.climbed((0, 1, 2, 3), won)) != ladders.Ladder((0, 1, 2), (3,), (3, 1)):
            wrong.append(f"3 is at {it}")
        return wrong

    def divisions_by_hand(self) -> list[str]:
        wrong = []
        for table, divisions, parts in (
            ("abcdefg", 3, ["abc", "de", "fg"]),
            ("ab", 1, ["ab"]),
            ("abcd", 2, ["ab", "cd"]),
        ):
            if (it := ["".join(part) for part in seasons.split(table, divisions)]) != parts:
                wrong.append(f"{table} is split into {it}")
        for before, moves, after in (
            (["abcd", "efgh", "ijkl"], 1, ["abce", "dfgi", "hjkl"]),
            (["abcd", "efgh"], 2, ["abef", "cdgh"]),
            (["ab", "cdef"], 2, ["ac", "bdef"]),
            (["abc", "d"], 1, ["abc", "d"]),
            (["ab", "cd"], 0, ["ab", "cd"]),
        ):
            if (it := ["".join(part) for part in seasons.promoted(before, moves)]) != after:
                wrong.append(f"{before} becomes {it}, and not {after}")
        return wrong

    def differences_of_archives(self) -> list[str]:
        """Of any number of rows that only one of two archives has: the first twenty are told, and of the others how many they are."""
        wrong = []
        for gone, added in ((0, 0), (1, 0), (0, 19), (7, 12), (20, 0), (13, 7), (21, 0), (10, 11), (30, 15)):
            texts = ([f"old {at}" for at in range(gone)], [f"new {at}" for at in range(added)])
            with patch.object(past, "rows", side_effect=[Counter(["same", *it]) for it in texts]):
                found = [*past.differences(None, None, 1)]  # type: ignore[arg-type]
            wanted = [f"is gone: {it}" for it in texts[0]] + [f"was added: {it}" for it in texts[1]]
            more = [f"and {len(wanted) - 20} more rows"] if len(wanted) > 20 else []
            wrong += [] if found == wanted[:20] + more else [f"{gone} and {added}: {found}"]
        return wrong

    def gaps_by_hand(self) -> list[str]:
        wrong = []
        cases: list[tuple[list[int], int, list[tuple[int, int]]]] = [
            ([], 3, [(1, 3)]),
            ([1, 2, 3], 3, []),
            ([2, 5], 6, [(1, 1), (3, 4), (6, 6)]),
            ([4, 7], 5, [(1, 3), (5, 5)]),
        ]
        for numbers, most, runs in cases:
            if (it := missing.gaps(numbers, most)) != runs:
                wrong.append(f"of {numbers} {it} are missing up to {most}")
        series = [Series(seats, 1, 1, 1) for seats in ((0, 1), (3, 0), (2, 1), (0, 2))]
        worth = [9, 4, 3, 0]
        near = missing.nearest(series, lambda group: max(worth[at] for at in group) - min(worth[at] for at in group))
        if [it.seats for it in near] != [(2, 1), (0, 1), (0, 2), (3, 0)]:
            wrong.append(f"the nearest first are {near}")
        return wrong

    def copies_of_drawn_histories(self) -> list[str]:
        """A robot is a copy if its last code was another author's before it first was its own: of the robot that had it first of these.
        A robot keeps being the first that had a code, whatever it was meanwhile. Nobody's robots are no copies, and nobody has copies of
        them; a source that doesn't compile is like no other."""
        draw, wrong, often = random.Random(74), [], 0
        for _ in range(3000):
            authors = {f"r{at}": draw.choice(["ann", "bob", "cid", ""]) for at in range(draw.randint(2, 5))}
            code = {f"s{at}": draw.choice("xyz") for at in range(6) if draw.random() < 0.9}
            happened, joined = list[Entry](), set[str]()
            for number in range(1, draw.randint(3, 14)):
                robot = draw.choice([*authors])
                what = ADD if robot not in joined else draw.choice([CHANGE, CHANGE, CHANGE, WITHDRAW])
                joined.add(robot)
                happened.append(Entry(number, "2026-03-01", what, robot, f"s{draw.randrange(6)}", 0))
            wanted = dict[str, str]()
            for robot, author in authors.items():
                got = [it for it in happened if it.robot == robot and it.what != WITHDRAW]
                last = code.get(got[-1].sha256) if got else None
                since = next((it.number for it in got if code.get(it.sha256) == last), 0)
                before = [it.robot for it in happened if it.number < since and it.what != WITHDRAW and code.get(it.sha256) == last
                          and authors[it.robot] not in ("", author)]
                wanted |= {robot: before[0]} if before and last and author else {}
            found = likeness.copied(happened, authors, code)
            often += bool(wanted)
            wrong += [] if found == wanted else [f"{happened} {authors} {code}: {found}, not {wanted}"]
        return wrong[:2] + ([] if often > 500 else [f"{often} histories with copies"])

    def archives_are_for_all(self) -> list[str]:
        """Whoever hands an archive out may read it, whatever the organiser's other files are for, and nobody else writes it."""
        wrong, before = [], os.umask(0o077)
        try:
            for mask in (0o000, 0o022, 0o077):
                os.umask(mask)
                with made(self.at(f"read{mask}")) as store:
                    archives.write(store, [], self.at(f"{mask}.zip"), "2026-03-01")
                mode = stat.S_IMODE(os.stat(self.at(f"{mask}.zip")).st_mode)
                wrong += [] if mode == 0o644 else [f"umask {mask:o}: {mode:o}"]
        finally:
            os.umask(before)
        return wrong

    def numbers_of_copies(self) -> list[str]:
        """In drawn histories, in which robots join, change their bytes to and fro, leave and come back: a robot's number among those that ever
        had these bytes is how many others had them before it first did, whenever it has them again."""
        draw, wrong = random.Random(9), list[str]()
        for number in range(20):
            had: dict[bytes, list[str]] = {}
            with made(self.at(f"copies{number}")) as store, store.change():
                for _ in range(25):
                    robot, source = draw.choice(ROBOTS), draw.choice(SOURCES)
                    there = entries.playing(entries.entries(store))
                    if robot in there and draw.random() < 0.2:
                        entries.withdraw(store, robot, "2026-03-01")
                    elif not any(robot in them for them in had.values()):
                        entries.add(store, robot, "", source, "2026-03-01")
                    elif robot not in there or there[robot].sha256 != entries.hashed(source):
                        entries.change(store, robot, source, "2026-03-01")
                    else:
                        continue
                    there = entries.playing(entries.entries(store))
                    if robot in there:
                        before = had.setdefault(source, [])
                        before += [] if robot in before else [robot]
                        found, wanted = there[robot].copy, before.index(robot)
                        wrong += [] if found == wanted else [f"{robot} is number {found} with {source!r}, not {wanted}"]
        return wrong[:5]
