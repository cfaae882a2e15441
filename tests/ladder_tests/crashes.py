"""Kills at any instant: nothing that was answered 'taken' is lost, and nothing is played twice."""

from __future__ import annotations

import contextlib
import http.client
import os
import random
import signal
import socket
import threading
import time
from typing import Iterator

from .base import SECONDS, Base, Ladder, other

# How many kills; by hand LADDER_KILLS makes them 30 of each.
KILLS = int(os.environ.get("LADDER_KILLS", "5"))
# A signal that comes while the keeper, or a child that it began, is still busy with the fork.
BESIDE_A_FORK = ("after_in_parent=lambda: os.kill(os.getpid(), signal.SIGTERM)",
                 "after_in_child=lambda: (time.sleep(0.5), os.kill(os.getppid(), signal.SIGTERM), time.sleep(2))")


class Crashes(Base):
    """Tests of kills."""

    _RULES = ("-l300", "-m", "40")

    def nothing_that_was_taken_is_lost(self) -> Iterator[str]:
        """Server, player and all of it are killed in turns while robots are handed in and matches are played."""
        ladder = self._made("kills")
        ladder.terms(robots=1000, versions=10_000, readers="all")
        ladder.serve()
        token, chance = ladder.author("Ann"), random.Random(1)
        answers: list[int] = []
        end = threading.Event()
        sender = threading.Thread(target=send, args=(ladder, token, answers, end))
        sender.start()
        for at in range(KILLS):
            more(answers)
            time.sleep(chance.uniform(0, 0.5))
            kill(ladder, chance.choice(children(ladder)) if at % 5 != 4 else 0)
        more(answers)
        end.set()
        sender.join()
        ladder.wait()
        ladder.end()
        yield from lost(ladder, answers)
        yield from self._verified(ladder)

    def a_second_ladder_of_a_league_waits_for_its_turn(self) -> Iterator[str]:
        """Both take robots, and one plays. When it is killed, the other one plays on; nothing is played twice."""
        one = self._made("two")
        one.terms(robots=10, readers="all")
        one.serve()
        two = self._ladders["second"] = Ladder(one.folder, self._environment, organiser="known")
        two.serve()
        token = one.author("Ann")
        for at, (ladder, matches) in enumerate(((one, 0), (two, 40), (one, 120), (two, 240))):
            if at == 3:
                kill_all(one)
            answer = ladder.ask("PUT", f"/robots/r{at}", other(at), token=token)
            if answer.status != 200:
                yield f"robot {at}: {answer.status} {answer.text}"
            two.settled(matches)
        two.end()
        yield from self._verified(two)

    def a_signal_beside_a_fork_is_not_lost(self) -> Iterator[str]:
        """Nor in what Python does of its own before the keeper, or its child, goes on: there an exception would be swallowed."""
        for at, hook in enumerate(BESIDE_A_FORK):
            ladder = self._made(f"fork{at}")
            os.makedirs(folder := self._at(f"hook{at}"))
            with open(f"{folder}/sitecustomize.py", "w", encoding="utf-8") as file:
                file.write(f"import os, signal, time\nos.register_at_fork({hook})\n")
            said = Ladder(ladder.folder, self._environment | {"PYTHONPATH": folder}).run("serve", "--port", "0", status=128 + signal.SIGTERM)
            if said != "league: stopped while no series was played\n":
                yield f"{hook}: {said}"

    def _verified(self, ladder: Ladder) -> Iterator[str]:
        """All matches of today's versions are there once, older ones have none beyond; the league plays on, and its archive is right."""
        ladder.run("play", "--quiet")
        today = [sha256 for sha256, in ladder.rows("SELECT sha256 FROM entry WHERE number IN (SELECT max(number) FROM entry GROUP BY robot)")]
        played = ladder.rows("SELECT hashes, count(*) FROM seating JOIN battle ON seating.number = battle.seating GROUP BY seating.number")
        counts = {hashes: count for hashes, count in played}
        wanted = {f"{one},{two}" for one in today for two in today if one != two}
        if len(counts) < len(played) or any(counts.get(it) != 20 for it in wanted) or max(counts.values(), default=0) > 20:
            yield f"{len(today)} robots: {len(played)} seatings, {sorted(counts.values())} matches"
        site = f"{ladder.folder}-site"
        ladder.run("publish", site, "--replays=0", "--sums=0")
        archive = next(os.path.join(folder, name) for folder, _, names in os.walk(site) for name in names if name.endswith(".zip"))
        said = Ladder(archive, self._environment).verified()
        if "no differences" not in said:
            yield said


def send(ladder: Ladder, token: str, answers: list[int], end: threading.Event) -> None:
    """Hands in one robot after the other, a new one each tenth time, and notes which were answered 'taken'."""
    at = 0
    while not end.is_set():
        at += 1
        try:
            answer = ladder.ask("PUT", f"/robots/r{at // 40}", other(at), token=token)
        except (OSError, http.client.HTTPException):
            time.sleep(0.05)
            continue
        if answer.status == 200:
            answers.append(at)


def more(answers: list[int]) -> None:
    """Waits until one robot more was taken."""
    before, end = len(answers), time.monotonic() + SECONDS
    while len(answers) == before and time.monotonic() < end:
        time.sleep(0.02)


def lost(ladder: Ladder, answers: list[int]) -> Iterator[str]:
    """What was answered 'taken' and isn't there."""
    kept = {bytes(text).decode() for text, in ladder.rows("SELECT bytes FROM source JOIN entry USING (sha256)")}
    gone = [at for at in answers if other(at) not in kept]
    if gone or len(answers) < KILLS:
        yield f"{len(gone)} of {len(answers)} are lost: {gone[:9]}"
    noted = ladder.rows("SELECT count(*) FROM ladder_audit WHERE what = 'hand in'")[0][0]
    if noted != len(ladder.rows("SELECT 1 FROM entry")):
        yield f"{noted} hand-ins in the audit, {len(kept)} sources"


def children(ladder: Ladder) -> list[int]:
    """The processes of the server and the player."""
    assert ladder.process
    with open(f"/proc/{ladder.process.pid}/task/{ladder.process.pid}/children", encoding="ascii") as file:
        return [*map(int, file.read().split())] or [0]


def kill(ladder: Ladder, child: int) -> None:
    """Kills a child, or all of it, and begins again then."""
    assert ladder.process
    if child:
        # it may have ended by itself since it was looked for
        with contextlib.suppress(ProcessLookupError):
            os.kill(child, signal.SIGKILL)
        return
    kill_all(ladder)
    ladder.serve()


def kill_all(ladder: Ladder) -> None:
    """Kills the keeper, and waits until its children have ended."""
    assert ladder.process
    ladder.process.kill()
    ladder.process.wait()
    listens_no_more(ladder.port)


def listens_no_more(port: int) -> None:
    """Waits until the children of a keeper that is gone have ended: one of them listens until then."""
    end = time.monotonic() + SECONDS
    while time.monotonic() < end:
        with contextlib.suppress(OSError):
            socket.create_server(("127.0.0.1", port)).close()
            return
        time.sleep(0.02)
