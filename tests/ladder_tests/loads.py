"""Many authors and many readers at once, many requests one after another, and a new robot in a full table.

By hand with LADDER_AUTHORS=200 and LADDER_READERS=500 the times are judged, too; LADDER_ASKED=100000 and LADDER_FIELD=60 make the others long.
LADDER_PROCESSORS=0,1 keeps server and player to two processors; whoever asks is given the others by `taskset`."""

from __future__ import annotations

import http.client
import itertools
import os
import re
import threading
import time
from typing import Iterator

from .base import HERE, IDLE, TODAY, Base, Ladder, other
from .base import SECONDS as PATIENCE
from .crashes import children

AUTHORS = int(os.environ.get("LADDER_AUTHORS", "12"))
READERS = int(os.environ.get("LADDER_READERS", "24"))
SECONDS = float(os.environ.get("LADDER_SECONDS", "3"))
# How many requests one after another, and how many robots there are when another one comes.
ASKED = int(os.environ.get("LADDER_ASKED", "2000"))
FIELD = int(os.environ.get("LADDER_FIELD", "8"))
SAMPLES = os.path.join(HERE, "..", "..", "robots")
# The server's memory, in bytes; a robot's first matches, and in how many seconds it has played them.
MEMORY, FIRST, PLACED = 200_000_000, 24, 60.0
# The aims, in seconds, which hold for a machine that does nothing else.
IS_LONG = AUTHORS >= 200
HAND_IN, READ, EACH = 1.0, 0.1, 2.0


class Loads(Base):
    """Tests of load, with the player beside the server."""

    _RULES = tuple(os.environ.get("LADDER_RULES", "-l300 -m 4").split())

    def all_are_answered(self) -> Iterator[str]:
        ladder = self._made("many")
        ladder.serve()
        tokens = [ladder.author(f"author {at}") for at in range(AUTHORS)]
        sent: list[float] = []
        read: list[float] = []
        wrong: list[str] = []
        them = [threading.Thread(target=hand_in, args=(ladder, at, token, sent, wrong)) for at, token in enumerate(tokens)]
        them += [threading.Thread(target=poll, args=(ladder, at / READERS * EACH, read, wrong)) for at in range(READERS)]
        for it in them:
            it.start()
        for it in them:
            it.join()
        yield from wrong
        if len(ladder.rows("SELECT 1 FROM ladder_owner")) != AUTHORS:
            yield "robots are lost"
        if IS_LONG:
            said = f"hand-ins: median {share(sent, 0.5):.3f} s, slowest {max(sent):.3f} s; reads: 99 of 100 within {share(read, 0.99):.3f} s"
            print(said, flush=True)
            yield from [said] if max(sent) > HAND_IN or share(read, 0.99) > READ else []


    def the_server_stays_small(self) -> Iterator[str]:
        """After many requests of all kinds, also of robots that are handed in."""
        ladder = self._made("small")
        ladder.serve()
        ladder.terms(robots=10_000, versions=1_000_000)
        token = ladder.author("Ann")
        paths = ("/", "/tag", "/table", "/robots/mine", "/mine", "/nothing", "/ladder.js", "/wall")
        ladder.ask("PUT", "/robots/mine", IDLE, token=token)
        them = [threading.Thread(target=read_all, args=(ladder, paths, token, ASKED // 4, at)) for at in range(4)]
        for it in them:
            it.start()
        for it in them:
            it.join()
        sizes = [memory(child) for child in children(ladder)]
        if ASKED >= 100_000:
            print(f"server and player after {ASKED} requests: {', '.join(f'{size // 1_000_000} MB' for size in sizes)}", flush=True)
        if len(sizes) != 2 or sizes[0] > MEMORY:
            yield f"{sizes}"

    def a_new_robot_has_a_place_soon(self) -> Iterator[str]:
        """Among robots that have played all their matches: its first ones, and a place; among many within a minute, if nothing else runs."""
        ladder = self._made("field")
        sources = sorted(name for name in os.listdir(SAMPLES) if name.endswith(".r"))
        for at, name in zip(range(FIELD), itertools.cycle(sources)):
            with open(os.path.join(SAMPLES, name), encoding="utf-8") as file:
                ladder.add(f"r{at}", f"{file.read()}/* {at} */\n", TODAY)
        ladder.run("play", "--quiet")
        ladder.serve()
        token, began, wanted = ladder.author("Ann"), time.monotonic(), min(FIRST, 2 * FIELD)
        with open(os.path.join(SAMPLES, "hunter.r"), encoding="utf-8") as file:
            ladder.ask("PUT", "/robots/new", file.read(), token=token)
        times: dict[int, float] = {}
        while times.keys() != {wanted, 4 * FIELD} and time.monotonic() < began + 10 * PLACED:
            count = played(ladder.ask("GET", "/table").text)
            times |= {many: time.monotonic() - began for many in (wanted, 4 * FIELD) if count >= many and many not in times}
            time.sleep(0.05)
        said = f"a new robot among {FIELD}: {', '.join(f'{many} matches after {it:.1f} s' for many, it in times.items())}"
        if FIELD >= 60:
            print(said, flush=True)
        if wanted not in times or FIELD >= 60 and times[wanted] > PLACED:
            yield said


def read_all(ladder: Ladder, paths: tuple[str, ...], token: str, count: int, first: int) -> None:
    """Asks for these pages in turns, over connections that are kept for a while; now and then a version is handed in."""
    line = http.client.HTTPConnection("127.0.0.1", ladder.port, timeout=PATIENCE)
    for at in range(count):
        path = paths[at % len(paths)]
        if at % 500 == 499:
            ladder.ask("PUT", "/robots/mine", other(first * count + at), token=token)
        line.request("GET", path, headers={"Authorization": f"Bearer {token}"} if at % 2 else {})
        line.getresponse().read()
    line.close()


def memory(process: int) -> int:
    """The bytes of memory that a process has now."""
    with open(f"/proc/{process}/status", encoding="ascii") as file:
        found = re.search(r"VmRSS:\s*(\d+) kB", file.read())
    return int(found[1]) * 1024 if found else 0


def played(table: str) -> int:
    """How many matches the new robot has played, by the table."""
    found = re.search('data-robot="new".*?</tr>', table, re.DOTALL)
    numbers = re.findall(r"<td[^>]*>(\d+)</td>", found[0]) if found else []
    return int(numbers[0]) if numbers else 0


def hand_in(ladder: Ladder, at: int, token: str, sent: list[float], wrong: list[str]) -> None:
    """Hands a robot in at some instant, and notes how long that took."""
    time.sleep(SECONDS * at / AUTHORS)
    begun = time.monotonic()
    answer = ladder.ask("PUT", f"/robots/r{at}", other(at), token=token)
    if answer.status != 200:
        wrong.append(f"robot {at}: {answer.status} {answer.text}")
    sent.append(time.monotonic() - begun)


def is_whole(table: str) -> bool:
    """Whether the answer of a table is all of it: the player may write one before the first robot is handed in."""
    return "</table>" in table or "No robot plays yet." in table


def poll(ladder: Ladder, wait: float, read: list[float], wrong: list[str]) -> None:
    """Reads the tag each two seconds, and the table when it is another one, and notes how long each took."""
    time.sleep(min(wait, SECONDS))
    end, tag = time.monotonic() + SECONDS, ""
    while (begun := time.monotonic()) < end:
        try:
            now = ladder.ask("GET", "/tag").text
            if now != tag and tag and not is_whole(ladder.ask("GET", "/table").text):
                wrong.append("a table is cut short")
            tag = now
        except (OSError, http.client.HTTPException) as why:
            wrong.append(f"a reader: {why}")
        read.append(time.monotonic() - begun)
        time.sleep(max(0.0, EACH - read[-1]))


def share(times: list[float], part: float) -> float:
    """The time within which such a part of the answers came."""
    return sorted(times)[min(len(times) - 1, int(part * len(times)))]
