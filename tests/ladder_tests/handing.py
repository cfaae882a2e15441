"""What is taken, and what is refused in words."""

from __future__ import annotations

import datetime
import hashlib
import html
import os
import re
import sqlite3
import subprocess
import threading
from typing import Iterator
from unittest import mock

from leagues import entries
from leagues.store import connected, opened
from tools.faults import Fault

from .base import BAD, IDLE, LEAGUE, SHOOTER, Base, Ladder, other

HUGE = "/*" + "x" * 65_536 + "*/" + IDLE
TODAY = datetime.date.today()


class Handing(Base):
    """Tests of handing in."""

    def each_way_keeps_the_very_bytes(self) -> Iterator[str]:
        ladder, token = self._author("Ann")
        ladder.terms(robots=9)
        text = f"/* é */\r\n{SHOOTER}\n"
        path = self._file("d.r", text)
        link = f"{ladder.here}/join#{token}"
        ways = {
            "a": lambda: ladder.post("/robots", {"robot": "a"}, ("x.r", text.encode()), cookie=ladder.joined(token)).status == 200,
            "b": lambda: ladder.post("/robots", {"robot": ""}, ("b.r", text.encode()), token=token).status == 200,
            "c": lambda: subprocess.run(["curl", "-sfT", path, "-H", f"Authorization: Bearer {token}", f"{ladder.here}/robots/c.r"], capture_output=True, check=False).returncode == 0,
            "d": lambda: subprocess.run([LEAGUE, "send", link, path], env=self._environment, capture_output=True, check=False).returncode == 0,
        }
        for robot, does in ways.items():
            if not does():
                yield f"{robot} isn't taken"
            elif self._bytes(ladder, robot) != text.encode():
                yield f"{robot}: {self._bytes(ladder, robot)!r}"
        # a browser sends what was written in a field with other line ends
        ladder.post("/robots", {"robot": "e", "source": IDLE + "\r\n\r\n"}, token=token)
        if self._bytes(ladder, "e") != (IDLE + "\n\n").encode():
            yield f"a field: {self._bytes(ladder, 'e')!r}"

    def refusals_are_words(self) -> Iterator[str]:
        ladder, token = self._author("Ben")
        ladder.add("theirs", IDLE)
        for name, text, status, words in (
                ("huge", HUGE, 413, f"the source has {len(HUGE)} bytes, and 65536 are taken"), ("empty", "", 422, "the source is empty"),
                ("theirs", SHOOTER, 403, "there is a robot theirs, and it isn't yours: choose another name"),
                ("THEIRS", SHOOTER, 403, "there is a robot theirs, and it isn't yours: choose another name"),
                ("%2d%2d", SHOOTER, 422, "a robot's name has letters, digits, '-', '_' and '.', at most 40, and begins with a letter or a digit")):
            answer = ladder.ask("PUT", f"/robots/{name}", text, token=token)
            if (answer.status, answer.text) != (status, f"{words}\n"):
                yield f"{name}: {answer.status} {answer.text!r}"
        yield from (f"{it} joined" for it, in ladder.rows("SELECT robot FROM ladder_owner JOIN ladder_author ON number = author WHERE name = 'Ben'"))

    def a_source_has_so_many_bytes(self) -> Iterator[str]:
        """Just as many as the terms allow, and not one more."""
        ladder, token = self._author("Sam")
        ladder.terms(size=500)
        for count, status in ((500, 200), (501, 413)):
            answer = ladder.ask("PUT", "/robots/sized", IDLE.ljust(count), token=token)
            if answer.status != status:
                yield f"{count}: {answer.status} {answer.text}"
        ladder.terms(size=65_536)

    def limits_of_an_author(self) -> Iterator[str]:
        ladder = self._new("limits")
        token = ladder.author("Ann")
        ladder.terms(robots=2, versions=4)
        found = [ladder.ask("PUT", f"/robots/r{at}", other(at), token=token) for at in range(3)]
        if [it.status for it in found] != [200, 200, 429] or "you have 2 robots" not in found[2].text:
            yield f"robots: {[(it.status, it.text) for it in found]}"
        found = [ladder.ask("PUT", "/robots/r0", other(at), token=token) for at in (5, 6, 7)]
        if [it.status for it in found] != [200, 200, 429] or "within an hour" not in found[2].text:
            yield f"versions: {[(it.status, it.text) for it in found]}"
        again = ladder.ask("PUT", "/robots/r0", other(6), token=token)
        if (again.status, again.text) != (200, "taken: r0, version 3\n"):
            yield f"the same bytes beyond the limit: {again.status} {again.text}"

    def a_file_that_no_ladder_takes_isn_t_sent(self) -> Iterator[str]:
        """Nobody listens there: one byte less is sent to nobody."""
        link = "http://127.0.0.1:9/join#AAAAAAAAAAAAAAAAAAAAAA"
        for size, said in ((65_536, "cannot reach http://127.0.0.1:9"), (65_537, "has 65537 bytes, and no ladder takes more than 65536"), (900_000, "has 900000 bytes")):
            path = self._file("large.r", IDLE.ljust(size))
            ran = subprocess.run([LEAGUE, "send", link, path], env=self._environment, capture_output=True, text=True, check=False)
            if not ran.returncode or said not in ran.stderr or ran.stderr.count("\n") > 2:
                yield f"{size} bytes: status {ran.returncode}, {ran.stderr}"

    def sources_of_an_author_fill_so_much(self) -> Iterator[str]:
        """Of a quota of one megabyte seventeen sources of 60,000 bytes, the last of which goes beyond; what was there may come back, and
        another author has a quota of his own."""
        ladder = self._new("quota")
        ann, bob = ladder.author("Ann"), ladder.author("Bob")
        ladder.terms(versions=1000, quota=1)
        found = [ladder.ask("PUT", f"/robots/r{at % 2}", f"/*{at:02}{'x' * 59_977}*/{IDLE}", token=ann) for at in range(18)]
        if [it.status for it in found] != [200] * 17 + [507] or "your sources fill 1 megabytes" not in found[-1].text:
            yield f"{[it.status for it in found]}: {found[-1].text}"
        others = [ladder.ask("PUT", "/robots/r0", f"/*16{'x' * 59_977}*/{IDLE}", token=ann), ladder.ask("PUT", "/robots/bob", IDLE, token=bob),
                  ladder.ask("PUT", "/robots/org", IDLE, token=ladder.organiser)]
        if [it.status for it in others] != [200] * 3 or len(f"/*00{'x' * 59_977}*/{IDLE}") != 60_000:
            yield f"{[(it.status, it.text) for it in others]}"

    def days_of_a_hand_in(self) -> Iterator[str]:
        ladder = self._new("days")
        token = ladder.author("Ann")
        for days, wanted in (((1, 9, 0), f"the hand-in opens on {day(1)}"), ((-9, -1, 0), f"the hand-in closed on {day(-1)}"),
                             ((-9, -2, 1), f"the hand-in closed on {day(-1)}"), ((-9, -1, 1), "taken: r, version 1 (in the days of grace)"),
                             ((0, 0, 0), "taken: r, version 2")):
            ladder.terms(opens=day(days[0]), closes=day(days[1]), grace=days[2])
            answer = ladder.ask("PUT", "/robots/r", other(days[0]), token=token)
            if answer.text != f"{wanted}\n":
                yield f"{days}: {answer.text!r}"

    def the_same_bytes_again_are_taken(self) -> Iterator[str]:
        ladder, token = self._author("Cid")
        found = [ladder.ask("PUT", "/robots/same", IDLE, token=token).text for _ in range(3)]
        if {*found} != {"taken: same, version 1\n"} or len(ladder.rows("SELECT 1 FROM entry WHERE robot = 'same'")) != 1:
            yield f"{found}"

    def versions_and_back(self) -> Iterator[str]:
        ladder, token = self._author("Dan")
        for at in (1, 2):
            ladder.ask("PUT", "/robots/v", other(at), token=token)
        steps = [(lambda: ladder.post("/robots/v/back", {"version": "1"}, token=token), (200, "taken: v, version 3\n")),
                 (lambda: ladder.post("/robots/v/back", {"version": "9"}, token=token), (404, "there is no version 9 of v\n")),
                 (lambda: ladder.post("/robots/v/back", {"version": "0"}, token=token), (404, "there is no version 0 of v\n")),
                 (lambda: ladder.ask("GET", "/robots/v/versions/1", token=token), (200, other(1))),
                 (lambda: ladder.ask("GET", "/robots/v/versions/2", token=token), (200, other(2))),
                 (lambda: ladder.post("/robots/v/withdraw", token=token), (200, "v left; its matches are kept\n")),
                 (lambda: ladder.post("/robots/v/withdraw", token=token), (422, "the robot v has left already\n")),
                 (lambda: ladder.ask("PUT", "/robots/v", other(1), token=token), (200, "taken: v, version 4\n"))]
        for at, (does, wanted) in enumerate(steps):
            it = does()
            if (it.status, it.text) != wanted:
                yield f"step {at}: {it.status} {it.text!r}"
        entries = ladder.rows("SELECT what, sha256 FROM entry WHERE robot = 'v' ORDER BY number")
        one, two = (hashlib.sha256(other(at).encode()).hexdigest() for at in (1, 2))
        if entries != [("add", one), ("change", two), ("change", one), ("withdraw", one), ("change", one)]:
            yield f"{entries}"

    def a_fault_is_explained(self) -> Iterator[str]:
        ladder, token = self._author("Eve")
        answer = ladder.ask("PUT", "/robots/bad", BAD, token=token)
        path = self._file("bad.r", BAD)
        said = subprocess.run(["crobots-why", os.path.basename(path)], cwd=self._folder, env=self._environment, capture_output=True, text=True, check=False).stdout
        if answer.status != 422 or answer.text.strip() != said.strip() or "break" not in said:
            yield f"{answer.status} {answer.text!r}, not {said!r}"
        if ladder.rows("SELECT 1 FROM robot WHERE id = 'bad'"):
            yield "it joined"

    def what_only_compiles_isn_t_handed_in(self) -> Iterator[str]:
        ladder, token = self._author("Fay")
        before = ladder.written()
        for text, status, words in ((IDLE, 200, "it compiles; it isn't handed in yet"), (BAD, 422, "c.r:2"), ("", 422, "the source is empty")):
            answer = ladder.post("/check", {"robot": "c", "source": text}, token=token)
            if answer.status != status or words not in answer.text:
                yield f"{text!r}: {answer.status} {answer.text!r}"
        if ladder.written() != before:
            yield "rows were changed"
        found = [ladder.post("/check", {"robot": "c", "source": ""}, token=token).status for _ in range(60)]
        if found[:57] != [422] * 57 or found[57:] != [429] * 3:
            yield f"{found}"

    def a_refused_source_comes_back(self) -> Iterator[str]:
        """Nobody loses what was written: the page that refuses it has it in its form."""
        ladder, token = self._author("Gus")
        text = "\n<b>main(){\nbreak;}</b></textarea>"
        page = ladder.post("/robots", {"robot": "back", "source": text.replace("\n", "\r\n")}, token=token, Accept="text/html").text
        found = re.search("<textarea[^>]*>\n(.*?)</textarea>", page, re.DOTALL)
        if not found or html.unescape(found[1]) != text:
            yield f"{found and found[1]!r}"

    def a_wrong_clock_keeps_nobody_out(self) -> Iterator[str]:
        ladder = self._new("clock")
        token = ladder.author("Ann")
        ladder.add("late", IDLE, "2099-01-01")
        answer = ladder.ask("PUT", "/robots/r", SHOOTER, token=token)
        if answer.status != 200:
            yield f"{answer.status} {answer.text}"

    def a_full_disk_takes_nothing(self) -> Iterator[str]:
        ladder = self._new("full")
        token = ladder.author("Ann")
        ladder.terms(floor=1_000_000)
        before = ladder.written()
        free = os.statvfs(ladder.folder)
        wanted = 200 if free.f_bavail * free.f_frsize > 10**12 else 507
        answer = ladder.ask("PUT", "/robots/r", SHOOTER, token=token)
        if answer.status != wanted or wanted == 507 and ladder.written() != before:
            yield f"{answer.status} {answer.text}"

    def a_disk_that_fills_up_takes_nothing(self) -> Iterator[str]:
        """The database can't grow: whoever writes hears it in words, nothing is changed, and readers see the table. Then it is taken."""
        ladder = self._made("grown")
        ladder.terms()
        token, text = ladder.author("Ann"), f"/*{'x' * 60_000}*/{IDLE}"

        def small(path: str) -> sqlite3.Connection:
            database = connected(path)
            database.execute(f"PRAGMA max_page_count = {database.execute('PRAGMA page_count').fetchone()[0]}")
            return database

        with mock.patch("ladder.requests.connected", small):
            ladder.begin()
            before = ladder.written()
            for answer in (ladder.ask("PUT", "/robots/r", text, token=token), ladder.post("/robots", {"robot": "r", "source": text}, token=token)):
                if answer.status != 507 or "the league's disk is full" not in answer.text:
                    yield f"{answer.status} {answer.text}"
            if ladder.written() != before or ladder.ask("GET", "/").status != 200:
                yield "rows were changed, or readers see nothing"
        try:
            with opened(ladder.folder) as store, store.change():
                store.run(f"PRAGMA max_page_count = {store.one('PRAGMA page_count')[0]}")
                entries.add(store, "r", "", text.encode(), TODAY.isoformat())
            yield "a command takes it"
        except Fault as why:
            yield from [] if "full" in str(why) else [f"a command: {why}"]
        ladder.begin()
        if (answer := ladder.ask("PUT", "/robots/r", text, token=token)).text != "taken: r, version 1\n":
            yield f"then: {answer.status} {answer.text}"

    def pages_say_where_the_ladder_is(self) -> Iterator[str]:
        """By the address by which it was asked: in what is typed into a terminal, and in the link of who signs up."""
        ladder = self._new("where")
        ladder.terms(sign_up=5)
        text = ladder.post("/sign-up", {"name": "Ann"}, Accept="text/html").text
        link = re.search(f">({ladder.here}/join#([A-Za-z0-9_-]{{22}}))<", text)
        if not link:
            yield f"no link: {text[-600:]}"
            return
        said = html.unescape(re.sub("<[^>]*>", "", ladder.ask("GET", "/mine", token=link[2]).text))
        command = re.search("curl -T mine.r -H .Authorization: Bearer YOUR TOKEN. (\\S+/robots/)", said)
        if not command or command[1] != f"{ladder.here}/robots/":
            yield f"{command} in {said}"

    def who_keeps_sources_back_shows_none(self) -> Iterator[str]:
        """Each of the rules: sources of others are shown only if the season and the terms say so, or the season has ended and they say so."""
        for season, term, wanted in (("shown", "all", 200), ("shown", "author", 404), ("hidden", "all", 404), ("hidden", "author", 404)):
            ladder = self._new(f"{season}{term}", f"--sources={season}")
            ladder.terms(readers=term)
            ann, bob = ladder.author("Ann"), ladder.author("Bob")
            ladder.ask("PUT", "/robots/r", IDLE, token=ann)
            found = [ladder.ask("GET", "/robots/r/versions/1", token=it) for it in (ann, bob, "")]
            if [it.status for it in found] != [200, wanted, wanted]:
                yield f"{season}, {term}: {[it.status for it in found]}"
            ladder.run("season", "end", "--unfinished")
            ended, after = [ladder.ask("GET", "/robots/r/versions/1", token=it).status for it in (ann, bob)], 200 if term == "all" else 404
            if ended != [200, after]:
                yield f"{season}, {term}, after the season: {ended}"
            if found[0].text != IDLE or not found[0].heads["content-type"].startswith("text/plain") or "attachment" not in found[0].heads["content-disposition"]:
                yield f"{found[0]}"
            ladder.end()

    def nothing_is_published_that_only_authors_may_read(self) -> Iterator[str]:
        ladder = self._new("private")
        ladder.run("publish", self._at("private-site"))
        ladder.ask("PUT", "/robots/r", IDLE, token=ladder.author("Ann"))
        said = ladder.run("publish", self._at("refused-site"), status=2)
        if os.path.exists(self._at("refused-site")) or "only authors may read" not in said:
            yield said
        ladder.terms(readers="all")
        ladder.run("publish", self._at("private-site"))

    def names_that_aren_t_shown_are_nowhere(self) -> Iterator[str]:
        ladder = self._new("names")
        ladder.terms(names=False, readers="all")
        token = ladder.author("Zacharias")
        ladder.ask("PUT", "/robots/r", IDLE, token=token)
        for path in ("/", "/table", "/wall", "/robots/r"):
            if "Zacharias" in ladder.ask("GET", path).text:
                yield f"{path} has the name"
        ladder.run("publish", self._at("names-site"))
        for folder, _, files in os.walk(self._at("names-site")):
            for name in files:
                with open(os.path.join(folder, name), "rb") as file:
                    if b"Zacharias" in file.read():
                        yield f"{name} has the name"

    def many_at_once_are_all_taken(self) -> Iterator[str]:
        ladder = self._new("many")
        tokens = [ladder.author(f"a{at}") for at in range(8)]
        found: list[int] = []

        def send(at: int) -> None:
            found.extend(ladder.ask("PUT", f"/robots/m{at}x{one}", other(100 * at + one), token=tokens[at]).status for one in range(3))

        them = [threading.Thread(target=send, args=(at,)) for at in range(8)]
        for it in them:
            it.start()
        for it in them:
            it.join()
        if found != [200] * 24 or len(ladder.rows("SELECT 1 FROM ladder_owner")) != 24:
            yield f"{found}"

    def _author(self, name: str) -> tuple[Ladder, str]:
        ladder = self._ladder()
        return ladder, ladder.author(name)

    def _bytes(self, ladder: Ladder, robot: str) -> bytes:
        rows = ladder.rows("SELECT bytes FROM source JOIN entry USING (sha256) WHERE robot = ? ORDER BY number DESC LIMIT 1", robot)
        return bytes(rows[0][0]) if rows else b""


def day(from_today: int) -> str:
    return (TODAY + datetime.timedelta(from_today)).isoformat()
