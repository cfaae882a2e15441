"""Hand-in by folders: who joins, who changes, what is left out, and what is a copy."""

from __future__ import annotations

import os
import random
import subprocess
from typing import Any

from harness import PATIENCE

from .base import BAD, IDLE, SHOOTER, Base, League, read, write


class Handing(Base):
    """What authors put into their folders."""

    def _put(self, path: str, text: str, minutes: int) -> None:
        """Writes a file that is so many minutes old."""
        os.makedirs(os.path.dirname(self.at(path)), exist_ok=True)
        write(self.at(path), text)
        at = 1_700_000_000 - 60 * minutes
        os.utime(self.at(path), (at, at))

    def names_as_people_have_them(self) -> list[str]:
        """Each author's newest good file joins by an id that is made and said; its name and the author's stay as they are."""
        for folder, file, text in (("Müller", "robot.r", SHOOTER), ("O'Brien", "robot.r", IDLE), ("Иван", "Tank v2 final(1).r", IDLE + " "),
                                   ("Muller", "-x.R", SHOOTER + "\n\n")):
            self._put(f"names/{folder}/{file}", text, 5)
        self._put("names/Müller/old.r", IDLE, 50)
        it = League(self, "names-league", "-m2")
        ran = it.ran("take-in", self.at("names"), "--day=2026-03-02")
        said = ["Muller/-x.R joined as Muller", "Müller/robot.r joined as Muller-2", "O'Brien/robot.r joined as OBrien",
                "Иван/Tank v2 final(1).r joined as Ivan", "4 joined, 0 changed, 0 are as they were"]
        wrong = [] if sorted(it for it in ran.stdout.splitlines() if "same code" not in it) == sorted(said) and not ran.returncode else [ran.stdout + ran.stderr]
        authors = {("Ivan", "Иван"), ("Muller", "Muller"), ("Muller-2", "Müller"), ("OBrien", "O'Brien")}
        if {*it.rows("SELECT id, author FROM robot")} != authors:
            wrong.append(f"the authors are {it.rows('SELECT id, author FROM robot')}")
        it.run("play", "-j1")
        it.run("publish", self.at("names-site"), "--day=2026-03-03", "--replays=0", "--sums=0")
        page = read(self.at("names-site/robots/_49van.html"))
        if "<h1><bdi>Tank v2 final(1)</bdi></h1>" not in page or "by <bdi>Иван</bdi> · id Ivan" not in page:
            wrong.append("the site has not the robot's name, author and id")
        return wrong

    def changes(self) -> list[str]:
        """A newer file changes the author's robot, whatever it is called; a faulty one doesn't; one that is as it was stays."""
        self._put("inbox/ann/first.r", SHOOTER, 50)
        self._put("inbox/bob/robot.r", IDLE, 50)
        it = League(self, "changes", "-m2")
        wrong = []
        steps: list[tuple[str, str, int, int, str]] = [
            ("", "", 0, 0, "2 joined, 0 changed, 0 are as they were"), ("", "", 0, 0, "0 joined, 0 changed, 2 are as they were"),
            ("ann/second (1).r", IDLE + "\n", 40, 0, "0 joined, 1 changed, 1 are as they were"),
            ("bob/bad.r", BAD, 30, 1, "0 joined, 0 changed, 2 are as they were"),
            ("cid/bad.r", BAD, 20, 1, "0 joined, 0 changed, 2 are as they were, 1 folder has no good file"),
            ("cid/good.r", SHOOTER + " ", 60, 1, "1 joined, 0 changed, 2 are as they were"),
            ("ann/first.r", SHOOTER, 10, 1, "0 joined, 1 changed, 2 are as they were")]
        for number, (path, text, minutes, status, said) in enumerate(steps, 2):
            if path:
                self._put(f"inbox/{path}", text, minutes)
            ran = it.ran("take-in", self.at("inbox"), f"--day=2026-03-{number:02}")
            if ran.returncode != status or not ran.stdout.endswith(f"{said}\n"):
                wrong.append(f"after {path}: status {ran.returncode}, {ran.stdout}{ran.stderr}")
            if status and f"{'bob' if number < 6 else 'cid'}/bad.r:2: reserved word" not in ran.stderr:
                wrong.append(f"after {path} the fault isn't told: {ran.stderr}")
        happened = it.rows("SELECT what, robot FROM entry ORDER BY number")
        return wrong + ([] if happened == [("add", "ann"), ("add", "bob"), ("change", "ann"), ("add", "cid"), ("change", "ann")] else [f"{happened}"])

    def files_of_one_second(self) -> list[str]:
        """The newest of files whose times are some billionths of a second apart, whatever their names are; of one time the first name."""
        second, texts = 1_700_000_000 * 10**9, {"a": IDLE, "b": SHOOTER, "c": IDLE + " "}
        newest = {"first": ((3, 2, 1), "a"), "half": ((0, 5 * 10**8, 10**9 - 1), "c"), "last": ((1, 2, 3), "c"), "middle": ((1, 3, 2), "b"),
                  "same": ((2, 2, 2), "a"), "two": ((1, 4, 4), "b")}
        for folder, (times, _) in newest.items():
            for (name, text), time in zip(texts.items(), times):
                self._put(f"second/{folder}/{name}.r", text, 0)
                os.utime(self.at(f"second/{folder}/{name}.r"), ns=(second, second + time))
        said = League(self, "second-league", "-m2").ran("take-in", self.at("second"), "--day=2026-03-02").stdout
        found = [line for line in said.splitlines() if " joined as " in line]
        wanted = [f"{folder}/{name}.r joined as {folder}" for folder, (_, name) in newest.items()]
        return [] if found == wanted else [f"{found}, not {wanted}"]

    def all_faults_are_told(self) -> list[str]:
        """Whatever is in a folder, all that is wrong is told and the good ones join; or nobody, if that is asked for."""
        for folder, text in (("a", SHOOTER), ("b", BAD), ("c", "main(){"), ("d", IDLE)):
            self._put(f"faults/{folder}/robot.r", text, 5)
        self._put("faults/long/robot.r", "/*" + "x" * (1 << 20) + "*/" + IDLE, 5)
        self._put("faults/loose.r", IDLE, 5)
        self._put(f"faults/{'n' * 90}/robot.r", IDLE, 5)
        self._put("faults/.hidden/robot.r", BAD, 5)
        os.makedirs(self.at("faults/pipe"))
        os.mkfifo(self.at("faults/pipe/robot.r"))
        os.makedirs(self.at("faults/link"))
        os.symlink("/etc/hostname", self.at("faults/link/robot.r"))
        os.makedirs(self.at("faults/deep/robot.r"))
        it = League(self, "faults-league", "-m2")
        none = it.ran("take-in", self.at("faults"), "--all-or-none")
        wrong = [] if none.returncode == 1 and not it.rows("SELECT * FROM entry") else [f"all or none: {none.returncode}, {none.stdout}"]
        some = it.ran("take-in", self.at("faults"))
        for why in ("loose.r is in no author's folder", "b/robot.r:2: reserved word", "c/robot.r:1: syntax error", "long/robot.r has more than",
                    f"{'n' * 90}: an author's name has at most 80 letters"):
            if why not in none.stderr or why not in some.stderr:
                wrong.append(f"not told: {why}: {some.stderr}")
        if some.returncode != 1 or some.stderr.count("\n") != 6 or [row[0] for row in it.rows("SELECT id FROM robot ORDER BY id")] != ["a", "d"]:
            wrong.append(f"some: {some.returncode}, {some.stdout}{some.stderr}")
        return wrong

    def authors_from_a_table(self) -> list[str]:
        """A table says who has which folder; one that isn't right is refused, and then nobody joins."""
        self._put("table/s1/robot.r", SHOOTER, 5)
        self._put("table/s2/robot.r", IDLE, 5)
        it = League(self, "table-league", "-m2")
        wrong = []
        for text, why in (("s1,Ann\n", "the first line of"), ("folder,author\ns1\n", "has not a folder and an author"),
                          ("folder,author\ns1,Ann\ns1,Bob\n", "has a folder for the second time")):
            write(self.at("authors.csv"), text)
            if (ran := it.ran("take-in", self.at("table"), "--authors", self.at("authors.csv"))).returncode != 2 or why not in ran.stderr:
                wrong.append(f"{text!r}: {ran.returncode}, {ran.stderr}")
        if (ran := it.ran("take-in", self.at("table"), "--authors", "gone.csv")).returncode != 3 or ran.stderr.count("\n") != 1:
            wrong.append(f"no table: {ran.returncode}, {ran.stderr}")
        if (ran := it.ran("take-in", self.at("gone"))).returncode != 3 or ran.stderr.count("\n") != 1:
            wrong.append(f"no folder: {ran.returncode}, {ran.stderr}")
        write(self.at("authors.csv"), '\ufefffolder,author\ns1,"Müller, Ann"\n')
        it.run("take-in", self.at("table"), "--authors", self.at("authors.csv"))
        found = it.rows("SELECT id, author FROM robot ORDER BY id")
        return wrong + ([] if found == [("s1", "Müller, Ann"), ("s2", "")] else [f"the authors are {found}"])

    def copies(self) -> list[str]:
        """A robot has the code of another author's robot though comments, blanks and names are others; one of the same author isn't one."""
        first = "int far; near(a) { int b; b = a + far; return (b); } main() { int x; x = 1; while (x) drive(near(x), 20); }"
        copy = "/* mine */ int g;\nf(p)\n{ int q; q = p + g; return (q); }\nmain() { int y; y = 1;\n while (y) drive(f(y), 20); }"
        self._put("copies/ann/robot.r", first, 5)
        self._put("copies/bob/robot.r", copy, 5)
        self._put("copies/cid/robot.r", copy.replace("20", "21"), 5)
        it = League(self, "copies-league", "-m2")
        said = it.run("take-in", self.at("copies"), "--day=2026-03-02")
        wrong = [] if said.count("has the same code as") == 1 and "bob has the same code as ann, by ann, which had it before\n" in said else [said]
        it.run("play", "-j1")
        it.run("publish", self.at("copies-site"), "--day=2026-03-03", "--replays=0", "--sums=0")
        pages = {robot: read(self.at(f"copies-site/robots/{robot}.html")) for robot in ("ann", "bob", "cid")}
        if {robot for robot, page in pages.items() if "It has the same code as <a" in page} != {"bob"}:
            wrong.append("the site marks other robots as copies")
        if read(self.at("copies-site/index.html")).count("the code of another") != 1:
            wrong.append("the table doesn't mark the copy")
        return wrong

    def hidden_sources(self) -> list[str]:
        """While sources are hidden nothing of the site has a word of them, whatever it is asked for; when the season has ended all have it."""
        write(self.at("secret.r"), IDLE + "/* SECRET */")
        trace = self.at("bin/crobots-trace")
        objects = '{"match": 1, "cycles": 300, "robots": []}'
        write(trace, f"#!/bin/sh\ncase \"$*\" in *--json*) echo '{objects}';; *) echo 'Match 1: cycles = 300'; echo '   shots      SECRET 3 fired';; esac\n")
        os.chmod(trace, 0o755)
        it = League(self, "hidden-league", "-m2", "--sources=hidden", robots=("secret.r", "a.r", "b.r"))
        it.run("play", "-j1")
        wrong = []
        for day, has in (("2026-03-02", False), ("2026-03-03", True)):
            it.run("publish", self.at("hidden-site"), f"--day={day}", "--replays=0", "--sums=2", "--page=https://example.org/")
            found = subprocess.run(["grep", "-rl", "-e", "SECRET", "-e", "while(1)", self.at("hidden-site")], capture_output=True, text=True, check=False)
            archives = os.path.isdir(self.at("hidden-site/archive"))
            if bool(found.stdout) != has or archives != has:
                wrong.append(f"on {day}: {found.stdout or 'no file has it'}, archives {archives}")
            if not has:
                it.run("season", "end", f"--day={day}")
        os.unlink(trace)
        return wrong

    def names_that_are_taken(self) -> list[str]:
        """Only the author of a robot is told how to replace it; whoever adds a file whose name can't be an id gets one that is made."""
        it = League(self, "taken", "-m2")
        it.run("add", "a.r", "--author=Ann")
        it.run("add", "b.r")
        wrong = []
        for words, has, lacks in ((("a.r", "--author=Bob"), "there is a robot a already, by Ann; --id gives this one another id", "change"),
                                  (("a.r", "--author=Ann"), "there is a robot a already; `change` gives it other bytes", "--id"),
                                  (("a.r",), "by Ann; --id", "change"), (("b.r",), "there is a robot b already; --id", "change"),
                                  (("b.r", "--author=Ann"), "there is a robot b already; --id", "change")):
            ran = it.ran("add", *words)
            if ran.returncode != 2 or has not in ran.stderr or lacks in ran.stderr:
                wrong.append(f"{words}: {ran.returncode}, {ran.stderr}")
        write(self.at("Tank v2 final(1).r"), IDLE)
        if (said := it.run("add", "Tank v2 final(1).r")) != "Tank v2 final(1) joined as Tank-v2-final-1\n":
            wrong.append(said)
        if (said := it.run("add", "Tank v2 final(1).r", "--author=Zoë")) != "Tank v2 final(1) joined as Tank-v2-final-1-2\n":
            wrong.append(said)
        return wrong

    def any_hand_in(self) -> list[str]:
        """Folders and files with any names, in any order of time: nothing ends with a fault of the script, and no id is given twice."""
        source = random.Random(12)
        it = League(self, "any", "-m2")
        wrong: list[str] = []
        for number in range(6):
            for _ in range(6):
                folder, name = (b"".join(source.choice([b"a", b"\xff", b" ", b"'", b"\xc3\xa9", b"-", b"\n", b"\x1b[", b"(", b"."])
                                         for _ in range(source.randrange(1, 6))) for _ in range(2))
                path = os.path.join(os.fsencode(self.at("any-inbox")), folder.replace(b".", b"x"))
                os.makedirs(path, exist_ok=True)
                with open(os.path.join(path, name + b".r"), "w", encoding="ascii") as file:
                    file.write(source.choice([IDLE, SHOOTER, BAD, ""]) + " " * source.randrange(9))
            ran = self._bytes(it, f"--day=2026-03-{number + 2:02}")
            text = ran.stdout + ran.stderr
            if ran.returncode not in (0, 1) or b"Traceback" in text or b"\x1b" in text:
                wrong.append(f"status {ran.returncode}: {text!r:.500}")
        robots = [robot for robot, in it.rows("SELECT robot FROM entry WHERE what = 'add'")]
        it.run("play", "-j2", "--quiet")
        it.run("publish", self.at("any-site"), "--replays=0", "--sums=0", "--day=2026-03-20")
        return wrong + ([] if len(robots) == len({*robots}) > 3 else [f"the robots are {robots}"])

    def _bytes(self, it: League, day: str) -> subprocess.CompletedProcess[bytes]:
        """What a hand-in writes, which may have any bytes."""
        words: list[Any] = [os.path.join(os.path.dirname(__file__), "..", "..", "scripts", "league"), "take-in", it.folder, self.at("any-inbox"), day]
        return subprocess.run(words, cwd=self._folder, env=self._environment, stdin=subprocess.DEVNULL, capture_output=True, check=False, timeout=PATIENCE)
