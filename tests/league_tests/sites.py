"""The site, its archive, and the manual page."""

from __future__ import annotations

import csv
import io
import os
import random
import re
import shutil
import subprocess
import zipfile
from typing import Callable

from catalog.commands import packages_of
from harness import copied
from leagues.words import Words

from .base import HERE, LEAGUE, Base, League, read, write

PAGE = os.path.join(HERE, "..", "..", "man", "crobots-league.6")


class Sites(Base):
    """What others see."""

    def publishes_and_verifies(self) -> list[str]:
        it = League(self, "site-league", "-m4", robots=("a.r", "b.r", "r25.r", "r50.r"))
        it.run("play", "-j1")
        it.run("publish", "site", "--day=2026-03-02", "--replays=0", "--sums=2")
        archive = self.at("site/archive/site-league-2026-03-02.zip")
        wrong = []
        if not os.path.isfile(archive) or it.rows("SELECT day, final FROM publication") != [("2026-03-02", 0)]:
            return ["nothing was published"]
        for words, said in ((("5",), "5 of 24"), (("--all",), "24 of 24"), ((), "24 of 24")):
            if (
                ran := self.ran("verify", "-j1", *words, archive)
            ).returncode or not re.fullmatch(f"{said} matches were replayed, no differences\npublication 1 has .*\n", ran.stdout):
                wrong.append(f"verify {words}: status {ran.returncode}, {ran.stdout}{ran.stderr}")
        names = [read(self.at(f"site/robots/{name}.html")) for name in ("a", "r25")]
        if not all(re.search(r"\brank", page, re.IGNORECASE) for page in names):
            wrong.append("the robots' pages don't have their ranks")
        kept = self.at("kept.zip")
        os.rename(archive, kept)
        it.run("publish", "site", "--day=2026-03-02", "--replays=0", "--sums=0")
        it.run("publish", "site", "--day=2026-03-03", "--replays=0", "--sums=0")
        if it.rows("SELECT day FROM publication ORDER BY number") != [("2026-03-02",), ("2026-03-03",)]:
            wrong.append("a table of one day is kept twice, or none is")
        if sorted(os.listdir(self.at("site/archive"))) != [f"site-league-2026-03-0{day}.zip" for day in (2, 3)]:
            wrong.append("an older archive is gone")
        return wrong + self._tampered(kept)

    def the_version_of_the_program(self) -> list[str]:
        """It is that of the file beside the installed scripts, of the program that was installed with them alone."""
        top, scripts = self.at("installed"), os.path.join(HERE, "..", "..", "scripts")
        for package in packages_of("league"):
            copied(os.path.join(scripts, package), f"{top}/share/crobots/lib/{package}")
        os.makedirs(f"{top}/bin")
        for name, path in (("crobots", self._program), ("crobots-league", LEAGUE),
                           ("crobots-tournament", os.path.join(scripts, "tournament"))):
            shutil.copy(path, f"{top}/bin/{name}")
        write(f"{top}/share/crobots/VERSION", "9.8.7\n")
        quiet = "play v --quiet; crobots-league publish v v-site --replays=0 --sums=0 --day="
        ran = self._sh(f"""PATH={top}/bin:$PATH; exec 2>&1
            crobots-league init v -l300 -m2 && crobots-league add v a.r b.r && crobots-league {quiet}2026-03-02
            cp v-site/settings.html ours.html
            crobots-league verify v-site/archive/v-2026-03-02.zip --quiet --crobots {self._counting}
            crobots-league rules v --crobots {self._counting}; crobots-league {quiet}2026-03-03
            crobots-tournament --quiet -m2 -l300 --html t-site a.r b.r
            crobots-tournament --quiet -m2 -l300 --html o-site --crobots {self._counting} a.r b.r""")
        wrong = [] if "matches of the archive are by crobots 9.8.7 with the hash " in ran else [f"verify says {ran}"]
        for path, has in (("ours", True), ("v-site/settings", False), ("t-site/settings", True), ("o-site/settings", False)):
            if ("crobots 9.8.7" in read(self.at(f"{path}.html"))) != has:
                wrong.append(f"{path}: the version is there, or is not: {ran}")
        return wrong

    def _sh(self, command: str) -> str:
        """What a command of a shell writes."""
        return subprocess.run(["sh", "-c", command], cwd=self._folder, env=self._environment, stdin=subprocess.DEVNULL,
                              stdout=subprocess.PIPE, text=True, check=False).stdout

    def _tampered(self, archive: str) -> list[str]:
        """Each change of an archive is reported."""
        wrong = []
        changes: list[tuple[str, Callable[[str], str], str]] = [
            ("battle.csv", lambda text: text.replace(",90,", ",105,", 1), "played again it is 90:"),
            ("battle.csv", lambda text: re.sub(r"\n.*\n", "\n", text, count=1), "the table of season 1 has"),
            ("table.csv", lambda text: text.replace("1,1,", "1,2,", 1), "the table of season 1 has 1,2,"),
            (
                "seating.csv",
                lambda text: re.sub(r"^(1,\"[\w,]+\",)\d+", r"\g<1>77", text, flags=re.MULTILINE),
                "the seed 77 is not that of",
            ),
        ]
        for member, change, said in changes:
            self._rewritten(archive, self.at("tampered.zip"), member, lambda old: change(old.decode()).encode())
            ran = self.ran("verify", "--all", "-j1", "tampered.zip")
            if ran.returncode != 1 or said not in ran.stdout:
                wrong.append(f"{said}: status {ran.returncode}, {ran.stdout}{ran.stderr}")
        with zipfile.ZipFile(archive) as it:
            source = next(name for name in it.namelist() if name.startswith("sources/"))
        self._rewritten(archive, self.at("tampered.zip"), source, lambda old: old + b" ")
        ran = self.ran("verify", "--all", "-j1", "tampered.zip")
        if ran.returncode != 1 or "has other bytes than its name says" not in ran.stderr:
            wrong.append(f"another source: status {ran.returncode}, {ran.stdout}{ran.stderr}")
        return wrong

    def hostile_archives(self) -> list[str]:
        """Whatever a cell of an archive is, what is wrong is said, and nothing of it reaches the terminal as it is."""
        it = League(self, "hostile", "-m2", robots=("a.r", "b.r"))
        it.run("play", "-j1")
        it.run("publish", "hostile-site", "--day=2026-03-02", "--replays=0", "--sums=0")
        archive = self.at("hostile-site/archive/hostile-2026-03-02.zip")
        source, wrong = random.Random(9), []
        members = [f"{name}.csv" for name in ("robot", "entry", "season", "seating", "battle")]

        def change(old: bytes) -> bytes:
            lines = old.decode().splitlines()
            at = source.randrange(len(lines))
            cells = next(csv.reader([lines[at]]))
            cells[source.randrange(len(cells))] = source.choice(
                ["", "x", "-1", "9" * 30, "\x1b[31m", "{}", "1e9", "a,b"]
            )
            text = io.StringIO()
            csv.writer(text, lineterminator="\n").writerow(cells)
            lines[at] = text.getvalue().rstrip("\n")
            return "".join(f"{line}\n" for line in lines).encode()

        for member in members * 3:
            self._rewritten(archive, self.at("changed.zip"), member, change)
            ran = self.ran("verify", "-j1", "--quiet", "changed.zip")
            if ran.returncode not in (0, 1, 3, 4) or "Traceback" in ran.stderr or "\x1b" in ran.stdout + ran.stderr:
                wrong.append(f"{member}: status {ran.returncode}, {ran.stdout}{ran.stderr}")
        return wrong

    def _rewritten(self, archive: str, path: str, member: str, change: Callable[[bytes], bytes]) -> None:
        with zipfile.ZipFile(archive) as old, zipfile.ZipFile(path, "w") as new:
            for it in old.infolist():
                text = old.read(it)
                new.writestr(it, change(text) if it.filename == member else text)

    def manual_page(self) -> list[str]:
        """The manual page has each command and each of its options, with its default."""
        page = re.sub(r"\\-", "-", read(PAGE))
        wrong = []
        parser = Words("league").parser
        commands = next(it.choices for it in parser._actions if it.dest == "command")
        assert isinstance(commands, dict)
        for name, command in commands.items():
            if not re.search(rf"^\.It Cm {name}\b", page, re.MULTILINE):
                wrong.append(f"the page has no command {name}")
            for action in command._actions:
                for word in action.option_strings:
                    value = rf" Ar {re.escape(str(action.metavar))}" if action.metavar else ""
                    if word not in ("-h", "--help") and not re.search(
                        rf"^\.It Fl {word[1:]}{value}$", page, re.MULTILINE
                    ):
                        wrong.append(f"{name}: the page has no {word} {action.metavar or ''}")
                default = re.search(r"\(default (?:is )?([\w,=]+)\)", action.help or "")
                if default and action.option_strings and f"default is {default[1]}" not in page.replace("\n", " "):
                    wrong.append(f"{name} {action.option_strings}: the page has not the default {default[1]}")
        return wrong
