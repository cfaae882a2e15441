"""What the tests of the open ladder share: a league that is served, and those who ask it."""

from __future__ import annotations

import datetime
import http.client
import importlib
import os
import re
import shutil
import signal
import sqlite3
import subprocess
import threading
import time
import uuid
from contextlib import closing
from dataclasses import dataclass, replace
from types import TracebackType
from typing import Any, Mapping

from ladder import accounts, attempts, schema
from ladder.frames import Site
from ladder.judging import Programs
from ladder.serving import options
from ladder.terms import settle, terms
from leagues import entries
from leagues.store import opened

HERE = os.path.dirname(os.path.abspath(__file__))
LEAGUE = os.path.join(HERE, "..", "..", "scripts", "league")
NAMES = ("crobots", "crobots-why", "crobots-trace")
# A robot that shoots itself at once, one that stands still, and one with a fault.
SHOOTER, IDLE, BAD = "main(){while(1)cannon(0,0);}", "main(){while(1);}", "main(){\nbreak; }"
# For an answer, on a machine that has much else to do.
SECONDS = 600
# By hand, the processors of the server and the player alone, as `0,1`.
PROCESSORS = os.environ.get("LADDER_PROCESSORS", "")
# It is about noon here: so no day ends while tests run, and programs that they run have this zone, too.
os.environ["TZ"] = f"NOON{time.gmtime().tm_hour - 12:+d}"
time.tzset()
TODAY = datetime.date.today().isoformat()
# Who guesses waits as long as tests may take; that it is a minute, another test says.
attempts.SECONDS = 86400.0


def installed(folder: str, programs: list[str]) -> None:
    """Lays the programs into a folder under the names of their commands. A server that runs here finds them first, too."""
    os.environ["PATH"] = f"{folder}/bin:{os.environ['PATH']}"
    os.makedirs(os.path.join(folder, "bin"))
    for name, program in zip(NAMES, programs):
        os.symlink(program, os.path.join(folder, "bin", name))


def other(number: int) -> str:
    """A robot that stands still, with other bytes than those of each other number."""
    return f"main(){{while(1)drive({number},0);}}"


@dataclass(frozen=True)
class Answer:
    """What was answered."""

    status: int
    text: str
    heads: Mapping[str, str]

    @property
    def cookie(self) -> str:
        """The cookie that was set, by its name and value."""
        return self.heads.get("set-cookie", "").partition(";")[0]


@dataclass
class Ladder:
    """A league in a folder, served by a thread of the test, or by a process with the player beside it."""

    folder: str
    environment: Mapping[str, str]
    organiser: str = ""
    process: subprocess.Popen[str] | None = None
    server: Any = None
    port: int = 0
    said: str = ""

    def run(self, command: str, *words: str, status: int = 0) -> str:
        """Runs a command on the league; answers what it wrote, or said if it failed."""
        ran = subprocess.run([LEAGUE, command, self.folder, *words], env=self.environment, capture_output=True, text=True, timeout=SECONDS, check=False)
        assert ran.returncode == status, f"{command} {words}: status {ran.returncode}: {ran.stderr}"
        return ran.stderr if status else ran.stdout

    def begin(self, outside: str = "", prefix: str = "", workbench: str = "") -> None:
        """Serves the league by a thread, without the player."""
        waitress = importlib.import_module("waitress")
        places = [os.path.join(os.path.dirname(self.folder), "..", "bin", name) for name in NAMES]
        site = Site(self.folder, "A ladder", Programs(*places), prefix, outside, workbench)
        with opened(self.folder) as store:
            schema.ready(store)
            self.organiser = self.organiser or accounts.organiser(store)
        self.server = waitress.create_server(importlib.import_module("ladder.app").made(site), host="127.0.0.1", port=0, **options(site))
        self.port = int(self.server.effective_port)
        threading.Thread(target=self.server.run, daemon=True).start()

    def serve(self, *words: str) -> None:
        """Serves the league by `crobots-league serve`, and waits until it answers."""
        apart = ["taskset", "-c", PROCESSORS] if PROCESSORS else []
        with open(f"{self.folder}.said", "a", encoding="utf-8") as said:
            self.process = subprocess.Popen([*apart, LEAGUE, "serve", self.folder, "--port", str(self.port), "-j2", *words], env=self.environment, text=True,
                                            stdout=subprocess.PIPE, stderr=said, start_new_session=True)
        assert self.process.stdout
        self.said = self.process.stdout.readline()
        found = re.search(r":(\d+)", self.said)
        assert found, "it doesn't say its port"
        self.port = int(found[1])
        if not self.organiser:
            self.organiser = self.process.stdout.readline().strip().partition("#")[2]
        self.wait()

    def wait(self) -> None:
        """Waits until it answers."""
        until = time.monotonic() + SECONDS
        while time.monotonic() < until:
            try:
                if self.ask("GET", "/tag").status == 200:
                    return
            except (OSError, http.client.HTTPException):
                time.sleep(0.05)
        raise AssertionError("it doesn't answer")

    def verified(self) -> str:
        """What `verify` says of all matches of an archive."""
        words = [LEAGUE, "verify", "--all", "--quiet", self.folder]
        ran = subprocess.run(words, env=self.environment, capture_output=True, text=True, timeout=5 * SECONDS, check=False)
        return f"{ran.stdout}{ran.stderr}"

    def ask(self, method: str, path: str, body: bytes | str | None = None, token: str = "", cookie: str = "", origin: str | None = None,
            **heads: str) -> Answer:
        """Asks it: with a token in the head, or with a cookie, and from this origin."""
        more = {name.replace("_", "-"): value for name, value in heads.items()}
        more |= {"Authorization": f"Bearer {token}"} if token else {}
        more |= {"Cookie": cookie} if cookie else {}
        more |= {"Origin": origin} if origin is not None else {}
        with closing(http.client.HTTPConnection("127.0.0.1", self.port, timeout=SECONDS)) as line:
            line.request(method, path, body, more)
            it = line.getresponse()
            return Answer(it.status, it.read().decode("utf-8", "replace"), {name.lower(): value for name, value in it.getheaders()})

    @property
    def here(self) -> str:
        """The origin of its own pages."""
        return f"http://127.0.0.1:{self.port}"

    def post(self, path: str, fields: Mapping[str, str] = {}, file: tuple[str, bytes] | None = None, **more: Any) -> Answer:
        """Sends a form, as a page of its own does unless another origin is given."""
        mark = uuid.uuid4().hex
        parts = [f'--{mark}\r\nContent-Disposition: form-data; name="{name}"\r\n\r\n{value}\r\n'.encode() for name, value in fields.items()]
        if file:
            parts.append(f'--{mark}\r\nContent-Disposition: form-data; name="file"; filename="{file[0]}"\r\n\r\n'.encode() + file[1] + b"\r\n")
        body = b"".join(parts) + f"--{mark}--\r\n".encode()
        return self.ask("POST", path, body, **{"origin": self.here, "Content_Type": f"multipart/form-data; boundary={mark}", **more})

    def author(self, name: str) -> str:
        """Makes an author; answers the token of the link."""
        with opened(self.folder) as store:
            return accounts.invite(store, name, "").token

    def terms(self, **changes: Any) -> None:
        """Changes the terms."""
        with opened(self.folder) as store:
            schema.ready(store)
            settle(store, replace(terms(store), **changes))

    def add(self, robot: str, text: str, day: str = TODAY) -> None:
        """Lets a robot of nobody join."""
        with opened(self.folder) as store, store.change():
            entries.add(store, robot, "", text.encode(), day)

    def joined(self, token: str) -> str:
        """Joins by a token; answers the cookie."""
        return self.post("/join", {"token": token}).cookie

    def rows(self, query: str, *values: Any) -> list[tuple[Any, ...]]:
        with closing(sqlite3.connect(os.path.join(self.folder, "league.db"), timeout=SECONDS)) as database:
            return database.execute(query, values).fetchall()

    def written(self) -> dict[str, list[tuple[Any, ...]]]:
        """All that was written by somebody: all rows but those of the player."""
        names = [name for name, in self.rows("SELECT name FROM sqlite_master WHERE type = 'table'")]
        return {name: self.rows(f"SELECT * FROM {name}") for name in sorted(names) if name not in ("battle", "seating", "ladder_rank")}

    def settled(self, matches: int = 0) -> None:
        """Waits until nothing is missing, and the table says so."""
        until = time.monotonic() + SECONDS
        while time.monotonic() < until:
            if "no match is missing" in (text := self.ask("GET", "/table").text) and (not matches or f"{matches} matches were played" in text):
                return
            time.sleep(0.1)
        raise AssertionError("matches are still missing")

    def end(self) -> None:
        """Ends the process, and all that this began. A thread ends with the test."""
        if self.process:
            self.process.send_signal(signal.SIGTERM)
            self.process.wait(SECONDS)
            if self.process.stdout:
                self.process.stdout.close()
            self.process = None


class Base:
    """Tests of one subject: each method of a subclass whose name doesn't begin with _ is one. The ladders end with it."""

    _RULES: tuple[str, ...] = ("-l300", "-m", "4")

    def __init__(self, folder: str) -> None:
        self._folder = os.path.join(folder, type(self).__name__)
        os.makedirs(self._folder)
        self._environment = os.environ | {"PYTHONPYCACHEPREFIX": f"{folder}/cache", "LC_ALL": "C.UTF-8"}
        self._environment.pop("PYTHONDONTWRITEBYTECODE", None)
        self._ladders: dict[str, Ladder] = {}

    def __enter__(self) -> None:
        return None

    def __exit__(self, kind: type[BaseException] | None, it: BaseException | None, trace: TracebackType | None) -> None:
        for ladder in self._ladders.values():
            ladder.end()

    def _at(self, name: str) -> str:
        return os.path.join(self._folder, name)

    def _file(self, name: str, text: str) -> str:
        with open(self._at(name), "w", encoding="utf-8") as file:
            file.write(text)
        return self._at(name)

    def _made(self, name: str, *rules: str) -> Ladder:
        """A new league: leagues of the same rules are copies of one."""
        first = os.path.join(self._folder, "..", f"league{'-'.join(['', *self._RULES, *rules])}")
        if not os.path.exists(first):
            Ladder(first, self._environment).run("init", *self._RULES, *rules, "--day=2026-03-01")
        it = self._ladders[name] = Ladder(self._at(name), self._environment)
        shutil.copytree(first, it.folder)
        return it

    def _new(self, name: str, *rules: str) -> Ladder:
        """A new ladder that is served by a thread."""
        it = self._made(name, *rules)
        it.begin()
        return it

    def _ladder(self) -> Ladder:
        """The ladder that the tests of this subject share."""
        return self._ladders.get("shared") or self._new("shared")
