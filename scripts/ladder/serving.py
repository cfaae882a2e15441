"""The command serve: one process looks after two others, the web server and the player, and begins them anew if they end."""

import argparse
import contextlib
import glob
import importlib
import os
import shutil
import signal
import socket
import sys
import tempfile
import threading
import time
from types import FrameType
from typing import Any, Callable, Iterable
from urllib.parse import urlsplit

from leagues.store import opened
from tools.faults import FILE, Fault
from tools.output import say, show
from tools.programs import TRACE, installed
from tools.signals import ENDING, Stopped, heeded
from tournaments.programs import program

from . import accounts, players, schema, workbench
from .frames import Site
from .judging import Programs

# Debian has these for its own Python; another one of the same version finds them there.
DEBIAN = "/usr/lib/python3/dist-packages"
NEEDED = {"flask": "python3-flask", "waitress": "python3-waitress"}
THREADS, BODY, HEAD, CONNECTIONS, IDLE = 8, 1 << 18, 1 << 14, 1000, 30
LOCAL = "127.0.0.1"
# An address that is nobody's: the way to it begins at this machine's own one.
NOWHERE = ("192.0.2.1", 9)
PAUSE = 1.0
# For so many seconds one of the server's threads goes on while others wait.
SWITCH = 0.0005
# How much the player, and what it runs, stand behind the server.
NICE = 10


def serve(given: argparse.Namespace) -> None:
    """Serves a league until a signal asks for the end."""
    waitress = needed()
    site = site_of(given)
    with opened(given.league) as store:
        schema.ready(store)
        token = accounts.organiser(store)
    with listening(given) as heard:
        port = heard.getsockname()[1]
        outside = site.outside or f"http://{given.address or (outward() if given.public else LOCAL)}:{port}"
        show([f"The ladder is at {outside}{site.to('')}\n", *([f"The organiser joins at {outside}{site.to('join')}#{token}\n"] if token else [])])
        clean()
        # it is read once, and not by each child anew
        importlib.import_module("ladder.app")
        Keeper(given.script, [lambda: web(waitress, site, heard), lambda: play(given)]).keep()


def needed() -> Any:
    """The web server, if it and Flask are installed."""
    for module, package in NEEDED.items():
        try:
            importlib.import_module(module)
        except ImportError:
            if os.path.isdir(DEBIAN) and DEBIAN not in sys.path:
                sys.path.append(DEBIAN)
                return needed()
            raise Fault(f"serve needs {module}: apt-get install {package}") from None
    return importlib.import_module("waitress")


def site_of(given: argparse.Namespace) -> Site:
    """What all pages share, by the words. An address from outside may have a path, below which the ladder is."""
    folder = os.path.abspath(given.league)
    parts = urlsplit(given.url or "")
    return Site(folder, given.title or os.path.basename(folder), Programs(program(given.crobots).path, installed("crobots-why"), installed(TRACE)),
                parts.path.rstrip("/"), f"{parts.scheme}://{parts.netloc}" if given.url else "", workbench.folder(given.workbench))


def listening(given: argparse.Namespace) -> socket.socket:
    """The socket: of this machine alone, unless another address was given."""
    host = given.address or ("0.0.0.0" if given.public else LOCAL)
    try:
        return socket.create_server((host, given.port), backlog=512)
    except OSError as why:
        raise Fault(f"cannot listen at {host}:{given.port}: {why.strerror}", FILE) from why


def outward() -> str:
    """The address of this machine in its network, for which nothing is sent; that of the machine alone if it has no network."""
    with contextlib.suppress(OSError), socket.socket(socket.AF_INET, socket.SOCK_DGRAM) as probe:
        probe.connect(NOWHERE)
        return str(probe.getsockname()[0])
    return LOCAL


def clean() -> None:
    """Removes sources that a killed server was looking at. Young ones may be those of another server."""
    for path in glob.glob(os.path.join(tempfile.gettempdir(), "crobots-ladder-*")):
        with contextlib.suppress(OSError):
            if os.stat(path).st_uid == os.getuid() and os.stat(path).st_mtime < time.time() - 600:
                shutil.rmtree(path, ignore_errors=True)


def web(waitress: Any, site: Site, heard: socket.socket) -> None:
    """The web server. The thread that hears all waits for the others no longer than this."""
    sys.setswitchinterval(SWITCH)
    app = importlib.import_module("ladder.app").made(site)
    waitress.serve(app, sockets=[heard], **options(site))


def options(site: Site) -> dict[str, Any]:
    """The limits of the web server. A proxy before it is on this machine, and says from where a request comes."""
    found = {"threads": THREADS, "ident": None, "max_request_body_size": BODY, "max_request_header_size": HEAD, "connection_limit": CONNECTIONS,
             "channel_timeout": IDLE, "url_scheme": "http", "clear_untrusted_proxy_headers": True}
    return found | ({"trusted_proxy": LOCAL, "trusted_proxy_headers": {"x-forwarded-for"}} if site.outside else {})


def play(given: argparse.Namespace) -> None:
    """The player. If somebody else plays the league, it waits for its turn. Whoever waits for an answer comes first."""
    os.nice(NICE)
    while True:
        try:
            players.run(given.script, given.league, given.crobots, given.jobs, lambda: None)
        except Fault as why:
            say(given.script, str(why))
            time.sleep(5)


class Keeper:
    """Keeps children alive. They end when it ends, however that is: each reads a pipe that ends then."""

    def __init__(self, name: str, works: list[Callable[[], None]]) -> None:
        self._name, self._works = name, works
        self._children: dict[int, int] = {}
        self._reading, self._writing = os.pipe()

    def keep(self) -> None:
        """Begins all, and begins again what ends, until a signal comes."""
        try:
            for at in range(len(self._works)):
                self._begin(at)
            while True:
                child, status = os.wait()
                at = self._children.pop(child)
                say(self._name, f"the {('server', 'player')[at]} ended with status {os.waitstatus_to_exitcode(status)}, and begins again")
                time.sleep(PAUSE)
                self._begin(at)
        finally:
            self._end()

    def _begin(self, at: int) -> None:
        """Begins a child. Signals wait until it is known here, and until it heeds them there: one that came beside the fork would be lost."""
        before = signal.pthread_sigmask(signal.SIG_BLOCK, ENDING)
        child = os.fork()
        if child == 0:
            self._be(self._works[at], before)
        self._children[child] = at
        signal.pthread_sigmask(signal.SIG_SETMASK, before)

    def _be(self, work: Callable[[], None], signals: Iterable[int]) -> None:
        """What a child does, once these signals alone wait: it never comes back."""
        status = 1
        try:
            os.close(self._writing)
            for number in heeded():
                signal.signal(number, stopped)
            signal.pthread_sigmask(signal.SIG_SETMASK, signals)
            threading.Thread(target=self._mourn, daemon=True).start()
            work()
            status = 0
        except (Fault, OSError) as why:
            say(self._name, str(why))
        except Stopped:
            status = 0
        finally:
            os._exit(status)

    def _mourn(self) -> None:
        """Ends a child when its keeper is gone."""
        os.read(self._reading, 1)
        os._exit(0)

    def _end(self) -> None:
        for child in self._children:
            with contextlib.suppress(OSError):
                os.kill(child, signal.SIGTERM)
        for child in self._children:
            with contextlib.suppress(OSError):
                os.waitpid(child, 0)


def stopped(number: int, _: FrameType | None) -> None:
    """Ends a child at once: all that was answered is on the disk."""
    os._exit(0)
