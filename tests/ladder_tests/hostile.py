"""Hostile requests by a generator with seeds: each is answered, none by 500, and nobody without a right changes a row."""

from __future__ import annotations

import contextlib
import html.parser
import os
import random
import socket
import subprocess
from typing import Iterator

from harness import loaded
from ladder import judging, players, serving
from ladder.players import limited
from tournaments.programs import program

from .base import IDLE, SECONDS, Base, Ladder, other

# How many requests of each seed; by hand LADDER_REQUESTS makes them 100,000.
REQUESTS = int(os.environ.get("LADDER_REQUESTS", "1200"))
SEED = int(os.environ.get("LADDER_SEED", "1"))
# How many sources are drawn; by hand LADDER_SOURCES makes them 2,000.
SOURCES = int(os.environ.get("LADDER_SOURCES", "60"))
METHODS = [b"GET", b"POST", b"PUT", b"HEAD", b"DELETE", b"PATCH", b"OPTIONS", b"TRACE", b"CONNECT", b"get", b"G\0T", b"\xff", b"", b"POST" * 99]
PIECES = [b"", b"robots", b"mine", b"organiser", b"invite", b"withdraw", b"checklist.csv", b"join", b"leave", b"sign-up", b"replays", b"versions", b"back",
          b"1", b"0", b"-1", b"99999999999999999999999", b"..", b"%2e%2e", b"%2f", b"%00", b"%ff", b"%", b"etc/passwd", b"<script>", b"'--", b"\xc3\xa9", b"a" * 3000,
          b"league.db", b"ladder.js", b"static", b"robots/mine/versions/1", b"?x=1&x=2", b"#t", b";", b"\\"]
HEADS = [b"Host: 127.0.0.1", b"Host: evil.example", b"Host: a\tb", b"Origin: null", b"Origin: http://127.0.0.1", b"Authorization: Bearer x",
         b"Authorization: Bearer " + b"\xff" * 40, b"Authorization: Basic eDp4", b"Cookie: crobots=x", b"Cookie: crobots=x; crobots=y", b"Cookie: " + b";" * 500,
         b"Content-Type: multipart/form-data", b"Content-Type: multipart/form-data; boundary=x", b"Content-Type: multipart/form-data; boundary=" + b"x" * 999,
         b"Content-Type: application/x-www-form-urlencoded", b"Content-Type: application/json", b"Content-Type: \xff/\0", b"Transfer-Encoding: chunked",
         b"Transfer-Encoding: gzip, chunked", b"Transfer-Encoding: xchunked", b"Content-Encoding: gzip", b"Expect: 100-continue", b"Accept: text/html",
         b"X-Forwarded-For: 1.2.3.4", b"X-Forwarded-Proto: https", b"Connection: keep-alive", b"Upgrade: websocket", b"Range: bytes=0-1", b"no colon", b" folded: x",
         b"X: " + b"y" * 20_000, b"If-None-Match: *", b"Content-Length: 5", b"Content-Length: -1", b"Content-Length: 99999999999", b"Content-Length: x"]
BODIES = [b"", b"x" * 5, b"--x\r\nContent-Disposition: form-data; name=\"token\"\r\n\r\nx\r\n--x--\r\n", b"--x\r\n" * 200, b"a=1&" * 2000, b"\0" * 4000,
          b"5\r\nhello\r\n0\r\n\r\n", b"ffffffffffffffff\r\n", b"\x1f\x8b\x08\0\0\0\0\0", b"{" * 3000, b"source=%ff%fe", b"x" * 300_000]
# What a page would run if it weren't escaped.
SCRIPTS = ["<script>alert(1)</script>", "\"><img src=x onerror=alert(1)>", "'><svg/onload=alert(1)>", "</pre></td><iframe src=javascript:alert(1)>", "&lt;b&gt;",
           "javascript:alert(1)", "{{7*7}}", "a & b <b>"]
# Attributes that lead somewhere: all of them to this server.
LEADING = {"href", "src", "action", "formaction", "srcdoc", "data", "xlink:href"}
ELEMENTS = set("html head meta link title script body a header div nav main section h1 h2 h3 p table caption thead tbody tr th td bdi small form input label button "
               "textarea pre code span ul li dl dt dd svg polyline text iframe".split())


class Hostile(Base):
    """Tests of requests that nobody should send."""

    def no_request_is_answered_by_500(self) -> Iterator[str]:
        ladder, _ = self._two("requests")
        before, chance = ladder.written(), random.Random(SEED)
        for at in range(REQUESTS):
            asked = request(chance)
            answer = sent(ladder.port, asked)
            if answer.startswith(b"HTTP/1.1 500") or answer.startswith(b"HTTP/1.1 2") and not asked.startswith((b"GET", b"HEAD", b"OPTIONS")):
                yield f"request {at}: {asked[:300]!r}: {answer[:80]!r}"
        if ladder.ask("GET", "/").status != 200:
            yield "it answers no more"
        if ladder.written() != before:
            yield "rows were changed"

    def an_author_changes_his_own_robots_alone(self) -> Iterator[str]:
        """Random hand-ins with a right token: random bytes, words of the language in any order, and names of any kind."""
        ladder, token = self._two("sources")
        ladder.terms(robots=40, versions=10_000)
        chance, theirs = random.Random(SEED), ladder.rows("SELECT * FROM entry")
        for at in range(60):
            name = chance.choice(["MINE", "mine", "own", f"r{chance.randrange(30)}", "%2e%2e", "a%2fb", "x" * 99, "con", "%00", "r.r.r"])
            answer = ladder.ask("PUT", f"/robots/{name}", source(chance), token=token)
            if answer.status not in (200, 403, 404, 413, 422, 429):
                yield f"{name}: {answer.status} {answer.text[:200]}"
        if ladder.rows("SELECT * FROM entry LIMIT 1") != theirs:
            yield "the first entry was changed"
        whose = ladder.rows("SELECT count(*) FROM entry WHERE robot NOT IN (SELECT robot FROM ladder_owner JOIN ladder_author ON number = author WHERE name = 'Bob')")
        if whose != [(1,)]:
            yield f"{whose} entries are of others' robots"

    def sources_of_strangers_are_taken_or_explained(self) -> Iterator[str]:
        """At all limits of the language, whose answers are known; and drawn by the grammar, half of them spoiled, by the compiler's own answer."""
        ladder, token = self._two("strangers")
        ladder.terms(versions=1_000_000, quota=10_000)
        known = [(it.source, not it.is_faulty) for it in loaded("hostile_sources").CASES if it.profile == 1 and len(it.source) < serving.BODY]
        for at, (text, is_good) in enumerate([*known, *self._drawn(SOURCES)]):
            answer = ladder.ask("PUT", "/robots/r", text, token=token)
            wanted = 413 if len(text) > 65_536 else 200 if is_good else 422
            if answer.status != wanted or not answer.text.strip():
                yield f"source {at}, {text[:80]!r}: {answer.status} {answer.text[:200]}, not {wanted}"

    def _drawn(self, count: int) -> Iterator[tuple[bytes, bool]]:
        """Sources of the generator of random sources, and whether each compiles."""
        made, chance, path = loaded("random_sources"), random.Random(SEED), self._at("drawn.r")
        for _ in range(count):
            text = made.Robots(chance).source().encode()
            if chance.random() < 0.5:
                text = made.spoiled(chance, text)
            with open(path, "wb") as file:
                file.write(text)
            yield text, not subprocess.run(["crobots", "-c", path], env=self._environment, capture_output=True, check=False).returncode

    def no_name_becomes_a_script(self) -> Iterator[str]:
        """In each field that a stranger fills in, and on each page that shows it."""
        ladder = self._new("scripts")
        ladder.terms(sign_up=1000)
        for at, text in enumerate(SCRIPTS):
            ladder.post("/organiser/invite", {"name": text, "team": text}, token=ladder.organiser)
            token = ladder.author(f"{text} 2")
            answers = [ladder.post("/sign-up", {"name": f"{text} 3"}), ladder.ask("PUT", f"/robots/s{at}", f"/*{text}*/{IDLE}", token=token),
                       ladder.post("/robots", {"robot": text, "source": IDLE}, token=token, Accept="text/html"),
                       ladder.post("/robots", {"robot": "bad", "source": f"main(){{{text}}}"}, token=token, Accept="text/html"),
                       ladder.post("/organiser/withdraw", {"name": text}, token=ladder.organiser, Accept="text/html"),
                       *(ladder.ask("GET", path, token=ladder.organiser) for path in ("/", "/wall", "/organiser", "/checklist", f"/robots/s{at}", "/mine"))]
            for it in answers:
                if it.heads["content-type"].startswith("text/html"):
                    yield from (f"{text}: {why}" for why in Elements(it.text).wrong)
        if (shown := ladder.ask("GET", "/organiser", token=ladder.organiser).text).count("&lt;script&gt;alert(1)&lt;/script&gt;") < 3:
            yield f"the names aren't shown: {shown[:300]}"

    def each_answer_has_the_heads(self) -> Iterator[str]:
        ladder, token = self._two("heads")
        for path in ("/", "/tag", "/table", "/wall", "/join", "/mine", "/organiser", "/nothing", "/robots/mine", "/ladder.js", "/site.css"):
            heads = ladder.ask("GET", path, token=token).heads
            if heads.get("x-content-type-options") != "nosniff" or "unsafe" in heads.get("content-security-policy", "unsafe") or "server" in heads:
                yield f"{path}: {heads}"

    def large_bodies_aren_t_read(self) -> Iterator[str]:
        """A body that is too large is refused by its length: nothing of it is ever sent here."""
        ladder, token = self._two("large")
        head = f"PUT /robots/x HTTP/1.1\r\nHost: a\r\nAuthorization: Bearer {token}\r\nContent-Length: 1000000000\r\n\r\n".encode()
        answer = sent(ladder.port, head, is_whole=False)
        if not answer.startswith(b"HTTP/1.1 413"):
            yield f"{answer[:80]!r}"
        parts = {f"f{at}": "x" for at in range(200)}
        if (status := ladder.post("/robots", parts, token=token).status) != 413:
            yield f"200 parts: {status}"

    def large_heads_are_refused(self) -> Iterator[str]:
        """By its bytes, whether it ends or not. What comes after so many isn't read: who sends more may lose the answer by it, and has none
        but this one."""
        ladder, _ = self._two("large-heads")
        for size, ends, wanted in ((serving.HEAD - 1, True, {b" 200"}), (serving.HEAD, True, {b" 431"}), (serving.HEAD, False, {b" 431"}),
                                   (serving.HEAD + 1000, True, {b" 431", b""}), (20 * serving.HEAD, False, {b" 431", b""})):
            answer = sent(ladder.port, head(size, ends), is_whole=ends)
            if answer[8:12] not in wanted:
                yield f"{size} bytes, {'with' if ends else 'without'} an end: {answer[:80]!r}"

    def slow_clients_stop_nobody(self) -> Iterator[str]:
        """Sixty clients that don't end their request, on eight threads: a reader is answered, and they are, too, when they go on."""
        before = serving.IDLE
        try:
            serving.IDLE = 10 * SECONDS
            ladder, _ = self._two("slow")
        finally:
            serving.IDLE = before
        with contextlib.ExitStack() as stack:
            them = [stack.enter_context(socket.create_connection(("127.0.0.1", ladder.port), timeout=SECONDS)) for _ in range(60)]
            for it in them:
                it.sendall(b"POST /join HTTP/1.1\r\nHost: a\r\nContent-Length: 2\r\n\r\nx")
            if (status := ladder.ask("GET", "/").status) != 200:
                yield f"a reader: {status}"
            for at, it in enumerate(them):
                it.sendall(b"x")
                if not (answer := it.recv(1000)).startswith(b"HTTP/1.1 403"):
                    yield f"client {at}: {answer[:80]!r}"

    def what_runs_has_limits(self) -> Iterator[str]:
        """Compiler and player: of the processor's time, of memory, of files. A program that writes a file is stopped."""
        path = self._at("written")
        player = limited(program("/bin/sh"), self._folder).path
        for name, begin, seconds, memory in (("compiler", [], judging.SECONDS, judging.MEMORY), ("player", [player], players.SECONDS, players.MEMORY)):
            words = begin or ["sh"]
            said = subprocess.run([*words, "-c", "ulimit -t; ulimit -v; ulimit -f"], capture_output=True, text=True, check=False).stdout.split() if begin else \
                judging.ran([*words, "-c", "ulimit -t; ulimit -v; ulimit -f"]).stdout.decode().split()
            if said != [str(seconds), str(memory), "0"]:
                yield f"{name}: {said}"
            write = [*words, "-c", f"echo x > {path}"]
            if not (subprocess.run(write, capture_output=True, check=False) if begin else judging.ran(write)).returncode or os.path.exists(path) and os.path.getsize(path):
                yield f"{name} wrote a file"

    def a_head_gives_nobody_another_address(self) -> Iterator[str]:
        """Without a proxy nobody says from where he comes."""
        ladder, _ = self._two("heads-of-proxies")
        found = [ladder.ask("PUT", "/robots/x", IDLE, token="wrong", X_Forwarded_For=f"10.0.0.{at}").status for at in range(25)]
        if found[-1] != 429:
            yield f"{found}"

    def _two(self, name: str) -> tuple[Ladder, str]:
        """A ladder with a robot of one author, and the token of another."""
        ladder = self._new(name)
        ladder.ask("PUT", "/robots/mine", IDLE, token=ladder.author("Ann"))
        return ladder, ladder.author("Bob")


class Elements(html.parser.HTMLParser):
    """What of a page no page of the ladder has."""

    def __init__(self, text: str) -> None:
        super().__init__()
        self.wrong: list[str] = []
        self.feed(text)

    def handle_starttag(self, tag: str, attrs: list[tuple[str, str | None]]) -> None:
        told = dict(attrs)
        runs = [name for name, value in attrs if name.startswith("on") or name == "style" or name in LEADING and not (value or "").startswith(("/", "#content", "data:,", "http://127.0.0.1:"))]
        if tag not in ELEMENTS or runs or tag == "script" and (told.keys() != {"src", "defer"} or told["src"] != "/ladder.js"):
            self.wrong.append(f"<{tag} {attrs}>")

    def handle_startendtag(self, tag: str, attrs: list[tuple[str, str | None]]) -> None:
        self.handle_starttag(tag, attrs)


def request(chance: random.Random) -> bytes:
    """A request of random parts."""
    path = b"/" + b"/".join(chance.choices(PIECES, k=chance.randrange(4)))
    body, heads = chance.choice(BODIES), chance.choices(HEADS, k=chance.randrange(5))
    if chance.random() < 0.6:
        heads.append(b"Content-Length: %d" % len(body))
    version = chance.choice([b"HTTP/1.1", b"HTTP/1.1", b"HTTP/1.0", b"HTTP/9.9", b""])
    asked = b"\r\n".join([b" ".join([chance.choice(METHODS), path, version]), *heads, b"", body])
    if chance.random() < 0.1:
        place = chance.randrange(len(asked))
        asked = asked[:place] + bytes([chance.randrange(256)]) + asked[place + 1:]
    return asked


def head(size: int, ends: bool) -> bytes:
    """A head of so many bytes, with its end or without."""
    begin, end = b"GET / HTTP/1.1\r\nHost: a\r\nX: ", b"\r\n\r\n" if ends else b""
    return begin + b"y" * (size - len(begin) - len(end)) + end


def sent(port: int, asked: bytes, is_whole: bool = True) -> bytes:
    """The beginning of what is answered; nothing if there is no answer, or it was lost as the server closed before all was read. What
    isn't whole might go on."""
    with socket.create_connection(("127.0.0.1", port), timeout=SECONDS) as line:
        with contextlib.suppress(OSError):
            line.sendall(asked)
            if is_whole:
                line.shutdown(socket.SHUT_WR)
        with contextlib.suppress(OSError):
            return line.recv(1000)
    return b""


def source(chance: random.Random) -> bytes:
    """A source of random bytes, of words in any order, or a right one."""
    words = b"main ( ) { } if else while return int ; , = + - * / % < > 1 99999 scan cannon a b /* */ \x1a".split(b" ")
    kind = chance.randrange(4)
    if kind == 0:
        return chance.randbytes(chance.randrange(3000))
    if kind == 1:
        return b" ".join(chance.choices(words, k=chance.randrange(1, 800)))
    if kind == 2:
        return b"main(){" + chance.choice([b"(", b"{", b"-", b"if(1)", b"a=", b"f("]) * chance.randrange(20_000) + b"}"
    return other(chance.randrange(1000)).encode()
