"""Who may do what: invitations, sessions, roles, origins, the audit."""

from __future__ import annotations

import http.client
import importlib
import os
import random
import re
import subprocess
import time
import zipfile
from contextlib import closing
from dataclasses import replace
from typing import Callable, Iterator
from unittest import mock

from ladder import serving
from ladder.attempts import Attempts
from ladder.inviting import settled
from ladder.terms import Terms
from leagues.store import opened
from leagues.words import TERMS, Words

from .base import IDLE, SECONDS, Answer, Base, Ladder, other

TOP = os.path.join(os.path.dirname(os.path.abspath(__file__)), "..", "..")
NOBODY, OTHER, AUTHOR, ORGANISER = "nobody", "another author", "the author", "the organiser"
ROLES = (NOBODY, OTHER, AUTHOR, ORGANISER)
# Each address, and what each role is answered. The robot is the author's, and one that left can't leave again.
ADDRESSES: dict[tuple[str, str], tuple[int, int, int, int]] = {
    ("GET", "/"): (200, 200, 200, 200), ("GET", "/tag"): (200, 200, 200, 200), ("GET", "/table"): (200, 200, 200, 200),
    ("GET", "/wall"): (200, 200, 200, 200), ("GET", "/site.css"): (200, 200, 200, 200), ("GET", "/ladder.css"): (200, 200, 200, 200),
    ("GET", "/ladder.js"): (200, 200, 200, 200), ("GET", "/join"): (200, 200, 200, 200), ("GET", "/mine"): (303, 200, 200, 200),
    ("GET", "/robots/mine"): (200, 200, 200, 200), ("GET", "/robots/mine/versions/1"): (404, 404, 200, 200),
    ("GET", "/replays/999/1"): (404, 404, 404, 404), ("GET", "/organiser"): (404, 404, 404, 200), ("GET", "/checklist"): (404, 404, 404, 200),
    ("GET", "/checklist.csv"): (404, 404, 404, 200), ("GET", "/workbench/"): (404, 404, 404, 404),
    ("GET", "/workbench/page.js"): (404, 404, 404, 404), ("GET", "/send.js"): (200, 200, 200, 200), ("POST", "/send"): (401, 422, 422, 422),
    ("POST", "/robots"): (401, 403, 200, 200), ("POST", "/check"): (401, 200, 200, 200), ("PUT", "/robots/mine"): (401, 403, 200, 200),
    ("POST", "/robots/mine/back"): (401, 403, 200, 200), ("POST", "/robots/mine/withdraw"): (401, 403, 200, 422),
    ("POST", "/organiser/invite"): (401, 404, 404, 200), ("POST", "/organiser/withdraw"): (401, 404, 404, 200),
    ("POST", "/join"): (401, 401, 401, 401), ("POST", "/leave"): (303, 303, 303, 303), ("POST", "/sign-up"): (429, 429, 429, 429),
}
FIELDS = {"/robots": {"robot": "mine", "source": other(2)}, "/check": {"robot": "mine", "source": other(2)}, "/robots/mine/back": {"version": "1"}, "/organiser/invite": {"name": "New"},
          "/organiser/withdraw": {"name": "New"}, "/join": {"token": "x"}, "/sign-up": {"name": "Sue"}}
WRITES = [path for method, path in ADDRESSES if method == "POST"]


def forgotten_at(tried: list[tuple[str, float]], address: str) -> int:
    """How many attempts there were when an address was forgotten last, as four others had tried since its own last attempt."""
    forgotten, others = 0, set[str]()
    for at, (by, _) in enumerate(tried, 1):
        others = set() if by == address else {*others, by}
        forgotten = at if len(others) >= 4 else forgotten
    return forgotten


class Authors(Base):
    """Tests of accounts and roles."""

    def each_address_answers_each_role(self) -> Iterator[str]:
        ladder, tokens = self._people("roles")
        ladder.ask("PUT", "/robots/mine", IDLE, token=tokens[AUTHOR])
        for (method, path), wanted in ADDRESSES.items():
            for role, status in zip(ROLES, wanted):
                found = self._asked(ladder, method, path, tokens[role])
                if found.status != status:
                    yield f"{method} {path} by {role}: {found.status}, not {status}: {found.text[:200]}"

    def no_address_is_without_a_row(self) -> Iterator[str]:
        app = importlib.import_module("ladder.app")
        shapes = {(method, re.sub(r"<name>", "mine", rule)) for rule, _, method in app.ROUTES}
        shapes = {(method, rule.replace("<int:seating>", "999").replace("<int:number>", "1").replace("<path:name>", "page.js")) for method, rule in shapes}
        yield from (f"{it} has no row" for it in sorted(shapes ^ {*ADDRESSES}))

    def each_threat_has_its_test(self) -> Iterator[str]:
        """The table of the page names tests, and each of them is there."""
        with open(os.path.join(TOP, "docs", "ladder.md"), encoding="utf-8") as file:
            rows = re.findall(r"^\|.*\|.*\|(.*)\|$", file.read().partition("## What may go wrong")[2], re.MULTILINE)[2:]
        parts = [importlib.import_module(f"ladder_tests.{name}") for name in ("authors", "crashes", "finals", "handing", "hostile", "passes", "proxies", "seeing", "showing", "working")]
        known = {name.replace("_", " ") for part in parts for it in vars(part).values() if isinstance(it, type) for name in vars(it)}
        yield from (f"there is no test {name}" for row in rows for name in re.findall("`([^`]*)`", row) if name not in known)
        yield from [] if len(rows) > 12 and all("`" in row for row in rows) else [f"{len(rows)} rows"]

    def a_page_of_another_origin_changes_nothing(self) -> Iterator[str]:
        ladder, tokens = self._people("origins")
        ladder.ask("PUT", "/robots/mine", IDLE, token=tokens[AUTHOR])
        cookie = ladder.joined(tokens[ORGANISER])
        before, port = ladder.written(), ladder.port
        origins = [None, "null", "", "http://127.0.0.1", f"http://127.0.0.1:{port + 1}", f"https://127.0.0.1:{port}", f"http://localhost:{port}",
                   f"http://127.0.0.1:{port}.evil.example", f"http://evil.example#http://127.0.0.1:{port}", f"HTTP://127.0.0.1:{port}/"]
        for path in WRITES:
            for origin in origins:
                answer = ladder.post(path, FIELDS.get(path, {}), cookie=cookie, origin=origin)
                if answer.status != 403:
                    yield f"{path} from {origin}: {answer.status}"
        answer = ladder.ask("PUT", "/robots/mine", other(3), token=tokens[AUTHOR], origin=origins[4])
        yield from [] if answer.status == 403 else [f"a token in the head, from another origin: {answer.status}"]
        yield from [] if ladder.written() == before else ["rows were changed"]

    def a_session_is_new_and_of_this_browser_alone(self) -> Iterator[str]:
        ladder, tokens = self._people("sessions")
        known = "crobots=AAAAAAAAAAAAAAAAAAAAAA"
        answer = ladder.post("/join", {"token": tokens[AUTHOR]}, cookie=known)
        heads = answer.heads["set-cookie"]
        if answer.cookie == known or not re.fullmatch("crobots=[A-Za-z0-9_-]{22}", answer.cookie):
            yield f"a browser kept its cookie: {answer.cookie}"
        if not ("HttpOnly" in heads and "SameSite=Strict" in heads) or "Secure" in heads:
            yield f"over http: {heads}"
        if answer.cookie.partition("=")[2] == tokens[AUTHOR] or ladder.joined(tokens[AUTHOR]) == answer.cookie:
            yield "a session is the link's token, or that of another browser"
        if ladder.ask("GET", "/mine", token=answer.cookie.partition("=")[2]).status != 303:
            yield "a session's token is taken in the head"
        if ladder.ask("GET", "/mine", cookie=f"crobots={tokens[AUTHOR]}").status != 303:
            yield "a link's token is taken as a cookie"
        ladder.post("/leave", cookie=answer.cookie)
        if ladder.ask("GET", "/mine", cookie=answer.cookie).status != 303:
            yield "who left is still there"

    def by_tls_a_cookie_is_secure(self) -> Iterator[str]:
        ladder = self._made("tls")
        ladder.begin("https://league.example", "/sub")
        token = ladder.author("Ann")
        answer = ladder.post("/join", {"token": token}, origin="https://league.example")
        heads = answer.heads.get("set-cookie", "")
        if not ("Secure" in heads and "Path=/sub/" in heads and answer.heads.get("location") == "/sub/mine"):
            yield f"{answer.status} {heads} {answer.heads.get('location')}"
        if ladder.post("/join", {"token": token}).status != 403:
            yield "the inner address is taken for the outer one"

    def a_withdrawn_or_renewed_link_is_none(self) -> Iterator[str]:
        ladder = self._ladder()
        old = ladder.author("Renée")
        cookie = ladder.joined(old)
        new = ladder.author("Rene\u0301e")
        for what, answer in (("link", ladder.ask("PUT", "/robots/r", IDLE, token=old)), ("session", ladder.ask("PUT", "/robots/r", IDLE, cookie=cookie, origin=ladder.here))):
            if answer.status != 401:
                yield f"the {what} before the new link: {answer.status}"
        if ladder.ask("GET", "/mine", token=new).status != 200:
            yield "the new link isn't taken"
        ladder.post("/organiser/withdraw", {"name": "Renée"}, token=ladder.organiser)
        if ladder.ask("GET", "/mine", token=new).status != 303:
            yield "the withdrawn link is taken"

    def no_token_is_kept_or_published(self) -> Iterator[str]:
        ladder = self._new("kept")
        token = ladder.author("Tom")
        cookie = ladder.joined(token).partition("=")[2]
        ladder.ask("PUT", "/robots/own", IDLE, token=token)
        ladder.terms(readers="all")
        files = [path for path in (f"{ladder.folder}/league.db", f"{ladder.folder}/league.db-wal") if os.path.exists(path)]
        text = b"".join(open(path, "rb").read() for path in files)
        yield from (f"the database has a token: {what}" for what, it in (("link", token), ("session", cookie), ("organiser", ladder.organiser)) if it.encode() in text)
        ladder.run("publish", self._at("site"))
        archive = next(os.path.join(folder, name) for folder, _, names in os.walk(self._at("site")) for name in names if name.endswith(".zip"))
        with zipfile.ZipFile(archive) as it:
            yield from (f"the archive has {name}" for name in it.namelist() if "ladder" in name)

    def the_organiser_s_token_is_said_once(self) -> Iterator[str]:
        ladder = self._made("once")
        ladder.serve()
        first = ladder.organiser
        ladder.end()
        ladder.organiser = "known"
        ladder.serve()
        assert ladder.process and ladder.process.stdout
        if not first or ladder.ask("GET", "/organiser", token=first).status != 200:
            yield f"the token {first!r} isn't the organiser's"
        ladder.process.terminate()
        if rest := ladder.process.stdout.read():
            yield f"said again: {rest}"

    def without_its_packages_only_serve_ends(self) -> Iterator[str]:
        """With a module that can't be imported: it says which package to install, and all other commands of the ladder work."""
        ladder = self._made("lacking")
        for module, package in serving.NEEDED.items():
            folder = self._at(f"without-{module}")
            os.makedirs(folder)
            with open(f"{folder}/{module}.py", "w", encoding="utf-8") as file:
                file.write("raise ImportError('it is not here')\n")
            it = Ladder(ladder.folder, self._environment | {"PYTHONPATH": folder})
            if (said := it.run("serve", "--port", "0", status=2)) != f"league: serve needs {module}: apt-get install {package}\n":
                yield said
            for words in (("status",), ("table",), ("invite", "--author", "Ann"), ("terms", "--robots", "4"), ("final", "--announce")):
                it.run(*words)

    def a_public_ladder_says_where_others_reach_it(self) -> Iterator[str]:
        """An address of this machine by which it has an own network, if it has one; else one that reaches no other machine."""
        known = subprocess.run(["hostname", "-I"], capture_output=True, text=True, check=False).stdout.split()
        for words, wanted in (((), {"127.0.0.1"}), (("--public",), {it for it in known if ":" not in it} or {"127.0.0.1"})):
            ladder = self._made(f"public{len(words)}")
            ladder.serve(*words)
            found = re.search("http://([0-9.]+):", ladder.said)
            if not found or found[1] not in wanted:
                yield f"{words}: {ladder.said}"
                continue
            with closing(http.client.HTTPConnection(found[1], ladder.port, timeout=SECONDS)) as line:
                line.request("GET", "/tag")
                if line.getresponse().status != 200:
                    yield f"{words}: {found[1]} doesn't answer"

    def who_guesses_has_to_wait(self) -> Iterator[str]:
        ladder, tokens = self._people("guesses")
        found = [ladder.ask("PUT", "/robots/x", IDLE, token=f"guess{at}").status for at in range(25)]
        if found != [401] * 20 + [429] * 5:
            yield f"{found}"
        if ladder.ask("PUT", "/robots/x", IDLE, token=tokens[AUTHOR]).status != 429 or ladder.post("/join", {"token": tokens[AUTHOR]}).status != 429:
            yield "a right token is told from a wrong one meanwhile"
        if ladder.ask("GET", "/").status != 200:
            yield "a reader has to wait, too"

    def who_guesses_at_the_form_has_to_wait(self) -> Iterator[str]:
        ladder, tokens = self._people("forms")
        found = [ladder.post("/join", {"token": f"guess{at}"}).status for at in range(21)]
        if found != [401] * 20 + [429] or ladder.post("/join", {"token": tokens[AUTHOR]}).status != 429:
            yield f"{found}"

    def who_waited_a_minute_may_try_again(self) -> Iterator[str]:
        """By a clock of the test: three attempts within a minute are many, each counts for a minute, and nobody's are another's."""
        now, it = [1000.0], Attempts(3)
        with mock.patch("ladder.attempts.time.monotonic", lambda: now[0]), mock.patch("ladder.attempts.SECONDS", 60.0):
            for second, counts, wanted in ((0, 1, False), (10, 1, False), (20, 1, True), (59, 0, True), (61, 0, False), (62, 1, True), (71, 0, False), (200, 0, False)):
                now[0] = 1000.0 + second
                for _ in range(counts):
                    it.count("one")
                if (it.are_many("one"), it.are_many("another")) != (wanted, False):
                    yield f"after {second} seconds: {it.are_many('one')}, {it.are_many('another')}"

    def any_attempts_of_many(self) -> Iterator[str]:
        """Of drawn attempts by six addresses, of which four are kept, those that tried last: by a plain list of all attempts. So who tries
        on isn't forgotten, however many others try once."""
        draw, now = random.Random(83), [1000.0]
        with mock.patch("ladder.attempts.time.monotonic", lambda: now[0]), mock.patch("ladder.attempts.SECONDS", 60.0), mock.patch("ladder.attempts.ADDRESSES", 4):
            for _ in range(300):
                most, tried = draw.randint(1, 4), list[tuple[str, float]]()
                it = Attempts(most)
                for _ in range(40):
                    now[0] += draw.choice((0, 1, 1, 20, 61))
                    one = draw.choice("aaabcdef")
                    it.count(one)
                    tried.append((one, now[0]))
                    for address in "abcdef":
                        many = sum(by == address and at > now[0] - 60 for by, at in tried[forgotten_at(tried, address):])
                        if it.are_many(address) != (many >= most):
                            yield f"{tried}, {address}: {it.are_many(address)}"
                            return

    def an_old_session_is_none(self) -> Iterator[str]:
        """After thirty days a browser has to join again. A link has no such end."""
        ladder, tokens = self._people("old")
        cookie = ladder.joined(tokens[AUTHOR])
        for days, wanted in ((29, 200), (31, 303)):
            with opened(ladder.folder) as store, store.change():
                store.run("UPDATE ladder_token SET made = ?", time.time() - days * 86400)
            found = ladder.ask("GET", "/mine", cookie=cookie).status, ladder.ask("GET", "/mine", token=tokens[AUTHOR]).status
            if found != (wanted, 200):
                yield f"{days} days: {found}"

    def sign_up_has_a_cap(self) -> Iterator[str]:
        ladder = self._new("sign")
        ladder.terms(sign_up=2)
        answers = [ladder.post("/sign-up", {"name": name}, Accept="text/html") for name in ("Ann", "ann", "organiser", "Bob", "Cid")]
        if [it.status for it in answers] != [200, 422, 422, 200, 429]:
            yield f"{[it.status for it in answers]}"
        token = re.search(r"join#([\w-]{22})", answers[0].text)
        if not token or ladder.ask("PUT", "/robots/a", IDLE, token=token[1]).status != 200:
            yield "the link of the sign-up isn't taken"

    def each_write_is_in_the_audit(self) -> Iterator[str]:
        ladder, tokens = self._people("audit")
        done: list[Callable[[], Answer]] = [
            lambda: ladder.ask("PUT", "/robots/mine", IDLE, token=tokens[AUTHOR]), lambda: ladder.ask("PUT", "/robots/mine", other(1), token=tokens[AUTHOR]),
            lambda: ladder.post("/robots/mine/back", {"version": "1"}, token=tokens[AUTHOR]), lambda: ladder.post("/robots/mine/withdraw", token=tokens[AUTHOR]),
            lambda: ladder.post("/join", {"token": tokens[AUTHOR]}), lambda: ladder.post("/organiser/invite", {"name": "New"}, token=tokens[ORGANISER]),
            lambda: ladder.post("/organiser/withdraw", {"name": "New"}, token=tokens[ORGANISER]),
            lambda: ladder.post("/leave", cookie=cookie), lambda: ladder.post("/leave", cookie=cookie)]
        cookie = ladder.joined(tokens[AUTHOR])
        first = ladder.rows("SELECT max(number) FROM ladder_audit")[0][0]
        statuses = [it().status for it in done]
        found = ladder.rows("SELECT who, what, of FROM ladder_audit WHERE number > ? ORDER BY number", first)
        wanted = [("Ann", "hand in", "mine"), ("Ann", "hand in", "mine"), ("Ann", "hand in", "mine"), ("Ann", "withdraw", "mine"), ("Ann", "join", ""),
                  ("organiser", "invite", "New"), ("organiser", "withdraw link", "New"), ("Ann", "leave", "")]
        if found != wanted:
            yield f"{statuses}: {found}"
        addresses = {it for it, in ladder.rows("SELECT address FROM ladder_audit WHERE number > ?", first)}
        if len(addresses) != 1 or not re.fullmatch("[0-9a-f]{16}", addresses.pop()):
            yield "addresses aren't hashes"

    def a_sheet_has_a_link_for_each(self) -> Iterator[str]:
        text = self._ladder().run("invite", "--count", "25", "--group", "7b", "--url", "http://host:1/")
        links = re.findall(r"^http://host:1/join#([\w-]{22})$", text, re.MULTILINE)
        if len({*links}) != 25 or text.count("- - -\n") != 25:
            yield f"{len(links)} links: {text[:200]}"

    def words_that_don_t_go_together(self) -> Iterator[str]:
        ladder = self._ladder()
        for words, wanted in ((("invite", "--author", "A", "--count", "2"), "--author is for one author"), (("invite", "--withdraw"), "--withdraw wants --author"),
                              (("terms", "--opens=2026-03-02", "--closes=2026-03-01"), "can't close before it opens"),
                              (("invite", "--author", "organiser"), "it isn't 'organiser'"), (("invite", "--author", "a\x07b"), "an author's name"),
                              (("invite", "--author", "Nobody", "--withdraw"), "there is no author Nobody")):
            said = ladder.run(*words, status=2)
            if said.count("\n") > 2 or "\x07" in said or wanted not in said:
                yield f"{words}: {said!r}"

    def the_command_line_makes_and_withdraws_links(self) -> Iterator[str]:
        ladder = self._new("commands")
        link = re.fullmatch(r"Ann: http://127\.0\.0\.1:8080/join#([\w-]{22})\n", ladder.run("invite", "--author", "Ann"))
        if not link or ladder.ask("GET", "/mine", token=link[1]).status != 200:
            yield "the link isn't taken"
        if not re.fullmatch(r"author 2: http\S+\n", said := ladder.run("invite")):
            yield said
        ladder.run("invite", "--author", "Ann", "--withdraw")
        if link and ladder.ask("GET", "/mine", token=link[1]).status != 303:
            yield "the withdrawn link is taken"
        if "robots: 2\n" not in ladder.run("terms", "--robots", "2", "--names", "hidden") or "names: hidden\n" not in ladder.run("terms"):
            yield "terms don't stay"

    def each_term_gets_each_value(self) -> Iterator[str]:
        """Whatever it was before, also nothing; what isn't given stays."""
        before = Terms(names=False, opens="2026-01-01", closes="2026-02-01", **{name.replace("-", "_"): 7 for name in TERMS})
        cases: list[tuple[str, str, object]] = [(name, str(value), value) for name, (most, _) in TERMS.items() for value in (0, 1, most)]
        cases += [("names", "shown", True), ("names", "hidden", False), ("readers", "all", "all"), ("readers", "author", "author"),
                  *((name, "2026-01-15", "2026-01-15") for name in ("opens", "closes"))]
        for name, word, value in cases:
            given = Words("league").parse(["terms", "league", f"--{name}={word}"])
            for start in (before, Terms()):
                if (found := settled(start, given)) != (wanted := replace(start, **{name.replace("-", "_"): value})):
                    yield f"--{name}={word}: {found}, not {wanted}"

    def _people(self, name: str) -> tuple[Ladder, dict[str, str]]:
        """A ladder of its own, with the tokens of all roles."""
        ladder = self._new(name)
        return ladder, {NOBODY: "", OTHER: ladder.author("Bob"), AUTHOR: ladder.author("Ann"), ORGANISER: ladder.organiser}

    def _asked(self, ladder: Ladder, method: str, path: str, token: str) -> Answer:
        """Asks an address with what it wants."""
        if method == "POST":
            return ladder.post(path, FIELDS.get(path, {}), token=token)
        return ladder.ask(method, path, other(4) if method == "PUT" else None, token=token)
