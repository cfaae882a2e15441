"""The page that plays as the ladder's workbench: what it may reach, and what Send answers."""

from __future__ import annotations

import html.parser
import itertools
import json
import os
import re
import shutil
import subprocess
from typing import Iterator

from browsers import chromium
from harness import skip
from ladder import workbench
from packages import lacking
from webs.laying import lay

from .base import BAD, HERE, IDLE, SECONDS, SHOOTER, Base, Ladder
from .windows import Driver, Window, chromium_driver, tries

# What of the page nobody may leave out: it runs no script but its own, and its forms lead nowhere.
WANTED = {"default-src": "'none'", "form-action": "'none'", "base-uri": "'none'", "frame-ancestors": "'none'", "worker-src": "blob:"}
OUTSIDE = ("../ladder.js", "..%2fladder.js", "%2e%2e/ladder.js", "/etc/passwd", "%2fetc%2fpasswd", "pages", "pages/", "nothing", "index.html/", "codemirror/../../web.wasm")
# Asks from a page: what its policy forbids fails before it is sent.
ASK = "fetch('%s', {method: 'POST'}).then(it => it.status, () => 'forbidden')"


class Working(Base):
    """Tests of the workbench, which is laid with a module that isn't one: no match is played in it."""

    _RULES = ("-l5000", "-m", "4")

    def the_page_reaches_send_alone(self) -> Iterator[str]:
        """By its policy, which is a head. No script stands in the page, and each one is of this server."""
        for outside, prefix, origin in (("", "", ""), ("https://league.example", "/sub", "https://league.example")):
            ladder = self._served(f"reach{len(prefix)}", outside, prefix)
            answer = ladder.ask("GET", "/workbench/")
            told = dict((it.split(" ", 1) for it in answer.heads["content-security-policy"].split("; ")))
            wanted = WANTED | {"connect-src": f"{origin or ladder.here}{prefix}/send"}
            yield from (f"{name} is {told.get(name)}, not {value}" for name, value in wanted.items() if told.get(name) != value)
            if "unsafe-inline" in told["script-src"] or "unsafe-eval" in told["script-src"].replace("wasm-unsafe-eval", "") or "http" in told["script-src"]:
                yield f"script-src {told['script-src']}"
            if "http-equiv" in answer.text or Scripts(answer.text).found != ["data.js", "page.js", "start.js", "../send.js"]:
                yield f"scripts: {Scripts(answer.text).found}"
            if answer.status != 200 or not answer.heads["content-type"].startswith("text/html"):
                yield f"{answer.status} {answer.heads}"

    def other_pages_of_it_reach_nothing(self) -> Iterator[str]:
        ladder = self._served("others")
        for name in ("embed.html", "manual.html", "about.html", "pages/field.html", "page.js", "page.css"):
            answer = ladder.ask("GET", f"/workbench/{name}")
            policy = answer.heads["content-security-policy"]
            if answer.status != 200 or "connect-src" in policy or "default-src 'none'" not in policy or "frame-ancestors 'none'" not in policy:
                yield f"{name}: {answer.status} {policy}"
            with open(os.path.join(self._page(), name), encoding="utf-8") as file:
                if answer.text != file.read():
                    yield f"{name} is another one"

    def no_other_file_is_served(self) -> Iterator[str]:
        ladder = self._served("files")
        for name in OUTSIDE:
            answer = ladder.ask("GET", f"/workbench/{name}")
            if answer.status not in (404, 308) or answer.status == 308 and ladder.ask("GET", answer.heads["location"]).status != 404:
                yield f"{name}: {answer.status} {answer.text[:80]!r}"

    def a_host_that_is_none_reaches_nothing(self) -> Iterator[str]:
        """Whoever names the host of a request otherwise doesn't get another directive into the policy."""
        ladder = self._served("hosts")
        for host in ("a;script-src *", "a b", "a'b", "*"):
            policy = ladder.ask("GET", "/workbench/", Host=host).heads.get("content-security-policy", "")
            if "connect-src" in policy or policy.count("script-src") > 1:
                yield f"{host}: {policy}"

    def send_answers_in_words(self) -> Iterator[str]:
        """What is taken, and what a fault is, in the words that a form answers with."""
        ladder = self._served("send")
        cookie = ladder.joined(ladder.author("Ann"))
        fault = ladder.post("/robots", {"robot": "own", "source": BAD}, cookie=cookie)
        for text, wanted in ((BAD, (422, False, fault.text)), (IDLE, (200, True, "taken: own, version 1\n")), (IDLE, (200, True, "taken: own, version 1\n")),
                             ("", (422, False, "the source is empty\n")), (f"/*\r\n\t\u00e9*/{IDLE}", (200, True, "taken: own, version 2\n"))):
            it = ladder.ask("POST", "/send?robot=own.r", text.encode(), cookie=cookie, origin=ladder.here)
            found = it.status, *(json.loads(it.text)[name] for name in ("taken", "words"))
            if (*found[:2], f"{found[2]}\n") != wanted or it.heads["content-type"] != "application/json":
                yield f"{text!r}: {found}, not {wanted}"
        kept = ladder.rows("SELECT bytes FROM source JOIN entry USING (sha256) ORDER BY number DESC LIMIT 1")
        if kept != [(f"/*\r\n\t\u00e9*/{IDLE}".encode(),)]:
            yield f"{kept}"

    def send_wants_a_right(self) -> Iterator[str]:
        ladder = self._served("rights")
        cookie = ladder.joined(ladder.author("Ann"))
        ladder.ask("POST", "/send?robot=own", IDLE, cookie=cookie, origin=ladder.here)
        other, before = ladder.joined(ladder.author("Bob")), ladder.written()
        for given, origin, status in (("", ladder.here, 401), ("crobots=x", ladder.here, 401), (cookie, "http://evil.example", 403), (cookie, None, 403),
                                      (cookie, "null", 403), (other, ladder.here, 403)):
            answer = ladder.ask("POST", "/send?robot=own", "main(){}", cookie=given, origin=origin)
            if answer.status != status:
                yield f"{given[:12]} from {origin}: {answer.status}"
        if ladder.written() != before:
            yield "rows were changed"

    def a_trial_says_how_matches_ended(self) -> Iterator[str]:
        """A robot that stands still wins against one that shoots itself, always; the same matches by the program itself end so, too."""
        ladder = self._served("trials")
        ladder.add("dying", SHOOTER)
        cookie = ladder.joined(ladder.author("Ann"))
        path = "/send?robot=mine&against=dying"
        refused = ladder.ask("POST", path, IDLE, cookie=cookie, origin=ladder.here)
        if (refused.status, json.loads(refused.text)["words"]) != (403, "the terms of this league allow no trials") or "opponents" in ladder.ask("GET", "/workbench/").text:
            yield f"without leave: {refused}"
        ladder.terms(trials=2)
        if '<meta name="opponents" content="dying">' not in ladder.ask("GET", "/workbench/").text:
            yield "the page doesn't name the robot"
        before = ladder.rows("SELECT * FROM entry")
        said = json.loads(ladder.ask("POST", path, IDLE, cookie=cookie, origin=ladder.here).text)
        found = re.fullmatch(r"not handed in; a trial on the seed (\d+): (10 matches\n +1\) won 10 tied 0 lost 0 mine.r\n +2\) won 0 tied 0 lost 10 dying.r)", said["words"])
        if not found or not said["taken"]:
            yield f"{said}"
            return
        files = [self._file("mine.r", IDLE), self._file("dying.r", SHOOTER)]
        own = subprocess.run([f"{self._folder}/../bin/crobots", "-m10", "-l5000", f"-s{found[1]}", *files], cwd=self._folder, capture_output=True, text=True, check=False)
        if found[2] not in own.stdout.replace(f"{self._folder}/", ""):
            yield f"{found[2]}, not {own.stdout[-200:]}"
        for query, text, status in (("robot=mine&against=nobody", IDLE, 404), ("robot=mine&against=dying", BAD, 422), ("robot=mine&against=dying", IDLE, 200),
                                    ("robot=mine&against=dying", IDLE, 429)):
            if (answer := ladder.ask("POST", f"/send?{query}", text, cookie=cookie, origin=ladder.here)).status != status:
                yield f"{query}: {answer.status} {answer.text}"
        if ladder.rows("SELECT * FROM entry") != before:
            yield "something was handed in"

    def without_a_page_there_is_no_workbench(self) -> Iterator[str]:
        ladder = self._new("none")
        if "/workbench/" in ladder.ask("GET", "/").text:
            yield "a link leads to it"
        if "/workbench/" not in self._served("some").ask("GET", "/").text:
            yield "no link leads to it"
        for folder in (self._folder, os.path.join(HERE, "..", "..", "web")):
            said = ladder.run("serve", "--workbench", folder, status=3)
            if "has no page that plays in a browser" not in said:
                yield said

    def the_page_that_was_built_is_found(self) -> Iterator[str]:
        """That of the repository, and one that was unpacked beside the modules of an installation; neither the sources of the page nor
        what an installation has of it."""
        before = workbench.HERE
        try:
            for place, wanted in (("repository/scripts/ladder", "repository/out/web"), ("share/crobots/lib/ladder", "share/crobots/web")):
                workbench.HERE = self._at(place)
                sources = os.path.normpath(os.path.join(workbench.HERE, "..", "..", "web"))
                shutil.copytree(os.path.join(HERE, "..", "..", "web"), sources)
                if found := workbench.folder(None):
                    yield f"sources: {found}"
                shutil.copytree(self._page(), self._at(wanted), dirs_exist_ok=True)
                if (found := workbench.folder(None)) != self._at(wanted):
                    yield f"{place}: {found}"
        finally:
            workbench.HERE = before

    def the_script_of_send(self) -> Iterator[str]:
        """By Node: what it asks, what it shows of each answer, that a second press waits, and both editors."""
        if why := lacking(["node"]):
            skip("the script of send", why)
            return
        script = self._at("send.mjs")
        shutil.copy(os.path.join(HERE, "..", "..", "scripts", "ladder", "send.js"), script)
        words = [shutil.which("node") or "node", os.path.join(HERE, "send.test.mjs"), script]
        ran = subprocess.run(words, capture_output=True, text=True, timeout=SECONDS, check=False)
        if ran.returncode or ran.stdout != "10 answers\n":
            yield f"{ran.stdout}{ran.stderr}"

    def the_page_has_what_the_script_of_send_looks_for(self) -> Iterator[str]:
        text = self._served("ids").ask("GET", "/workbench/").text
        yield from (f"there is no {it}" for it in ("name", "source", "save", "diagnostic") if len(re.findall(f'id="{it}"', text)) != 1)
        if not re.search(r"<header>.*<nav ", text, re.DOTALL):
            yield "there is no nav in its header"

    def in_a_browser_the_page_reaches_send_alone(self) -> Iterator[str]:
        if not chromium():
            skip("the workbench in a browser", "there is no chromium (Debian: chromium)")
            return
        ladder, numbers = self._served("browser"), itertools.count()

        def reached(driver: Driver) -> Iterator[str]:
            it = Window(driver, ladder, 1366, 768)
            it.go(f"/join#{ladder.author(f'Ann {next(numbers)}')}")
            it.at("/mine")
            it.go("/workbench/")
            found = {path: driver.value(ASK % path) for path in ("/send?robot=x", "/robots", "/tag", "/send/x", "http://127.0.0.1:1/send")}
            driver.messages.clear()
            if found != {"/send?robot=x": 422, "/robots": "forbidden", "/tag": "forbidden", "/send/x": "forbidden", "http://127.0.0.1:1/send": "forbidden"}:
                yield f"{found}"

        with tries(chromium_driver) as browsers:
            yield from browsers.wrong("the page reaches send alone", reached)

    def _page(self) -> str:
        """The page, laid once."""
        place = self._at("web")
        if not os.path.exists(place):
            lay(place, self._file("module", "no module"))
        return place

    def _served(self, name: str, outside: str = "", prefix: str = "") -> Ladder:
        """A ladder with the workbench."""
        it = self._made(name)
        it.begin(outside, prefix, self._page())
        return it


class Scripts(html.parser.HTMLParser):
    """Where the scripts of a page are."""

    def __init__(self, text: str) -> None:
        super().__init__()
        self.found: list[str | None] = []
        self.feed(text)

    def handle_starttag(self, tag: str, attrs: list[tuple[str, str | None]]) -> None:
        if tag == "script":
            self.found.append(dict(attrs).get("src"))
