"""A page in a browser: it is served, opened, and used as by a reader."""

from __future__ import annotations

import base64
import contextlib
import functools
import http.server
import importlib
import json
import os
import shutil
import socket
import tempfile
import threading
import time
import urllib.parse
import zlib
from typing import Any, Callable, ContextManager, Iterable, Iterator

from browsers import READ_BACK
from tries import Tries, group

from .battles import Battle

# for what is waited for, and for an answer of a browser, on a machine that has much else to do
SECONDS, SECONDS_OF_AN_ANSWER = 180, 400
# at most so wide a window shows one of the page's three places at a time
MOST_NARROW = 960


# counts the pictures since the layout was another one
STANDS_STILL = """window.pictures = 0; let before = "";
const look = () => {
    const edges = [innerWidth, innerHeight, document.documentElement.scrollHeight, ...[...document.querySelectorAll("iframe")].flatMap(it => {
        const {top, width, height} = it.getBoundingClientRect();
        return [top + scrollY, width, height, it.contentDocument?.documentElement?.scrollHeight];
    })].join();
    window.pictures = edges === before ? window.pictures + 1 : 0;
    before = edges;
    if (window.pictures < 10) requestAnimationFrame(look);
};
requestAnimationFrame(look);"""
PICTURES = 4
IS_WIDE = "return Math.abs(innerWidth - arguments[0]) <= 2"
# follows a link to a battle, and empties the diagnostic as soon as its robots are shown: a robot from before that is compiled meanwhile says
# nothing later
FOLLOWS = """window.isShown = false;
new MutationObserver((_, seen) => {
    seen.disconnect();
    document.getElementById("diagnostic").textContent = "";
    window.isShown = true;
}).observe(document.getElementById("tabs"), {childList: true});
location.hash = arguments[0]"""


def is_in_time(took: float, limit: float) -> bool:
    """Whether what was timed by a clock is within its limit. That is judged by hand alone, with CROBOTS_TIMES in the environment: a machine
    that has much else to do misses any limit. Each time is written in any case."""
    return took <= limit or not os.environ.get("CROBOTS_TIMES")


class Quiet(http.server.SimpleHTTPRequestHandler):
    """Serves files without a word."""

    def log_message(self, format: str, *args: Any) -> None:  # pylint: disable=redefined-builtin
        """Says nothing."""


@contextlib.contextmanager
def served(folder: str) -> Iterator[str]:
    """The address at which a folder is served."""
    server = http.server.ThreadingHTTPServer(("127.0.0.1", 0), functools.partial(Quiet, directory=folder))
    thread = threading.Thread(target=server.serve_forever)
    thread.start()
    try:
        yield f"http://127.0.0.1:{server.server_address[1]}/"
    finally:
        server.shutdown()
        server.server_close()
        thread.join()


@contextlib.contextmanager
def without(folder: str, *names: str) -> Iterator[str]:
    """The address of a copy of the page that lacks some files."""
    with tempfile.TemporaryDirectory() as place:
        shutil.copytree(folder, place, dirs_exist_ok=True)
        for name in names:
            os.remove(os.path.join(place, name))
        with served(place) as address:
            yield address


@contextlib.contextmanager
def changed(folder: str, name: str, change: Callable[[str], str]) -> Iterator[str]:
    """The address of a copy of the page in which a file is changed."""
    with tempfile.TemporaryDirectory() as place:
        shutil.copytree(folder, place, dirs_exist_ok=True)
        path = os.path.join(place, name)
        with open(path, encoding="utf-8") as file:
            text = file.read()
        with open(path, "w", encoding="utf-8") as file:
            file.write(change(text))
        with served(place) as address:
            yield address


@contextlib.contextmanager
def driven(program: str) -> Iterator[int]:
    """The port at which a driver of browsers listens."""
    with contextlib.closing(socket.create_server(("127.0.0.1", 0))) as taken:
        port = int(taken.getsockname()[1])
    connection: Any = importlib.import_module("selenium.webdriver.remote.remote_connection")
    connection.RemoteConnection.set_timeout(SECONDS_OF_AN_ANSWER)
    with group([shutil.which(program) or program, f"--port={port}"]):
        end = time.monotonic() + SECONDS
        while not listens(port):
            if time.monotonic() > end:
                raise TimeoutError(f"{program} doesn't listen")
            time.sleep(0.05)
        yield port


def listens(port: int) -> bool:
    """Whether something takes connections at a port of this machine."""
    with contextlib.suppress(OSError), socket.create_connection(("127.0.0.1", port), SECONDS):
        return True
    return False


@contextlib.contextmanager
def chromium() -> Iterator[Any]:
    """A browser without a window."""
    webdriver: Any = importlib.import_module("selenium.webdriver")
    options = webdriver.ChromeOptions()
    options.binary_location = shutil.which("chromium")
    for word in ("--headless=new", "--no-sandbox", "--disable-gpu", "--disable-dev-shm-usage", "--window-size=1280,1000"):
        options.add_argument(word)
    options.set_capability("goog:loggingPrefs", {"browser": "ALL"})
    service: Any = importlib.import_module("selenium.webdriver.chrome.service")
    with driven("chromedriver") as port:
        begun = service.Service(shutil.which("chromedriver"), port=port)
        begun.start = begun.stop = lambda: None
        driver = webdriver.Chrome(service=begun, options=options)
        # a source of a megabyte takes long on a machine that has much else to do
        driver.set_script_timeout(2 * SECONDS)
        yield driver
        driver.quit()


def packed(text: bytes) -> str:
    """The fragment of a link that carries some bytes."""
    packer = zlib.compressobj(9, wbits=-15)
    return "#battle=" + base64.urlsafe_b64encode(packer.compress(text) + packer.flush()).decode().rstrip("=")


def fragment(battle: Battle) -> str:
    """The fragment of a link to a battle."""
    robots = [{"name": name, "source": source.decode()} for name, source in battle.robots]
    settings = {**vars(battle.settings), "seed": str(battle.settings.seed)}
    return packed(json.dumps({"robots": robots, "settings": settings}).encode())


class Page:
    """The page in a browser."""

    def __init__(self, driver: Any, address: str) -> None:
        self.driver = driver
        self.address = address

    def open(self, tail: str = "") -> None:
        """Opens the page anew."""
        self.driver.get("about:blank")
        self.driver.get(self.address + tail)
        self.wait("return document.getElementById('diagnostic')?.textContent")

    def forget(self) -> None:
        """Has the browser forget all that it kept of the page."""
        self.driver.get(urllib.parse.urljoin(self.address, "about.html"))
        self.js("localStorage.clear(); sessionStorage.clear(); window.gone = false;"
                "const asked = indexedDB.deleteDatabase('crobots'); asked.onsuccess = asked.onerror = () => { window.gone = true; }")
        self.wait("return window.gone")

    def fresh(self, tail: str = "") -> None:
        """Opens the page anew in a browser that kept nothing."""
        self.forget()
        self.open(tail)

    @contextlib.contextmanager
    def before(self, code: str) -> Iterator[None]:
        """Runs code before each page that is opened meanwhile. Only Chromium can."""
        added = self.driver.execute_cdp_cmd("Page.addScriptToEvaluateOnNewDocument", {"source": code})
        try:
            yield
        finally:
            self.driver.execute_cdp_cmd("Page.removeScriptToEvaluateOnNewDocument", added)

    def show(self, battle: Battle) -> None:
        """Follows a link to a battle in the open page, until the first robot is compiled. A test before may have left another page open."""
        if not self.js("return document.getElementById('diagnostic') !== null"):
            self.open()
        self.js(FOLLOWS, fragment(battle))
        self.wait("return window.isShown && document.getElementById('diagnostic').textContent")

    def js(self, code: str, *words: Any) -> Any:
        """Runs code in the page."""
        return self.driver.execute_script(code, *words)

    def wait(self, code: str, *words: Any, seconds: float = SECONDS) -> Any:
        """Waits until code answers something."""
        end = time.monotonic() + seconds
        while time.monotonic() < end:
            found = self.js(code, *words)
            if found:
                return found
            time.sleep(0.03)
        raise TimeoutError(code)

    def text(self, name: str) -> str:
        """The text of an element."""
        return str(self.js("return document.getElementById(arguments[0]).textContent", name))

    def seen(self, name: str) -> str:
        """The text of an element as it is seen; nothing of one that is hidden."""
        return str(self.js("const it = document.getElementById(arguments[0]); return it.hidden ? '' : it.innerText", name))

    def click(self, name: str) -> None:
        """Clicks an element."""
        self.js("document.getElementById(arguments[0]).click()", name)

    def choose(self, box: str, words: str) -> None:
        """Clicks the button with these words in an element."""
        self.js("[...document.getElementById(arguments[0]).querySelectorAll('button')].find(it => it.textContent === arguments[1]).click()", box, words)

    def set(self, name: str, value: str) -> None:
        """Writes a value into a field."""
        self.js("const it = document.getElementById(arguments[0]); it.value = arguments[1];"
                "it.dispatchEvent(new Event('input', {bubbles: true}))", name, value)

    def set_matches(self, choice: str, matches: int) -> None:
        """Says how many matches trials have."""
        self.js("document.querySelector(`#${arguments[0]} input`).value = arguments[1]", choice, matches)

    def write(self, source: str) -> None:
        """Writes a source in place of the one that is shown, until it is compiled."""
        self.js("const it = document.querySelector('.CodeMirror').CodeMirror; if (it.getValue() !== arguments[0]) {"
                "document.getElementById('diagnostic').textContent = ''; it.setValue(arguments[0]); }", source)
        self.wait("return document.getElementById('diagnostic').textContent")

    @property
    def source(self) -> str:
        """The source that is shown."""
        return str(self.js("return document.querySelector('.CodeMirror').CodeMirror.getValue()"))

    @property
    def names(self) -> list[str]:
        """The names on the tabs."""
        return list(self.js("return [...document.querySelectorAll('#tabs [role=tab]')].map(it => it.textContent)"))

    def kept(self) -> list[dict[str, Any]]:
        """All that the browser keeps of battles: versions and drafts, from its database and its storage."""
        self.js("window.records = null; const local = Object.entries(localStorage).filter(([key]) => /^crobots-(version|draft)-/.test(key));"
                "const found = local.map(([, text]) => JSON.parse(text)); if (!window.indexedDB) { window.records = found; return; }"
                "const asked = indexedDB.open('crobots');"
                "asked.onsuccess = () => { const base = asked.result; const done = more => { base.close(); window.records = [...found, ...more]; };"
                "if (!base.objectStoreNames.contains('records')) return done([]);"
                "const all = base.transaction('records').objectStore('records').getAll(); all.onsuccess = () => done(all.result); };"
                "asked.onerror = () => { window.records = found; }")
        return list(self.wait("return window.records"))

    def entries(self) -> list[list[list[str]]]:
        """The battles that the browser keeps: of each the names and the sources of its robots."""
        return [[[it["name"], it["source"]] for it in record["battle"]["robots"]] for record in self.kept() if record.get("battle")]

    def run(self) -> str:
        """Runs the battle; returns the report."""
        self.js("document.getElementById('said').textContent = ''; document.getElementById('run').click()")
        self.wait("const it = document.getElementById('said').textContent; return it && it !== 'The battle runs.'")
        return self.text("report")

    def press(self, *keys: str) -> None:
        """Presses keys, by their names in selenium, or types letters."""
        named: Any = importlib.import_module("selenium.webdriver.common.keys")
        for key in keys:
            self.driver.switch_to.active_element.send_keys(getattr(named.Keys, key, key))

    def watch(self, number: int, cycle: int = 0) -> None:
        """Watches a match from a cycle on."""
        self.js("document.getElementById('told').textContent = '';"
                "document.getElementById('watched').value = arguments[0]; document.getElementById('from').value = arguments[1];"
                "document.getElementById('watch').click()", number, cycle)
        self.wait("return document.getElementById('told').textContent.includes('can be watched') && !document.getElementById('watch').disabled")

    def inside(self, code: str, *words: Any) -> Any:
        """Runs code in the film that is shown, whose document is `it`."""
        return self.js(f"const it = document.getElementById('film').contentDocument; {code}", *words)

    def size(self, width: int, height: int) -> None:
        """Gives the window's inside a size."""
        if self.driver.name == "chrome":
            self.driver.execute_cdp_cmd("Emulation.setDeviceMetricsOverride",
                                        {"width": width, "height": height, "deviceScaleFactor": 1, "mobile": False})
        else:
            self.fit(width, height)
        self.settle()

    def fit(self, width: int, height: int) -> None:
        """Gives the inside of a window with a bar a size. While a page is drawn, its inside follows the window later, and still has an old height
        then. That it has followed is seen by a width that it didn't have, so it gets another one before. How high the bar is goes by the width."""
        for wide in (next(it for it in (width + 16, width + 32) if not self.is_wide(it)), width):
            self.driver.set_window_size(wide, height)
            self.wait(IS_WIDE, wide)
        self.driver.set_window_size(width, height + self.js("return outerHeight - innerHeight"))
        self.wait(f"{IS_WIDE} && Math.abs(innerHeight - arguments[1]) <= 2", width, height)

    def is_wide(self, width: int) -> bool:
        """Whether the window's inside has a width, to two points."""
        return bool(self.js(IS_WIDE, width))

    def settle(self) -> None:
        """Waits until the layout stands still: of the window and of each frame in it, for some pictures one after another."""
        self.js(STANDS_STILL)
        self.wait("return window.pictures >= arguments[0]", PICTURES)

    def whole_window(self) -> None:
        """Gives the window back its size."""
        if self.driver.name == "chrome":
            self.driver.execute_cdp_cmd("Emulation.clearDeviceMetricsOverride", {})
        self.driver.set_window_size(1280, 1000)

    def busy(self) -> float:
        """How many seconds of a processor the page's own thread has taken so far. Only Chromium says so."""
        self.driver.execute_cdp_cmd("Performance.enable", {"timeDomain": "threadTicks"})
        metrics = self.driver.execute_cdp_cmd("Performance.getMetrics", {})["metrics"]
        return float(next(it["value"] for it in metrics if it["name"] == "TaskDuration"))

    def media(self, **features: str) -> None:
        """Chooses what the reader prefers: color_scheme, reduced_motion, and forced_colors; none of them without words."""
        names = {"color_scheme": "prefers-color-scheme", "reduced_motion": "prefers-reduced-motion", "forced_colors": "forced-colors"}
        self.driver.execute_cdp_cmd("Emulation.setEmulatedMedia", {"features": [{"name": names[it], "value": value} for it, value in features.items()]})


def console(page: Page) -> list[str]:
    """What the page wrote on the console, which Chromium alone reports; but for what tests bring about, which read a canvas, and leave
    pages that nobody touched."""
    said = [entry["message"] for entry in page.driver.get_log("browser")] if page.driver.name == "chrome" else []
    return [line for line in said if READ_BACK not in line and "'beforeunload'" not in line]


# the tests' names, and what is wrong by each on a page that is open
Tests = Iterator[tuple[str, Callable[[Page], Iterable[str]]]]


def taken(place: str, number: int) -> bool:
    """Whether nobody else has taken the test of this number, of those that take them from a folder side by side."""
    os.makedirs(place, exist_ok=True)
    try:
        os.close(os.open(os.path.join(place, str(number)), os.O_CREAT | os.O_EXCL))
    except FileExistsError:
        return False
    return True


def judged(part: str, begin: Callable[[], ContextManager[Any]], folder: str, tests: Tests, place: str) -> Iterator[tuple[str, list[str]]]:
    """What is wrong by each test of a part that is taken from a folder, in browsers that are begun so, on the page that is served. What a test
    leaves on the console is wrong."""
    with served(folder) as address:

        @contextlib.contextmanager
        def opened() -> Iterator[Page]:
            with begin() as driver:
                page = Page(driver, address)
                page.open()
                yield page

        with Tries(opened, console) as tries:
            for number, (name, test) in enumerate(tests):
                if taken(place, number):
                    yield name, tries.wrong(f"{part}: {name}", test)
