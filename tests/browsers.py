"""A headless Chromium for tests of pages: it is asked over two pipes, in the form of the DevTools protocol."""

from __future__ import annotations

import base64
import contextlib
import json
import os
import select
import shutil
import tempfile
from typing import Any, Iterator

from tries import Tries, group, has_ended

# for an answer, on a machine that has much else to do; and for the end of a browser that was asked to end
SECONDS, SECONDS_OF_AN_END = 300, 10


def chromium() -> str | None:
    """The browser, if it is installed."""
    return shutil.which("chromium") or shutil.which("chromium-browser")


# What Chromium says where a test, and not the page, reads a canvas.
READ_BACK = "Canvas2D: Multiple readback operations"


class Browser:
    """One window of a browser. What pages say on the console is kept, with all that goes wrong in them."""

    def __init__(self, ask: int, hear: int) -> None:
        self._ask, self._hear = ask, hear
        self._rest = b""
        self._count = 0
        self._session: str | None = None
        self._loaded = False
        self.messages: list[str] = []
        self._open()

    def close(self) -> None:
        """Has the browser end."""
        self._session = None
        self.call("Browser.close")

    def _open(self) -> None:
        targets = self.call("Target.getTargets")["targetInfos"]
        window = next(it["targetId"] for it in targets if it["type"] == "page")
        self._session = self.call("Target.attachToTarget", targetId=window, flatten=True)["sessionId"]
        for part in ("Page", "Runtime", "Log"):
            self.call(f"{part}.enable")

    def call(self, method: str, **words: Any) -> dict[str, Any]:
        """Asks the browser, and waits for its answer."""
        self._count += 1
        asked = {"id": self._count, "method": method, "params": words} | ({"sessionId": self._session} if self._session else {})
        os.write(self._ask, json.dumps(asked).encode() + b"\0")
        while True:
            heard = self._next()
            if heard.get("id") == self._count:
                if "error" in heard:
                    raise RuntimeError(f"{method}: {heard['error']}")
                return heard["result"]

    def _next(self) -> dict[str, Any]:
        """The next thing that the browser says; of what happened in the page it takes note."""
        while b"\0" not in self._rest:
            if not select.select([self._hear], [], [], SECONDS)[0]:
                raise RuntimeError(f"the browser says nothing for {SECONDS} seconds")
            more = os.read(self._hear, 1 << 16)
            if not more:
                raise RuntimeError("the browser ended")
            self._rest += more
        line, _, self._rest = self._rest.partition(b"\0")
        heard = json.loads(line)
        method, said = heard.get("method"), heard.get("params", {})
        if method == "Runtime.consoleAPICalled":
            self.messages.append(" ".join(str(it.get("value", it.get("description"))) for it in said["args"]))
        elif method == "Runtime.exceptionThrown":
            details = said["exceptionDetails"]
            self.messages.append(details.get("exception", {}).get("description", details["text"]))
        elif method == "Log.entryAdded" and not said["entry"]["text"].startswith(READ_BACK):
            self.messages.append(said["entry"]["text"])
        elif method == "Page.loadEventFired":
            self._loaded = True
        return heard

    def load(self, path: str, mark: str = "") -> None:
        """Loads a page of this machine, and waits until it is there: an empty one before, so that it begins anew."""
        for address in ("about:blank", f"file://{path}{mark}"):
            self._loaded = False
            self.call("Page.navigate", url=address)
            while not self._loaded:
                self._next()

    def load_replay(self, path: str, mark: str = "") -> None:
        """Loads a page that plays a match, and waits until it shows it, for half a minute at most."""
        self.load(path, mark)
        self.value("new Promise((done, fail) => { setTimeout(() => fail(new Error('no match is shown')), 30000);"
                   " const look = () => globalThis.player ? done() : setTimeout(look, 5); look(); })")

    def look(self, width: int, height: int, dark: bool = False, scale: float = 1) -> None:
        """Chooses the window's size and its theme."""
        self.call("Emulation.setDeviceMetricsOverride", width=width, height=height, deviceScaleFactor=scale, mobile=width < 600)
        theme = {"name": "prefers-color-scheme", "value": "dark" if dark else "light"}
        self.call("Emulation.setEmulatedMedia", features=[theme])

    def value(self, expression: str) -> Any:
        """What an expression of JavaScript is in the page; a promise is waited for."""
        answer = self.call("Runtime.evaluate", expression=expression, returnByValue=True, awaitPromise=True)
        if "exceptionDetails" in answer:
            raise RuntimeError(json.dumps(answer["exceptionDetails"]))
        return answer["result"].get("value")

    def press(self, key: str, shift: bool = False) -> None:
        """Presses a key."""
        told = {"key": key, "code": key if len(key) > 1 else "Space" if key == " " else f"Key{key.upper()}", "modifiers": 8 if shift else 0}
        text = {"text": key} if len(key) == 1 else {}
        self.call("Input.dispatchKeyEvent", type="keyDown", **told, **text)
        self.call("Input.dispatchKeyEvent", type="keyUp", **told)

    def picture(self, path: str, whole: bool = False) -> None:
        """Writes a picture of the window, or of the whole page, as PNG."""
        with open(path, "wb") as file:
            file.write(base64.b64decode(self.call("Page.captureScreenshot", captureBeyondViewport=whole)["data"]))


@contextlib.contextmanager
def begun() -> Iterator[Browser]:
    """A browser with a profile of its own."""
    with contextlib.ExitStack() as ends:
        profile = ends.enter_context(tempfile.TemporaryDirectory(ignore_cleanup_errors=True))
        (asked, ask), (hear, heard) = ([ends.enter_context(open(end, mode, 0)) for end, mode in zip(os.pipe(), ("rb", "wb"))] for _ in range(2))
        words = [chromium() or "", "--headless=new", "--no-sandbox", "--disable-gpu", "--hide-scrollbars", "--remote-debugging-pipe",
                 f"--user-data-dir={profile}", "about:blank"]
        # The browser reads what it is asked from its descriptor 3, and answers on 4. Not each sh takes numbers of two digits for these.
        child = ends.enter_context(group(["bash", "-c", f'exec "$@" 3<&{asked.fileno()} 4>&{heard.fileno()}', "bash", *words],
                                         pass_fds=(asked.fileno(), heard.fileno())))
        asked.close()
        heard.close()
        browser = Browser(ask.fileno(), hear.fileno())
        yield browser
        browser.close()
        has_ended(child, SECONDS_OF_AN_END)


def tries() -> Tries[Browser]:
    """What runs tests in such browsers. What is said on the console is wrong."""
    return Tries(begun, lambda browser: browser.messages)
