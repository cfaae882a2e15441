"""Windows of browsers on a ladder: what a way needs of Chromium and of Firefox alike."""

from __future__ import annotations

import base64
import contextlib
import os
import time
from contextlib import AbstractContextManager
from typing import Any, Callable, Iterator, Protocol

from browsers import Browser, begun, chromium
from tries import Tries
from web_tests.marionette import Firefox, firefox, program

from .base import SECONDS, Ladder

# A folder into which pictures of the pages are written, to be looked at.
PICTURES = os.environ.get("LADDER_PICTURES", "")
TRAP = "for (const name of ['alert', 'confirm', 'prompt']) window[name] = (text) => { window.trapped = String(text); };"
WIDTH = "document.scrollingElement.scrollWidth"
TAB, ENTER = "Tab", "Enter"
# Firefox has codes for keys that do something.
CODES = {TAB: "\ue004", ENTER: "\ue007"}
NUMBERS = {TAB: 9, ENTER: 13}
MOST_TABS = 200
# How often a way waits a moment for a page.
MOMENT = 0.05


class Driver(Protocol):
    """What drives a browser."""

    name: str
    messages: list[str]

    def value(self, expression: str) -> Any:
        """What an expression is in the page."""

    def open(self, address: str) -> None:
        """Goes to an address, and doesn't wait."""

    def look(self, width: int, height: int) -> None:
        """Gives the window a size."""

    def settle(self) -> None:
        """Shows a page that a link or a form led to in this size."""

    def type(self, text: str) -> None:
        """Writes into what has the focus."""

    def press(self, key: str) -> None:
        """Presses a key."""

    def picture(self, path: str) -> None:
        """Writes a picture."""


class Chromium:
    """Chromium by its own protocol, with a trap for scripts in names."""

    name = "chromium"

    def __init__(self, browser: Browser) -> None:
        self._browser = browser
        self.messages = browser.messages
        self.value, self.picture, self.look = browser.value, browser.picture, browser.look
        browser.call("Page.addScriptToEvaluateOnNewDocument", source=TRAP)

    def settle(self) -> None:
        pass

    def open(self, address: str) -> None:
        self._browser.call("Page.navigate", url=address)

    def type(self, text: str) -> None:
        self._browser.call("Input.insertText", text=text)

    def press(self, key: str) -> None:
        told = {"key": key, "code": key, "windowsVirtualKeyCode": NUMBERS[key], **({"text": "\r"} if key == ENTER else {})}
        self._browser.call("Input.dispatchKeyEvent", type="keyDown", **told)
        self._browser.call("Input.dispatchKeyEvent", type="keyUp", **told)


class Fox:
    """Firefox by Marionette. It tells nothing of the console."""

    name = "firefox"

    def __init__(self, driver: Firefox) -> None:
        self._driver = driver
        self.messages: list[str] = []
        self._width = 0

    def look(self, width: int, height: int) -> None:
        self._width = width
        self._driver.set_window_size(width, height)

    def settle(self) -> None:
        self._driver.magnify()
        end = time.monotonic() + SECONDS
        while self.value("innerWidth") != self._width and time.monotonic() < end:
            time.sleep(MOMENT)

    def value(self, expression: str) -> Any:
        return self._driver.execute_script(f"return {expression}")

    def open(self, address: str) -> None:
        self._driver.get(address)

    def type(self, text: str) -> None:
        self._driver.active_element.send_keys(text)

    def press(self, key: str) -> None:
        # keys that are sent to a field for files would be a file's name
        actions = [{"type": it, "value": CODES[key]} for it in ("keyDown", "keyUp")]
        self._driver.perform([{"type": "key", "id": "keyboard", "actions": actions}])

    def picture(self, path: str) -> None:
        with open(path, "wb") as file:
            file.write(base64.b64decode(self._driver.ask("WebDriver:TakeScreenshot", full=False)))


class Window:
    """A browser's window on a ladder, of a size."""

    def __init__(self, driver: Driver, ladder: Ladder, width: int, height: int) -> None:
        self.driver, self.ladder, self.width = driver, ladder, width
        driver.look(width, height)

    def go(self, path: str) -> None:
        """Goes to a page, and waits until it is there: an empty one before, so that it begins anew."""
        self.driver.open("about:blank")
        self.until("location.href === 'about:blank'")
        self.driver.open(f"{self.ladder.here}{path}")
        self.until(f"location.pathname !== 'blank' && document.readyState === 'complete' && location.port === '{self.ladder.port}'")

    def at(self, path: str) -> None:
        """Waits until a page is there."""
        self.until(f"location.pathname === '{path}' && document.readyState === 'complete'")

    def until(self, condition: str) -> None:
        """Waits until a condition holds in the page, whichever page that is then."""
        end = time.monotonic() + SECONDS
        while time.monotonic() < end:
            with contextlib.suppress(RuntimeError):
                if self.driver.value(f"Boolean({condition})"):
                    return
            time.sleep(MOMENT)
        raise AssertionError(f"{condition} doesn't come: {self.driver.value('location.href + document.body?.innerText.slice(0, 300)')}")

    def text(self) -> str:
        return str(self.driver.value("document.body.innerText"))

    def tab_to(self, selector: str) -> None:
        """Comes to an element by the keyboard alone, and sees that it is shown there."""
        for _ in range(MOST_TABS):
            if self.driver.value(f"document.activeElement?.matches('{selector}') ?? false"):
                return
            self.driver.press(TAB)
        raise AssertionError(f"no way by keys to {selector}")

    def follow(self, selector: str) -> None:
        """Comes to a link or a button by the keyboard alone, and presses it."""
        self.tab_to(selector)
        self.driver.press(ENTER)

    def picture(self, name: str) -> None:
        if PICTURES:
            self.driver.picture(os.path.join(PICTURES, f"{self.driver.name}-{name}.png"))


@contextlib.contextmanager
def chromium_driver() -> Iterator[Driver]:
    with begun() as it:
        yield Chromium(it)


@contextlib.contextmanager
def firefox_driver() -> Iterator[Driver]:
    with firefox() as it:
        yield Fox(it)


def tries(begin: Callable[[], AbstractContextManager[Driver]], harmless: str = "nothing is") -> Tries[Driver]:
    """What runs ways in browsers that are begun so. What is said on the console is wrong, but for what has these words."""
    return Tries(begin, lambda driver: [message for message in driver.messages if harmless not in message])


# The browsers by their packages: what looks for each, and what drives it.
BROWSERS = {"chromium": (chromium, chromium_driver), "firefox-esr": (program, firefox_driver)}
