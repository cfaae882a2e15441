"""A Firefox without a window, asked by its own protocol, Marionette: what the tests need of a driver."""

from __future__ import annotations

import contextlib
import json
import os
import shutil
import socket
import tempfile
import time
from typing import Any, Iterator

from tries import group, has_ended

# for an answer, and for the browser's start, on a machine that has much else to do; and for its end
SECONDS, SECONDS_OF_A_START, SECONDS_OF_AN_END = 180, 300, 10
# a window is no narrower, so a narrower page is shown magnified by one of these
LEAST_WIDTH, SCALES = 500, (1, 1.5, 2)
ELEMENT = "element-6066-11e4-a52e-4f735466cecf"
PREFERENCES = {"marionette.port": 0, "browser.shell.checkDefaultBrowser": False, "datareporting.policy.dataSubmissionEnabled": False,
               "browser.aboutwelcome.enabled": False, "app.update.enabled": False, "dom.w3c_touch_events.enabled": 1}


def program() -> str | None:
    """The browser, if it is installed."""
    return shutil.which("firefox-esr") or shutil.which("firefox")


class Field:
    """An element that takes keys."""

    def __init__(self, driver: Firefox, name: str) -> None:
        self._driver, self._name = driver, name

    def send_keys(self, text: str) -> None:
        """Presses keys."""
        self._driver.ask("WebDriver:ElementSendKeys", id=self._name, text=text)


class Firefox:
    """A session of a browser, with those names of selenium that the tests use."""

    name = "firefox"

    def __init__(self, port: int) -> None:
        self._socket = socket.create_connection(("127.0.0.1", port), SECONDS_OF_A_START)
        self._rest, self._count, self._scale = b"", 0, 1.0
        self._hear()
        self.ask("WebDriver:NewSession", capabilities={})
        self._socket.settimeout(SECONDS)

    def _hear(self) -> Any:
        """What the browser says next: a number of bytes, a colon, and these bytes."""
        while b":" not in self._rest or len(self._rest.partition(b":")[2]) < int(self._rest.partition(b":")[0]):
            try:
                more = self._socket.recv(1 << 16)
            except TimeoutError as why:
                # nobody asks it more
                raise RuntimeError("the browser doesn't answer") from why
            if not more:
                raise RuntimeError("the browser ended")
            self._rest += more
        size, _, rest = self._rest.partition(b":")
        self._rest = rest[int(size):]
        return json.loads(rest[:int(size)])

    def ask(self, command: str, **words: Any) -> Any:
        """Asks the browser; answers what it answers."""
        self._count += 1
        text = json.dumps([0, self._count, command, words]).encode()
        self._socket.sendall(str(len(text)).encode() + b":" + text)
        _, _, fault, answer = self._hear()
        if fault:
            raise RuntimeError(f"{command}: {fault['message']}")
        return answer.get("value", answer) if isinstance(answer, dict) else answer

    def get(self, address: str) -> None:
        """Opens an address."""
        self.ask("WebDriver:Navigate", url=address)
        self._magnify(1)

    def refresh(self) -> None:
        """Loads the page anew."""
        self.ask("WebDriver:Refresh")
        self._magnify(1)

    def execute_script(self, code: str, *words: Any) -> Any:
        """Runs code in the page."""
        return self.ask("WebDriver:ExecuteScript", script=code, args=list(words))

    def execute_async_script(self, code: str, *words: Any) -> Any:
        """Runs code in the page, whose last argument takes the answer."""
        return self.ask("WebDriver:ExecuteAsyncScript", script=code, args=list(words))

    def set_window_size(self, width: int, height: int) -> None:
        """Gives the window a size."""
        before, self._scale = self._scale, next(it for it in SCALES if width * it >= LEAST_WIDTH)
        self.ask("WebDriver:SetWindowRect", width=round(width * self._scale), height=round(height * self._scale))
        self._magnify(before)

    def magnify(self) -> None:
        """Shows a page that a link or a form led to in the window's scale."""
        self._magnify(0)

    def _magnify(self, present: float) -> None:
        """Shows the page in the window's scale, and no more in the present one; a page that is opened has that of 1."""
        if present == self._scale:
            return
        self.ask("Marionette:SetContext", value="chrome")
        self.execute_script("Services.wm.getMostRecentWindow('navigator:browser').gBrowser.selectedBrowser.fullZoom = arguments[0]", self._scale)
        self.ask("Marionette:SetContext", value="content")

    @property
    def switch_to(self) -> Firefox:
        """Where selenium has what follows."""
        return self

    @property
    def active_element(self) -> Field:
        """The element that has the focus."""
        return Field(self, self.ask("WebDriver:GetActiveElement")[ELEMENT])

    def perform(self, actions: list[dict[str, Any]]) -> None:
        """Does what pointers do, or keys."""
        self.ask("WebDriver:PerformActions", actions=actions)
        self.ask("WebDriver:ReleaseActions")

    def quit(self) -> None:
        """Ends the browser."""
        with contextlib.suppress(RuntimeError, OSError):
            self.ask("Marionette:Quit", flags=["eForceQuit"])
        self._socket.close()


def port_of(profile: str) -> int:
    """The port at which a browser with this profile listens, once it does."""
    end = time.monotonic() + SECONDS_OF_A_START
    path = os.path.join(profile, "MarionetteActivePort")
    while time.monotonic() < end:
        with contextlib.suppress(OSError, ValueError), open(path, encoding="ascii") as file:
            return int(file.read())
        time.sleep(0.05)
    raise TimeoutError("the browser doesn't listen")


@contextlib.contextmanager
def firefox() -> Iterator[Firefox]:
    """A browser without a window."""
    with tempfile.TemporaryDirectory(ignore_cleanup_errors=True) as profile:
        with open(os.path.join(profile, "user.js"), "w", encoding="ascii") as file:
            file.writelines(f"user_pref({json.dumps(name)}, {json.dumps(value)});\n" for name, value in PREFERENCES.items())
        words = [program() or "", "--headless", "--no-remote", "--marionette", "--remote-allow-system-access", "--profile", profile, "about:blank"]
        with group(words) as child:
            driver = Firefox(port_of(profile))
            yield driver
            driver.quit()
            has_ended(child, SECONDS_OF_AN_END)
