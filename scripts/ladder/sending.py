"""The command send: hands a robot in by its author's link."""

import argparse
import os
import urllib.error
import urllib.request
from urllib.parse import quote, urlsplit

from leagues.entries import read
from tools.faults import FAULTY, FILE, Fault, plain
from tools.output import show

from .terms import SIZE_MAX

SECONDS = 60
ANSWER_MAX = 1 << 16


def send(given: argparse.Namespace) -> None:
    """Sends a file. What is answered is shown; a refusal is a fault."""
    parts = urlsplit(given.url)
    if parts.scheme not in ("http", "https") or not parts.netloc or not parts.fragment:
        raise Fault(f"{given.url} is no link of an author, as http://host/join#TOKEN")
    source = read(given.robot)
    if len(source) > SIZE_MAX:
        raise Fault(f"{given.robot} has {len(source)} bytes, and no ladder takes more than {SIZE_MAX}")
    name = given.id or os.path.basename(given.robot).removesuffix(".r")
    base = f"{parts.scheme}://{parts.netloc}{parts.path.removesuffix('join').rstrip('/')}"
    asked = urllib.request.Request(f"{base}/robots/{quote(name, safe='')}", source, method="PUT",
                                   headers={"Authorization": f"Bearer {parts.fragment}", "Content-Type": "text/plain"})
    show([f"{line}\n" for line in answered(asked, base)])


def answered(asked: urllib.request.Request, base: str) -> list[str]:
    """What is answered, in lines that can be shown."""
    try:
        with urllib.request.build_opener(Staying).open(asked, timeout=SECONDS) as answer:
            return lines(answer.read(ANSWER_MAX))
    except urllib.error.HTTPError as why:
        raise Fault("; ".join(lines(why.read(ANSWER_MAX))) or f"{base} answered {why.code}", FAULTY) from why
    except (OSError, ValueError) as why:
        reason = getattr(why, "reason", why)
        raise Fault(f"cannot reach {base}: {getattr(reason, 'strerror', None) or reason}", FILE) from why


def lines(text: bytes) -> list[str]:
    return [plain(line) for line in text.decode("utf-8", "replace").splitlines()]


class Staying(urllib.request.HTTPRedirectHandler):
    """Goes nowhere else with a token."""

    def redirect_request(self, *_: object) -> None:
        return None
