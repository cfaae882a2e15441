"""Days, as the database has them: 2026-11-28."""

import argparse
import datetime

from tools.faults import Fault


def today() -> str:
    return datetime.date.today().isoformat()


def day(text: str) -> str:
    """Reads a day."""
    try:
        found = datetime.date.fromisoformat(text)
    except ValueError as why:
        raise argparse.ArgumentTypeError(f"{text!r} is no day, as 2026-11-28") from why
    if len(text) != len("2026-11-28"):
        raise argparse.ArgumentTypeError(f"{text!r} is no day, as 2026-11-28")
    return found.isoformat()


def given_day(given: argparse.Namespace) -> str:
    """The day that the words give, or today. One in the future would keep earlier ones out, so it has to be meant."""
    found: str = given.day or today()
    if found > today() and not given.future:
        raise Fault(f"{found} is in the future, and no entry could be of an earlier day then; --future takes it")
    return found
