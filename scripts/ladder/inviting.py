"""The commands invite and terms: an organiser's, on the command line."""

import argparse
from dataclasses import replace

from leagues.store import opened
from tools.faults import Fault
from tools.output import show

from . import accounts, audits, schema
from .accounts import ORGANISER, Invitation
from .terms import Terms, settle
from .terms import terms as now

CUT = "- " * 30
ON, OFF = "shown", "hidden"
NUMBERS = ("robots", "versions", "size", "grace", "trials", "sign_up", "floor", "quota")


def invite(given: argparse.Namespace) -> None:
    """Prints links, one an author, with a line to cut along after each if there are several."""
    if given.author and given.count:
        raise Fault("--author is for one author, and --count for many")
    if given.withdraw and not given.author:
        raise Fault("--withdraw wants --author")
    with opened(given.league) as store:
        schema.ready(store)
        if given.withdraw:
            accounts.withdraw(store, given.author)
            show([f"the link of {given.author} is withdrawn\n"])
            return
        if given.author:
            made = [accounts.invite(store, given.author, given.group or "")]
        else:
            made = accounts.numbered(store, given.count or 1, given.group or "")
    show(sheet(made, given.url))


def sheet(made: list[Invitation], url: str) -> list[str]:
    """The links as a sheet."""
    if len(made) == 1:
        return [f"{made[0].name}: {url}/join#{made[0].token}\n"]
    return [f"{invitation.name}\n{url}/join#{invitation.token}\n{CUT.rstrip()}\n" for invitation in made]


def settled(before: Terms, given: argparse.Namespace) -> Terms:
    """The terms with what was given changed."""
    changes = {name: value for name in (*NUMBERS, "opens", "closes", "readers") if (value := getattr(given, name)) is not None}
    if given.names is not None:
        changes["names"] = given.names == ON
    return replace(before, **changes)


def terms(given: argparse.Namespace) -> None:
    """Says the terms, and changes those that are given."""
    with opened(given.league) as store:
        schema.ready(store)
        with store.change():
            before = now(store)
            by = settled(before, given)
            if by.opens and by.closes and by.opens > by.closes:
                raise Fault("a hand-in can't close before it opens")
            if by != before:
                settle(store, by)
                audits.note(store, ORGANISER, "terms", "")
    show(f"{name.replace('_', '-')}: {said(value)}\n" for name, value in vars(by).items())


def said(value: object) -> str:
    """A term in a word."""
    if isinstance(value, bool):
        return ON if value else OFF
    return str(value) or "none"
