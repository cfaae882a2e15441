"""The commands of a session, by their words and letters."""

import re
from dataclasses import dataclass
from typing import Callable, Sequence

from tools import shells

from . import telling
from .marks import Mark, breakpoint_of, number, watch_of
from .moments import Moment
from .pipes import Refused
from .sessions import BACKWARDS, FORWARDS, LAST_CYCLE, Found, Session, any_line, line_of_call, outside

Act = Callable[[Session, str], list[str]]
# How many cycles a page of the moment has before it and after it.
PAGE = 1500


class Quit(Exception):
    """The user wants no more."""


@dataclass(frozen=True)
class Command:
    """A command: its words, the longest first; what follows it; what it does; and whether that goes elsewhere."""

    names: tuple[str, ...]
    form: str
    about: str
    act: Act
    is_move: bool = False

    def head(self) -> str:
        """Its words, and what follows."""
        return f"{', '.join(self.names)} {self.form}".strip()


def moving(way: str, events_of: Callable[[Moment], list[str]]) -> Act:
    """A move to the first of some events, which follow from where the robot is."""

    def act(session: Session, _: str) -> list[str]:
        before = session.moment
        found = session.move(way, events_of(before))
        # the start is a place like others, but none can be found there
        is_over = not found and (way == FORWARDS or before.cycle == 0)
        return [*(ending(way) if is_over else []), *returned(session, before, found), *telling.stop(session)]

    return act


def ending(way: str) -> list[str]:
    """That there is nothing more on a way."""
    return ["no more: this is the last cycle of the match" if way == FORWARDS else "no more: this is the start of the match"]


def returned(session: Session, before: Moment, found: Found | None) -> list[str]:
    """What the function returned, if its call has just ended."""
    has_ended = found and found.events[-1].startswith("in ") and found.cycle > before.cycle and not session.restarted()
    return [f"{before.function} returned {session.moment.stack[-1]}"] if has_ended else []


def continuing(way: str) -> Act:
    """A move to the first stop at a mark."""

    def act(session: Session, _: str) -> list[str]:
        found = session.move(way, session.marks.events())
        told = reasons(session, found) if found else ending(way)
        return [*told, *telling.stop(session)]

    return act


def reasons(session: Session, found: Found) -> list[str]:
    """Which marks the robot is stopped at, and what happened."""
    marks = {mark.number: mark for event in found.events for mark in session.marks.stopped(event, session.moment.line)}
    return [f"{mark.told()}{happening(session, mark)}" for _, mark in sorted(marks.items())]


def happening(session: Session, mark: Mark) -> str:
    """What a mark found, if its text doesn't say it."""
    before, now = session.before(), session.moment
    if mark.is_watch():
        return f" from {before.value(mark.text)} to {now.value(mark.text)}"
    if mark.text == "hurt":
        return f", damage from {before.damage(session.robot)}% to {now.damage(session.robot)}%"
    if mark.text == "hit":
        others = [robot.number for robot in now.robots if robot.number != session.robot and robot.damage > before.damage(robot.number)]
        return "".join(f", damage of {number} from {before.damage(number)}% to {now.damage(number)}%" for number in others)
    return ""


def set_breakpoint(session: Session, text: str) -> list[str]:
    return add(session, breakpoint_of(session.marks.next_number(), text, session.moment))


def set_watch(session: Session, name: str) -> list[str]:
    return add(session, watch_of(session.marks.next_number(), one(name, "watch NAME"), session.moment))


def add(session: Session, mark: Mark) -> list[str]:
    """Sets a mark, if its words are right."""
    for event in mark.events:
        session.check(event)
    session.marks.add(mark)
    return [mark.told()]


def delete(session: Session, text: str) -> list[str]:
    word = one(text, "delete N")
    if not re.fullmatch("[0-9]{1,9}", word) or not session.marks.delete(int(word)):
        raise Refused(f"{word}: no breakpoint has this number")
    return []


def go_to(session: Session, text: str) -> list[str]:
    session.go(number(one(text, "goto CYCLE"), 0, LAST_CYCLE))
    return telling.stop(session)


def print_value(session: Session, text: str) -> list[str]:
    name = one(text, "print NAME")
    value = session.moment.value(name)
    if value is None:
        raise Refused(f"{name}: no variable that {session.moment.function} sees")
    return [f"{name} = {value}"]


def list_source(session: Session, text: str) -> list[str]:
    here = session.moment.line
    return session.source.around(number(text, 1, len(session.source)) if text else here, here)


def info(session: Session, text: str) -> list[str]:
    """One of several lists."""
    moment = session.moment
    lists: dict[str, Callable[[], list[str]]] = {
        "breakpoints": lambda: [mark.told() for mark in session.marks.all()] or ["no breakpoints"],
        "locals": lambda: telling.variables(moment.locals(), "no locals"),
        "externals": lambda: telling.variables(moment.externals, "no externals"),
        "field": lambda: telling.field(session),
    }
    if text not in lists:
        raise Refused(f"{text or 'info'}: not {', '.join(list(lists)[:-1])} or {list(lists)[-1]}")
    return lists[text]()


def trace(session: Session, _: str) -> list[str]:
    """The command line that reports this moment."""
    words = session.asked.robot("--at", str(session.moment.cycle))
    return [shells.line(["crobots-trace", *words])]


def replay(session: Session, _: str) -> list[str]:
    """The command line that makes a page of this moment, and where it is on the page."""
    cycle = session.moment.cycle
    span = ["--from", str(max(0, cycle - PAGE)), "--to", str(cycle + PAGE), "-o", "match.html"]
    line = shells.line(["crobots-replay", *session.asked.match(*span)])
    return [line, f"then open match.html#{cycle}"]


def show_help(_: Session, name: str) -> list[str]:
    """All commands, or one."""
    if name and name not in NAMED:
        raise Refused(f"{name}: no command; help lists them")
    shown: Sequence[Command] = [NAMED[name]] if name else COMMANDS
    width = max(len(command.head()) for command in shown)
    return [f"{command.head():{width}}  {command.about}" for command in shown]


def end(_: Session, __: str) -> list[str]:
    raise Quit


def one(text: str, form: str) -> str:
    """The only word of a text."""
    if len(text.split()) != 1:
        raise Refused(f"{text or form.split()[0]}: the form is {form}")
    return text


def moves(way: str, before: str, letter: str, about: str) -> list[Command]:
    """The moves on a way: their words begin alike."""
    return [
        Command((f"{before}step", f"{letter}s"), "", f"to the {about} line that is entered", moving(way, any_line), True),
        Command((f"{before}next", f"{letter}n"), "", "the same, but not in calls from here", moving(way, line_of_call), True),
        Command((f"{before}finish", f"{letter}fin"), "",
                "to where this call has ended" if way == FORWARDS else "to where this call is about to begin", moving(way, outside), True),
        Command((f"{before}continue", f"{letter}c"), "", f"to the {about} stop at a breakpoint", continuing(way), True),
    ]


COMMANDS = (
    *moves(FORWARDS, "", "", "next"),
    *moves(BACKWARDS, "reverse-", "r", "last"),
    Command(("goto",), "CYCLE", "to the moment after a cycle", go_to, True),
    Command(("break", "b"), "WHERE", "stop at LINE, hurt, hit, restart, FUNCTION [if reply > 0]", set_breakpoint),
    Command(("watch",), "NAME", "stop where the variable changes", set_watch),
    Command(("delete",), "N", "forget a breakpoint or a watch", delete),
    Command(("print", "p"), "NAME", "the value of a variable", print_value),
    Command(("info",), "LIST", "breakpoints, locals, externals or field", info),
    Command(("backtrace", "bt"), "", "the calls that go on", lambda session, _: telling.calls(session.moment)),
    Command(("list", "l"), "[LINE]", "the source around a line", list_source),
    Command(("trace",), "", "the command that reports this moment", trace),
    Command(("replay",), "", "the command that shows it in a browser", replay),
    Command(("help", "h"), "[COMMAND]", "this list, or one of it", show_help),
    Command(("quit", "q"), "", "the end", end),
)
NAMED = {name: command for command in COMMANDS for name in command.names}


def read(line: str) -> tuple[Command, str]:
    """The command of a line, and what follows it."""
    word, _, text = " ".join(line.split()).partition(" ")
    command = NAMED.get(word)
    if not command:
        raise Refused(f"{word}: no command; help lists them")
    if text and not command.form:
        raise Refused(f"{text}: nothing follows {word}")
    return command, text


def is_move(line: str) -> bool:
    """Whether a line is a command that goes elsewhere and may be repeated."""
    words = line.split()
    return bool(words) and words[0] in NAMED and NAMED[words[0]].is_move


def answer(session: Session, line: str) -> list[str]:
    """The answer to a line: none to a blank one, or to a remark."""
    if not line.strip() or line.lstrip().startswith("#"):
        return []
    try:
        command, text = read(line)
        return command.act(session, text)
    except Refused as why:
        return [str(why)]
