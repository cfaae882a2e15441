"""The script `compare`: where a robot and its older version first do something else in the same match."""

import argparse
import json
from contextlib import ExitStack
from dataclasses import dataclass

from stepping.moments import Moment, Question, moment_of
from tools.faults import plain, reading
from tools.output import show
from tools.programs import TRACE, lines
from tools.programs import found as path_of
from tools.signals import stopping
from tournaments.robots import names

from . import words
from .columns import Row, columns, side_by_side
from .questions import Comparison, comparison, questions
from .traces import judge

NOTHING = "nothing"
# What is shown of a call or of the externals: a label and a text for each row.
Texts = dict[str, str]
# A group of rows by its place among all: calls by their frames, the innermost first, and then the externals.
Place = tuple[int, str]
EXTERNALS: Place = (0, "")


@dataclass(frozen=True)
class Version:
    """A version: its file, its name, and the words by which `crobots-trace` plays the match with it."""

    path: str
    name: str
    match: list[str]


def versions(given: argparse.Namespace) -> list[Version]:
    """The newer version and the older one."""
    at = given.robot - 1
    paths = [given.files[at], given.old]
    options = [f"-k{given.match}", f"-l{given.cycles}", f"-s{given.seed}", f"-p{given.profile}", f"--robot={given.robot}"]
    return [Version(path, plain(name), [*options, "--", *given.files[:at], path, *given.files[given.robot :]])
            for path, name in zip(paths, names(paths))]


def compared(trace: str, both: list[Version]) -> Comparison:
    """Plays the match with both versions side by side, until they ask something else."""
    with ExitStack() as playing:
        new, old = (questions(playing.enter_context(lines(trace, ["--asks", *version.match], judge))) for version in both)
        found = comparison(new, old)
    return found


def moment_after(trace: str, version: Version, cycle: int) -> Moment:
    """Where a version is after a cycle."""
    with lines(trace, [f"--at={cycle}", *version.match], judge) as rows:
        return moment_of([row.split("\t") for row in rows])


def said(given: argparse.Namespace, both: list[Version], found: Comparison) -> str:
    """What both versions do alike, and whether they ever do something else."""
    new, old = (version.name for version in both)
    count = f"{found.alike} question{'' if found.alike == 1 else 's'}"
    if found.cycle is None:
        return f"{new} and {old} do the same in match {given.match}: {count}, each in the same cycle with the same reply\n"
    last = f", the last in cycle {found.last.cycle}: {found.last.call} = {found.last.reply}" if found.last else ""
    return (f"{new} and {old} first do something else in cycle {found.cycle} of match {given.match}\n"
            f"before it they do the same: {count}{last}\n")


def question_rows(new: Question | None, old: Question | None) -> list[Row]:
    """What both ask next, each in which cycle, and the replies."""
    calls, cycles, replies = ([str(question[at]) if question else "" for question in (new, old)] for at in (1, 0, 2))
    return [Row("asks", calls[0] or NOTHING, calls[1] or NOTHING), Row("in cycle", *cycles), Row("reply", *replies)]


def moment_rows(both: list[Version], moments: list[Moment]) -> list[Row]:
    """Where both are: the text of the line, what restarts them, calls and variables. What one lacks is empty."""
    new, old = moments
    rows = [Row("line", *(f"{moment.line}: {line_of(version, moment.line)}" for version, moment in zip(both, moments)))]
    if new.restarts or old.restarts:
        rows.append(Row("restarts", new.restarts, old.restarts))
    groups = [groups_of(moment) for moment in moments]
    for place in sorted({*groups[0], *groups[1]}):
        one, other = (group.get(place, {}) for group in groups)
        rows += [Row(label, one.get(label, ""), other.get(label, "")) for label in {**one, **other}]
    return rows


def groups_of(moment: Moment) -> dict[Place, Texts]:
    """The labels and texts of each call and of the externals."""
    calls = {(-call.frames, call.function): {f"{call.function}()": f"at line {call.line}", **texts("  ", call.variables)} for call in moment.calls}
    return {**calls, EXTERNALS: texts("", moment.externals)}


def texts(indent: str, values: dict[str, int]) -> Texts:
    return {f"{indent}{name}": str(value) for name, value in values.items()}


def line_of(version: Version, number: int) -> str:
    """The text of a line of a version's source."""
    with reading(version.path), open(version.path, encoding="utf-8", errors="replace", newline="\n") as file:
        return next((plain(" ".join(line.split())) for at, line in enumerate(file, 1) if at == number), "")


def compare(name: str, arguments: list[str]) -> None:
    """Does what the words ask for."""
    given = words.read(name, arguments)
    trace, both = path_of(TRACE), versions(given)
    with stopping("stopped while the match was played"):
        found = compared(trace, both)
        moments = [] if found.cycle is None else [moment_after(trace, version, found.cycle - 1) for version in both]
        show([data(given, both, found, moments) if given.json else shown(given, both, found, moments)])


def shown(given: argparse.Namespace, both: list[Version], found: Comparison, moments: list[Moment]) -> str:
    """The answer in words, and if there is a difference, both versions side by side."""
    text = said(given, both, found)
    if moments:
        rows = question_rows(found.new, found.old) + moment_rows(both, moments)
        text += side_by_side(Row("", both[0].name, both[1].name), rows, columns())
    return text


def data(given: argparse.Namespace, both: list[Version], found: Comparison, moments: list[Moment]) -> str:
    """The answer as JSON."""
    asked = [found.new, found.old]
    rows: list[dict[str, object]] = [{"name": version.name, "asks": question_data(question)} for version, question in zip(both, asked)]
    for row, version, place in zip(rows, both, moments):
        row |= {"line": place.line, "text": line_of(version, place.line), "restarts": place.restarts or None,
                "calls": [{"function": call.function, "line": call.line, "variables": call.variables} for call in place.calls],
                "externals": place.externals}
    whole = {"match": given.match, "alike": found.alike, "last": question_data(found.last), "cycle": found.cycle, "versions": rows}
    return json.dumps(whole, ensure_ascii=False, indent=2) + "\n"


def question_data(question: Question | None) -> dict[str, int | str] | None:
    return question._asdict() if question else None
