"""What beginners write, as tests/mistakes/*.txt have it: sources, what should be read of each, and the steps to take."""

from __future__ import annotations

import os
import re
import subprocess
from dataclasses import dataclass, field
from functools import reduce

from harness import PATIENCE

ESCAPES = {"n": "\n", "r": "\r", "t": "\t", "s": " ", "\\": "\\"}
Change = tuple[str, str]


@dataclass
class Step:
    """Words that must be said, words of which one must be, words that must not, and what is changed then: the kind of each change, and what
    stands behind it."""

    says: list[str] = field(default_factory=list)
    either: list[str] = field(default_factory=list)
    never: list[str] = field(default_factory=list)
    changes: list[Change] = field(default_factory=list)


@dataclass
class Mistake:
    """A source, the steps to a robot that compiles without a warning, and why it isn't understood yet, if it isn't."""

    kind: str
    name: str
    source: str = ""
    steps: list[Step] = field(default_factory=list)
    is_open: str = ""


def plain(text: str) -> str:
    """A text with the characters that its escapes stand for."""
    return re.sub(r"\\(?:u([0-9a-f]{4})|(.))", lambda it: chr(int(it[1], 16)) if it[1] else ESCAPES[it[2]], text)


def read(path: str) -> list[Mistake]:
    """The mistakes of a file."""
    mistakes: list[Mistake] = []
    kind = ""
    with open(path, encoding="utf-8") as file:
        lines = file.read().split("\n\n", 1)[1].split("\n")
    for line in filter(None, lines):
        if line.startswith("|"):
            mistakes[-1].source += plain(line[2:]) + "\n"
            continue
        word, _, rest = line.partition(":")
        if word == "kind":
            kind = rest[1:]
        elif word == "case":
            mistakes.append(Mistake(kind, rest[1:]))
        else:
            take(mistakes[-1], word, rest[1:])
    return mistakes


def take(mistake: Mistake, word: str, rest: str) -> None:
    """Takes a line that belongs to a mistake."""
    if word == "open":
        mistake.is_open = rest
    elif word == "says":
        mistake.steps.append(Step(says=words_of(rest)))
    elif word == "any":
        mistake.steps.append(Step(either=words_of(rest)))
    elif word == "not":
        mistake.steps[-1].never += words_of(rest)
    else:
        mistake.steps[-1].changes.append((word, rest))


def words_of(rest: str) -> list[str]:
    """The words between the bars of a line."""
    return [plain(word) for word in rest.split(" | ")]


def changed(source: str, change: Change) -> str:
    """A source after a change."""
    word, rest = change
    if word in ("put", "all"):
        old, _, new = rest.partition(" =>")
        old, new = plain(old), plain(new.removeprefix(" "))
        assert source.count(old) == 1 or word == "all" and old in source, f"{old!r} stands {source.count(old)} times"
        return source.replace(old, new)
    verb, _, number = (f"{word}{rest}" if word[-1].isdigit() else f"{word} {rest}").partition(" ")
    return by_lines(source, verb, re.match(r"\d+", number), plain(rest))


def by_lines(source: str, verb: str, number: re.Match[str] | None, text: str) -> str:
    """A source after a change of a line."""
    assert number and verb in ("line", "before", "drop"), f"there is no change `{verb}`"
    lines = source.split("\n")
    place = int(number[0]) - 1
    lines[place:place + (verb != "before")] = [text] if verb != "drop" else []
    return "\n".join(lines)


def states(mistake: Mistake) -> list[str]:
    """The source of a mistake, and what each of its steps makes of it."""
    made = [mistake.source]
    for step in mistake.steps:
        made.append(reduce(changed, step.changes, made[-1]))
    return made


def stands(word: str, said: str) -> bool:
    """Whether a word stands in what is said; one that ends in a digit isn't the beginning of a number."""
    return re.search(re.escape(word) + (r"(?!\d)" if word[-1:].isdigit() else ""), said) is not None


def is_quoted(word: str, said: str) -> bool:
    """Whether a word between backquotes is the whole or a part of what stands between backquotes."""
    own = word.strip("`")
    ends = (r"(?<!\w)" if re.match(r"\w", own) else "", r"(?!\w)" if re.search(r"\w$", own) else "")
    quoted = [part for line in said.split("\n") for part in line.split("`")[1::2]]
    return any(re.search(ends[0] + re.escape(own) + ends[1], part) for part in quoted)


def is_said(word: str, said: str) -> bool:
    """Whether a word stands in what is said; one between backquotes may be a part of what is quoted there."""
    return stands(word, said) or len(word) > 2 and word[0] == word[-1] == "`" and is_quoted(word, said)


def wrong_step(step: Step, said: str) -> list[str]:
    """What is wrong with what is said at a step."""
    none = [f"lacks all of {step.either}"] if step.either and not any(is_said(word, said) for word in step.either) else []
    return [f"lacks {word!r}" for word in step.says if not is_said(word, said)] + none + \
        [f"has {word!r}" for word in step.never if stands(word, said)]


class Judge:
    """Goes through mistakes by a program that explains, in a folder."""

    def __init__(self, why: str, folder: str) -> None:
        self._why, self._folder = why, folder

    def said(self, source: str) -> str:
        """What is said of a source, with its warnings."""
        with open(os.path.join(self._folder, "a.r"), "wb") as file:
            file.write(source.encode())
        ran = subprocess.run([self._why, "--lint", "a.r"], cwd=self._folder, capture_output=True, check=False, timeout=PATIENCE)
        return (ran.stdout + ran.stderr).decode(errors="replace")

    def misstated(self, mistake: Mistake) -> str:
        """Why the steps of a mistake lead to no robot that compiles without a warning, whatever is said of them."""
        try:
            source = states(mistake)[-1]
        except AssertionError as fault:
            return str(fault)
        said = self.said(source)
        return f"the last step leaves\n{source}{said}" if said else ""

    def misread(self, mistake: Mistake) -> str:
        """The first step of a mistake at which the right words aren't said, and how; nothing if it is understood."""
        for number, (step, source) in enumerate(zip(mistake.steps, states(mistake)), 1):
            said = self.said(source)
            if wrong := wrong_step(step, said):
                return f"step {number} {', '.join(wrong)}:\n{said}"
        return ""
