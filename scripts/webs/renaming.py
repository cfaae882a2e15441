"""Gives the variables of a script short names: those of functions and blocks, and never a property's, nor a name that the whole script
shares with others. It reads a script piece by piece, as far as names need it: brackets, statements, declarations, members. What it
doesn't know for sure is refused, and what is in doubt declares nothing.

Programs that others wrote do this too, but then the page's bytes would depend on which version is installed. One of them is a test."""

from __future__ import annotations

import itertools
import re
import string
from dataclasses import dataclass, field
from typing import Iterator, NamedTuple

from .slimming import BEFORE_EXPRESSION, Unclear, pieces, pieces_from

# Words that name no variable; and what later forms of the language have, or what changes the meaning of names.
KEYWORDS = frozenset((
    "arguments async await break case catch class const continue debugger default delete do else extends false finally for function if in "
    "instanceof let new null return super switch this throw true try typeof undefined var void while").split())
REFUSED = frozenset("enum eval export import with yield".split())
DECLARING = ("const", "let", "var")
# Words that only some places keep for themselves: no variable gets these names.
SOMETIMES = ("async", "get", "of", "set", "static")
BEFORE_STATEMENT = frozenset(("else", "do", "try", "catch", "finally"))
CLOSING = {"(": ")", "[": "]", "{": "}", "${": "}"}
# What names are made of; the letters that words have most come first.
LETTERS = "etnaiorslcdfuhpmgbvywkxjqz" + string.ascii_uppercase + "_$"
# What stands within a bracket: a function's statements, those of a block, what a loop goes by, members of an object, or values.
BODY, BLOCK, HEADER, MEMBERS, VALUES = range(5)
# The text of a template, up to an expression or to its end.
CHUNK = re.compile(r"(?:\\(?:.|\n)|\$(?!\{)|[^\\$])*")


@dataclass
class Scope:
    """A function, a block, or the whole script: its variables, each with the places where it is named."""

    above: Scope | None
    is_block: bool = False
    places: dict[str, list[Place]] = field(default_factory=dict)
    below: list[Scope] = field(default_factory=list)
    # the variables of scopes around this one that are named in it
    others: set[tuple[int, str]] = field(default_factory=set)

    def inner(self, is_block: bool = False) -> Scope:
        """A function or a block within this one."""
        self.below.append(Scope(self, is_block))
        return self.below[-1]

    def declaring(self, name: str) -> Scope:
        """The innermost scope that declares a name; the whole script, if none does."""
        return self if name in self.places or not self.above else self.above.declaring(name)

    def function(self) -> Scope:
        """The innermost function, or the whole script."""
        return self.above.function() if self.is_block and self.above else self


class Place(NamedTuple):
    """A piece that names a variable; alone in an object it is the name of a property too."""

    at: int
    is_property: bool


@dataclass
class Item:
    """A piece of a script, by its place among the pieces, or a bracket with all that is in it."""

    kind: str
    text: str
    place: int = -1
    is_on_new_line: bool = False
    items: list[Item] = field(default_factory=list)

    def is_name(self) -> bool:
        return self.kind == "word" and not self.text[0].isdigit() and self.text[0] != "#" and self.text not in KEYWORDS

    def is_bracket(self, *texts: str) -> bool:
        return self.kind == "bracket" and self.text in texts

    def is_sign(self, *texts: str) -> bool:
        return self.kind == "sign" and self.text in texts

    def is_word(self, *texts: str) -> bool:
        return self.kind == "word" and self.text in texts

    def ends_statement(self, after: Item) -> bool:
        """Whether the end of a line behind this item ends a statement: no value goes on by the item after it."""
        is_value = self.is_sign("++", "--") if self.kind == "sign" else self.text not in BEFORE_EXPRESSION
        goes_on = after.kind == "sign" and not after.is_sign("++", "--") or after.text in ("in", "instanceof", "(", "[")
        return after.is_on_new_line and is_value and not goes_on


NOTHING = Item("sign", "")


def opened(found: list[tuple[str, str]]) -> Iterator[tuple[str, str]]:
    """The pieces of a script, with those of each expression of a template."""
    for kind, text in found:
        yield from taken_apart(text) if kind == "template" else ((kind, text),)


def taken_apart(template: str) -> Iterator[tuple[str, str]]:
    """The texts of a template, and between them the pieces of its expressions, each in a bracket."""
    at = 0
    while at < len(template):
        chunk = CHUNK.match(template, at)
        assert chunk
        yield "chunk", chunk[0]
        at = chunk.end()
        if at < len(template):
            inside, end = pieces_from(template, at + 2)
            yield from (("sign", "${"), *opened(inside), ("sign", "}"))
            at = end + 1


def grouped(found: list[tuple[str, str]], places: Iterator[int], closing: str = "") -> list[Item]:
    """The items up to a closing bracket, or to the end."""
    items: list[Item] = []
    is_on_new_line = False
    for place in places:
        kind, text = found[place]
        if kind in ("blank", "end"):
            is_on_new_line |= kind == "end"
            continue
        if kind == "sign" and text == closing:
            return items
        if kind == "sign" and text in CLOSING.values():
            raise Unclear(text)
        opens = kind == "sign" and text in CLOSING
        inside = grouped(found, places, CLOSING[text]) if opens else []
        items.append(Item("bracket" if opens else kind, text, place, is_on_new_line, inside))
        is_on_new_line = False
    if closing:
        raise Unclear(f"no {closing}")
    return items


class Reader:
    """Reads what stands within a bracket: finds what is declared there, and each word that is a variable's name."""

    def __init__(self, items: list[Item], scope: Scope, named: list[tuple[Scope, Item, bool]], form: int) -> None:
        self.items, self.scope, self.named, self.form, self.at = items, scope, named, form, 0
        self.has_statements = form in (BODY, BLOCK)
        # whether a statement begins, for sure; how many conditions want their colon
        self.begins, self.conditions = self.has_statements, 0
        # the scope of a statement of variables, as long as it goes on
        self.declares: Scope | None = None

    def item(self, step: int = 0) -> Item:
        """The item here, or some steps on; nothing, where none is."""
        at = self.at + step
        return self.items[at] if 0 <= at < len(self.items) else NOTHING

    def take(self, fits: bool) -> Item:
        """Goes on by an item, if it fits."""
        if not fits:
            raise Unclear(self.item().text or "an end")
        self.at += 1
        return self.item(-1)

    def goes_by(self, sign: str) -> bool:
        """Whether this sign is here; goes on by it then."""
        is_here = self.item().is_sign(sign)
        self.at += is_here
        return is_here

    def is_at_end(self) -> bool:
        return self.at >= len(self.items)

    def within(self, item: Item, scope: Scope, form: int = VALUES) -> Reader:
        """What reads a bracket in here."""
        return Reader(item.items, scope, self.named, form)

    def read(self) -> None:
        """Reads all of it."""
        while not self.is_at_end():
            if self.form == MEMBERS and (self.at == 0 or self.item(-1).is_sign(",")):
                self.member()
            else:
                self.part()

    def part(self) -> None:
        """Reads an item, and what belongs to it."""
        item, before = self.item(), self.item(-1)
        if before.ends_statement(item):
            self.begins, self.declares = self.has_statements, None
        begins, self.begins = self.begins, False
        self.at += 1
        if self.item().is_sign("=>"):
            self.arrow(item)
        elif item.kind == "bracket":
            self.bracket(item, item.text == "{" and (begins or before.is_bracket("(")))
        elif item.kind == "word" and not self.is_member():
            self.word(item, begins, before)
        elif item.kind == "sign":
            self.sign(item.text)

    def is_member(self) -> bool:
        """Whether the word that was taken is a property's name, behind a dot; behind three it is none."""
        return self.item(-2).is_sign(".") and not self.item(-3).is_sign(".")

    def bracket(self, item: Item, is_block: bool) -> None:
        """Reads what stands within another bracket."""
        form = BLOCK if is_block else MEMBERS if item.text == "{" else VALUES
        self.within(item, self.scope.inner(is_block=True) if is_block else self.scope, form).read()
        self.begins = is_block

    def sign(self, text: str) -> None:
        if text == "," and self.declares:
            self.target(self.declares)
        elif text == "?":
            self.condition()
        elif text == ":" and self.conditions:
            self.conditions -= 1
        elif text in (":", ";"):
            self.begins, self.declares = self.has_statements, None

    def condition(self) -> None:
        """A question mark is that of a condition, if no other one and no dot before a name follows."""
        if not self.goes_by("?") and (not self.item().is_sign(".") or self.item(1).text[:1].isdigit()):
            self.conditions += 1

    def word(self, item: Item, begins: bool, before: Item) -> None:
        """Reads a word, and what begins with it."""
        if item.text in REFUSED:
            raise Unclear(item.text)
        if item.text in DECLARING:
            self.declares = self.scope.function() if item.text == "var" else self.scope
            self.target(self.declares)
        elif item.text in ("for", "catch", "class", "function"):
            self.begins_with(item.text, begins, not begins and before.kind == "sign" and not before.is_sign(":", ";"))
        elif item.text == "in" or self.form == HEADER and item.text == "of" and self.declares:
            self.declares = None
        elif item.is_name():
            self.name(item, self.scope)
        else:
            self.begins = item.text in BEFORE_STATEMENT and self.has_statements

    def begins_with(self, word: str, begins: bool, is_value: bool) -> None:
        """Reads what begins with a word that has a scope of its own."""
        if word == "for":
            self.loop()
        elif word == "catch":
            self.caught()
        elif word == "class":
            self.blueprint(begins)
        else:
            self.function(begins and self.form == BODY, is_value)

    def name(self, item: Item, scope: Scope, is_declared: bool = False, is_property: bool = False) -> None:
        """Takes note of a name, and perhaps of its declaration."""
        self.named.append((scope, item, is_property))
        if is_declared:
            scope.places.setdefault(item.text, [])

    def target(self, scope: Scope) -> None:
        """Reads what is declared in a scope: a name, or a pattern."""
        item = self.take(self.item().is_name() or self.item().is_bracket("[", "{"))
        if item.kind == "bracket":
            reader = self.within(item, self.scope)
            (reader.targets if item.text == "[" else reader.properties)(scope)
        else:
            self.name(item, scope, is_declared=True)

    def targets(self, scope: Scope) -> None:
        """Reads a list of what is declared in a scope, as parameters are."""
        while not self.is_at_end():
            if not self.goes_by(","):
                self.spread()
                self.target(scope)
                self.preset()

    def properties(self, scope: Scope) -> None:
        """Reads the properties of a pattern, whose values are declared in a scope."""
        while not self.is_at_end():
            if self.goes_by(","):
                continue
            if self.spread():
                self.target(scope)
                continue
            key = self.key()
            if self.goes_by(":"):
                self.target(scope)
            else:
                self.alone(key, scope, is_declared=True)
            self.preset()

    def spread(self) -> bool:
        """Whether three dots are here; goes on by them then."""
        return all(self.goes_by(".") for _ in range(3))

    def preset(self) -> None:
        """Reads the value that something has otherwise, if there is one."""
        if self.goes_by("="):
            self.value()

    def value(self) -> None:
        """Reads a value, up to what ends it."""
        conditions, self.conditions = self.conditions, 0
        begin = self.at
        while not self.is_at_end():
            item = self.item()
            if item.is_sign(",", ";") or item.is_sign(":") and not self.conditions or self.at > begin and self.item(-1).ends_statement(item):
                break
            self.part()
        self.conditions = conditions

    def key(self) -> Item:
        """Reads the name of a property or of a method."""
        item = self.take(self.item().kind in ("word", "text") or self.item().is_bracket("["))
        if item.kind == "bracket":
            self.within(item, self.scope).read()
        return item

    def alone(self, key: Item, scope: Scope, is_declared: bool = False) -> None:
        """A name that stands alone in an object or a pattern is a variable's and a property's."""
        if not key.is_name() or not (self.is_at_end() or self.item().is_sign(",", "=")):
            raise Unclear(key.text)
        self.name(key, scope, is_declared, is_property=True)

    def member(self) -> None:
        """Reads a member of an object, up to its value; a method whole."""
        if self.spread():
            return
        key = self.named_method() or self.key()
        if self.item().is_bracket("("):
            self.called()
        elif not self.goes_by(":"):
            self.alone(key, self.scope)

    def named_method(self) -> Item | None:
        """The name of a member behind words that say what it is; none if there are none."""
        begin = self.at
        while self.item().is_word(*SOMETIMES) and not (self.item(1).kind == "sign" and not self.item(1).is_sign("*")) and not self.item(1).is_bracket("("):
            self.at += 1
        self.goes_by("*")
        return self.key() if self.at > begin else None

    def members(self) -> None:
        """Reads the members of a class."""
        while not self.is_at_end():
            if self.goes_by(";"):
                continue
            _ = self.named_method() or self.key()
            if self.item().is_bracket("("):
                self.called()
            else:
                self.preset()
                self.take_end()

    def take_end(self) -> None:
        """What is a value alone ends with a sign, or with its line."""
        if not self.is_at_end() and not self.goes_by(";") and not self.item().is_on_new_line:
            raise Unclear(self.item().text)

    def called(self, inner: Scope | None = None) -> None:
        """Reads the parameters of a function, and its body."""
        inner = inner or self.scope.inner()
        self.within(self.take(self.item().is_bracket("(")), inner).targets(inner)
        self.within(self.take(self.item().is_bracket("{")), inner, BODY).read()

    def arrow(self, item: Item) -> None:
        """Reads an arrow function, whose parameters were taken: one name, or a bracket."""
        inner = self.scope.inner()
        if item.is_name():
            self.name(item, inner, is_declared=True)
        elif item.is_bracket("("):
            self.within(item, inner).targets(inner)
        else:
            raise Unclear(item.text)
        self.at += 1
        if self.item().is_bracket("{"):
            self.within(self.take(True), inner, BODY).read()
        else:
            self.value_in(inner)

    def value_in(self, scope: Scope) -> None:
        """Reads a value, in a scope of its own."""
        around, self.scope = self.scope, scope
        self.value()
        self.scope = around

    def loop(self) -> None:
        """Reads what a loop goes by, and its block if something is declared for it."""
        inner = self.scope.inner(is_block=True)
        self.take(self.item().is_word("await") or self.item().is_bracket("("))
        self.at -= self.item(-1).kind == "bracket"
        self.within(self.take(self.item().is_bracket("(")), inner, HEADER).read()
        if self.item().is_bracket("{"):
            self.within(self.take(True), inner.inner(is_block=True), BLOCK).read()
            self.begins = self.has_statements
        elif inner.places:
            self.expression_in(inner)

    def expression_in(self, scope: Scope) -> None:
        """Reads a statement that is an expression alone, in a scope of its own."""
        self.take(self.item().is_name())
        self.at -= 1
        self.value_in(scope)
        self.take_end()
        self.begins = self.has_statements

    def caught(self) -> None:
        """Reads what is caught, if that has a name, and the block then."""
        self.begins = self.has_statements
        if self.item().is_bracket("("):
            inner = self.scope.inner(is_block=True)
            self.within(self.take(True), inner).target(inner)
            self.within(self.take(self.item().is_bracket("{")), inner, BLOCK).read()

    def blueprint(self, is_statement: bool) -> None:
        """Reads a class. The name of one that is a statement is a variable outside of it, and that of a value one inside."""
        inner = self.scope.inner(is_block=True)
        if self.item().is_name():
            self.name(self.take(True), self.scope if is_statement else inner, is_declared=True)
        around, self.scope = self.scope, inner
        while self.item().kind in ("word", "sign"):
            self.part()
        self.scope = around
        self.within(self.take(self.item().is_bracket("{")), inner).members()
        self.begins = is_statement

    def function(self, is_statement: bool, is_value: bool) -> None:
        """Reads a function. The name of one that is a statement is a variable outside of it, and that of a value one inside."""
        inner = self.scope.inner()
        self.goes_by("*")
        if self.item().kind == "word":
            self.name(self.take(self.item().is_name()), inner if is_value else self.scope, is_statement or is_value)
        self.called(inner)
        self.begins = is_statement


def short_names(others: set[str]) -> Iterator[str]:
    """Names, the shortest first, without some others."""
    for length in itertools.count(1):
        yield from (name for name in map("".join, itertools.product(LETTERS, repeat=length)) if name not in others)


def resolve(named: list[tuple[Scope, Item, bool]]) -> None:
    """Tells each scope where its variables are named, and which variables of scopes around it are named in it."""
    for scope, item, is_property in named:
        declaring = scope.declaring(item.text)
        declaring.places.setdefault(item.text, []).append(Place(item.place, is_property))
        while scope is not declaring and scope.above:
            scope.others.add((id(declaring), item.text))
            scope = scope.above


def rename(scope: Scope, given: dict[tuple[int, str], str], kept: set[str], found: list[tuple[str, str]]) -> None:
    """Gives the variables of the scopes below one their names: the shortest that nothing else has that is named there."""
    for inner in scope.below:
        names = short_names(kept | {given[name] for name in inner.others if name in given})
        for (name, places), short in zip(inner.places.items(), names):
            given[id(inner), name] = short
            for at, is_property in places:
                found[at] = "word", f"{name}:{short}" if is_property else short
        rename(inner, given, kept, found)


def renamed(script: str) -> str:
    """The script with short names."""
    found = [*opened(pieces(script))]
    outer = Scope(None)
    named: list[tuple[Scope, Item, bool]] = []
    Reader(grouped(found, iter(range(len(found)))), outer, named, BODY).read()
    resolve(named)
    rename(outer, {}, {*outer.places, *KEYWORDS, *REFUSED, *SOMETIMES}, found)
    return "".join(text for _, text in found)
