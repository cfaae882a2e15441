"""Marks: which numbers they make tunable, and which are refused. Tokens are made here, by hand or by a plain reader of sources."""

from __future__ import annotations

import argparse
import json
import random
import re
from itertools import islice, product

from tools.faults import Fault
from tuning.marks import (Number, Place, Range, Token, bare, but_numbers, changed, coarse, comments, constants, numbers, place_of, placed,
                          told_tokens)
from tuning.words import numbered

# A source, and what its numbers are: place, value, low, high, step, name.
RIGHT: list[tuple[str, list[tuple[str, int, int, int, int | None, str]]]] = [
    ("main(){1 /* tune 0..9 */;}", [("1:8", 1, 0, 9, None, "1:8")]),
    ("main(){1/*tune 0..9*/;}", [("1:8", 1, 0, 9, None, "1:8")]),
    ("main(){\n  007 /* tune 5..9 step 2 name near */;}", [("2:3", 7, 5, 9, 2, "near")]),
    ("main(){\n\t1\n/* tune\n 0..9\nname a\tstep 3 */;}", [("2:2", 1, 0, 9, 3, "a")]),
    ("main(){1 /* tune 0..9 */ /* and why */;}", [("1:8", 1, 0, 9, None, "1:8")]),
    ("main(){1 /* tune 0..2147483647 */;}", [("1:8", 1, 0, 2147483647, None, "1:8")]),
    ("main(){1 /* tune 0..9 name a */; 2 /* tune 0..9 name b */;}", [("1:8", 1, 0, 9, None, "a"), ("1:34", 2, 0, 9, None, "b")]),
    # no marks: words of other comments, and of what isn't a number behind 'tune'
    ("/* tune it */ main(){1 /* tuned 3 times */; 2 /* tune the number */; 3 /* tune this... */; 4 /* Tune it */; 5 /* turn 10..20 */;}", []),
    ("main(){1; /* Tune 0..9 */ a /* tun 0..9 */;}", []), ("main(){1 /* 0..9 */; 2 /* tuning 0..9 */; 3 /* fine 0..9 */;}", []),
    ("main(){1 /* see: tune 0..9 */;}", []),
    ("/* \u00fc */ main(){1 /* tune 0..9 */;}", [("1:17", 1, 0, 9, None, "1:17")]),
]
# A source, and what is said of it.
WRONG = [
    ("main(){1; /* tune 0..9 */}", "r:1:11: the mark 'tune 0..9' has no number before it"),
    ("/* tune 0..9 */ main(){1;}", "r:1:1: the mark 'tune 0..9' has no number before it"),
    ("main(){1 /* near */ /* tune 0..9 */;}", "r:1:21: the mark 'tune 0..9' has no number before it"),
    ("main(){1 /* tune 0..9 */ /* tune 0..8 */;}", "r:1:26: the mark 'tune 0..8' has no number before it"),
    ("main(){a /* tune 0..9 */;}", "r:1:10: the mark 'tune 0..9' has no number before it"),
    ("main(){1 /* tune 0-9 */;}", "r:1:10: '0-9' is no range as 100..900"),
    ("main(){1 /* tune 9..0 */;}", "r:1:10: 9..0 has to rise, up to 2147483647 at most"),
    ("main(){1 /* tune 3..3 */;}", "r:1:10: 3..3 has to rise, up to 2147483647 at most"),
    ("main(){1 /* tune 0..2147483648 */;}", "r:1:10: 0..2147483648 has to rise, up to 2147483647 at most"),
    ("main(){1 /* tune 0..9 step 0 */;}", "r:1:10: '0' is no step from 1 to 9"),
    ("main(){1 /* tune 0..9 step 10 */;}", "r:1:10: '10' is no step from 1 to 9"),
    ("main(){1 /* tune 0..9 step -1 */;}", "r:1:10: '-1' is no step from 1 to 9"),
    ("main(){1 /* tune 0..9 near */;}", "r:1:10: a mark is 'tune LOW..HIGH', and perhaps 'step STEP' and 'name NAME', not 'tune 0..9 near'"),
    ("main(){1 /* tune 0..9 step 2 step 3 */;}",
     "r:1:10: a mark is 'tune LOW..HIGH', and perhaps 'step STEP' and 'name NAME', not 'tune 0..9 step 2 step 3'"),
    ("main(){1 /* tune 0..9 name 1a */;}", "r:1:10: '1a' is no name"),
    ("main(){1 /* tune 2..9 */;}", "r:1:8: today's value is 1, which 2..9 leaves out"),
    ("main(){1 /* tune 0..9 name a */; 2 /* tune 0..9 name a */;}", "r:1:34: the number at 1:8 has the name a, too"),
    ("main(){-4 /* tune -9..9 */;}", "r:1:11: -9..9 goes below 0, and a number is 0 or more: a minus before it is an operator"),
    ("main(){4 /* tune 0..-9 */;}", "r:1:10: 0..-9 goes below 0, and a number is 0 or more: a minus before it is an operator"),
    ("main(){4 /* tune +1..9 */;}", "r:1:10: '+1..9' is no range as 100..900"),
    ("main(){4 /* tune ..9 */;}", "r:1:10: '..9' is no range as 100..900"),
    *((f"main(){{1 /* tune 0..9 */; 1 /* {text} */;}}", f"r:1:29: '{text}' is nearly a mark, which is a comment as /* tune 100..900 */") for text in (
        "Tune 10..100", "TUNE 10..100 name a", "tun 10..100", "tunes 0..9", "tuned 0..9", "tine 0..9", "une 0..9", "ttune 0..9", "tnue 0..9", "tune: 0..9", "tune=0..9",
        "tune10..100", "Tune 10-100", "Tune 10 .. 100", "tun 10 to 100", "Tune -5..5", "tune: 10...100", "dune 1,9")),
]


def read(source: bytes) -> list[Token]:
    """The tokens of a source without faults, by a plain reader of its own."""
    found = []
    for it in re.finditer(rb"/\*.*?\*/|[0-9]+|[A-Za-z_]\w*|\S", source, re.S):
        if not it[0].startswith(b"/*"):
            found.append(Token(place_of(source, it.start()), "constant" if it[0].isdigit() else "name", it.start(), it.end()))
    return [*found, Token(place_of(source, len(source)), "end", len(source), len(source))]


def listed(it: Number) -> tuple[str, int, int, int, int | None, str]:
    return str(it.place), it.value, it.range.low, it.range.high, it.range.step, it.name


class Marks:
    """Each method whose name does not begin with _ is a test: it answers what is wrong."""

    def what_is_marked(self) -> list[str]:
        wrong = []
        for text, wanted in RIGHT:
            source = text.encode()
            got = [*map(listed, numbers(source, read(source), "r"))]
            wrong += [] if got == wanted else [f"{text!r}: {got}"]
        return wrong

    def what_is_refused(self) -> list[str]:
        wrong = []
        for text, said in WRONG:
            try:
                wrong.append(f"{text!r}: {numbers(text.encode(), read(text.encode()), 'r')}")
            except Fault as why:
                wrong += [] if (str(why), why.status) == (said, 2) else [f"{text!r}: {why}"]
        return wrong

    def nothing_is_behind_the_end(self) -> list[str]:
        """A source ends at a byte; what stands behind that has no marks, and a comment that isn't closed there is none."""
        source = b"main(){1 /* tune 0..9 */;}"
        wrong = []
        for rest in (b"", b" /* tune 0..8 */", b" 2 /* tune 0..8 name a */", b" /* tune 0..8"):
            try:
                got = f"{[*map(listed, numbers(source + chr(26).encode() + rest, read(source)[:-1], 'r'))]}"
            except Fault as why:
                got = str(why)
            wrong += [] if got == f"{[('1:8', 1, 0, 9, None, '1:8')]}" else [f"{rest!r}: {got}"]
        several = [*islice(comments(b"/* a */ b /* c", 0, 14), 5)]
        return wrong + ([] if several == [(0, "a")] else [f"{several}"])

    def what_is_told_of_a_source(self) -> list[str]:
        """Rows with tokens, by hand: lines and columns are those of bytes, and end in a line feed alone."""
        source = b"main(){\n/* \xc3\xa4 */ f(40);\r\n\r 7;}"
        told = [["name", 0, 4], ["constant", 19, 21], ["constant", 27, 28], ["punctuator", 29, 30]]
        rows = [json.dumps({"row": "word", "name": "if", "is": "keyword"}), json.dumps({"row": "tokens", "tokens": told}), '{"row": "complete"}']
        got = placed(source, told_tokens(rows, "r"), "r")
        wanted = [Token(Place(1, 1), "name", 0, 4), Token(Place(2, 12), "constant", 19, 21), Token(Place(3, 3), "constant", 27, 28),
                  Token(Place(3, 5), "punctuator", 29, 30)]
        wrong = [] if got == wanted else [f"{got}"]
        fault = json.dumps({"row": "fault", "line": 3, "message": "syntax error"})
        for told_, said, status in (([*rows, fault], "r:3: syntax error", 1), (rows[:1], "crobots-know tells no tokens of r", 3),
                                    (["no row"], "crobots-know tells no tokens of r", 3), (["7"], "crobots-know tells no tokens of r", 3),
                                    ([json.dumps({"row": "tokens", "tokens": [["constant", 0, 4]]})], "crobots-know tells other tokens than r has", 3)):
            try:
                wrong.append(f"{told_}: {placed(source, told_tokens(told_, 'r'), 'r')}")
            except Fault as why:
                wrong += [] if (str(why), why.status) == (said, status) else [f"{told_}: {why}"]
        return wrong

    def ends_of_a_range(self) -> list[str]:
        """A number may be both ends and all between, by a mark and by its place, and nothing beyond. What is refused has today's value."""
        wrong = []
        for low, high in ((0, 1), (0, 3), (2, 5), (9, 11), (2**31 - 3, 2**31 - 1)):
            for value in range(max(low - 2, 0), min(high + 3, 2**31)):
                for mark, given in ((f" /* tune {low}..{high} */", []), ("", [(Place(1, 8), Range(low, high))])):
                    source = f"main(){{{value}{mark};}}".encode()
                    try:
                        got = f"{[*map(listed, numbers(source, read(source), 'r', given))]}"
                    except Fault as why:
                        got = str(why)
                    wanted = f"{[('1:8', value, low, high, None, '1:8')]}" if low <= value <= high else f"r:1:8: today's value is {value}, which {low}..{high} leaves out"
                    wrong += [] if got == wanted else [f"{source!r}: {got}"]
        return wrong

    def numbers_by_their_place(self) -> list[str]:
        """Such a one may have a mark, which then doesn't count."""
        source = b"main(){1 /* tune 0..9 name a */; 22;}"
        got = [*map(listed, numbers(source, read(source), "r", [(Place(1, 34), Range(20, 30, 5)), (Place(1, 8), Range(1, 2))]))]
        wrong = [] if got == [("1:8", 1, 1, 2, None, "1:8"), ("1:34", 22, 20, 30, 5, "1:34")] else [f"{got}"]
        for place in (Place(1, 35), Place(1, 1), Place(2, 1)):
            try:
                wrong.append(f"{numbers(source, read(source), 'r', [(place, Range(0, 9))])}")
            except Fault as why:
                there = "there is none" if place.line == 2 else "1:8 is 1, 1:34 is 22"
                wrong += [] if str(why) == f"r:{place}: no number stands there; on that line {there}" else [str(why)]
        return wrong

    def which_constants_are_there(self) -> list[str]:
        """All of a source or of a line, in their order; of many the first eight, and how many more there are."""
        source = b"main(){ a = 1; }\nf(){ 02; }\ng(){ }\nh(){ " + b"3; " * 9 + b"}"
        got = [constants(source, read(source), line) for line in (1, 2, 3, 4, None)]
        first, second, fourth = "1:13 is 1", "2:6 is 02", [f"4:{6 + 3 * at} is 3" for at in range(9)]
        wanted = [first, second, "there is none", ", ".join(fourth[:8]) + ", and 1 more", ", ".join([first, second, *fourth[:6]]) + ", and 3 more"]
        return [] if got == wanted else [f"{got}, not {wanted}"]

    def words_of_a_number(self) -> list[str]:
        """Its place and its range, and perhaps a step and a name, which have the limits that they have in a mark."""
        wrong = []
        for (step, stepped), (name, named) in product((("", None), ("/1", 1), ("/50", 50)), (("", ""), (",near", "near"), (",_a9", "_a9"))):
            got = numbered(f"30:19=0..400{step}{name}")
            wrong += [] if got == (Place(30, 19), Range(0, 400, stepped, named)) else [f"{step}{name}: {got}"]
        no_place, in_step = "isn't LINE:COLUMN=LOW..HIGH, which /STEP and ,NAME may follow", "--number 1:1: '{}' is no step from 1 to 9"
        for text, said in (("0..9", no_place), ("1:1=0..9,a,b", no_place), ("1:1=0..9,a/2", no_place), ("1=0..9", no_place),
                           ("1:1=0..9,", "--number 1:1: '' is no name"), ("1:1=0..9,9a", "--number 1:1: '9a' is no name"), ("1:1=0..9/2,a b", "--number 1:1: 'a b' is no name"),
                           ("1:1=0..9/", in_step.format("")), ("1:1=0..9/0", in_step.format("0")), ("1:1=,near", "--number 1:1: '' is no range as 100..900")):
            try:
                wrong.append(f"{text}: {numbered(text)}")
            except argparse.ArgumentTypeError as why:
                wrong += [] if str(why) == (f"'{text}' {said}" if said == no_place else said) else [f"{text}: {why}"]
        return wrong

    def a_robot_but_for_its_numbers(self) -> list[str]:
        """Any other values of its numbers leave it itself, and so do its comments and blanks. Any other byte makes it another one."""
        wrong, rest = [], random.Random(9)
        source = b"main(){ 12 /* tune 0..90 */; 5; 300 /* tune 0..900 */; }"
        them = numbers(source, read(source), "r")
        itself, code = but_numbers(source, them), [*range(7), source.index(b"*/;") + 2, source.index(b"5;"), source.index(b"5;") + 1, len(source) - 1]
        for _ in range(200):
            other = changed(source, them, [rest.randint(0, 90), rest.randint(0, 900)])
            wrong += [] if itself.fullmatch(bare(other)) else [f"{other!r} is another robot"]
            at = rest.choice(code)
            other = source[:at] + bytes([rest.choice(b"x+=")]) + source[at + 1:]
            wrong += [] if not itself.fullmatch(bare(other)) else [f"{other!r} is the same robot"]
        same = (b"main(){12; 5; 300;}", b"/* no marks */main()\n{\n\t7;5 /**/ ;\r\n 8;\n}\n", b"main(){1/*;*/;5;2;}/***//**/", b"main(){1;5;2;}\x1a more", b"main(){1 /* /* */;5;2;}")
        others = (b"main(){12; 6; 300;}", b"main(){12; 300;}", b"main(){12; 5; 300; 1;}", b"main(){a; 5; 300;}", b"main(){-12; 5; 300;}", b"main(){1;5;2;}\x1b")
        wrong += [f"{it!r} is another robot" for it in same if not itself.fullmatch(bare(it))]
        return wrong + [f"{it!r} is the same robot" for it in others if itself.fullmatch(bare(it))]

    def only_the_numbers_bytes_change(self) -> list[str]:
        """In random sources, with blanks, comments and line ends of all kinds between the tokens."""
        wrong, rest = [], random.Random(81)
        for _ in range(300):
            parts: list[str] = []
            wanted: list[str] = []
            values = []
            for at in range(rest.randint(1, 6)):
                gap = rest.choice([" ", "\t", "\r\n", "/* 12 */", "/* \u00e9 tune */ ", "\n\n"])
                today, new = (rest.randint(0, rest.choice([9, 99999, 2147483646])) for _ in range(2))
                digits = rest.choice(["", "0", "00"]) + str(today)
                mark = f"{rest.choice(['', ' ', chr(10)])}/* tune 0..2147483647 name n{at} */"
                parts += [gap, digits, mark, ";"]
                wanted += [gap, str(new) if new != today else digits, mark, ";"]
                values.append(new)
            source, made = (f"main(){{{''.join(them)}}}".encode() for them in (parts, wanted))
            got = changed(source, numbers(source, read(source), "r"), values)
            wrong += [] if got == made else [f"{source!r}: {got!r}"]
        return wrong

    def values_of_a_sweep(self) -> list[str]:
        """Worked out by hand; both ends are always there, and today's value."""
        cases = [
            (Range(0, 400), 40, [*range(0, 401, 20)]), (Range(0, 10), 5, [*range(11)]), (Range(100, 900), 410, sorted({*range(100, 901, 50), 410})),
            (Range(0, 10, 4), 3, [0, 3, 4, 8, 10]), (Range(0, 2147483647), 7, [0, 7, *range(200000000, 2147483648, 200000000), 2147483647]),
            (Range(10, 101), 30, [*range(10, 101, 5), 101]), (Range(5, 9, 3), 9, [5, 8, 9]), (Range(5, 6), 5, [5, 6]),
        ]
        wrong = [f"{several}: {got}" for several, today, wanted in cases if (got := several.values(today)) != wanted]
        of_two = Range(10, 100).values(30, 8)
        wrong += [] if of_two == [10, 30, 50, 70, 90, 100] else [f"{of_two}"]
        steps = [(coarse(width, 20), width) for width in (1, 20, 21, 40, 41, 100, 101, 2000)]
        return wrong + ([] if steps == [(1, 1), (1, 20), (2, 21), (2, 40), (5, 41), (5, 100), (10, 101), (100, 2000)] else [f"{steps}"])

    def the_nearest_value(self) -> list[str]:
        several = Range(100, 205, 50)
        got = [several.nearest(value) for value in (-1e9, 100, 124.9, 125.1, 176, 202.4, 202.6, 1e9)]
        return [] if got == [100, 100, 100, 150, 200, 200, 205, 205] else [f"{got}"]
