"""Sources of a kind, with what is to be said of each: braces that lack, values that come from another question, letters of any width."""

from __future__ import annotations

import math
import operator
import random
import re
import unicodedata
from dataclasses import dataclass

# What a question answers, as a warning calls it.
ANSWERS = {"scan(9, 5)": "range", "speed()": "speed", "damage()": "damage", "loc_x()": "coordinate", "loc_y()": "coordinate"}
# A call with a place for a value, what the place is for, and what is surely no such thing.
PLACES = [
    ("cannon(@, 90);", "degree", {"range", "speed", "damage", "coordinate"}),
    ("drive(@, 50);", "degree", {"range", "speed", "damage", "coordinate"}),
    ("look = scan(@, 5); cannon(9, look);", "degree", {"range", "speed", "damage", "coordinate"}),
    ("cannon(9, @);", "range", {"speed", "damage"}),
    ("drive(9, @);", "speed", {"coordinate"}),
    ("look = scan(9, @); cannon(9, look);", "resolution", {"range", "speed", "damage", "coordinate"}),
]


@dataclass
class Row:
    """A construct of another language: its word or mark, what stands behind that, the language, and what is said of it."""

    looks: str
    behind: str
    language: str
    says: str

    def shown(self) -> str:
        """How a page shows it."""
        behind = self.behind.rstrip("@").strip("&")
        between = " " if self.looks[-1].isalnum() and re.match(r'[\w"<]', behind) else ""
        return f"`{self.looks}{between}{behind}`"

    def source(self) -> str:
        """A source that has it, in a statement."""
        behind = self.behind.replace("@", "thing").replace("&", " ")
        between = " " if self.looks[-1].isalnum() else ""
        return f"main() {{\n  while (1) {{\n    drive(0, 50);\n    {self.looks}{between}{behind}\n  }}\n}}\n"

    def hint(self) -> str:
        """How its hint begins."""
        return ("" if self.language == "C" else f"`{self.looks}` is {self.language}: ") + self.says


def rows_of(code: str) -> list[Row]:
    """The rows of the table of languages in the code: a text of each language, a line each."""
    names = [line.strip().strip("(),").split(", ") for line in code.partition("= [\n")[2].partition("];")[0].splitlines()]
    texts = dict(part.partition(": &str =")[::2] for part in code.split("\nconst ")[1:])
    return [row for language, name in names for line in plain_text(texts[name]).split("\n") for row in rows_in(line, language.strip('"'))]


def plain_text(text: str) -> str:
    """A text of the code between its quotes, with the characters that its escapes stand for."""
    return text.partition('"')[2].partition('";')[0].replace('\\"', '"').replace("\\t", "\t")


def rows_in(line: str, language: str) -> list[Row]:
    """The rows of a line: it has constructs, and what is said of each."""
    constructs, _, says = line.partition("\t")
    return [Row(looks, behind, language, says.lstrip("^;*+")) for looks, _, behind in (construct.partition("'") for construct in constructs.split(" "))]


def block(random_: random.Random, margin: str, unit: str, is_own_line: bool, depth: int) -> list[str]:
    """The lines of a block's inside: statements, and some blocks, whose braces end lines or stand in their own."""
    lines = []
    for _ in range(random_.randrange(1, 4)):
        lines.append(f"{margin}{random_.choice(('drive(a, 50);', 'a = scan(a, 10);', 'cannon(a, 300);', 'a += 20;'))}")
        if depth < 4 and random_.random() < 0.5:
            head = f"{margin}{random_.choice(('while (speed() > 50)', 'if (a > 90)', 'while (1)'))}"
            lines += [head, f"{margin}{{"] if is_own_line else [f"{head} {{"]
            lines += [*block(random_, margin + unit, unit, is_own_line, depth + 1), f"{margin}}}"]
    return lines


def laid_out(random_: random.Random) -> str:
    """A robot of some functions whose indentation shows its blocks."""
    unit, is_own_line, lines = random_.choice(("  ", "    ", "\t", " ")), random_.random() < 0.5, []
    for head in [*(f"{random_.choice(('', 'int '))}turn{number}(a)" for number in range(random_.randrange(3))), "main()"]:
        lines += [head, "{"] if is_own_line else [f"{head} {{"]
        lines += [*block(random_, unit, unit, is_own_line, 0), "}", ""]
    return "\n".join(lines)


def without_brace(source: str) -> list[tuple[str, int, int]]:
    """Each source that lacks one `}` that begins a line, with the line of its `{`, and the line that stands behind it then. The last
    one of a function isn't left out, since no line of the function is behind it."""
    lines = source.split("\n")
    made: list[tuple[str, int, int]] = []
    opened: list[int] = []
    for number, line in enumerate(lines):
        bare = re.sub(r"/\*.*?\*/", "", line)
        for mark in re.findall(r"[{}]", bare):
            begin = opened.pop() if mark == "}" else number + 1
            opened += [begin] if mark == "{" else []
            if mark == "}" and opened and bare.strip() == "}":
                made.append(("\n".join(lines[:number] + lines[number + 1:]), begin, number + 1))
    return made


def with_brace(source: str) -> list[tuple[str, int]]:
    """Each source with one `}` too many, at the end of a block's line that is followed by another one of the block, and its line."""
    lines = source.split("\n")
    made = []
    for number, (line, behind) in enumerate(zip(lines, lines[1:])):
        margin = line[:len(line) - len(line.lstrip())]
        if margin and line.endswith(";") and behind.startswith(margin) and re.match(r"\w", behind[len(margin):]):
            made.append(("\n".join(lines[:number + 1] + [margin + "}"] + lines[number + 1:]), number + 2))
    return made


def followed(random_: random.Random) -> tuple[str, str | None]:
    """A robot that passes an answer on, through variables and functions, to a place of a call; and what is said of it there."""
    question, answer = random_.choice(list(ANSWERS.items()))
    place, wanted, refused = random_.choice(PLACES)
    declared, functions, statements, value = "", "", [], question
    for number in range(random_.randrange(4)):
        kind = random_.randrange(3)
        if kind == 0:
            declared += f"int outer{number};\n"
        if kind == 1:
            functions += f"pass{number}(a) {{ return a; }}\n"
        name = f"outer{number}" if kind == 0 else f"inner{number}"
        statements.append(f"{name} = {f'pass{number}({value})' if kind == 1 else value};")
        value = name
    if random_.randrange(2):
        functions += f"use(a) {{ {place.replace('@', 'a')} }}\n"
        statements.append(f"use({value});")
    else:
        statements.append(place.replace("@", value))
    body = "\n    ".join(statements)
    words = f"this is a {answer}" if answer in refused and answer != wanted else None
    return f"{declared}{functions}main() {{\n  while (1) {{\n    {body}\n  }}\n}}\n", words


def branched(random_: random.Random) -> tuple[str, list[str]]:
    """A robot of branches and loops without braces, whose lines begin anywhere; and the places of the statements that look as if they were
    a part of one and are none: each begins a line in the column of the body on a line before it, which is further to the right than its head."""
    lines, misread = ["main() {", "  while (1) {"], list[str]()
    for _ in range(random_.randrange(1, 6)):
        head, body, behind = (random_.randrange(2, 7) for _ in range(3))
        behind = random_.choice((body, behind))
        lines.append(" " * head + random_.choice(("if (damage() > 50)", "while (damage() > 50)")))
        is_below = random_.random() < 0.8
        lines += [" " * body + "cannon(9, 50);"] if is_below else [f"{lines.pop()} cannon(9, 50);"]
        if "if" in lines[-1 - is_below] and random_.random() < 0.4:
            # no statement begins with it; and its own statement is in braces, so nothing looks like a part of that
            lines.append(" " * behind + "else { cannon(9, 60); }")
            continue
        if random_.random() < 0.2:
            lines[-1] += " cannon(9, 70);"
            continue
        lines.append(" " * behind + random_.choice(("cannon(9, 80);", "{ cannon(9, 80); }", ";")))
        misread += [f"{len(lines)}:{behind + 1}"] if is_below and head < body == behind else []
    # what follows the last one begins no statement
    last = random_.randrange(2, 7)
    lines += [f"    if (damage() > 50)\n{' ' * last}cannon(9, 50);", f"{' ' * last}}}", "}"]
    return "\n".join(lines) + "\n", misread


def swept(random_: random.Random) -> tuple[str, bool]:
    """A robot whose looks go on by a step, and whether there are whole degrees between two looks that neither sees."""
    resolution, step = random_.randrange(11), random_.randrange(1, 26)
    on = random_.choice((f"d += {step};", f"d = d + {step};", f"d = (d + {step}) % 360;", f"d -= {step};", f"d = (d + {360 - step}) % 360;"))
    seen = {degree for look in (0, step) for degree in range(look - resolution, look + resolution + 1)}
    return f"main() {{\n  int d;\n  while (1) {{\n    cannon(d, scan(d, {resolution}));\n    {on}\n  }}\n}}\n", not seen >= {*range(step)}


TESTS = {"<": operator.lt, "<=": operator.le, ">": operator.gt, ">=": operator.ge, "==": operator.eq, "!=": operator.ne}
# The numbers that conditions compare with, and all that tell these apart.
COMPARED, VALUES = range(10), range(-1, 11)


def chained(random_: random.Random) -> tuple[str, list[str]]:
    """A robot of conditions, each the first thing in a branch of the one before; and the place of the first that no value passes which comes to
    it, if there is one: then it is the last."""
    lines, come, never = ["main() {", "  int a, b;", "  a = rand(10); b = rand(10);", "  while (1)"], {"a": {*VALUES}, "b": {*VALUES}}, list[str]()
    for depth in range(random_.randrange(2, 6)):
        name, sign, number, is_else = random_.choice("aaab"), random_.choice([*TESTS]), random_.choice(COMPARED), random_.random() < 0.6
        passed = {value for value in come[name] if TESTS[sign](value, number)}
        indent = 2 * depth + 4
        if not passed:
            never.append(f"{len(lines) + 1}:{indent + 7}")
        if not passed or not come[name] - passed:
            is_else = False
        lines.append(f"{' ' * indent}if ({name} {sign} {number})" + (" drive(9, 50); else" if is_else else ""))
        if not passed:
            break
        come[name] = come[name] - passed if is_else else passed
    return "\n".join([*lines, "    drive(0, 50);", "}"]) + "\n", never


def counting(random_: random.Random) -> tuple[str, bool]:
    """A robot that counts in the turns of a loop and compares that with a number; and whether it begins anew in each turn, so that it never
    gets there."""
    first, step, times, number = random_.randrange(4), random_.randrange(1, 4), random_.randrange(1, 4), random_.randrange(12)
    on = [random_.choice(("n++;", "++n;")) if step == 1 and random_.random() < 0.5 else random_.choice((f"n += {step};", f"n = n + {step};"))
          for _ in range(times)]
    sign = random_.choice((">", ">=", "=="))
    where = random_.choice(("inside", "inside", "before", "behind", "looped"))
    begin, steps, asked = f"n = {first};", "\n    ".join(f"if (damage() > {at}) {it}" for at, it in enumerate(on)), f"if (n {sign} {number}) drive(0, 50);"
    inside = {"inside": [begin, steps, asked], "before": [steps, asked], "behind": [asked, steps, begin],
              "looped": [begin, f"while (damage() > 50) {{ {' '.join(on)} }}", asked]}[where]
    lines = ["main() {", "  int n;", *([f"  {begin}"] if where == "before" else []), "  while (1) {", *(f"    {it}" for it in inside), "  }", "}"]
    return "\n".join(lines) + "\n", where == "inside" and not TESTS[sign](first + step * times, number) and number >= first + step * times


def turned(random_: random.Random) -> tuple[str, bool]:
    """A robot that looks, changes what it looks to, and shoots; and whether each shot at what a look saw goes to another degree than that look,
    whatever the damage is."""
    step = random_.randrange(1, 30)
    on = random_.choice((f"d += {step};", f"d = d + {step};", f"d = (d + {step}) % 360;"))
    # a step is a statement, and what it adds to the degree in each of two runs: with little damage, and with much; or a look
    steps = {"none": [], "step": [(on, step, step)], "back": [(on, step, step), (f"d -= {step};", -step, -step)], "up": [("d++;", 1, 1)],
             "branch": [(f"if (damage() > 50) {on}", 0, step)], "nobody": [(f"if (r == 0) {on}", 0, 0)],
             "again": [(on, step, step), ("r = scan(d, 10);", None, None)]}
    others = random_.choice(([], [(f"e += {step};", 0, 0), ("drive(e, 50);", 0, 0)]))
    between = others + steps[random_.choice([*steps])] + random_.choice(([], others))
    ways = [sum_behind_look([it[run] for it in between]) for run in (1, 2)]
    test = random_.choice(("if (r > 40) ", "if (r) ", "if (r > 40 && r < 700) ", ""))
    lines = ["r = scan(d, 10);", *(it[0] for it in between), f"{test}cannon(d, r);", f"d += {random_.randrange(9)};"]
    declared = random_.choice(("main() {\n  int d, e, r;\n", "int d, e, r;\nmain() {\n"))
    return declared + "  while (1) {\n    " + "\n    ".join(lines) + "\n  }\n}\n", 0 not in ways


def sum_behind_look(steps: list[int | None]) -> int:
    """What steps add up to behind the last look among them."""
    last = max((at for at, it in enumerate(steps) if it is None), default=-1)
    return sum(it or 0 for it in steps[last + 1:])


def nearest(random_: random.Random) -> tuple[str, bool]:
    """A robot that searches for the least range of a few looks; and whether a look that saw nobody is taken for the nearest one."""
    less = random_.choice(("r < best", "best > r", "r <= best", "best >= r"))
    first = random_.choice((9999, 2000, 800))
    more, before, is_left_out = random_.choice((
        ("{}", "", False), ("{} && d != 90", "", False), ("d != 90 && {}", "", False), ("r > 0 && {}", "", True), ("r && {}", "", True),
        ("{} && r != 0", "", True), ("{} && r > 40", "", True), ("{}", "if (r == 0) r = 9999;\n    ", True), ("{}", "if (r > 0)\n      ", True)))
    keep = random_.choice(("best = r; at = d;", "at = d; best = r;", "best = r;"))
    inner = random_.choice(("{ @ }", "{ if (r > 0) { @ } }")) if random_.random() < 0.3 else "{ @ }"
    looks = [(0, 300), (90, 0), (180, 0), (270, 200)]
    best, is_taken = first, False
    for degree, range_ in looks:
        passes = not (range_ == 0 and (is_left_out or "if" in inner)) and not (degree == 90 and "d != 90" in more)
        if passes and (range_ <= best if "=" in less else range_ < best):
            best, is_taken = range_, is_taken or range_ == 0
    test = f"if ({more.format(less)}) {inner.replace('@', keep)}"
    return f"""main() {{
  int d, r, best, at;
  while (1) {{
    best = {first};
    d = 0;
    while (d < 360) {{
      r = scan(d, 10);
      {before}{test}
      d = d + 20;
    }}
    if (best > 0) cannon(at, best);
  }}
}}
""", is_taken


def renewed(random_: random.Random) -> tuple[str, bool]:
    """A robot that compares, turn for turn, what a question answers with an earlier answer; and whether that is never renewed though the loop
    never ends. A place is left for good, so that only the same one is asked for."""
    question, sign = random_.choice(("damage()", "loc_x()", "loc_y()", "speed()")), random_.choice([*TESTS])
    test = random_.choice((f"{question} {sign} old", f"old {sign} {question}"))
    where, loop = random_.choice(("nowhere", "nowhere", "branch", "end", "begin", "twice", "other")), random_.choice(("1", "1", "damage() < 50"))
    turn = {"branch": f"if ({test}) {{ drive(9, 40); old = {question}; }}", "end": f"if ({test}) drive(9, 40); old = {question};",
            "begin": f"old = {question}; cannon(9, 90); if ({test}) drive(9, 40);"}.get(where, f"if ({test}) drive(9, 40);")
    before = {"twice": f"old = {question}; drive(0, 9); old = {question};", "other": "old = rand(9);"}.get(where, f"old = {question};")
    inner = random_.choice((turn, f"while (speed() > 0) {{ {turn} }}"))
    stays = where == "nowhere" and loop == "1" and (question == "damage()" or sign in ("==", "!="))
    return f"main() {{\n  int old;\n  {before}\n  while ({loop}) {{\n    cannon(0, 90);\n    {inner}\n  }}\n  while (1) drive(0, 9);\n}}\n", stays


# Sources with a comment that is no comment as it was meant, whose place is marked, and what is said of the line on which it begins.
COMMENTS = [
    ("f() { @/* now\n}\nmain() { } /* end */ }\n", "a comment that isn't closed on line {} has it"),
    ("main() {\n  @/* a /* b */ c */ drive(0, 50);\n}\n", "comments don't nest: the one that begins on line {} ends at its first `*/`"),
    ("main() {\n  while (1) {\n  @/* go\n    drive(0, 50);\n    /* back */\n    cannon(0, 50);\n  }\n}\n",
     "the comment that begins on line {} goes on up to the end of another one: its `*/` is missing"),
]


def commented(random_: random.Random) -> tuple[str, str]:
    """A source with comments of some lines, and behind them one that isn't meant so; and what is said of that."""
    def others() -> str:
        return "".join(f"/*{random_.choice(' *x')}{random_.choice(('', 'on', chr(10) * 2))}{random_.choice('x* ')}*/{random_.choice((' ', chr(10)))}"
                       for _ in range(random_.randrange(4)))
    source, words = random_.choice(COMMENTS)
    before, behind = source.split("@")
    before = others() + before + others()
    return before + behind, words.format(before.count("\n") + 1)


def columns(text: str) -> int:
    """How many columns a text takes, by the widths of Unicode."""
    return sum(2 if unicodedata.east_asian_width(character) in "WF" else 1 for character in text)


def lettered(random_: random.Random) -> tuple[str, int]:
    """A line with letters of any alphabet in comments, and a fault; and the columns before the fault."""
    alphabets = "äöüßéñøœ", "αβγδωΩ", "абвгджэюя", "日本語漢字", "한국말", "ひらがなカタカナ", "“”–…€"
    text = "".join(f"/*{''.join(random_.choice(random_.choice(alphabets)) for _ in range(random_.randrange(1, 6)))}*/" for _ in range(random_.randrange(1, 4)))
    before = f"main() {{ {text} a = 1 "
    return f"{before}2; }}", columns(before)


def near_wall(random_: random.Random) -> tuple[str, bool]:
    """A robot that asks whether it is near a wall, and drives then; and whether that leads on to the wall."""
    axis, sign, degree = random_.choice("xy"), random_.choice(("<", "<=", ">", ">=")), 45 * random_.randrange(8)
    number, speed = random_.choice((50, 200, 500, 800, 950)), random_.choice((0, 40))
    way = math.cos(math.radians(degree)) if axis == "x" else math.sin(math.radians(degree))
    leads = (way > 0.1 and number >= 800) if ">" in sign else (way < -0.1 and number <= 200)
    told = random_.choice((f"drive({degree}, {speed});", f"course = {degree};"))
    return (f"main() {{\n  int course;\n  course = rand(360);\n  while (1) {{\n    drive(course, 30);\n    if (loc_{axis}() {sign} {number}) {{\n      {told}\n"
            "      cannon(0, 90);\n    }\n  }\n}\n"), leads and (speed > 0 or "course" in told)


def unseen(random_: random.Random) -> tuple[str, bool]:
    """A robot that shoots at a range below a number; and whether it does so at nobody, whose range is 0."""
    test, passes = random_.choice((
        ("r < 700", True), ("r <= 300", True), ("r < 700 && d > 5", True), ("r > 0 && r < 700", False), ("r < 700 && r > 40", False),
        ("r && r < 700", False), ("r < 700 && r", False), ("r > 40", False)))
    before, is_asked = random_.choice((("", False), ("", False), ("if (r == 0) d += 9; else ", True), ("if (r) ", True)))
    # another function may answer no 0
    look, is_own = random_.choice((("r = scan(d, 10);", True), ("r = scan(d, 10);", True), ("r = look(d);", False)))
    return (f"look(d) {{ return scan(d, 10); }}\nmain() {{\n  int d, r;\n  while (1) {{\n    {look}\n    {before}if ({test}) cannon(d, r);\n    d += 20;\n"
            "    r = look(d);\n    if (r > 40) cannon(d, r);\n  }\n}\n"), passes and is_own and not is_asked


def fixed(random_: random.Random) -> tuple[str, bool]:
    """A robot that looks, and shoots at a number; and whether it knows a range there of which it only asked whether it is one."""
    test, is_somebody = random_.choice((("r > 40", True), ("r", True), ("r != 0", True), ("r > 0 && r < 700", True), ("r > 600", False),
                                        ("r > 40 && r < 200", False), ("damage() > 5", False)))
    degree, number = random_.choice("dde"), random_.choice((60, 300, 700))
    other = random_.choice(("", "", "d += 20; ", "r = scan(e, 5); "))
    return (f"main() {{\n  int d, e, r;\n  e = rand(9);\n  while (1) {{\n    r = scan(d, 10);\n    {other}if ({test}) cannon({degree}, {number});\n"
            "    d += 20;\n    r = scan(e, 10);\n    if (r > 40) cannon(e, r);\n  }\n}\n"), is_somebody and (
                degree == "d" and not other or degree == "e" and other.startswith("r"))


def rounds(random_: random.Random) -> tuple[str, bool]:
    """A robot that drives to one degree after another in an endless loop, and waits between; and whether it is told to turn at a speed above 50."""
    legs = [(90 * random_.randrange(4), random_.choice((40, 50, 60, 100)), random_.randrange(4)) for _ in range(2)]
    waits = ["while (damage() < 50) shoot();", "while (loc_x() < 500) ;", "while (speed() > 0) ;", "shoot();"]
    turn = "\n    ".join(f"drive({degree}, {speed});\n    {waits[wait]}" for degree, speed, wait in legs)
    # a robot that asks for its speed may know it, and one that doesn't wait has no speed yet
    is_fast = any(fast > 50 and wait < 2 and degree != then for (degree, fast, wait), (then, _, _) in (legs, legs[::-1]))
    return (f"int d;\nshoot() {{\n  int r;\n  r = scan(d, 10);\n  if (r > 40) cannon(d, r);\n  d += 20;\n}}\nmain() {{\n  while (1) {{\n    {turn}\n  }}\n}}\n"), is_fast


def going_back(random_: random.Random) -> tuple[str, bool]:
    """A robot with a variable that a remainder is kept in; and whether that is below 0 some time, and the robot neither asks nor goes round a circle."""
    whole, sign = random_.choice((4, 90, 180, 360, 720)), random_.choice("+--")
    step, asks = random_.randrange(1, whole), random_.random() < 0.2
    on = random_.choice((f"n = (n {sign} {step}) % {whole};", f"n {sign}= {step}; n %= {whole};"))
    asked = f" if (n < 0) n += {whole};" if asks else ""
    return f"main() {{\n  int n;\n  while (1) {{\n    cannon(n, scan(n, 10));\n    {on}{asked}\n  }}\n}}\n", sign == "-" and whole % 360 != 0 and not asks


def waiting(random_: random.Random) -> tuple[str, bool]:
    """A robot that drives to a degree until a coordinate is large or small enough; and whether it never is by that."""
    axis, sign, degree = random_.choice("xy"), random_.choice(("<", "<=", ">", ">=")), 45 * random_.randrange(8)
    way = math.cos(math.radians(degree)) if axis == "x" else math.sin(math.radians(degree))
    before, test, after = random_.choice(((f"drive({degree}, 50);", f"loc_{axis}()", ";"), ("", f"loc_{axis}()", f"drive({degree}, 50);"),
                                          (f"n = loc_{axis}();", "n", f"{{ drive({degree}, 50); n = loc_{axis}(); }}")))
    never = way < 0.1 if "<" in sign else way > -0.1
    return f"main() {{\n  int n;\n  {before}\n  while ({test} {sign} {random_.choice((50, 500, 900))}) {after}\n  while (1) cannon(n, 90);\n}}\n", never


def lower(random_: random.Random) -> tuple[str, bool]:
    """A robot with a function that uses a variable; and whether that of the file stands below it alone, though it isn't the function's own."""
    place, own = random_.choice(("above", "below", "nowhere")), random_.choice(("", "", "int d; "))
    used = random_.choice(("d += 20; return scan(d, 10);", "d = d + 20; return scan(d, 10);", "return scan(d, 10);", "d = rand(360); return 50;"))
    above, below = ("int d;\n" if place == which else "" for which in ("above", "below"))
    return (f"{above}look() {{ {own}{used} }}\n{below}main() {{\n  int r;\n  while (1) {{\n    r = look();\n    cannon(d, r);\n    d += 5;\n  }}\n}}\n",
            place == "below" and not own)


def divided(random_: random.Random) -> tuple[str, str | None]:
    """A robot with a quotient that is multiplied; and what is said of that."""
    value, most = random_.choice((("loc_x()", 999), ("damage()", 99), ("speed()", 100), ("rand(50)", 49), ("(999 - loc_y())", 999), ("(loc_x() - 500)", 500),
                                  ("n", 999), ("scan(n, 10)", 1414)))
    divisor = random_.choice((20, 49, 50, 99, 100, 500, 999, 1000, 1414, 1500))
    product = random_.choice((f"{value} / {divisor} * 90", f"90 * ({value} / {divisor})"))
    words = ("always 0" if most < divisor else "0 but for the greatest number" if most == divisor else "rounded down first" if most < 3 * divisor else None)
    return f"main() {{\n  int n;\n  n = 999 - loc_x();\n  while (1) drive({product}, 50);\n}}\n", words


def headed(random_: random.Random) -> tuple[str, str]:
    """A robot with a function whose parameters are written as in other languages; and the hint on these."""
    forms = ("int {}", "{}: i32", "{} int", "{} as Integer", "var {}", "ref {}", "final int {}", "{}: number = 5", "{}?: number", "float {}", "Integer {}", "&{}",
             "*{}", "int {}[]", "{}: Int", "const int {}", "mut {}: u32", "{} String", "@{}")
    names = ("angle", "range", "wide")[:random_.randrange(1, 4)]
    plain = random_.randrange(len(names))
    listed_ = ", ".join((name if number < plain else random_.choice(forms).format(name)) for number, name in enumerate(names))
    return (f"shoot({listed_}) {{\n  cannon(angle, 90);\n}}\nmain() {{ while (1) shoot({', '.join('9' for _ in names)}); }}\n",
            f"a list of parameters has names alone, without types: write `shoot({', '.join(names)}) {{`")


def listed(random_: random.Random) -> tuple[str, str]:
    """A robot with a condition in whose brackets statements follow; and the hint on these."""
    test = random_.choice(("r > 40", "damage() > 50", "scan(d, 10)"))
    statements = random_.choice((["cannon(d, r)"], ["cannon(d, r)", "d += 20"], ["d = rand(360)", "drive(d, 50)"]))
    word = "while" if len(statements) == 1 and random_.random() < 0.5 else "if"
    mark = ", " if word == "while" else random_.choice((", ", "; "))
    meant = f"{word} ({test}) " + " else ".join(f"{statement};" for statement in statements)
    return (f"main() {{\n  int d, r;\n  while (1) {{\n    {word} ({mark.join([test, *statements])});\n    r = scan(d, 9);\n  }}\n}}\n",
            f"an `if` or a `while` has one condition in its brackets, and behind them a statement: write `{meant}`")
