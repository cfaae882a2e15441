"""Tests of the module alone, by Node: what it writes is what crobots writes."""

from __future__ import annotations

import base64
import json
import os
import random
import re
import shutil
import subprocess
import tempfile
from dataclasses import replace
from typing import Any, Iterator

import packages
from asking_robots import AskingRobots
from harness import PATIENCE

from . import slimmed
from .battles import Battle, Settings, deepest, hostile_battles, mistakes, outcome, random_battles, sample_battles, samples, vectors

HERE = os.path.dirname(os.path.abspath(__file__))
WEB = os.path.join(HERE, "..", "..", "web")
STILL = ("still.r", b"main(){}")
MOST_SEED = 2**64 - 1
MOST_BYTES = 415_000
CALLS = 1000
# Of a larger source crobots-stages shows nothing.
MOST_SHOWN = 40_960
EXPORTS = ["__heap_base", "explain", "film", "film_windows", "find", "memory", "moment", "order_bytes", "places", "robot_bytes", "run",
           "sheet_bytes", "target_bytes", "turns"]
TOKEN = re.compile(rb"[A-Za-z_]\w*|\d+|<<=|>>=|\+\+|--|&&|\|\||[-+*/%&|^<>=!]=|<<|>>|[^\s\x1a]")
# a row of crobots-stages on a loop
TURN = re.compile(r"^  line +(\d+)  \w+ +a turn  (?:(never begins again)|(at least )?(\d+)(?: to (\d+))? cycles)", re.MULTILINE)
# Loops of each kind: one that never begins again, two on a line, one in another one's condition's function, in branches, behind a
# return, in functions that call themselves, and sides that may be left out.
LOOPS = (
    "main() { while (1) return 5; }",
    "main() { while (1) { while (damage()) ; if (rand(2)) while (2) drive(1, 2); else while (3) return; } }",
    "main() { while (f(1)) { f(f(2)); } }\nf(n) { while (n--) if (n == 5) return n; }",
    "f(n) { if (n) return f(n - 1); }\nmain() { while (1) f(-3); }\ng() { while (g()) h(); }\nh() { g(); }",
    "main() { while (scan(1, 2) && damage() || !rand(2)) { ++a; b--; c = d += ~4; } return 1; while (0) ; }",
)
# a status, a text and faults
Answer = tuple[int, bytes, bytes]
# tokens that are no constants, but make some
MADE_CONSTANTS = ("-", "!", "~", "++", "--", "else", "while", ";", "}", "&&", "||")
STEPS = {"++": "+=", "--": "-="}


def words_of(name: str, folder: str) -> list[str]:
    """The words by which Node runs a script of this folder on the module."""
    return [shutil.which("node") or "node", os.path.join(HERE, name), f"{folder}.wasm"]


def lacking(_folder: str) -> str:
    """What is lacking for these tests."""
    return packages.lacking(["node"])


def job(battle: Battle) -> dict[str, Any]:
    """A battle as engine.mjs takes it."""
    begin, count = battle.windows
    settings = {**vars(battle.settings), "seed": str(battle.settings.seed), "from": begin, "windows": count}
    robots = [{"name": name, "source": base64.b64encode(source).decode()} for name, source in battle.robots]
    return {"call": battle.call, "settings": settings, "robots": robots}


def answers(folder: str, battles: list[Battle]) -> list[Answer]:
    """What the module answers."""
    words = words_of("engine.mjs", folder)
    jobs = json.dumps([job(battle) for battle in battles])
    ran = subprocess.run(words, input=jobs, capture_output=True, text=True, check=True, timeout=PATIENCE)
    return [(it["ending"], base64.b64decode(it["text"]), base64.b64decode(it["faults"])) for it in json.loads(ran.stdout)]


def compared(crobots: str, battles: list[Battle], answered: list[Answer]) -> list[str]:
    """Where the module's answers and those of crobots differ."""
    wrong = []
    for battle, got in zip(battles, answered, strict=True):
        wanted = battle.told(crobots)
        if got != wanted:
            names = [name for name, _ in battle.robots]
            wrong.append(f"{names}, {battle.settings}: {got[0]} {got[1][:200]!r} {got[2]!r}, and crobots {wanted[0]} {wanted[1][:200]!r} {wanted[2]!r}")
    return wrong


def differing(crobots: str, folder: str, battles: list[Battle]) -> list[str]:
    """Where the module and crobots differ."""
    return compared(crobots, battles, answers(folder, battles))


def refused(folder: str) -> list[str]:
    """Settings that aren't within their limits, and names and numbers of robots that aren't."""
    wrong = [Settings(matches=0), Settings(matches=1_000_001), Settings(limit=0), Settings(limit=1_000_000_001), Settings(profile=0),
             Settings(profile=3), Settings(first=0), Settings(first=1_000_001), Settings(matches=2**32 - 1)]
    battles = [Battle([STILL], settings) for settings in wrong] + [Battle([])]
    return [f"{battle}: {got}" for battle, got in zip(battles, answers(folder, battles), strict=True) if got != (2, b"", b"")]


def at_limits(crobots: str, folder: str) -> list[str]:
    """Settings at their limits, and robots whose names aren't ASCII."""
    settings = [Settings(limit=1), Settings(limit=14), Settings(limit=15, seed=MOST_SEED), Settings(limit=16, first=1_000_000), Settings(limit=99, profile=2)]
    battles = [Battle([STILL, ("ärger.r", b"main(){while(1)drive(9,9);}")], it) for it in settings]
    return differing(crobots, folder, battles)


def full(crobots: str, folder: str) -> list[str]:
    """A report that is longer than a sheet is cut off; the next run has all of its own."""
    long = Battle([STILL], Settings(matches=40_000, limit=1))
    short = Battle([STILL], Settings(limit=1))
    cut, whole = answers(folder, [long, short])
    text = long.told(crobots)[1]
    if cut[0] != 4 or not text.startswith(cut[1]) or len(cut[1]) < 2_000_000 or cut[2]:
        return [f"status {cut[0]}, {len(cut[1])} bytes"]
    return [] if whole == short.told(crobots) else [f"after it {whole}"]


def filmed(film: bytes) -> tuple[int, list[int], list[int]]:
    """The cycles of a film, the damages at its end, and what each robot lost by its events."""
    cycles, lost = 0, [0] * 4
    ends: list[int] = []
    for line in film.decode().splitlines()[1:]:
        cycle, robot, kind, *fields = line.split("\t")
        if kind == "end":
            cycles, ends = int(cycle), ends + [int(fields[0])]
        elif kind in ("hurt", "collision", "wall"):
            lost[int(robot) - 1] += int(fields[0])
    return cycles, ends, lost[:len(ends)]


def films(crobots: str, folder: str) -> list[str]:
    """A film ends as the match's report says, and its events add up to the damages."""
    battles = [replace(battle, call="film") for battle in sample_battles()[::3] + random_battles(40, 9)]
    wrong = []
    for battle, (ending, film, faults) in zip(battles, answers(folder, battles), strict=True):
        cycles, damages = outcome(battle.told(crobots)[1])
        if (ending, faults, *filmed(film)) != (0, b"", cycles, damages, damages):
            wrong.append(f"{battle.settings}: {ending} {faults!r} {filmed(film)}, and crobots {cycles} {damages}")
    return wrong


def long_films(folder: str) -> list[str]:
    """A film that is longer than a sheet comes in parts, and has each row once."""
    restarts = Battle([STILL, ("idle.r", b"main(){while(1);}")], Settings(limit=500_000), "film")
    film = answers(folder, [restarts])[0]
    cycles = [int(line.split("\t")[0]) for line in film[1].decode().splitlines() if "restart" in line]
    # main(){} has a cycle for its CONST, and in place of its RETSUB a restart
    if film[0] != 0 or cycles != [*range(2, 500_001, 2)] or filmed(film[1])[:2] != (500_000, [0, 0]):
        return [f"status {film[0]}, {len(cycles)} restarts, {filmed(film[1])}"]
    return []


GOES_ON = 6
MOST_NUMBER = 2**32 - 1

# it fires to the east as far as a missile flies, which takes 14 updates, and then idles
GUNNER = ("gunner.r", b"main(){ cannon(0, 700); while (1); }")
IDLE = ("idle.r", b"main(){ while (1); }")


STANDS = {cycle: [(cycle, "1", "stands"), (cycle, "2", "stands")] for cycle in ("0", "195", "210", "225", "300")}
ENDS = [(cycle, robot, kind) for robot in ("1", "2") for cycle, kind in (("300", "at"), ("300", "end"))]
# FRAME, CONST, CONST, FCALL: the shot is in cycle 4
FLIES = ("4", "1", "flies")
# the codes and the rows of windows of a match of 300 cycles: cycle, robot and kind
WINDOWS = {
    (0, 0): (GOES_ON, STANDS["0"]),
    (13, 0): (GOES_ON, [*STANDS["195"], FLIES]),
    (13, 1): (GOES_ON, [*STANDS["195"], FLIES, ("210", "1", "burst"), *STANDS["210"]]),
    (14, 0): (GOES_ON, STANDS["210"]),
    (14, 1): (GOES_ON, [*STANDS["210"], *STANDS["225"]]),
    (20, 0): (0, [*STANDS["300"], *ENDS]),
    (20, 5): (0, [*STANDS["300"], *ENDS]),
    **{(begin, count): (0, ENDS) for begin in (21, MOST_NUMBER) for count in (0, 1, MOST_NUMBER)},
}


def rows_of(film: bytes) -> list[tuple[str, ...]]:
    """The cycles, robots and kinds of a film's rows."""
    return [tuple(line.split("\t")[:3]) for line in film.decode().splitlines()[1:]]


def single_windows(folder: str) -> list[str]:
    """What windows have at their borders, beyond the match's end, and by any numbers. A match of 15 cycles has one window,
    and one of 16 cycles two."""
    wanted = [(300, *row) for row in WINDOWS.items()] + [(15, (0, 1), (0, None)), (16, (0, 1), (GOES_ON, None)), (16, (1, 1), (0, None))]
    asked = [Battle([GUNNER, IDLE], Settings(limit=limit), "windows", windows) for limit, windows, _ in wanted]
    wrong = []
    for (limit, windows, (code, rows)), (got, film, _) in zip(wanted, answers(folder, asked), strict=True):
        told = rows_of(film)
        if got != code or rows not in (None, told):
            wrong.append(f"{windows} of {limit} cycles: {got} {told}, not {code} {rows}")
    return wrong


# its speed, and so its row, changes in each of the first ten updates
DRIVER = ("driver.r", b"main(){ drive(0, 100); while (1); }")
# two missiles are in the air: the second bursts in the first update. CONST and CHOP thrice, and the third is fired
SALVO = ("salvo.r", b"main(){ cannon(0, 700); cannon(0, 30); 0; 0; 0; cannon(0, 650); while (1); }")
RETURNER = ("returner.r", b"main(){\n}\n")


def updates_of_windows(folder: str) -> list[str]:
    """What an update does belongs to the window that ends with it."""
    wanted = {(0, 1): [("0", "1", "stands"), ("0", "2", "stands"), ("0", "1", "at"), ("0", "2", "at"), ("15", "1", "at"),
                       ("15", "1", "stands"), ("15", "2", "stands")],
              (1, 1): [("15", "1", "stands"), ("15", "2", "stands"), ("30", "1", "at"), ("30", "1", "stands"), ("30", "2", "stands")]}
    asked = [Battle([DRIVER, IDLE], Settings(limit=300), "windows", windows) for windows in wanted]
    found = zip(wanted.items(), answers(folder, asked), strict=True)
    return [f"{windows}: {rows_of(film)}" for (windows, rows), (code, film, _) in found if (code, rows_of(film)) != (GOES_ON, rows)]


def missiles_in_the_air(folder: str) -> list[str]:
    """All that fly as windows begin: two of each of four robots, one of them fired in the place of one that has burst."""
    robots = [str(robot) for robot in range(1, 5)]
    wrong = []
    for update, cycles in ((0, ()), (1, ("4",)), (2, ("4", "20"))):
        code, film, _ = answers(folder, [Battle([SALVO] * 4, Settings(limit=300), "windows", (update, 0))])[0]
        rows = [(f"{15 * update}", robot, "stands") for robot in robots] + [(cycle, robot, "flies") for cycle in cycles for robot in robots]
        wrong += [] if (code, rows_of(film)) == (GOES_ON, rows) else [f"after update {update}: {code} {rows_of(film)}"]
    return wrong


def lines_of_restarts(folder: str) -> list[str]:
    """A restart has its function and its line, for both robots of a single file: `main` returns at its closing brace."""
    film = answers(folder, [Battle([RETURNER], Settings(limit=5), "film")])[0][1]
    rows = [line for line in film.decode().splitlines() if "\trestart\t" in line]
    wanted = [f"{cycle}\t{robot}\trestart\treturned\tmain\t2" for cycle in (2, 4) for robot in (1, 2)]
    return [] if rows == wanted else [f"{rows}"]


def parts_of(answer: Answer, kind: str) -> list[list[str]]:
    """The rows of a kind of an answer to `places`, each from its number on, without the robot's."""
    rows = [line.split("\t") for line in answer[1].decode().splitlines()[1:]]
    return [[number, *values] for number, _, found, *values in rows if found == kind]


def placed(answer: Answer) -> list[tuple[int, int]]:
    """The lines and columns of an answer to `places`, by the addresses."""
    rows = parts_of(answer, "code")
    assert [int(row[0]) for row in rows] == [*range(len(rows))]
    return [(int(row[1]), int(row[2])) for row in rows]


def token_at(source: bytes, line: int, column: int) -> str:
    """The token that begins at a place."""
    found = TOKEN.match(source.split(b"\n")[line - 1], column - 1)
    return found[0].decode() if found else ""


def comes_from(instruction: str, token: str) -> bool:
    """Whether an instruction of a listing may come from this token."""
    word, _, operand = instruction.partition(" ")
    is_name = token[:1].isalpha() or token[:1] == "_"
    match word:
        case "CONST":
            return (token.lstrip("0") or "0") == operand if token.isdigit() else token in MADE_CONSTANTS
        case "FETCH" | "FRAME":
            return is_name or word == "FETCH" and token in STEPS
        case "FCALL":
            return is_name and (operand.isdigit() or token == operand)
        case "STORE":
            return STEPS.get(token, token) == operand.split()[1]
        case "BINOP":
            return {"!": ("==", "!"), "~": ("^", "~"), "-": ("-",)}.get(token, (token,)).count(operand) == 1
        case "BRANCH":
            return token in ("if", "else", "while", "&&", "||")
    return token in {"RETSUB": ("return", "}"), "CHOP": (";", *STEPS), "TRUTH": ("&&", "||"), "NOP": ("",)}[word]


def code_of(stages: str, name: str, source: bytes, profile: int) -> dict[str, Any]:
    """The code of a source as the program stages has it."""
    with tempfile.TemporaryDirectory() as folder:
        path = os.path.join(folder, name)
        with open(path, "wb") as file:
            file.write(source)
        told = subprocess.run([stages, "--code", "--json", f"-p{profile}", path], capture_output=True, check=True, timeout=PATIENCE).stdout
    found: dict[str, Any] = json.loads(told)
    return found


def wrong_parts(answer: Answer, wanted: dict[str, Any]) -> list[str]:
    """Whether an answer to `places` has the names, functions and lines that stages has, and where lines are entered."""
    functions, code = wanted["functions"], wanted["code"]
    begins = {function["begin"] for function in functions}
    entered = {row["address"] for row in code if row["address"] in begins or row["address"] == 0 or
               code[row["address"] - 1]["line"] != row["line"]}
    for row in code:
        word, _, to = row["instruction"].partition(" ")
        if word == "BRANCH" and (int(to) <= row["address"] or code[int(to)]["line"] != row["line"]):
            entered.add(int(to))
    kinds = {
        "external": [[str(number), name] for number, name in enumerate(wanted["externals"])],
        "function": [[str(number), str(function["begin"]), function["name"]] for number, function in enumerate(functions)],
        "variable": [[str(number), str(of), name] for of, function in enumerate(functions) for number, name in enumerate(function["variables"])],
        "code": [[str(row["address"]), str(row["line"]), str(int(row["address"] in entered)), str(row["function"]), row["name"] or ""]
                 for row in code],
    }
    got = {kind: [row[:2] + row[3:] if kind == "code" else row for row in parts_of(answer, kind)] for kind in kinds}
    return [f"{kind}: {got[kind]}, not {rows}" for kind, rows in kinds.items() if got[kind] != rows]


def places(crobots: str, stages: str, folder: str) -> list[str]:
    """Each instruction comes from a token that makes it, and from the line that stages names; names and functions are those of stages."""
    robots = samples() + [it for battle in random_battles(60, 11) for it in battle.robots]
    sources = [(robot, profile) for robot in robots for profile in (1, 2)] + [(("deep.r", deepest()), 2)]
    sources += [(it.robots[0], it.settings.profile) for it in hostile_battles() if it.told(crobots)[0] == 0]
    asked = [Battle([robot], Settings(profile=profile), call) for robot, profile in sources for call in ("places", "list")]
    answered, wrong = answers(folder, asked), []
    for at in range(0, len(asked), 2):
        (name, source), profile = asked[at].robots[0], asked[at].settings.profile
        where, code = placed(answered[at]), re.findall(r"^[ \d]{5} (.*)$", answered[at + 1][1].decode(), re.MULTILINE)
        if len(where) != len(code):
            wrong.append(f"{name}: {len(where)} places for {len(code)} instructions")
        for (line, column), instruction in zip(where, code):
            token = token_at(source, line, column)
            wrong += [] if comes_from(instruction, token) else [f"{name}:{line}:{column}: {instruction} from {token}"]
        if len(source) <= MOST_SHOWN:
            wrong += [f"{name}, profile {profile}: {it}" for it in wrong_parts(answered[at], code_of(stages, name, source, profile))]
    return wrong


def any_blocks(folder: str) -> list[str]:
    """Whatever stands in the blocks, a call answers with a code; beyond the memory it ends. Nothing comes from the host."""
    words = [*words_of("blocks.mjs", folder), str(CALLS), "1"]
    ran = subprocess.run(words, capture_output=True, text=True, check=False, timeout=PATIENCE)
    if ran.returncode:
        return [ran.stderr[-500:]]
    told = json.loads(ran.stdout)
    wrong = [f"imports: {told['imports']}"] if told["imports"] else []
    wrong += [] if sorted(told["exports"]) == EXPORTS else [f"exports: {told['exports']}"]
    wrong += [] if set(told["codes"]) >= {"0", "1", "2"} and set(told["codes"]) <= {"0", "1", "2", "4", "6"} else [f"codes: {told['codes']}"]
    wrong += [] if told["inside"] == [2] * 8 else [f"inside of the memory: {told['inside']}"]
    # each of four calls with five words, two with six, and two with four, with each word so: the memory's end, and five numbers
    # beyond it
    return wrong + ([] if told["ends"] == ["ended"] * 240 else [f"outside of the memory: {told['ends']}"])


def explanations(folder: str) -> list[str]:
    """What is said of the sources of docs/mistakes.md is what the page has of them."""
    wrong = []
    cases = mistakes()
    battles = [Battle([("a.r", it.source)], Settings(profile=it.profile), call="explain") for it in cases]
    for it, (ending, text, _) in zip(cases, answers(folder, battles), strict=True):
        if ending != (1 if it.fault else 0) or not it.is_told(text):
            wrong.append(f"{it.source!r}: {ending} {text.decode()}, not {it.told.decode()}")
    return wrong + ([] if len(cases) > 25 else [f"{len(cases)} cases"])


def known_turns(stages: str, source: bytes, profile: int) -> bytes | None:
    """What is known of the turns of a robot's loops, in the rows of the module; nothing of one that doesn't compile."""
    with tempfile.TemporaryDirectory() as place:
        path = os.path.join(place, "a.r")
        with open(path, "wb") as file:
            file.write(source)
        ran = subprocess.run([stages, "--bounds", f"-p{profile}", path], capture_output=True, text=True, check=False, timeout=PATIENCE)
    rows: list[str] = []
    for line, never, at_least, least, most in TURN.findall(ran.stdout):
        numbers = [] if never else [least] if at_least else [least, most or least]
        rows.append("\t".join([line, "1", "turn", *numbers]) + "\n")
    return None if ran.returncode else "".join(rows).encode("ascii")


def turns(stages: str, folder: str) -> list[str]:
    """What the module says of the turns of loops is what crobots-stages says of them, by the trees."""
    draw = random.Random(56)
    sources = [source for _, source in samples()] + [it.encode("ascii") for it in LOOPS]
    sources += [AskingRobots(draw).source().encode("ascii") for _ in range(30)]
    sources += [source for battle in random_battles(30) for _, source in battle.robots]
    battles = [Battle([("a.r", source)], Settings(profile=profile), call="turns") for source in sources for profile in (1, 2)]
    wrong, rows = [], 0
    for battle, (ending, text, _) in zip(battles, answers(folder, battles), strict=True):
        wanted = known_turns(stages, battle.robots[0][1], battle.settings.profile)
        rows += wanted.count(b"\n") if wanted else 0
        is_right = ending == 1 if wanted is None else (ending, text) == (0, wanted)
        wrong += [] if is_right else [f"{battle.robots[0][1]!r}, profile {battle.settings.profile}: {ending} {text!r}, not {wanted!r}"]
    return wrong + ([] if rows > 200 else [f"{rows} rows"])


def most_tokens(folder: str) -> list[str]:
    """A source of more than 16,384 tokens isn't explained; one of 16,384 is, the end among them."""
    head, tail = b"main(){while(1)drive(0,50);", b"}"
    tokens = len(TOKEN.findall(head + tail)) + 1
    sources = [head + b";" * (16_384 - tokens + more) + tail for more in (0, 1)] + [head + b";" * 900_000 + b"(" + tail]
    battles = [Battle([("a.r", source)], call="explain") for source in sources]
    got = [(ending, len(text)) for ending, text, _ in answers(folder, battles)]
    return [] if got[0][0] == 0 and got[1:] == [(4, 0)] * 2 else [f"{got}"]


def units() -> list[str]:
    """Parts of the page that need no browser. Node takes the modules if a file beside them says what they are."""
    with tempfile.TemporaryDirectory() as place:
        shutil.copytree(WEB, place, dirs_exist_ok=True)
        with open(os.path.join(place, "package.json"), "w", encoding="ascii") as file:
            file.write('{"type": "module"}')
        words = [shutil.which("node") or "node", os.path.join(HERE, "units.mjs"), place]
        ran = subprocess.run(words, capture_output=True, text=True, check=False, timeout=PATIENCE)
    return list(json.loads(ran.stdout)) if not ran.returncode else [ran.stderr[-500:]]


def size(folder: str) -> list[str]:
    """The module is small enough to be loaded at once."""
    count = os.path.getsize(f"{folder}.wasm")
    return [f"{count} bytes"] if count > MOST_BYTES else []


def results(crobots: str, stages: str, folder: str) -> Iterator[tuple[str, list[str]]]:
    """The tests' names, and what is wrong."""
    yield "parts of the page", units()
    yield "short scripts", slimmed.wrong()
    yield "short names", slimmed.wrong_names()
    yield "hashes of what is started", slimmed.wrong_hashes(folder)
    yield "deflating", slimmed.wrong_deflating()
    yield "packing", slimmed.wrong_packing(folder)
    yield "a zip", slimmed.wrong_zip()
    yield "modules together", slimmed.wrong_modules()
    yield "size", size(folder)
    yield "blocks of any bytes", any_blocks(folder)
    yield "samples", differing(crobots, folder, sample_battles())
    yield "vectors", differing(crobots, folder, vectors("listings", "faults", "battles", "profiles"))
    yield "random robots", differing(crobots, folder, random_battles(100))
    yield "hostile sources", differing(crobots, folder, hostile_battles())
    yield "refused settings", refused(folder)
    yield "settings at limits", at_limits(crobots, folder)
    yield "a full sheet", full(crobots, folder)
    yield "films", films(crobots, folder)
    yield "long films", long_films(folder)
    yield "single windows", single_windows(folder)
    yield "updates of windows", updates_of_windows(folder)
    yield "missiles in the air", missiles_in_the_air(folder)
    yield "lines of restarts", lines_of_restarts(folder)
    yield "places", places(crobots, stages, folder)
    yield "explanations", explanations(folder)
    yield "turns of loops", turns(stages, folder)
    yield "the most tokens", most_tokens(folder)
