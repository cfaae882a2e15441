"""Tests of films: the rows of the page's films are those that crobots-trace writes, of whole matches, in sheets and by windows. And of what
compares them: it sees each row, and plants what may be wrong in crates/page/src/films.rt among the rows."""

from __future__ import annotations

import itertools
import random
from collections import Counter, defaultdict
from dataclasses import dataclass, replace
from typing import Callable, Iterable, Iterator

from asking_robots import AskingRobots

from .battles import Battle, Settings, random_battles, sample_battles
from .module import DRIVER, GOES_ON, GUNNER, IDLE, MOST_NUMBER, MOST_SEED, RETURNER, SALVO, STILL, Answer, answers, lacking

__all__ = ["lacking", "results"]
Programs = tuple[str, str, str]
# the fields of a row: its cycle, its robot, its kind, and those of the kind
Row = tuple[str, ...]
COLUMNS = "cycle\trobot\tkind\ta\tb\tc\td\te"
UPDATE_CYCLES = 15
# how far a missile is shot at most, and how far it flies in an update, in metres
MOST_RANGE, SPEED = 700, 50

# What crobots-trace writes alone, and why.
TRACED_ALONE = {
    "name": "the page has the robots' names before there is a film",
    "refused": "nothing is seen of it, and a robot that only asks for shots would fill a sheet with it",
}
# What films of windows have alone, and why. The first is what crobots-trace has as `at` of a film that begins in that cycle.
WINDOWS_ALONE = {
    "stands": "where a robot is at a border, in the middle of a way",
    "flies": "the shot of a missile that is in the air where the windows begin",
}
# The kinds that both have, and how many rows of each the whole films have together at least.
LEAST = {"at": 20_000, "scan": 30_000, "shot": 4_000, "burst": 4_000, "restart": 50_000, "end": 500, "hurt": 1_000, "wall": 1_000, "collision": 100, "death": 80}
# The same of what one of the two has alone.
LEAST_ALONE = {"name": 500, "refused": 4_000, "stands": 1_500, "flies": 200}
# how many films each plant changes at least
LEAST_PLANTED = 5
# more bytes than a sheet has
OVER_A_SHEET = 32_768 * 255

# They restart in several lines: in a function that calls itself, for want of words, at their end. Names are of 31 bytes at most.
FRAMES = ("frames.r", b"main()\r\n{\n\n  abcdefghijklmnopqrstuvwxyz_1234(1);\n}\n\nabcdefghijklmnopqrstuvwxyz_1234(a)\n{\n\treturn abcdefghijklmnopqrstuvwxyz_1234(a + 1);\n}\n")
WORDS = ("words.r", f"f(a)\n{{\n  int {', '.join(f'b{number}' for number in range(60))};\n  return 1 +\n    (2 +\n f(a));\n}}\nmain() {{ f(3); }}\n".encode("ascii"))
FAR = ("far.r", b"\n" * 90_000 + b"main(){ damage(); }\n" + b"/* the end */\n" * 10)
# Its bursts take from itself and from who is near.
OWN_FOOT = ("own_foot.r", b"main(){ while (1) cannon(0, 10); }")
RAMMER = ("rammer.r", b"main(){int d,r;while(1){if(r=scan(d,10)){if(scan(d-5,5))d=d-5;else d=d+5;drive(d,50);}else d=d+20;}}")
SCANNER = ("scanner.r", b"main(){ int a; while (1) { scan(a = a + 7, 9); scan(a, 1); } }")
# It asks for shots of any range and degree, most of which are refused.
EAGER = ("eager.r", b"main(){ int a; while (1) { cannon(rand(2000) - 1000, rand(1500) - 300); cannon(-2147483647, 2147483647); drive(a = a + 30, 40); } }")
LIMITS = (1, 2, 3, 4, 14, 15, 16, 17, 29, 30, 31, 44, 45, 46, 209, 210, 211, 224, 225, 226)


@dataclass
class Film:
    """A film of a match: the rows of the page, and those of crobots-trace."""

    battle: Battle
    paged: list[Row]
    traced: list[Row]


def rows_of(answer: Answer, ending: int = 0) -> list[Row]:
    """The rows of an answer that ends so."""
    code, text, faults = answer
    head, *lines, rest = text.decode("ascii").split("\n")
    assert (code, faults, rest, head) == (ending, b"", "", COLUMNS), f"{code} {faults!r} {head!r} {rest!r}"
    return [tuple(line.split("\t")) for line in lines]


def told_by(trace: str, battle: Battle, *words: str) -> list[Row]:
    """The rows of crobots-trace, as the page's film has them: the fields that a kind doesn't have are empty, and the page leaves them out."""
    rows = rows_of(battle.said(trace, "--film", *words))
    assert {len(row) for row in rows} <= {COLUMNS.count("\t") + 1}
    return [tuple("\t".join(row).rstrip("\t").split("\t")) for row in rows]


def in_order(rows: Iterable[Row]) -> dict[str, list[Row]]:
    """Rows in the order in which both programs have them: those of each robot's way, and all others. The page has a row on where a way
    ended behind the other rows of its update, and crobots-trace before them."""
    found: dict[str, list[Row]] = defaultdict(list)
    for row in rows:
        found[f"the way of robot {row[1]}" if row[2] == "at" else "all but the ways"].append(row)
    return found


def differences(paged: Iterable[Row], traced: Iterable[Row]) -> list[str]:
    """Where the rows of a film of the page are other than those of crobots-trace that it has to have."""
    got, wanted = in_order(paged), in_order(row for row in traced if row[2] not in TRACED_ALONE)
    wrong = []
    for name in sorted(got.keys() | wanted.keys()):
        if got.get(name) != wanted.get(name):
            pairs = itertools.zip_longest(got.get(name, []), wanted.get(name, []))
            at, (one, other) = next((at, pair) for at, pair in enumerate(pairs) if pair[0] != pair[1])
            wrong.append(f"{name}, row {at}: {one}, and crobots-trace has {other}")
    return wrong


def titled(battle: Battle) -> str:
    return f"{[name for name, _ in battle.robots]}, {battle.settings}"


def asking_battles() -> list[Battle]:
    """Battles of one to four robots in which replies decide."""
    draw = random.Random(74)
    found = []
    for number in range(40):
        robots = [(f"{at}.r", AskingRobots(draw).source().encode("ascii")) for at in range(1 + number % 4)]
        found.append(Battle(robots, Settings(limit=draw.randrange(1, 9_000), seed=draw.randrange(MOST_SEED + 1), profile=1 + number % 2, first=draw.randrange(1, 1_000_001))))
    return found


def known_battles() -> list[Battle]:
    """Battles with each kind of row, ties of dead robots and of live ones, limits beside an update, later matches."""
    groups = [[it] for it in (STILL, OWN_FOOT, RETURNER, FRAMES, WORDS, FAR, RAMMER, EAGER, DRIVER)]
    groups += [[OWN_FOOT] * 3, [OWN_FOOT] * 4, [OWN_FOOT, STILL], [IDLE, OWN_FOOT, DRIVER], [STILL, FRAMES, WORDS, FAR], [FAR, IDLE, WORDS], [IDLE, RETURNER],
               [RAMMER, STILL], [RAMMER, IDLE, IDLE], [RAMMER] * 4, [EAGER, SALVO], [EAGER] * 4, [GUNNER, SCANNER, RAMMER], [DRIVER] * 3]
    found = [Battle(group, Settings(limit=4_000, seed=at, profile=profile)) for at, group in enumerate(groups) for profile in (1, 2)]
    found += [Battle([SALVO, DRIVER, RETURNER], Settings(limit=limit, seed=limit)) for limit in LIMITS]
    found += [Battle([EAGER, SCANNER], Settings(limit=limit)) for limit in LIMITS]
    found += [Battle([RAMMER, *others], Settings(limit=6_000, seed=100 + seed)) for seed in range(6) for others in ([RAMMER], [IDLE] * 3, [RAMMER, SCANNER, EAGER])]
    # a film is of the first of several matches
    matches = itertools.product((1, 2, 7, 1_000_000 - 2), (0, MOST_SEED))
    return found + [Battle([RAMMER, EAGER, FRAMES], Settings(matches=3, first=first, seed=seed, limit=2_000)) for first, seed in matches]


def whole_films(trace: str, folder: str) -> list[Film]:
    """Films of whole matches."""
    sampled = [replace(it, settings=replace(it.settings, limit=8_000)) for it in sample_battles()[::4]]
    battles = [replace(it, call="film") for it in known_battles() + asking_battles() + random_battles(110, 74) + sampled]
    found = zip(battles, answers(folder, battles), strict=True)
    return [Film(battle, rows_of(answer), told_by(trace, battle)) for battle, answer in found]


def alike(films: list[Film]) -> list[str]:
    """The page's films have the rows that crobots-trace writes, but for those that one of them has alone."""
    wrong = [f"{titled(film.battle)}: {line}" for film in films for line in differences(film.paged, film.traced)]
    return wrong[:5]


def counts(films: list[Film]) -> list[str]:
    """Each kind of row is in the films, and no other one."""
    paged, traced = (Counter(row[2] for rows in both for row in rows) for both in ([film.paged for film in films], [film.traced for film in films]))
    wrong = [f"{kind}: the page has {paged[kind]}, and crobots-trace {traced[kind]}" for kind in LEAST if paged[kind] != traced[kind]]
    wrong += [f"{kind}: {traced[kind]} rows" for kind, least in {**LEAST, **LEAST_ALONE}.items() if kind not in WINDOWS_ALONE and traced[kind] < least]
    wrong += [f"{kind}: the page has {count} rows" for kind, count in paged.items() if kind not in LEAST]
    return wrong + [f"{kind}: crobots-trace has {count} rows" for kind, count in traced.items() if kind not in {**LEAST, **TRACED_ALONE}]


def long_films(trace: str, folder: str) -> list[str]:
    """Films that are longer than one sheet, than two, and than one with windows: a row stands once where a part ends."""
    battles = [Battle([STILL, SCANNER, ("later.r", b"main() {\n\n\n}\n")], Settings(limit=250_000), "film"),
               Battle([STILL], Settings(limit=480_000), "film"),
               Battle([SCANNER, STILL, STILL], Settings(limit=250_000), "windows", (0, MOST_NUMBER))]
    wrong = []
    for battle in battles:
        answer = answers(folder, [battle])[0]
        rows = [row for row in rows_of(answer) if row[2] not in WINDOWS_ALONE]
        wrong += [] if len(answer[1]) > OVER_A_SHEET else [f"{titled(battle)}: {len(answer[1])} bytes"]
        wrong += [f"{titled(battle)}: {line}" for line in differences(rows, told_by(trace, battle))]
    return wrong


def flights(rows: list[Row]) -> list[tuple[int, Row]]:
    """The shots of a film, each with the update in which its missile bursts: that flies 50 metres in each, and at least for one."""
    found = []
    for row in rows:
        if row[2] == "shot":
            updates = (int(row[0]) - 1) // UPDATE_CYCLES
            way = min(max(int(row[4]), 0), MOST_RANGE)
            found.append((updates + max(1, -(-way // SPEED)), row))
    return found


def flying(rows: list[Row], update: int) -> list[Row]:
    """The shots that are in the air after an update, as rows of a film that begins there."""
    return sorted((*row[:2], "flies", *row[3:]) for burst, row in flights(rows) if int(row[0]) <= update * UPDATE_CYCLES and burst > update)


def modelled(films: list[Film]) -> list[str]:
    """Missiles burst when `flights` says: else it couldn't say which of them fly."""
    wrong = []
    for film in films:
        last = last_cycle(film.traced) // UPDATE_CYCLES
        wanted = Counter((str(UPDATE_CYCLES * burst), row[1]) for burst, row in flights(film.traced) if burst <= last)
        told = Counter((row[0], row[1]) for row in film.traced if row[2] == "burst")
        wrong += [] if wanted == told else [f"{titled(film.battle)}: {wanted - told} and {told - wanted}"]
    return wrong[:5]


@dataclass
class Stretch:
    """A film of windows of a match: its battle, how it ends, its rows, and those of the whole match by the page and by crobots-trace."""

    battle: Battle
    code: int
    paged: list[Row]
    whole: list[Row]
    traced: list[Row]

    def borders(self) -> tuple[list[Row], list[Row]]:
        """Where the robots stand by the page at the beginning and at the end, if the match lasts until then; the rows are in this order."""
        begin, count = self.battle.windows
        rows = [row for row in self.paged if row[2] == "stands"]
        begins, ends = ([row for row in rows if row[0] == str(update * UPDATE_CYCLES)] for update in (begin, begin + count))
        return begins, ends

    def strange(self) -> list[str]:
        """What is wrong with its rows that the whole film doesn't have, but for where the robots stand."""
        begins, ends = self.borders()
        wrong = [] if [row for row in self.paged if row[2] == "stands"] == begins + ends else ["rows `stands` within the windows"]
        wanted = flying(self.traced, self.battle.windows[0]) if begins else []
        got = sorted(row for row in self.paged if row[2] == "flies")
        return wrong + ([] if got == wanted else [f"in the air are {got}, not {wanted}"])


def windows_of(battle: Battle, size: int) -> list[Battle]:
    """The windows of a battle's first match up to its longest end, in groups of this size."""
    updates = -(-battle.settings.limit // 15)
    return [replace(battle, call="windows", windows=(begin, size)) for begin in range(0, updates, size)]


def stretches_of(trace: str, folder: str) -> list[list[Stretch]]:
    """Matches in films of windows, one after another up to the end."""
    drawn = random_battles(14, 75) + sample_battles()[5::30] + [Battle(group) for group in ([SALVO, EAGER], [EAGER] * 4, [OWN_FOOT, RETURNER, RAMMER], [RAMMER])]
    found = []
    for battle, size in zip(drawn, itertools.cycle((1, 7, 40, 300))):
        battle = replace(battle, settings=replace(battle.settings, limit=min(battle.settings.limit, 900 if size == 1 else 4_000)))
        asked = windows_of(battle, size)
        film, *answered = answers(folder, [replace(battle, call="film"), *asked])
        both = rows_of(film), told_by(trace, battle)
        parts = [Stretch(it, answer[0], rows_of(answer, answer[0]), *both) for it, answer in zip(asked, answered, strict=True)]
        last = next((at for at, part in enumerate(parts) if part.code != GOES_ON), len(parts) - 1)
        found.append(parts[:last + 1])
    return found


def put_together(parts: list[Stretch]) -> list[str]:
    """Where films of windows, put together, are other than the film of the match, and what is wrong with each."""
    rows = [row for part in parts for row in part.paged if row[2] not in WINDOWS_ALONE]
    wrong = [f"{part.battle.windows}: {line}" for part in parts for line in part.strange()]
    wrong += [f"the last code is {parts[-1].code}"] if parts[-1].code else []
    # one by one also in the order of the page
    wrong += [] if rows == parts[0].whole else ["the page's film of the match has other rows, or in another order"]
    return wrong + strange_borders(parts) + differences(rows, parts[0].traced)


def strange_borders(parts: list[Stretch]) -> list[str]:
    """Where the robots don't stand where the films of windows before and behind a border have them. At the first one they stand where their
    ways begin; at the last one, if the match ends there, where their ways end."""
    ways = [row for row in parts[0].traced if row[2] == "at"]
    begun, ended = ([*{row[1]: row for row in rows}.values()] for rows in (ways[::-1], ways))
    borders_of = [part.borders() for part in parts]
    begins, ends = [begin for begin, _ in borders_of], [end for _, end in borders_of]
    begin, count = parts[-1].battle.windows
    is_last = last_cycle(parts[0].traced) == (begin + count) * UPDATE_CYCLES
    pairs = enumerate(zip([*begins, ends[-1]], [standing(begun), *ends[:-1], standing(ended) if is_last else []], strict=True))
    return [f"border {number}: {got}, not {wanted}" for number, (got, wanted) in pairs if got != wanted or not got and number < len(parts)]


def standing(ways: list[Row]) -> list[Row]:
    """Rows of ways as those of where robots stand, by robots."""
    return sorted(((*row[:2], "stands", *row[3:]) for row in ways), key=lambda row: row[1])


def last_cycle(rows: list[Row]) -> int:
    """A match's last cycle."""
    return max(int(row[0]) for row in rows if row[2] == "end")


def windows(stretched: list[list[Stretch]]) -> list[str]:
    """Films of windows, put together, are the film of crobots-trace, and have the missiles in the air at each border."""
    wrong = [f"{titled(parts[0].battle)}: {line}" for parts in stretched for line in put_together(parts)]
    found = Counter(row[2] for parts in stretched for part in parts for row in part.paged if row[2] in WINDOWS_ALONE)
    return wrong[:5] + [f"{kind}: {found[kind]} rows" for kind in WINDOWS_ALONE if found[kind] < LEAST_ALONE[kind]]


def borders(trace: str, stretched: list[list[Stretch]]) -> list[str]:
    """At borders robots stand where a film of crobots-trace of that cycle alone has them."""
    draw, wrong, seen = random.Random(76), [], 0
    for parts in stretched:
        for part in draw.sample(parts, min(len(parts), 6)):
            for rows in part.borders():
                if rows:
                    cycle = rows[0][0]
                    told = told_by(trace, part.battle, "--from", cycle, "--to", cycle)
                    wanted = standing([row for row in told if row[2] == "at"])
                    seen += 1
                    wrong += [] if rows == wanted else [f"{titled(part.battle)}, {cycle}: {rows}, not {wanted}"]
    return wrong[:5] + ([] if seen > 100 else [f"{seen} borders"])


Plant = Callable[[Film], list[Row]]


def without(*kinds: str) -> Plant:
    """Leaves out the rows of some kinds."""
    return lambda film: [row for row in film.paged if row[2] not in kinds]


def without_looks(film: Film) -> list[Row]:
    """Robots are seen at the start alone: there are no deaths, and each way ends as it began."""
    kept = [row for row in film.paged if row[2] not in ("at", "death") or row[2] == "at" and row[0] == "0"]
    return [(*row[:3], "0") if row[2] == "end" else row for row in kept]


def without_the_last_update(film: Film) -> list[Row]:
    """What is seen after the last update is missing."""
    last = str(last_cycle(film.traced) // UPDATE_CYCLES * UPDATE_CYCLES)
    return [row for row in film.paged if row[0] != last or row[2] not in ("at", "death")]


def with_another_place(film: Film) -> list[Row]:
    """A shot has the place that another robot began at."""
    begun = {row[1]: row[3:5] for row in film.paged if row[2] == "at" and row[0] == "0"}
    return [(*row[:5], *begun[str(int(row[1]) % len(begun) + 1)]) if row[2] == "shot" else row for row in film.paged]


def with_another_line(film: Film) -> list[Row]:
    """A restart has the line of the next one of another robot, or else the first line."""
    lines = {row[1]: row[5] for row in film.paged if row[2] == "restart"}
    return [(*row[:5], next((line for robot, line in lines.items() if robot != row[1]), "1")) if row[2] == "restart" else row for row in film.paged]


def with_another_function(film: Film) -> list[Row]:
    """Each restart is in main."""
    return [(*row[:4], "main", *row[5:]) if row[2] == "restart" else row for row in film.paged]


def with_one_robot(film: Film) -> list[Row]:
    """What a robot asks is that of the first robot."""
    return [(row[0], "1", *row[2:]) if row[2] in ("shot", "scan") else row for row in film.paged]


def with_refused_shots(film: Film) -> list[Row]:
    """Refused shots aren't left out."""
    return [row for row in film.traced if row[2] != "name"]


def with_refused_as_shots(film: Film) -> list[Row]:
    """A refused shot is told as one that is fired, where the robot began."""
    begun = {row[1]: row[3:5] for row in film.paged if row[2] == "at" and row[0] == "0"}
    return [(*row[:2], "shot", *row[3:], *begun[row[1]]) if row[2] == "refused" else row for row in film.traced if row[2] != "name"]


def with_late_scans(film: Film) -> list[Row]:
    """Not the first scan since an update is told, but the next one."""
    return [(str(int(row[0]) + 1), *row[1:]) if row[2] == "scan" else row for row in film.paged]


def with_late_updates(film: Film) -> list[Row]:
    """An update's bursts and losses have the cycle in which the next one is."""
    return [(str(int(row[0]) + UPDATE_CYCLES), *row[1:]) if row[2] in ("burst", "hurt", "wall", "collision") else row for row in film.paged]


def with_living_at_the_end(film: Film) -> list[Row]:
    """Dead robots have no end."""
    return [row for row in film.paged if row[2] != "end" or int(row[3]) < 100]


def cut_off(film: Film) -> list[Row]:
    """A row is lost where a part of a film begins."""
    return film.paged[:len(film.paged) // 2] + film.paged[len(film.paged) // 2 + 1:]


# What may be wrong in `Film`: what calls the camera, and what is handed to it.
PLANTS: dict[str, Plant] = {
    "`asked` never asks the camera": without("shot", "scan"),
    "`updated` never has the camera look": without_looks,
    "`restarts` never tells the camera": without("restart"),
    "`asked` has the camera ask for shots alone": without("scan"),
    "`asked` has the camera ask for scans alone": without("shot"),
    "`updates` tells nothing": without("burst", "hurt", "wall", "collision"),
    "`end` tells nothing": without("end"),
    "the last update isn't looked at": without_the_last_update,
    "a shot's place is another robot's": with_another_place,
    "a restart's line is another robot's": with_another_line,
    "a restart's function is main": with_another_function,
    "a question is the first robot's": with_one_robot,
    "refused shots are told": with_refused_shots,
    "refused shots are told as shots": with_refused_as_shots,
    "a scan isn't the first one": with_late_scans,
    "an update's cycle is the next one's": with_late_updates,
    "dead robots have no end": with_living_at_the_end,
    "a row is lost between two sheets": cut_off,
}


def planted(films: list[Film]) -> list[str]:
    """What is planted among the rows is seen in each film that it changes, and changes some."""
    wrong = []
    for name, plant in PLANTS.items():
        changed = [(film, rows) for film in films if in_order(rows := plant(film)) != in_order(film.paged)]
        wrong += [f"{name}: not seen in {titled(film.battle)}" for film, rows in changed if not differences(rows, film.traced)][:2]
        wrong += [] if len(changed) >= LEAST_PLANTED else [f"{name}: {len(changed)} films are changed"]
    return wrong


def changed_field(field: str) -> str:
    """Another value of a field: the next number, or a longer word."""
    return str(int(field) + 1) if field.lstrip("-").isdigit() else f"{field}x"


def spoiled(rows: list[Row], at: int) -> Iterator[list[Row]]:
    """Rows of which one is missing, stands twice, or has another field, one more or one fewer."""
    before, row, behind = rows[:at], rows[at], rows[at + 1:]
    yield before + behind
    yield [*before, row, row, *behind]
    for number, field in enumerate(row):
        yield [*before, (*row[:number], changed_field(field), *row[number + 1:]), *behind]
    yield [*before, (*row, "0"), *behind]
    if len(row) > len(("cycle", "robot", "kind")):
        yield [*before, row[:-1], *behind]


# of a film with so many rows each is spoiled, of others the first one of each kind, the last one, and one between
MOST_SPOILED = 60


def chosen(rows: list[Row], draw: random.Random) -> list[int]:
    """The rows of a film that are spoiled."""
    if len(rows) <= MOST_SPOILED:
        return [*range(len(rows))]
    found: dict[str, list[int]] = defaultdict(list)
    for at, row in enumerate(rows):
        found[row[2]].append(at)
    return sorted({at for places in found.values() for at in (places[0], places[-1], draw.choice(places))})


def spoiling(films: list[Film]) -> list[str]:
    """Any row that is missing, twice or another one is seen: each of small films, and three of each kind of others."""
    draw, wrong, seen = random.Random(77), [], Counter[str]()
    for film in films:
        for at in chosen(film.paged, draw) if len(film.paged) < 4_000 else []:
            seen[film.paged[at][2]] += 1
            wrong += [f"{titled(film.battle)}: {film.paged[at]}, {number}" for number, rows in enumerate(spoiled(film.paged, at)) if not differences(rows, film.traced)]
    return wrong[:5] + [f"{kind}: {seen[kind]} rows were spoiled" for kind in LEAST if seen[kind] < 20]


def spoiled_stretches(stretched: list[list[Stretch]]) -> list[str]:
    """Any row of a film of windows that is missing, twice or another one is seen: some of each kind."""
    draw, wrong, seen = random.Random(78), [], Counter[str]()
    for parts in stretched:
        if sum(len(part.paged) for part in parts) > 4_000:
            continue
        number = draw.randrange(len(parts))
        part = parts[number]
        for at in chosen(part.paged, draw):
            seen[part.paged[at][2]] += 1
            for rows in spoiled(part.paged, at):
                if not put_together([*parts[:number], replace(part, paged=rows), *parts[number + 1:]]):
                    wrong.append(f"{titled(part.battle)}, {part.battle.windows}: {part.paged[at]}")
    return wrong[:5] + [f"{kind}: {seen[kind]} rows were spoiled" for kind in WINDOWS_ALONE if seen[kind] < 10]


def results(programs: Programs, folder: str) -> Iterator[tuple[str, list[str]]]:
    """The tests' names, and what is wrong; the programs are crobots, stages and trace."""
    trace = programs[2]
    films = whole_films(trace, folder)
    yield "films are those of crobots-trace", alike(films)
    yield "kinds of rows", counts(films)
    yield "films in sheets", long_films(trace, folder)
    yield "when missiles burst", modelled(films)
    stretched = stretches_of(trace, folder)
    yield "films of windows", windows(stretched)
    yield "where robots stand at borders", borders(trace, stretched)
    yield "what is planted in films", planted(films)
    yield "rows of films that are spoiled", spoiling(films)
    yield "rows of windows that are spoiled", spoiled_stretches(stretched)
