"""A sweep as a picture: points over the values with the interval of each change, or a map of two numbers. It stands alone, as SVG."""

import math
from typing import Sequence

from sites.markup import Markup, tag
from sites.scales import Scale

from . import figures
from .breakdowns import listed
from .games import Games
from .sweeps import Row, shown
from .verdicts import BETTER, CHANGES, WORSE

WIDTH, HEIGHT = 720, 420
LEFT, RIGHT, TOP, BOTTOM = 98, 20, 88, 52
# A field of a map, and the room below it.
WIDE, HIGH, BELOW = 70, 30, 48
# So many letters a line of small ones has room for, and how wide one is.
COLUMNS, LETTER = 90, 5.8
STYLE = """
svg { font: 13px sans-serif; background: #fff; color: #1c1c1c }
.grid { stroke: #ddd } .zero { stroke: #888; stroke-dasharray: 4 3 }
.band { fill: #3b6fb6; fill-opacity: .18 } .way { fill: none; stroke: #3b6fb6; stroke-width: 2 }
.value { fill: #3b6fb6 } .better { fill: #1a7f37 } .worse { fill: #b3261e } .beaten { fill: #c77700 } .today { fill: #1c1c1c }
text { fill: #1c1c1c } .small { font-size: 11px }
"""
# The kinds of values, each with its words in a legend, and with its sign in a map.
KINDS = {"better": "surely better", "worse": "surely worse", "beaten": "surely worse than another one", "value": "no difference shown"}
SIGNS = {"better": " +", "worse": " \N{MINUS SIGN}", "beaten": " \N{MULTIPLICATION SIGN}", "value": ""}


def picture(games: Games, rows: Sequence[Row]) -> str:
    """The picture of a sweep of one number or of two."""
    drawn = curve(games, rows) if len(games.numbers) == 1 else heat(games, rows)
    return drawn + "\n"


def drawing(games: Games, width: int, height: int, *parts: Markup) -> Markup:
    """A drawing that stands alone, and says what was swept and against whom."""
    among = listed(games)
    title = f"{games.name}: what {' and '.join(number.name for number in games.numbers)} {'is' if len(games.numbers) == 1 else 'are'} worth"
    whole = f"{title}; against {', '.join(among)}"
    return tag("svg", tag("title", whole), Markup(f"<style>{STYLE}</style>"), tag("text", title, x=LEFT, y=18), text(LEFT, 34, shortened(among), "start"),
               *parts, xmlns="http://www.w3.org/2000/svg", viewBox=f"0 0 {width} {height}", width=width, height=height)


def shortened(among: Sequence[str]) -> str:
    """As many of the opponents as a line has room for, and how many more there are."""
    for many in range(len(among), 0, -1):
        left = len(among) - many
        line = f"against {', '.join(among[:many])}" + (f" and {left} more" if left else "")
        if len(line) <= COLUMNS:
            return line
    return f"against {len(among)} robots"


def text(x: float, y: float, said: str, anchor: str = "middle", kind: str = "small") -> Markup:
    return tag("text", said, x=x, y=y, text_anchor=anchor, class_=kind)


def upward(x: float, y: float, said: str) -> Markup:
    """A line of text from below to above, around a place."""
    return tag("text", said, x=x, y=y, text_anchor="middle", class_="small", transform=f"rotate(-90 {x} {y})")


def kind_of(row: Row, games: Games) -> str:
    """What a row's value is, of KINDS, or today's."""
    if row.values == games.today:
        return "today"
    return row.verdict if row.verdict in (BETTER, WORSE) else "beaten" if row.is_beaten else "value"


def told(row: Row) -> str:
    """What a pointer says of a row."""
    return f"{shown(row.values)}: {figures.difference(row.change.value)} ({figures.interval(row.change)}), {row.said}"


def curve(games: Games, rows: Sequence[Row]) -> Markup:
    """The change in points over the values, with its interval; today's value is at 0."""
    ends = [end for row in rows for end in (row.change.low, row.change.high)]
    room = max(0.05 * (max(ends) - min(ends)), 0.01)
    up = Scale(min(ends) - room, max(ends) + room, HEIGHT - BOTTOM, TOP)
    along = Scale(rows[0].values[0], rows[-1].values[0], LEFT, WIDTH - RIGHT)
    xs = [along.at(row.values[0]) for row in rows]
    outline = [f"{x},{up.at(row.change.high)}" for x, row in zip(xs, rows)] + [f"{x},{up.at(row.change.low)}" for x, row in reversed([*zip(xs, rows)])]
    way = " ".join(f"{x},{up.at(row.change.value)}" for x, row in zip(xs, rows))
    dots = [tag("circle", tag("title", told(row)), cx=x, cy=up.at(row.change.value), r=5 if row.values == games.today else 4, class_=kind_of(row, games))
            for x, row in zip(xs, rows)]
    return drawing(games, WIDTH, HEIGHT, *axes(games, up, along), tag("polygon", points=" ".join(outline), class_="band"),
                   tag("polyline", points=way, class_="way"), *dots, *legend(games, rows))


def axes(games: Games, up: Scale, along: Scale) -> list[Markup]:
    """The lines and the numbers beside and below a curve, and what these are."""
    number = games.numbers[0]
    lines = [part for tick in up.ticks() for part in (
        tag("line", x1=LEFT, x2=WIDTH - RIGHT, y1=up.at(tick), y2=up.at(tick), class_="zero" if abs(tick) < 1e-9 else "grid"),
        text(LEFT - 6, up.at(tick) + 4, figures.difference(tick), "end"))]
    feet = [text(along.at(tick), HEIGHT - BOTTOM + 18, f"{tick:g}") for tick in along.ticks()]
    return [*lines, *feet, text((LEFT + WIDTH - RIGHT) / 2, HEIGHT - BOTTOM + 38, f"value of {number.name}"),
            upward(16, (TOP + HEIGHT - BOTTOM) / 2, f"points a match, more than with today's {number.value}")]


def legend(games: Games, rows: Sequence[Row]) -> list[Markup]:
    """What the line, the band and the dots of a curve are: each that is there has a sign of its own, above it."""
    where = f"where {'all changes are at once' if len(rows) > 2 else 'it is'}, in {CHANGES} of 100 sweeps"
    first = [("way", "change"), ("band", where), ("today", f"today's {shown(games.today)}")]
    second = [(kind, said) for kind, said in KINDS.items() if kind in {kind_of(row, games) for row in rows}]
    found = []
    for y, words in ((54, first), (70, second)):
        x = LEFT
        for kind, said in words:
            found += [sign(kind, x, y), text(x + 20, y, said, "start")]
            x += 40 + math.ceil(LETTER * len(said))
    return found


def sign(kind: str, x: int, y: int) -> Markup:
    """How something of this kind is drawn."""
    if kind == "way":
        return tag("line", x1=x, x2=x + 14, y1=y - 4, y2=y - 4, class_=kind)
    if kind == "band":
        return tag("rect", x=x, y=y - 10, width=14, height=12, class_=kind)
    return tag("circle", cx=x + 7, cy=y - 4, r=4, class_=kind)


def heat(games: Games, rows: Sequence[Row]) -> Markup:
    """A map: the first number along, the second one up, and the change in points as a colour and a number."""
    first, second = (sorted({row.values[at] for row in rows}) for at in (0, 1))
    most = max(abs(row.change.value) for row in rows) or 1.0
    cells = []
    for row in rows:
        x, y = LEFT + WIDE * first.index(row.values[0]), TOP + HIGH * (len(second) - 1 - second.index(row.values[1]))
        is_today = row.values == games.today
        cells.append(tag("rect", tag("title", told(row)), x=x, y=y, width=WIDE - 2, height=HIGH - 2,
                         fill=shade(row.change.value / most), stroke="#1c1c1c" if is_today else None, stroke_width=2 if is_today else None))
        cells.append(text(x + WIDE / 2 - 1, y + HIGH / 2 + 4, f"{figures.difference(row.change.value)}{SIGNS.get(kind_of(row, games), '')}"))
    bottom = TOP + HIGH * len(second)
    feet = [text(LEFT + WIDE * at + WIDE / 2, bottom + 16, str(value)) for at, value in enumerate(first)]
    sides = [text(LEFT - 6, TOP + HIGH * (len(second) - 1 - at) + HIGH / 2 + 4, str(value), "end") for at, value in enumerate(second)]
    signs = [f"{SIGNS[kind].strip()} {said}" for kind, said in KINDS.items() if SIGNS[kind] and kind in {kind_of(row, games) for row in rows}]
    names = [text(LEFT + WIDE * len(first) / 2, bottom + 34, f"value of {games.numbers[0].name}"),
             upward(16, (TOP + bottom) / 2, f"value of {games.numbers[1].name}"),
             text(LEFT, 52, f"points a match more than with today's {shown(games.today)}, which is framed: blue is more, red is less", "start"),
             text(LEFT, 66, ", ".join(signs) or KINDS["value"], "start")]
    return drawing(games, max(LEFT + WIDE * len(first) + RIGHT, WIDTH), bottom + BELOW, *cells, *feet, *sides, *names)


def shade(part: float) -> str:
    """A colour from red by white to blue, of -1 to 1."""
    end = (59, 111, 182) if part > 0 else (179, 38, 30)
    return "#" + "".join(f"{round(255 + (colour - 255) * min(abs(part), 1) * 0.75):02x}" for colour in end)
