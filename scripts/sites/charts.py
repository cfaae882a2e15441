"""Charts as SVG: ratings with their intervals, ratings over time, shares. Their colours are the style's."""

import datetime
import functools
from itertools import groupby
from typing import Sequence

from results.scores import Score
from results.standings import Rating
from tools.rules import DEADLY

from .facts import Stay
from .markup import Markup, joined, tag
from .scales import Scale, scale

ROW_WIDTH, ROW_HEIGHT = 270, 26
TIME_WIDTH, TIME_HEIGHT, TIME_LEFT, TIME_BOTTOM, TIME_TOP = 760, 240, 48, 28, 18
MINUS = "\N{MINUS SIGN}"


def svg(width: int, height: int, *children: Markup, label: str | None = None, kind: str = "") -> Markup:
    """A drawing. Without a label it repeats what stands beside it as text."""
    role, hidden = ("img", None) if label else (None, "true")
    return tag("svg", *children, viewBox=f"0 0 {width} {height}", width=width, height=height,
               class_=f"chart {kind}".strip(), role=role, aria_label=label, aria_hidden=hidden)


def whole(value: float) -> str:
    """A whole number with the sign for minus."""
    return f"{round(value)}".replace("-", MINUS)


def text(x: float, y: float, said: str, anchor: str = "middle") -> Markup:
    return tag("text", said, x=x, y=y, text_anchor=anchor)


def upright(x: float, low: float, high: float, kind: str) -> Markup:
    """An upright line."""
    return tag("line", x1=x, x2=x, y1=low, y2=high, class_=kind)


def rating_scale(ratings: Sequence[Rating]) -> Scale:
    """The axis of all rows of a table."""
    return scale([end for rating in ratings for end in (rating.low, rating.high)], 8, ROW_WIDTH - 8)


def rating_axis(axis: Scale) -> Markup:
    """The numbers of the axis."""
    return svg(ROW_WIDTH, 18, *(text(axis.at(tick), 13, whole(tick)) for tick in axis.ticks()), kind="axis")


def rating_row(axis: Scale, rating: Rating) -> Markup:
    """A rating as a dot on its interval. An arrow says that it goes on beyond the axis."""
    grid = [upright(axis.at(tick), 0, ROW_HEIGHT, "grid") for tick in axis.ticks()]
    return svg(ROW_WIDTH, ROW_HEIGHT, *grid, *span(axis, rating.low, rating.value, rating.high, ROW_HEIGHT / 2), kind="row")


def span(axis: Scale, low: float, value: float, high: float, y: float) -> list[Markup]:
    """A value as a dot on its interval."""
    begin, end = axis.at(low), axis.at(high)
    found = [tag("rect", x=begin, y=y - 4, width=max(round(end - begin, 1), 1), height=8, rx=4, class_="interval")]
    if low < axis.low:
        found.append(tag("path", d=f"M{axis.begin - 7} {y}l7 -5v10z", class_="beyond"))
    if high > axis.high:
        found.append(tag("path", d=f"M{axis.end + 7} {y}l-7 -5v10z", class_="beyond"))
    if axis.holds(value):
        found.append(tag("circle", cx=axis.at(value), cy=y, r=4.5, class_="value"))
    return found


def parts(score: Score, width: int = 120, height: int = 12, label: str | None = None) -> Markup:
    """What was won, tied and lost, as parts of a bar."""
    found, x = [], 0.0
    for kind, count in (("won", score.won), ("tied", score.tied), ("lost", score.lost)):
        wide = width * count / max(score.played, 1)
        if count:
            found.append(tag("rect", x=round(x, 1), y=0, width=round(wide, 1), height=height, class_=kind))
        x += wide
    return svg(width, height, *found, label=label, kind="parts")


@functools.cache
def damage(percent: int) -> Markup:
    """A damage as a bar, which is full if the robot is dead."""
    track = tag("rect", x=0, y=0, width=DEADLY, height=8, rx=4, class_="track")
    return svg(DEADLY, 8, track, tag("rect", x=0, y=0, width=min(percent, DEADLY), height=8, rx=4, class_="damage"))


def moments(days: Sequence[str]) -> list[float]:
    """Where days stand in time; without dates one after another."""
    try:
        return [float(datetime.date.fromisoformat(day[:10]).toordinal()) for day in days]
    except ValueError:
        return [float(at) for at in range(len(days))]


def during(days: Sequence[str], changes: Sequence[str]) -> list[str]:
    """The changes that came after the first of these days, up to the last one."""
    return [day for day in changes if days[0] < day <= days[-1]]


def over_time(found: Sequence[Stay], changes: Sequence[str], label: str) -> Markup:
    """A rating over time with its interval, and a dotted line at each day of a new version.

    Each season has a line of its own, which begins at a line with its name, if there are several."""
    days = [stay.day for stay in found]
    every = sorted({*days, *during(days, changes)})
    times = dict(zip(every, moments(every)))
    across = Scale(times[days[0]], max(times[days[-1]], times[days[0]] + 1), TIME_LEFT + 6, TIME_WIDTH - 14)
    up = scale([end for stay in found for end in stay.place.rating[1:]], TIME_HEIGHT - TIME_BOTTOM, TIME_TOP)
    xs = [across.at(times[day]) for day in days]
    new = [upright(across.at(times[day]), TIME_TOP, TIME_HEIGHT - TIME_BOTTOM, "change") for day in during(days, changes)]
    parts = [[*part] for _, part in groupby(zip(xs, found), lambda dot: dot[1].season)]
    marks = [season_mark(part[0][0], part[0][1].season) for part in parts] if len(parts) > 1 else []
    return svg(TIME_WIDTH, TIME_HEIGHT, *levels(up), *first_and_last(days, xs), *new, *marks,
               *(of_season(up, part) for part in parts), label=label, kind="time axis")


def of_season(up: Scale, part: Sequence[tuple[float, Stay]]) -> Markup:
    """The line of a season, with its band and its points."""
    xs, ratings = [x for x, _ in part], [stay.place.rating for _, stay in part]
    way = tag("polyline", points=" ".join(f"{x},{up.at(rating.value)}" for x, rating in zip(xs, ratings)), class_="way")
    return joined(band(up, xs, ratings), way, *(point(x, up, stay) for x, stay in part))


def season_mark(x: float, season: str) -> Markup:
    """Where a season begins: its name stands above, on the side where there is room."""
    is_late = x > TIME_WIDTH / 2
    name = text(x - 4 if is_late else x + 4, TIME_TOP - 4, season, "end" if is_late else "start")
    return joined(upright(x, TIME_TOP - 10, TIME_HEIGHT - TIME_BOTTOM, "begin"), name)


def levels(up: Scale) -> list[Markup]:
    """The levels of ratings, with their numbers."""
    right = TIME_WIDTH - 8
    return [joined(tag("line", x1=TIME_LEFT, x2=right, y1=up.at(tick), y2=up.at(tick), class_="grid"),
                   text(TIME_LEFT - 6, up.at(tick) + 4, whole(tick), "end")) for tick in up.ticks()]


def first_and_last(days: Sequence[str], xs: Sequence[float]) -> list[Markup]:
    """The first day and the last one."""
    y = TIME_HEIGHT - 8
    return [text(xs[0], y, days[0], "start")] + ([text(xs[-1], y, days[-1], "end")] if len(days) > 1 else [])


def band(up: Scale, xs: Sequence[float], ratings: Sequence[Rating]) -> Markup:
    """The intervals over time."""
    above = [f"{x},{up.at(rating.high)}" for x, rating in zip(xs, ratings)]
    below = [f"{x},{up.at(rating.low)}" for x, rating in zip(xs, ratings)]
    return tag("polygon", points=" ".join(above + below[::-1]), class_="interval")


def point(x: float, up: Scale, stay: Stay) -> Markup:
    """A rating of a day."""
    value, low, high = stay.place.rating
    said = f"{stay.day}: {whole(value)} ({whole(low)} to {whole(high)}), rank {stay.place.rank}"
    return tag("circle", tag("title", said), cx=x, cy=up.at(value), r=3.5, class_="value")
