"""The standings of a season: each robot's points, rating and rank, division by division."""

from decimal import Decimal

from results.scores import Score
from results.standings import NOTHING, Rating, Standing, marked, ranked
from results.tallies import Tally, group_of
from tournaments.closeness import Closeness
from tournaments.evidence import Evidence, evidence
from tournaments.ratings import ratings

from .missing import ladder
from .results import Results
from .rules import LADDER
from .schedules import Schedule
from .scores import points, tallied, total, weights
from .seasons import Field
from .stopped import share
from .verdicts import Verdicts


def standings(schedule: Schedule, results: Results) -> list[Standing]:
    """The robots of each division, best first. In a ladder that is from the top to the bottom."""
    field, tally = schedule.field, tallied(schedule, results)
    rules, robots = field.rules, field.robots
    inside = {group: of_group for group, of_group in tally.scores(group_of).items() if schedule.is_of_a_division(group)}
    played, earned, rated = total(inside, len(robots)), points(inside, len(robots), rules), rating(schedule, results, tally)
    rungs = on_ladder(schedule, results) if rules.mode == LADDER else {}
    rows = placed(field, played, earned, rated, rungs)
    counted = Tally({seats: ended for seats, ended in tally.seatings.items() if schedule.is_of_a_division(seats)})
    return [*marked(rows, Closeness(counted, rules.scoring.worth, weights(inside, rules)).are_close)]


def placed(field: Field, scores: list[Score], earned: list[Decimal], rated: list[Rating], rungs: dict[int, int]) -> list[Standing]:
    """The rows of a season's robots by what each did and by its rung, if it has one: those of each division, best first."""
    rows = [Standing(robot.robot, rungs.get(at, 0), scores[at], earned[at], rated[at], False, field.division(robot.robot), robot.sha256, place=at)
            for at, robot in enumerate(field.robots)]
    return [*ranked(sorted(rows, key=lambda row: (row.division, row.rank, -row.points, row.robot)))]


def on_ladder(schedule: Schedule, results: Results) -> dict[int, int]:
    """The rung of each robot, the top first; those that haven't entered are below."""
    found = ladder(schedule, Verdicts(schedule, results))
    return {robot: rung for rung, robot in enumerate((*found.rungs, *found.waiting), 1)}


def rating(schedule: Schedule, results: Results, tally: Tally) -> list[Rating]:
    """The ratings of all robots. If one has a fixed rating, the others have theirs above it or below it."""
    rules = schedule.field.rules
    anchor = schedule.place(rules.anchor) if rules.anchor else None
    rated = ratings(seen(schedule, results, tally), anchor)
    return [rating if rating == NOTHING else Rating(rating.value + rules.anchored, rating.low + rules.anchored, rating.high + rules.anchored)
            for rating in rated]


def seen(schedule: Schedule, results: Results, tally: Tally) -> Evidence:
    """What matches show of shares. Those of pairs that the sequential test stops are without the bias of that."""
    plain = evidence(tally, len(schedule.keys))
    if not schedule.field.rules.sure:
        return plain
    verdicts, shares = Verdicts(schedule, results), dict(plain.shares)
    for pair in plain.shares:
        all_looks, first = verdicts.looked(pair)
        if first.played:
            shares[pair] = share(all_looks, first)
    return Evidence(plain.robots, shares, plain.spreads)
