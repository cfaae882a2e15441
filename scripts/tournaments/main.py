"""The script `tournament`: plays or merges, and prints."""

import argparse
from decimal import Decimal

from tools.faults import Fault
from tools.output import show, written_over
from tools.signals import stopping

from . import plans, programs, robots, words
from .groups import check_sample
from .merging import Merger, against, records
from .playing import Player
from .programs import Program
from .results import Results, check_files
from .seats import keys
from .sessions import session, tell_rounded
from .settings import SIZE_NAMES, Settings


def sizes(given: argparse.Namespace) -> tuple[int, ...]:
    """The sizes that are played: those with a weight, or one."""
    if not given.by_size:
        return (given.size,)
    return tuple(size for size, weight in zip(SIZE_NAMES, given.by_size) if weight > Decimal(0))


def check(given: argparse.Namespace) -> None:
    """Refuses words that don't go with each other."""
    if given.by_size and (given.size or given.sample or not sizes(given)):
        raise Fault("--by-size plays all groups of the sizes that have a weight, so it needs one, and no --size or --sample")
    if given.merge and (given.plan or given.journal):
        raise Fault("--merge reads what was played, so it takes no --plan and no --journal")
    if given.merge and words.settings_given(given):
        raise Fault(f"--merge reads the settings from the records, so it takes no {', '.join(words.settings_given(given))}")
    if given.plan and (given.journal or given.write or given.html):
        raise Fault("--plan plays nothing, so it takes no --journal, no --write and no --html")
    if not given.html and (given.title or given.page or given.replays is not None):
        raise Fault("--title, --page and --replays go with --html")
    if given.against and not given.merge:
        raise Fault("--against goes with --merge")
    for form, path in given.write:
        if why := written_over(path, [*given.robots, *(given.those or ())]):
            raise Fault(f"--write {form}={why}")
    check_files(given.write)


def enough(given: argparse.Namespace) -> None:
    """Refuses too few robots."""
    size = max(sizes(given))
    if len(given.robots) + len(given.those) < size:
        raise Fault(f"matches of {size} need at least {size} robots")
    if given.those and not given.robots:
        raise Fault("--those takes the robots of one side, and none is left for the other; give the others before it")


def weighed(given: argparse.Namespace, settings: Settings) -> None:
    """Refuses weights that aren't those of the sizes that were played, and points of several sizes without weights."""
    theirs = ",".join(map(str, settings.sizes))
    if given.by_size and sizes(given) != settings.sizes:
        ours = ",".join(map(str, sizes(given)))
        raise Fault(f"the records are of size {theirs}, but --by-size has weights for size {ours}")
    forms = {given.form, *(form for form, _ in given.write)}
    if len(settings.sizes) > 1 and not given.by_size and not forms <= {"matrix", "long"}:
        raise Fault(f"the records are of size {theirs}, so their points need --by-size")


def merge(given: argparse.Namespace) -> None:
    """Writes what the records of a plan come to."""
    merger, results = Merger(), Results(given)
    for record, place in records(given.robots):
        merger.take(record, place)
        results.add(record)
    if merger.settings is None:
        raise Fault("there are no records to merge")
    wrong = (against(given.against, merger) if given.against else "") or merger.wrong()
    if wrong:
        raise Fault(wrong)
    weighed(given, merger.settings)
    results.keep_sources(merger.robots())
    results.write(merger.settings, merger.robots())


def planned(given: argparse.Namespace, program: Program, folder: str) -> plans.Plan:
    """The plan of the words; the robots compile."""
    copies = robots.copied([*given.robots, *given.those], folder)
    robots.compiled(program, given.profile, copies, folder)
    among = robots.in_order(copies)
    those = tuple(at for at, robot in enumerate(among) if robot.path in given.those)
    settings = Settings(given.matches, given.cycles, given.seed, given.profile, program.sha256, len(among), sizes(given), given.sample,
                        those)
    if given.sample:
        check_sample(settings, keys([robot.sha256 for robot in among]))
    most = given.piece or plans.busy(settings, given.jobs)
    if given.plan:
        most = min(most, plans.one_write(settings, among))
    tell_rounded(given, settings.sizes)
    return plans.Plan(settings, among, most)


def tournament(name: str, arguments: list[str]) -> None:
    """Does what the words ask for."""
    given = words.tournament(name).read(arguments)
    check(given)
    if given.merge:
        with stopping("stopped while records were merged"):
            merge(given)
        return
    words.settle(given)
    enough(given)
    program = programs.program(given.crobots)
    with robots.private() as folder:
        plan = planned(given, program, folder)
        if given.plan:
            show(plans.lines(plan, program.path))
            return
        results = Results(given)
        done = session(given, Player(program, given.jobs, folder), plan, results.add)
        results.keep_sources(plan.robots, folder)
    with stopping(f"stopped while the table was made: {done}"):
        results.write(plan.settings, plan.robots)
