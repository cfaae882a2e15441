"""A trial: a source that isn't handed in plays a few matches against a robot of the ladder. Its author learns how these ended, and
nothing of the other's source."""

import os
import secrets
import tempfile
import threading

from leagues import entries, seasons
from leagues.store import Store
from tools.faults import Fault
from tools.output import replaced
from tools.rules import MOST_SEED

from .accounts import Who
from .audits import note
from .handing import GONE, MANY, SHUT, TAKEN, Answer, Refused, answering, done_of_late, id_of, refuse_fault, refuse_size
from .judging import Programs, ran
from .terms import terms

TRIAL = "trial"
MATCHES, AT_A_TIME = 10, 2
turns = threading.BoundedSemaphore(AT_A_TIME)


def opponents(store: Store) -> list[str]:
    """The robots against which a trial may be played: all that play, if the terms allow it."""
    return sorted(entries.playing(entries.entries(store))) if terms(store).trials else []


@answering
def tried(store: Store, who: Who, name: str, source: bytes, against: str, programs: Programs, address: str) -> Answer:
    """What a source did against a robot, or why it may not."""
    robot = id_of(name)
    refuse_size(store, source)
    refuse_fault(store, source, programs, robot)
    with store.change():
        theirs = allowed(store, who, against)
        note(store, who.name, TRIAL, against, address)
    with turns:
        return Answer(TAKEN, played(store, robot, source, against, theirs, programs))


def allowed(store: Store, who: Who, against: str) -> bytes:
    """The source of the other robot, if a trial against it is allowed now."""
    most = terms(store).trials
    if not most:
        raise Refused(SHUT, "the terms of this league allow no trials")
    there = entries.playing(entries.entries(store)).get(against)
    if there is None:
        raise Refused(GONE, f"no robot {against} plays here")
    if (count := done_of_late(store, who, TRIAL)) >= most:
        raise Refused(MANY, f"you had {count} trials within an hour, and at most {most} are played")
    return entries.source(store, there.sha256)


def played(store: Store, robot: str, source: bytes, against: str, theirs: bytes, programs: Programs) -> str:
    """Plays the matches, on a seed that nobody knows before; answers how they ended."""
    rules, seed = seasons.season(store).rules, secrets.randbelow(MOST_SEED + 1)
    with tempfile.TemporaryDirectory(prefix="crobots-ladder-") as folder:
        places = [os.path.join(folder, at, f"{name}.r") for at, name in (("yours", robot), ("theirs", against))]
        for place, text in zip(places, (source, theirs)):
            os.mkdir(os.path.dirname(place))
            replaced(place, text)
        done = ran([programs.crobots, f"-m{MATCHES}", f"-l{rules.cycles}", f"-s{seed}", f"-p{rules.profile}", "--", *places])
    if done.returncode:
        raise Fault("the trial took too long, or couldn't be played")
    totals = done.stdout.decode("utf-8", "replace").partition("Totals: ")[2].replace(f"{folder}/yours/", "").replace(f"{folder}/theirs/", "")
    return f"not handed in; a trial on the seed {seed}: {totals.strip()}"
