"""How `crobots-trace` ended."""

from tools.faults import FAULTY, FILE, PROGRAM, USAGE, Ended, Fault
from tools.programs import TRACE


def judge(status: int, said: list[str]) -> None:
    """Ends with what `crobots-trace` said, if it ended badly: what it refused, or diagnostics of robots."""
    last = said[-1].rstrip("\n") if said else "it said nothing"
    if status == FAULTY:
        raise Ended(said, FAULTY)
    if status in (USAGE, FILE):
        raise Fault(last.removeprefix(f"{TRACE}: "), status)
    if status:
        raise Fault(f"{TRACE} ended with status {status}: {last}", PROGRAM)
