"""Numbers as a reader is shown them."""

from decimal import Decimal

from .charts import whole

SPACE = "\N{NO-BREAK SPACE}"
INTERVAL = f"95{SPACE}% interval"


def count(number: int) -> str:
    """A whole number with commas between its thousands."""
    return f"{number:,}"


def counted(number: int, what: str) -> str:
    """A number of something, as '1 match' or '2 matches'."""
    many = what if number == 1 else what + ("es" if what.endswith("ch") else "s")
    return f"{count(number)} {many}"


def decimal(number: Decimal) -> str:
    """A number with three digits after its point."""
    return f"{number:.3f}"


def tenth(number: float) -> float:
    """A number with one digit after its point, which has no sign if it is 0."""
    return round(number, 1) + 0.0


def percent(part: float) -> str:
    """A part as a percentage with one digit after its point."""
    return f"{100 * part:.1f}{SPACE}%"


def interval(low: float, high: float) -> str:
    """An interval of ratings."""
    return f"{whole(low)} to {whole(high)}"
