"""Sources of robots, as lines that can be shown."""


def lines_of(path: str) -> list[str]:
    """The lines of a file as a screen can show them; an empty one alone if it can't be read, as one that can't be read twice."""
    try:
        with open(path, "rb") as file:
            text = file.read().decode(errors="replace")
    except OSError:
        text = ""
    return [shown(line) for line in text.removesuffix("\n").split("\n")]


def shown(line: str) -> str:
    """A line of text as a screen shows it: tabs reach to columns of eight, other control characters are question marks."""
    return "".join(letter if letter.isprintable() else "?" for letter in line.rstrip("\r").expandtabs(8))
