"""The colours of the heat map: steps from one colour over a pale one to another, each with an ink to be read on it."""

import math

STEPS = 20
Colour = tuple[int, int, int]
# What a robot's share of 0, a half and 1 is drawn with, in the light and in the dark: orange and blue, which nearly all
# who see few colours can tell apart.
LIGHT: tuple[Colour, Colour, Colour] = ((200, 82, 10), (241, 241, 238), (24, 92, 168))
DARK: tuple[Colour, Colour, Colour] = ((240, 140, 66), (44, 50, 58), (98, 168, 240))
INKS: tuple[Colour, Colour] = ((0, 0, 0), (255, 255, 255))


def step(share: float) -> int:
    """The step of a share."""
    return round(share * STEPS)


def colour(ends: tuple[Colour, Colour, Colour], at: int) -> Colour:
    """The colour of a step."""
    low, middle, high = ends
    part = abs(2 * at / STEPS - 1)
    other = low if 2 * at < STEPS else high
    red, green, blue = (round(one + part * (two - one)) for one, two in zip(middle, other))
    return red, green, blue


def light(colour: Colour) -> float:
    """How light a colour is to the eye, from 0 to 1."""
    parts = [part / 255 for part in colour]
    red, green, blue = (part / 12.92 if part <= 0.04045 else math.pow((part + 0.055) / 1.055, 2.4) for part in parts)
    return 0.2126 * red + 0.7152 * green + 0.0722 * blue


def contrast(one: Colour, other: Colour) -> float:
    """The contrast of two colours, from 1 to 21."""
    darker, lighter = sorted((light(one), light(other)))
    return (lighter + 0.05) / (darker + 0.05)


def ink(ground: Colour) -> Colour:
    """The ink with the most contrast to a ground."""
    return max(INKS, key=lambda ink: contrast(ink, ground))


def written(colour: Colour) -> str:
    return "#" + "".join(f"{part:02x}" for part in colour)


def rules(ends: tuple[Colour, Colour, Colour]) -> str:
    """The style of all steps."""
    return "".join(f".h{at}{{background:{written(ground)};color:{written(ink(ground))}}}\n"
                   for at in range(STEPS + 1) for ground in [colour(ends, at)])


def style() -> str:
    """The style of all steps, in the light and in the dark."""
    return f"{rules(LIGHT)}@media (prefers-color-scheme: dark) {{\n{rules(DARK)}}}\n"
