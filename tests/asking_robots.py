"""Random robots in which nothing but a reply decides where they go.

Each condition, and each left side of `&&` and `||`, is a question. A function calls those after it alone, so each robot has a
bound. Beside that they are as random as those of random_battles: they loop, count, call, shoot, and come to their end."""

from __future__ import annotations

import random

QUESTIONS = ("damage()", "speed()", "loc_x()", "loc_y()", "rand(2)", "scan({}, 5)", "cannon({}, 300)", "drive({}, 50)")
PURE = ("rand", "sqrt", "sin", "cos", "tan", "atan")
OPERATORS = "| ^ & == != < > <= >= << >> + - * / %".split()
STORES = "= += -= *= /= %= <<= >>= &= ^= |=".split()


class AskingRobots:
    """Makes the sources of robots."""

    def __init__(self, draw: random.Random) -> None:
        self._draw = draw
        self._variables: list[str] = []
        self._callable: list[str] = []

    def source(self) -> str:
        """A robot: externals, some functions, and main, in any order."""
        functions = [f"f{number}" for number in range(self._draw.randrange(5))]
        self._variables = [f"v{number}" for number in range(2 + self._draw.randrange(6))]
        parts = [self._function(name, functions[number + 1:]) for number, name in enumerate(functions)]
        self._callable = functions
        parts.append(f"main() {{ {self._statements(2, 1)} while ({self._question()}) {{ {self._statements(5, 3)} }} }}")
        parts += [f"int {', '.join(self._names(3))};"] if self._chance(0.5) else []
        self._draw.shuffle(parts)
        return "\n".join(parts) + "\n"

    def _function(self, name: str, behind: list[str]) -> str:
        self._callable = behind
        parameters = self._names(3) if self._chance(0.7) else []
        inside = f"int {', '.join(self._names(2))};" if self._chance(0.4) and not parameters else ""
        end = f"return {self._value(2)};" if self._chance(0.6) else ""
        return f"{name}({', '.join(parameters)}) {{ {inside} {self._statements(4, 2)} {end} }}"

    def _chance(self, part: float) -> bool:
        return self._draw.random() < part

    def _names(self, most: int) -> list[str]:
        return self._draw.sample(self._variables, 1 + self._draw.randrange(min(most, len(self._variables))))

    def _variable(self) -> str:
        return self._draw.choice(self._variables)

    def _question(self) -> str:
        return self._draw.choice(QUESTIONS).format(self._variable())

    def _statements(self, most: int, depth: int) -> str:
        return " ".join(self._statement(depth) for _ in range(1 + self._draw.randrange(most)))

    def _statement(self, depth: int) -> str:
        if depth and self._chance(0.5):
            return self._draw.choice([self._branch, self._branch, self._loop])(depth - 1)
        if self._chance(0.03):
            return f"if ({self._question()}) return;"
        return f"{self._variable()} {self._draw.choice(STORES)} {self._value(2)};" if self._chance(0.6) else f"{self._value(2)};"

    def _branch(self, depth: int) -> str:
        other = f" else {{ {self._statements(2, depth)} }}" if self._chance(0.4) else ""
        return f"if ({self._question()}) {{ {self._statements(2, depth)} }}{other}"

    def _loop(self, depth: int) -> str:
        return f"while ({self._question()}) {{ {self._statements(2, depth)} }}"

    def _value(self, depth: int) -> str:
        inner = [self._binary, self._binary, self._sided, self._signed, self._asked, self._called] if depth else []
        return self._draw.choice([self._leaf, *inner])(depth - 1)

    def _leaf(self, _: int) -> str:
        name = self._variable()
        return self._draw.choice([name, name, f"{name}++", f"--{name}", str(self._draw.randrange(1000)), self._question()])

    def _binary(self, depth: int) -> str:
        return f"({self._value(depth)} {self._draw.choice(OPERATORS)} {self._value(depth)})"

    def _sided(self, depth: int) -> str:
        """An operator that may leave out its right side."""
        return f"({self._question()} {self._draw.choice(['&&', '||'])} {self._value(depth)})"

    def _signed(self, depth: int) -> str:
        return f"{self._draw.choice('-!~')}({self._value(depth)})"

    def _asked(self, depth: int) -> str:
        return f"{self._draw.choice(PURE)}({self._value(depth)})"

    def _called(self, depth: int) -> str:
        if not self._callable:
            return self._leaf(depth)
        arguments = ", ".join(self._value(0) for _ in range(self._draw.randrange(4)))
        return f"{self._draw.choice(self._callable)}({arguments})"
