"""The exercises that programs can mark. Each has numbers of a reader's own, by a seed; its answer is asked of the proved programs."""

from dataclasses import dataclass
from random import Random
from typing import Callable

from tools.rules import MOST_NAMES

from .programs import Programs

STILL = "main(){ while (1); }\n"
MOST_CYCLES = 3000


@dataclass(frozen=True)
class Task:
    """What is asked: a text, the robot that it is about, and how the lines of the answer are found."""

    asked: str
    robot: str
    answer: Callable[[Programs], list[str]]


def listing(random: Random) -> Task:
    """A whole listing."""
    one, two, three = (random.randrange(2, 99) for _ in range(3))
    first, second = random.sample(["+", "-", "*", "/", "%"], 2)
    robot = f"main()\n{{\n  int a, b;\n  a = {one} {first} {two} {second} {three};\n  b = a;\n}}\n"
    return Task("Write down what `crobots -c robot.r` prints of this robot, all lines.", robot, lambda them: them.listing(robot))


def faults(random: Random) -> Task:
    """Four faults, one after the other."""
    one, other, parameter = random.sample(["turn", "look", "aim", "step", "hide", "seek"], 2) + [random.choice("abcde")]
    gap = "\n" * random.randrange(1, 6)
    steps = [f"{one}({parameter}, {parameter}) {{}}{gap}{one}() {{ {other}(); }}\n", f"{one}({parameter}) {{}}{gap}{one}() {{ {other}(); }}\n",
             f"{one}({parameter}) {{}}{gap}far() {{ {other}(); }}\n", f"{one}({parameter}) {{}}{gap}far() {{ {one}(9); }}\n"]
    return Task("Write down the line that `crobots -c robot.r` prints. Mend that fault alone: leave out the second parameter, call the second\n"
                f"function far, then have it call {one}(9). Write down the line after each step: four lines.",
                steps[0], lambda them: [them.listing(step)[0] for step in steps])


def shot(random: Random) -> Task:
    """The cycle after which a robot has damage."""
    count, more = random.randrange(5, 40), random.randrange(1, 6)
    robot = f"main()\n{{\n  int n;\n  while (n < {count}) n = n + 1;\n{'  1;' * more}\n  cannon(0, 0);\n  while (1) ;\n}}\n"
    return Task("After which cycle does this robot have damage? Write down the number alone.", robot,
                lambda them: [next(cycle for cycle, _, kind, *_ in them.events(robot, "--events", MOST_CYCLES) if kind == "hurt")])


def life(random: Random) -> Task:
    """The end of a match of a robot that shoots at itself."""
    metres, more = random.choice([0, 3, 8, 15, 25, 30, 39]), random.randrange(1, 6)
    robot = f"main()\n{{\n  while (1) {{\n    cannon(0, {metres});\n   {' 1;' * more}\n  }}\n}}\n"
    return Task("In which cycle does a match of this robot against itself end? Write down the number alone.", robot,
                lambda them: [them.cycles(robot, robot)])


def names(random: Random) -> Task:
    """How many names a robot may have."""
    outside, inside = random.randrange(1, MOST_NAMES + 1), random.randrange(MOST_NAMES - 3, MOST_NAMES + 5)
    outer, inner = ", ".join(f"e{n}" for n in range(outside)), "".join(f"v{n};\n" for n in range(inside))
    robot = f"int {outer};\nmain() {{\n{inner}}}\n"
    return Task("Write down what `crobots -c robot.r` prints of this robot: only the lines that begin with Externals and with Function,\n"
                "or the diagnostic.", robot, lambda them: [line for line in them.listing(robot) if line.startswith(("Externals", "Function", "robot.r:"))])


def logic(random: Random) -> Task:
    """The code of `&&` and `||` by both profiles."""
    one, other = random.choice(["&&", "||"]), random.choice(["&&", "||"])
    robot = f"main()\n{{\n  int a, b, c;\n  a {one} b {other} c;\n}}\n"
    return Task("Write down the instructions of this robot, as `crobots -c robot.r` prints them below the line that begins with Code:\n"
                "first those of profile 1, then those of profile 2.", robot,
                lambda them: [line for profile in ("-p1", "-p2") for line in code_of(them.listing(robot, profile))])


def code_of(lines: list[str]) -> list[str]:
    """The instructions of a listing."""
    return lines[1 + next(at for at, line in enumerate(lines) if line.startswith("Code")):]


def frames(random: Random) -> Task:
    """A robot that lacks room, and lives several times."""
    more = random.randrange(1, 9)
    robot = f"int n;\nmain()\n{{\n  if (n++ == 0) cannon(0, 0);\n {' 1;' * more}\n  main();\n}}\n"
    return Task("In which cycle does a match of this robot against itself end, by profile 1 and by profile 2? Write down both numbers,\n"
                "a line each.", robot, lambda them: [them.cycles(robot, robot, profile) for profile in ("-p1", "-p2")])


def lives(random: Random) -> Task:
    """A robot that begins anew."""
    step = random.choice([5, 8, 10, 12, 15, 20])
    most = step * random.randrange(50, 300)
    robot = f"main()\n{{\n  int a;\n  cannon(0, 0);\n  while (a < {most}) {{\n    scan(a, 5);\n    a = a + {step};\n  }}\n}}\n"
    return Task("In which cycle does a match of this robot end against one that stands still? Write down the number alone.", robot,
                lambda them: [them.cycles(robot, STILL)])


def turns(random: Random) -> Task:
    """What a turn of a loop takes."""
    acts = ["cannon(d, r);", "drive(d, 50);", "d = d + 20;", "d += 20;", "r = r / 2;", "if (damage() > 50) d = 0;"]
    chosen = "\n    ".join(random.sample(acts, 3))
    robot = f"main()\n{{\n  int d, r;\n  while (1) {{\n    r = scan(d, 10);\n    if (r > {random.randrange(20, 90)}) cannon(d, r);\n    {chosen}\n  }}\n}}\n"
    return Task("How many cycles does a turn of this loop take, at least and at most? Write down what `crobots-bounds robot.r` has of it, as in\n"
                "23 to 28; first by profile 1, then by profile 2, a line each.", robot,
                lambda them: [" to ".join(map(str, dict.fromkeys(them.turn(robot, profile)))) for profile in ("-p1", "-p2")])


def operations(random: Random) -> Task:
    """What a match runs in place of the code."""
    most, product, sum_, degree = random.randrange(20, 90), random.randrange(2, 9), random.randrange(2, 9), random.randrange(1, 180)
    op, change = random.choice(["*", "/", "%"]), random.choice(["a += {};", "a = a + {};"]).format(sum_)
    robot = f"main()\n{{\n  int a, b;\n  while (a < {most}) {{\n    b = drive({degree}, a {op} {product});\n    {change}\n  }}\n}}\n"
    return Task("A match runs three-address operations in place of this robot's code. Write them down as `crobots-stages --operations robot.r`\n"
                "has them at the right of |, a line each, without the cycles behind the semicolon.", robot, lambda them: operated(them, robot))


def operated(them: Programs, robot: str) -> list[str]:
    """The operations of a robot."""
    them.lay("robot.r", robot)
    rows = (line.partition(" | ")[2] for line in them.lines("crobots-stages", "--operations", "robot.r"))
    return [row.partition("  ; cycles")[0] for row in rows if row]


def cheaper(random: Random) -> Task:
    """What is saved by what a compiler could do."""
    count, step, one, other, degree = (random.randrange(*limits) for limits in ((1, 5), (3, 30), (2, 5), (2, 5), (2, 9)))
    first = "    d = d + {};\n".format(step) * count
    look, shot = f"    r = scan(d, {one} * {other});\n", f"    if (r > 0) cannon(d, r - {degree} * {other});\n"
    begin, end = "main()\n{\n  int d, r;\n  while (1) {\n", "  }\n}\n"
    steps = [first + look + shot, first.replace("= d +", "+=") + look + shot]
    steps += [steps[1].replace(f"{one} * {other}", f"{one * other}").replace(f"{degree} * {other}", f"{degree * other}")]
    steps += [steps[2].replace("r > 0", "r")]
    return Task("This robot becomes cheaper in three steps, and does the same after each of them:\n"
                f"1. d = d + {step} becomes d += {step}.\n2. What has constants alone is worked out.\n3. r > 0 becomes r.\n\n"
                "How many cycles does a turn of its loop take at most, as it is and after each step? Write down four numbers, a line each.",
                begin + steps[0] + end, lambda them: [str(them.turn(begin + body + end)[-1]) for body in steps])


Pair = tuple[int, int]


@dataclass(frozen=True)
class Edit:
    """An edit that the prover refused: its name, what it did, and as a robot's function what it says of two numbers. Of some
    pairs it is always wrong, of others it depends."""

    name: str
    old: str
    new: str
    sign: str
    function: str
    wrong: Callable[[Random], Pair]
    other: Callable[[Random], Pair]


def some(random: Random) -> int:
    """A number that is neither 0 nor 1."""
    return random.choice([-1, 1]) * random.randrange(2, 60)


def negative(random: Random) -> int:
    """A negative number that 2 to 8 don't divide."""
    return -random.choice([11, 13, 17, 19, 23, 29, 31, 37])


# The edits are files of crates/arith/must-fail, and the gate tries them.
EDITS = (
    Edit("binop.and_gives_its_right_side", "Op::And => i32::from(a != 0 && b != 0),", "Op::And => if a == 0 { 0 } else { b },", "&&",
         "if (a == 0) return 0; return b;", lambda random: (some(random), some(random)), lambda random: (random.choice([0, 1, some(random)]), random.choice([0, 1]))),
    Edit("quotient.quotient_by_zero_is_the_dividend", "if b == 0 { 0 } else { a.wrapping_div(b) }", "if b == 0 { a } else { a.wrapping_div(b) }", "/",
         "if (b == 0) return a; return a / b;", lambda random: (some(random), 0), lambda random: (random.choice([0, some(random)]), random.choice([0, some(random)]))),
    Edit("remainder.remainder_with_sign_of_divisor", "a.wrapping_rem(b)", "a.wrapping_rem(b).wrapping_add(b).wrapping_rem(b)", "%",
         "return (a % b + b) % b;", lambda random: (negative(random), random.randrange(2, 9)), lambda random: (some(random), random.randrange(2, 9))),
    Edit("binop.shift_right_without_sign", "a.wrapping_shr(b.cast_unsigned())", "a.cast_unsigned().wrapping_shr(b.cast_unsigned()).cast_signed()", ">>",
         "if (b == 0) return a; return (a >> b) & ~(-1 << (32 - b));", lambda random: (negative(random), random.randrange(1, 4)),
         lambda random: (some(random), random.randrange(4))),
)


def refused(random: Random) -> Task:
    """For which numbers a wrong idea is wrong."""
    edit = random.choice(EDITS)
    pairs = [*(edit.wrong(random) for _ in range(3)), *(edit.other(random) for _ in range(5))]
    random.shuffle(pairs)
    listed = "".join(f"{a:>6} {b:>4}\n" for a, b in pairs)
    return Task(f"The prover refused this edit of the operator {edit.sign}, {edit.name}:\n\nold: {edit.old}\nnew: {edit.new}\n\n"
                "For which of these numbers a and b is the edited operator wrong? Write down each such pair in a line, in this order, and\n"
                "behind it the right value and that of the edit: four numbers.", listed, lambda them: differing(them, edit, pairs))


def differing(them: Programs, edit: Edit, pairs: list[Pair]) -> list[str]:
    """The pairs for which an edit is wrong, with both values: the machine works out the operator, and the edit as a function."""
    calls = "".join(f"  scan({a} {edit.sign} ({b}), edited({a}, {b}));\n" for a, b in pairs)
    robot = f"edited(a, b)\n{{\n  {edit.function}\n}}\n\nmain()\n{{\n{calls}}}\n"
    _, *asked = them.events(robot, "--asks", MOST_CYCLES)
    values = [call.removeprefix("scan(").removesuffix(")").split(", ") for *_, call, _ in asked]
    return [f"{a} {b} {right} {wrong}" for (a, b), (right, wrong) in zip(pairs, values) if right != wrong]


TASKS: dict[int, Callable[[Random], Task]] = {1: listing, 2: faults, 3: shot, 4: life, 5: names, 6: logic, 7: frames, 8: lives, 10: turns,
                                              11: operations, 12: cheaper, 13: refused}


def task_of(number: int, seed: str) -> Task:
    """The exercise of a number, with the numbers of a seed."""
    return TASKS[number](Random(f"{number} {seed}"))


def text_of(number: int, seed: str) -> str:
    """The text of an exercise."""
    task = task_of(number, seed)
    return f"Exercise {number}, for {seed}\n\n{task.asked}\n\n{task.robot}"
