"""Checks a lowered WebAssembly module against the wide one that it was made from.

It shares no code with `lowering`, so of the two this one alone has to be trusted. It walks both modules in step, by
sections and by instructions. The lowered one may differ from the wide one in this, and in nothing else:

- the memory has 32-bit addresses, and as many pages
- the place of a piece of data is a constant of 32 bits, and the same number
- sections for tools are gone
- each function has three more locals after its own, which nothing but the accesses uses
- each access to the memory is the same, with its address wrapped, and its count if it is a copy or a fill; if instructions
  in a row before a store make its value, and take nothing else from the stack, the wrap stands before them, where the
  address is on top as well
- an exported function begins with a test of each 64-bit argument: one that isn't below the memory's size ends the call
- numbers in code may be written shorter

A section, an instruction or an item that isn't named here is refused. So, with less than 4 GiB of memory, each call
that the wide module answers is answered alike, or ended by a test: an access that the wide one makes has its address
and its end inside the memory, so below 2 to the 32nd, and wrapping changes neither."""

from __future__ import annotations

from typing import NoReturn

MAGIC = b"\0asm\1\0\0\0"
MOST_PAGES = 65536
I32, I64 = 0x7F, 0x7E
SAME = {1: "types", 3: "functions", 6: "globals", 7: "exports", 12: "data count"}
TYPES, FUNCTIONS, MEMORIES, EXPORTS, CODE, DATA = 1, 3, 5, 7, 10, 11

Instruction = tuple[int, ...]
UNREACHABLE, IF, END, GET, SET, TEE, SIZE, CONST_32, CONST_64 = 0x00, 0x04, 0x0B, 0x20, 0x21, 0x22, 0x3F, 0x41, 0x42
GLOBAL = 0x23
NOT_BELOW, SHIFT_LEFT, WRAP, EXTEND, BULK, COPY, FILL = 0x5A, 0x86, 0xA7, 0xAD, 0xFC, 10, 11
NO_RESULT = -64
BLOCKS = (0x02, 0x03, IF)
LOCALS = (GET, SET, TEE)
# br, br_if, call, global.get, global.set
NUMBERED = (0x0C, 0x0D, 0x10, 0x23, 0x24, *LOCALS)
BRANCHES = 0x0E
# nop, else, return, drop, select; comparisons, arithmetic, signs of i32 and i64
PLAIN = {UNREACHABLE, 0x01, 0x05, END, 0x0F, 0x1A, 0x1B, WRAP, 0xAC, EXTEND}
PLAIN.update(range(0x45, 0x5B), range(0x67, 0x8B), range(0xC0, 0xC5))
LOADS = {0x28, 0x29, 0x2C, 0x2D, 0x2E, 0x2F, 0x30, 0x31, 0x32, 0x33, 0x34, 0x35}
STORES_32, STORES_64 = {0x36, 0x3A, 0x3B}, {0x37, 0x3C, 0x3D, 0x3E}
# these put one value on the stack, and take as many
TAKEN = dict.fromkeys((GET, GLOBAL, CONST_32, CONST_64), 0)
TAKEN.update(dict.fromkeys((TEE, 0x45, 0x50, 0x67, 0x68, 0x69, 0x79, 0x7A, 0x7B, WRAP, 0xAC, EXTEND, *range(0xC0, 0xC5), *LOADS), 1))
TAKEN.update({code: 2 for code in range(0x46, 0x8B) if code not in TAKEN and (code < 0x5B or code > 0x66)})
TAKEN[0x1B] = 3


class Refused(Exception):
    """Why a module isn't accepted."""


def refuse(why: str) -> NoReturn:
    raise Refused(why)


class Walk:
    """A place in a module, up to which it was read."""

    def __init__(self, data: bytes, begin: int, end: int) -> None:
        self.data, self.at, self.end = data, begin, end

    @property
    def is_over(self) -> bool:
        return self.at == self.end

    @property
    def rest(self) -> bytes:
        return self.data[self.at:self.end]

    def byte(self) -> int:
        if self.at >= self.end:
            refuse("something is cut off")
        self.at += 1
        return self.data[self.at - 1]

    def groups(self, bits: int) -> tuple[int, int]:
        """A number of at most these bits, and how many it is written with: groups of seven, the lowest first."""
        value = 0
        for shift in range(0, bits, 7):
            byte = self.byte()
            value |= (byte & 127) << shift
            if byte < 128:
                return value, shift + 7
        refuse(f"a number of more than {bits} bits")

    def unsigned(self, bits: int = 32) -> int:
        value, _ = self.groups(bits)
        return value if value < 1 << bits else refuse(f"{value} has more than {bits} bits")

    def signed(self, bits: int) -> int:
        value, written = self.groups(bits)
        value -= (value >> written - 1) << written
        return value if -1 << bits - 1 <= value < 1 << bits - 1 else refuse(f"{value} has more than {bits} bits")

    def part(self) -> Walk:
        """A part whose size stands before it."""
        size = self.unsigned()
        begin, self.at = self.at, self.at + size
        return Walk(self.data, begin, self.at) if self.at <= self.end else refuse("something is cut off")


def require(is_so: bool, why: str) -> None:
    if not is_so:
        refuse(why)


def sections(module: bytes, for_tools: bool) -> dict[int, Walk]:
    """The sections by their numbers. Those for tools, which have the number 0, are left out, or refused."""
    walk, found = Walk(module, len(MAGIC), len(module)), dict[int, Walk]()
    require(module.startswith(MAGIC), "it doesn't begin as a module")
    while not walk.is_over:
        number, content = walk.byte(), walk.part()
        if number or not for_tools:
            require(number not in found, f"section {number} is there twice")
            found[number] = content
    return found


def instruction(walk: Walk, is_wide: bool) -> Instruction:
    """The next instruction, with what follows its opcode."""
    code = walk.byte()
    if code in PLAIN:
        return (code,)
    if code in NUMBERED:
        return code, walk.unsigned()
    if code in LOADS or code in STORES_32 or code in STORES_64:
        # a greater alignment would be one of another memory
        return code, walk.unsigned(6), walk.unsigned(64 if is_wide else 32)
    if code in BLOCKS:
        return code, walk.signed(33)
    if code in (CONST_32, CONST_64):
        return code, walk.signed(32 if code == CONST_32 else 64)
    if code == BRANCHES:
        return code, *[walk.unsigned() for _ in range(walk.unsigned() + 1)]
    if code == BULK:
        return bulk(walk)
    if code == SIZE and not is_wide:
        return code, walk.unsigned(1)
    refuse(f"the instruction {code:02x} isn't known")


def bulk(walk: Walk) -> Instruction:
    """A copy within the one memory, or a fill of it."""
    kind = walk.unsigned()
    require(kind in (COPY, FILL), f"the instruction fc {kind:02x} isn't known")
    memories = [walk.byte() for _ in range(2 if kind == COPY else 1)]
    require(not any(memories), "there is another memory")
    return BULK, kind


def lowered(instruction: Instruction, first: int, second: int, wide: int) -> list[Instruction]:
    """What has to stand in the lowered module for an instruction, with the numbers of the three locals."""
    if instruction[0] in LOADS:
        return [(WRAP,), instruction]
    if instruction[0] in STORES_32:
        return [(SET, first), (WRAP,), (GET, first), instruction]
    if instruction[0] in STORES_64:
        return [(SET, wide), (WRAP,), (GET, wide), instruction]
    if instruction == (BULK, COPY):
        return [(WRAP,), (SET, second), (WRAP,), (SET, first), (WRAP,), (GET, first), (GET, second), instruction]
    if instruction == (BULK, FILL):
        return [(WRAP,), (SET, second), (SET, first), (WRAP,), (GET, first), (GET, second), instruction]
    return [instruction]


def test(argument: int) -> list[Instruction]:
    """Ends the call if the argument isn't below the memory's size, which is counted in pages of 2 to the 16th bytes."""
    size = [(SIZE, 0), (EXTEND,), (CONST_64, 16), (SHIFT_LEFT,)]
    return [(GET, argument), *size, (NOT_BELOW,), (IF, NO_RESULT), (UNREACHABLE,), (END,)]


def expect(walk: Walk, wanted: list[Instruction]) -> None:
    for expected in wanted:
        found = instruction(walk, False)
        if found != expected:
            refuse(f"the instruction {found} at byte {walk.at}, and not {expected}")


def local_groups(walk: Walk) -> list[tuple[int, int]]:
    return [(walk.unsigned(), walk.byte()) for _ in range(walk.unsigned())]


def begins_of_values(originals: list[Instruction]) -> dict[int, int]:
    """The stores whose value instructions in a row make, that take nothing else from the stack; and where these begin. What is on
    the stack is known by where its making began, back to the last instruction that does anything else."""
    known: list[int | None] = []
    found: dict[int, int] = {}
    for at, (code, *_) in enumerate(originals):
        takes = TAKEN.get(code)
        if takes is None:
            begin = known[-1] if known and (code in STORES_32 or code in STORES_64) else None
            found.update({} if begin is None else {at: begin})
            known = []
        else:
            begin = at if not takes else known[-takes] if takes <= len(known) else None
            known = [*known[:max(len(known) - takes, 0)], begin]
    return found


def check_function(wide: Walk, low: Walk, parameters: bytes, is_exported: bool) -> None:
    groups = local_groups(wide)
    require(local_groups(low) == [*groups, (2, I32), (1, I64)], "other locals")
    count = len(parameters) + sum(size for size, _ in groups)
    for argument, kind in enumerate(parameters):
        if is_exported and kind == I64:
            expect(low, test(argument))
    originals = []
    while not wide.is_over:
        originals.append(instruction(wide, True))
        require(originals[-1][0] not in LOCALS or originals[-1][1] < count, "a local that isn't the function's own")
    begins = begins_of_values(originals)
    wrapped = {*begins.values()}
    for at, original in enumerate(originals):
        expect(low, [(WRAP,)] if at in wrapped else [])
        expect(low, [original] if at in begins else lowered(original, count, count + 1, count + 2))
    require(low.is_over, "code after the end")


def check_code(wide: Walk, low: Walk, parameters: list[bytes], exported: set[int]) -> None:
    count = wide.unsigned()
    require(low.unsigned() == count == len(parameters), "another number of functions")
    for number in range(count):
        try:
            check_function(wide.part(), low.part(), parameters[number], number in exported)
        except Refused as fault:
            refuse(f"function {number}: {fault}")


def functions(types: Walk, kinds: Walk) -> list[bytes]:
    """The types of each function's parameters."""
    known = []
    for _ in range(types.unsigned()):
        require(types.byte() == 0x60, "a type that isn't a function's")
        known.append(types.part().rest)
        types.part()
    numbers = [kinds.unsigned() for _ in range(kinds.unsigned())]
    require(all(number < len(known) for number in numbers), "a function without a type")
    return [known[number] for number in numbers]


def exported_functions(exports: Walk) -> set[int]:
    """The numbers of the functions that are exported."""
    found = [(exports.part().rest, exports.byte(), exports.unsigned()) for _ in range(exports.unsigned())]
    return {number for _, kind, number in found if kind == 0}


def check_memory(wide: Walk, low: Walk) -> None:
    require(wide.unsigned() == low.unsigned() == 1, "not one memory")
    flags = wide.byte()
    require(flags in (4, 5) and low.byte() == flags - 4, "not a wide memory and a narrow one")
    for _ in range(flags - 3):
        pages = wide.unsigned(64)
        require(low.unsigned() == pages <= MOST_PAGES, "another number of pages, or too many")


def check_data(wide: Walk, low: Walk) -> None:
    count = wide.unsigned()
    require(low.unsigned() == count, "another number of pieces of data")
    for _ in range(count):
        require(wide.byte() == low.byte() == 0, "data of another kind")
        require((wide.byte(), low.byte()) == (CONST_64, CONST_32), "data without a constant place")
        place = wide.signed(64)
        require(low.signed(32) == place >= 0, "data at another place")
        require((wide.byte(), low.byte()) == (END, END), "data whose place isn't one constant")
        require(wide.part().rest == low.part().rest, "other data")


def check(wide: bytes, low: bytes) -> None:
    """Refuses a module that isn't the lowered form of a wide one."""
    ours, theirs = sections(wide, True), sections(low, False)
    require([*ours] == [*theirs], "other sections")
    for number in ours:
        require(number in (*SAME, MEMORIES, CODE, DATA), f"section {number} isn't known")
        require(number not in SAME or ours[number].rest == theirs[number].rest, f"other {SAME.get(number)}")
    require({TYPES, FUNCTIONS, MEMORIES, EXPORTS, CODE} <= {*ours}, "too few sections")
    check_memory(ours[MEMORIES], theirs[MEMORIES])
    parameters, exported = functions(ours[TYPES], ours[FUNCTIONS]), exported_functions(ours[EXPORTS])
    check_code(ours[CODE], theirs[CODE], parameters, exported)
    if DATA in ours:
        check_data(ours[DATA], theirs[DATA])
    for number in (MEMORIES, CODE, DATA):
        require(all(number not in sections or sections[number].is_over for sections in (ours, theirs)), f"section {number} goes on")


def refusal(wide: bytes, low: bytes) -> str:
    """Why a module isn't accepted as the lowered form of a wide one; nothing if it is."""
    try:
        check(wide, low)
    except Refused as fault:
        return str(fault)
    return ""
