"""Lowers a WebAssembly module: its 64-bit memory becomes a 32-bit one, which every browser has.

The code goes on computing addresses with 64 bits. Right before a load, a store, a copy or a fill its address is wrapped
to 32 bits. If instructions in a row make the value of a store, and take nothing else from the stack, the address is wrapped
before them. Else what stands above the address on the stack waits in a local meanwhile, so each function gets three more.
An exported function begins with tests: the call ends if an argument of 64 bits isn't below the memory's size, since as an
address it could wrap to one inside.

The linker leaves room in many numbers. All are written anew, as short as they can be. Sections for tools alone, such as
names, are left out. What this program doesn't know it refuses; `checking` checks what it wrote."""

from __future__ import annotations

from typing import Iterator, NamedTuple

HEADER = b"\0asm\1\0\0\0"
CUSTOM, TYPE, FUNCTION, MEMORY, GLOBAL, EXPORT, CODE, DATA, DATA_COUNT = 0, 1, 3, 5, 6, 7, 10, 11, 12
WIDE, HAS_MOST = 4, 1
FUNCTION_TYPE, I32, I64 = 0x60, 0x7F, 0x7E

END, SELECT, LOCAL_GET, LOCAL_SET, LOCAL_TEE, GLOBAL_GET, I32_CONST, I64_CONST = 0x0B, 0x1B, 0x20, 0x21, 0x22, 0x23, 0x41, 0x42
WRAP = b"\xa7"
# memory.size, i64.extend_i32_u, i64.const 16, i64.shl, i64.ge_u, if, unreachable, end
END_IF_OUTSIDE = b"\x3f\0\xad\x42\x10\x86\x5a\x04\x40\0\x0b"

# instructions with a prefix have it in the upper byte
PREFIX, COPY, FILL = 0xFC, 0xFC0A, 0xFC0B
LOADS = (0x28, 0x29, *range(0x2C, 0x36))
STORES_OF_I32, STORES_OF_I64 = (0x36, 0x3A, 0x3B), (0x37, 0x3C, 0x3D, 0x3E)
STORES = (*STORES_OF_I32, *STORES_OF_I64)
ACCESSES = (*LOADS, *STORES, COPY, FILL)
# how many values an instruction takes from the stack, of those that put one value there and do nothing else that counts
TAKES = {
    **dict.fromkeys((LOCAL_GET, GLOBAL_GET, I32_CONST, I64_CONST), 0),
    # tests for 0, counts of bits, conversions
    **dict.fromkeys((LOCAL_TEE, *LOADS, 0x45, 0x50, *range(0x67, 0x6A), *range(0x79, 0x7C), 0xA7, 0xAC, 0xAD, *range(0xC0, 0xC5)), 1),
    # comparisons and arithmetic
    **dict.fromkeys((*range(0x46, 0x50), *range(0x51, 0x5B), *range(0x6A, 0x79), *range(0x7C, 0x8B)), 2),
    SELECT: 3,
}
# what follows an opcode: an unsigned number (u), a signed one (s), a count with as many numbers (v)
IMMEDIATES = {
    # unreachable, nop, else, end, return, drop, select; comparisons, arithmetic and conversions of integers
    **dict.fromkeys((0x00, 0x01, 0x05, END, 0x0F, 0x1A, 0x1B), ""),
    **dict.fromkeys((*range(0x45, 0x5B), *range(0x67, 0x8B), 0xA7, 0xAC, 0xAD, *range(0xC0, 0xC5)), ""),
    # block, loop, if; constants
    **dict.fromkeys((0x02, 0x03, 0x04, I32_CONST, I64_CONST), "s"),
    # br, br_if, call; locals and globals
    **dict.fromkeys((0x0C, 0x0D, 0x10, *range(0x20, 0x25)), "u"),
    # br_table
    0x0E: "vu",
    **dict.fromkeys((*LOADS, *STORES, COPY), "uu"),
    FILL: "u",
}


class UnknownPart(ValueError):
    """Something in a module that this program can't lower."""


class Reader:
    """Reads a module, or a part of one."""

    def __init__(self, data: bytes) -> None:
        self._data = data
        self._at = 0

    def is_at_end(self) -> bool:
        return self._at >= len(self._data)

    def byte(self) -> int:
        return self.take(1)[0]

    def take(self, count: int) -> bytes:
        """The next bytes, as many as asked."""
        self._at += count
        if self._at > len(self._data):
            raise UnknownPart("a part that is cut off")
        return self._data[self._at - count:self._at]

    def number(self, is_signed: bool = False) -> int:
        """A number, seven bits a byte."""
        value, shift, byte = 0, 0, 0x80
        while byte & 0x80:
            byte = self.byte()
            value |= (byte & 0x7F) << shift
            shift += 7
        return value - (1 << shift) if is_signed and byte & 0x40 else value

    def counted(self) -> bytes:
        """Bytes with their count before them."""
        return self.take(self.number())

    def items(self) -> Iterator[int]:
        """The indices of items with their count before them; the caller reads each."""
        yield from range(self.number())


def unsigned(value: int) -> bytes:
    """A number as it is written, as short as can be."""
    return bytes([value]) if value < 0x80 else bytes([value & 0x7F | 0x80]) + unsigned(value >> 7)


def signed(value: int) -> bytes:
    """A number that may be below 0."""
    return bytes([value & 0x7F]) if -0x40 <= value < 0x40 else bytes([value & 0x7F | 0x80]) + signed(value >> 7)


def counted(content: bytes) -> bytes:
    """Bytes with their count before them."""
    return unsigned(len(content)) + content


def vector(items: list[bytes]) -> bytes:
    """Items with their count before them."""
    return unsigned(len(items)) + b"".join(items)


class Instruction(NamedTuple):
    """An instruction with what follows its opcode."""

    opcode: int
    immediates: list[int]

    @staticmethod
    def read(reader: Reader) -> Instruction:
        opcode = reader.byte()
        if opcode == PREFIX:
            opcode = PREFIX << 8 | reader.number()
        if opcode not in IMMEDIATES:
            raise UnknownPart(f"the instruction {opcode:02x}")
        immediates: list[int] = []
        for kind in IMMEDIATES[opcode]:
            immediates.append(reader.number(kind == "s"))
            immediates += [reader.number() for _ in range(immediates[-1])] if kind == "v" else []
        return Instruction(opcode, immediates)

    def written(self) -> bytes:
        opcode = self.opcode.to_bytes(2 if self.opcode >> 8 else 1, "big")
        return opcode + b"".join(map(signed if IMMEDIATES[self.opcode] == "s" else unsigned, self.immediates))


class Spare(NamedTuple):
    """The numbers of the locals that a function gets: two of 32 bits and one of 64."""

    first: int
    second: int
    wide: int


def operands(opcode: int, spare: Spare) -> list[tuple[int, bool]]:
    """What stands above an access's address: the local in which it waits, and whether it is wrapped too."""
    if opcode == COPY:
        return [(spare.first, True), (spare.second, True)]
    if opcode == FILL:
        return [(spare.first, False), (spare.second, True)]
    if opcode in STORES_OF_I32:
        return [(spare.first, False)]
    return [(spare.wide, False)] if opcode in STORES_OF_I64 else []


def local(opcode: int, number: int) -> bytes:
    """An instruction that reads or writes a local."""
    return bytes([opcode]) + unsigned(number)


def lowered_instruction(instruction: Instruction, spare: Spare) -> bytes:
    """An instruction, with its address wrapped if it has one."""
    if instruction.opcode not in ACCESSES:
        return instruction.written()
    above = operands(instruction.opcode, spare)
    away = [(WRAP if is_wide else b"") + local(LOCAL_SET, number) for number, is_wide in reversed(above)]
    back = [local(LOCAL_GET, number) for number, _ in above]
    return b"".join([*away, WRAP, *back, instruction.written()])


def value_begin(instructions: list[Instruction], at: int) -> int | None:
    """Where those instructions before a place begin that make the value on top of the stack there, if others aren't among them."""
    lacking = 1
    while lacking and at:
        at -= 1
        takes = TAKES.get(instructions[at].opcode)
        if takes is None:
            return None
        lacking += takes - 1
    return None if lacking else at


def lowered_instructions(reader: Reader, spare: Spare) -> Iterator[bytes]:
    """A function's instructions, with addresses wrapped."""
    instructions = []
    while not reader.is_at_end():
        instructions.append(Instruction.read(reader))
    begins = {at: value_begin(instructions, at) for at, instruction in enumerate(instructions) if instruction.opcode in STORES}
    wrapped = set(begins.values())
    for at, instruction in enumerate(instructions):
        is_wrapped = begins.get(at) is not None
        yield (WRAP if at in wrapped else b"") + (instruction.written() if is_wrapped else lowered_instruction(instruction, spare))


def lowered_function(body: bytes, parameters: bytes, is_exported: bool) -> bytes:
    """A function's locals and code."""
    reader = Reader(body)
    groups = [(reader.number(), reader.byte()) for _ in reader.items()]
    count = len(parameters) + sum(number for number, _ in groups)
    spare = Spare(count, count + 1, count + 2)
    arguments = [number for number, kind in enumerate(parameters) if kind == I64] if is_exported else []
    tests = [local(LOCAL_GET, number) + END_IF_OUTSIDE for number in arguments]
    locals_ = vector([unsigned(number) + bytes([kind]) for number, kind in [*groups, (2, I32), (1, I64)]])
    return b"".join([locals_, *tests, *lowered_instructions(reader, spare)])


def parameters_of(parts: dict[int, bytes]) -> list[bytes]:
    """The types of each function's parameters."""
    reader, types = Reader(parts[TYPE]), []
    for _ in reader.items():
        if reader.byte() != FUNCTION_TYPE:
            raise UnknownPart("a type that isn't a function's")
        types.append(reader.counted())
        reader.counted()
    reader = Reader(parts[FUNCTION])
    numbers = [reader.number() for _ in reader.items()]
    if any(number >= len(types) for number in numbers):
        raise UnknownPart("a function without a type")
    return [types[number] for number in numbers]


def exported(parts: dict[int, bytes]) -> set[int]:
    """The numbers of the functions that are exported."""
    reader = Reader(parts[EXPORT])
    found = [(reader.counted(), reader.byte(), reader.number()) for _ in reader.items()]
    return {number for _, kind, number in found if not kind}


def lowered_code(parts: dict[int, bytes]) -> bytes:
    parameters, calls, reader = parameters_of(parts), exported(parts), Reader(parts[CODE])
    bodies = [reader.counted() for _ in reader.items()]
    if len(bodies) != len(parameters):
        raise UnknownPart("a function without code")
    functions = enumerate(zip(bodies, parameters))
    return vector([counted(lowered_function(body, kinds, number in calls)) for number, (body, kinds) in functions])


def lowered_memory(parts: dict[int, bytes]) -> bytes:
    reader, memories = Reader(parts[MEMORY]), []
    for _ in reader.items():
        flags = reader.byte()
        if flags & ~HAS_MOST != WIDE:
            raise UnknownPart(f"a memory with the flags {flags}")
        memories.append(bytes([flags - WIDE]) + b"".join(unsigned(reader.number()) for _ in range(flags - WIDE + 1)))
    return vector(memories)


def lowered_data(parts: dict[int, bytes]) -> bytes:
    reader, segments = Reader(parts[DATA]), []
    for _ in reader.items():
        kind, opcode, place, end = reader.number(), reader.byte(), reader.number(True), reader.byte()
        if (kind, opcode, end) != (0, I64_CONST, END) or not 0 <= place < 1 << 31:
            raise UnknownPart("data without a constant place")
        segments.append(bytes([kind, I32_CONST]) + signed(place) + bytes([END]) + counted(reader.counted()))
    return vector(segments)


LOWERED = {MEMORY: lowered_memory, CODE: lowered_code, DATA: lowered_data}
COPIED = (TYPE, FUNCTION, GLOBAL, EXPORT, DATA_COUNT)


def parts_of(module: bytes) -> dict[int, bytes]:
    """The sections of a module by their numbers, but for those for tools."""
    reader = Reader(module)
    if reader.take(len(HEADER)) != HEADER:
        raise UnknownPart("a beginning that is no module's")
    found: dict[int, bytes] = {}
    while not reader.is_at_end():
        number, content = reader.byte(), reader.counted()
        if number in found or number not in (CUSTOM, *LOWERED, *COPIED):
            raise UnknownPart(f"section {number}")
        if number != CUSTOM:
            found[number] = content
    if not {TYPE, FUNCTION, MEMORY, EXPORT, CODE} <= {*found}:
        raise UnknownPart("too few sections")
    return found


def lowered(module: bytes) -> bytes:
    """The module with a 32-bit memory."""
    parts = parts_of(module)
    written = [(number, LOWERED[number](parts) if number in LOWERED else content) for number, content in parts.items()]
    return HEADER + b"".join(bytes([number]) + counted(content) for number, content in written)
