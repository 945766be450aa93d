"""The symbols of a built program, an ELF file of 64 bits with the least byte first, as the System V ABI describes it."""

import struct
from collections.abc import Iterator
from typing import NamedTuple

SYMBOLS, DYNAMIC_SYMBOLS = 2, 11
WEAK = 2
# of the file: where its section headers are, how long each is, and how many there are; of a section header, and of a symbol
HEADER = struct.Struct("<40xQ10xHH")
SECTION = struct.Struct("<IIQQQQIIQQ")
SYMBOL = struct.Struct("<IBBHQQ")


class Symbol(NamedTuple):
    """A symbol: its name, whether it is weak, and whether the program defines it."""

    name: str
    is_weak: bool
    is_defined: bool


class Section(NamedTuple):
    """What a section header says, as far as symbols need it."""

    kind: int
    offset: int
    size: int
    names: int


def sections(program: bytes) -> list[Section]:
    """The sections of a program."""
    start, size, count = HEADER.unpack_from(program)
    rows = (SECTION.unpack_from(program, start + size * number) for number in range(count))
    return [Section(row[1], row[4], row[5], row[6]) for row in rows]


def symbols(program: bytes, kind: int) -> Iterator[Symbol]:
    """The symbols in a program's tables of this kind."""
    found = sections(program)
    for section in (it for it in found if it.kind == kind):
        names = found[section.names].offset
        for offset in range(section.offset, section.offset + section.size, SYMBOL.size):
            name, info, _, place, _, _ = SYMBOL.unpack_from(program, offset)
            text = program[names + name:program.index(b"\0", names + name)].decode()
            yield Symbol(text, info >> 4 == WEAK, place != 0)


def c_functions(program: bytes) -> set[str]:
    """The C functions that a program calls: those of other libraries, but no weak ones, which may be missing; and those that the kit's C
    code defines."""
    called = {it.name for it in symbols(program, DYNAMIC_SYMBOLS) if it.name and not it.is_weak and not it.is_defined}
    return called | {it.name for it in symbols(program, SYMBOLS) if it.name.startswith("rattle_")}


def crates_in(program: bytes) -> set[str]:
    """The crates whose functions are in a program: the names of its functions begin with them."""
    return {it.name.partition("::")[0] for it in symbols(program, SYMBOLS) if "::" in it.name}
