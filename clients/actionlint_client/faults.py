"""The faults of a file as reports and the language server show them, from what actionlint-facts answers."""
from __future__ import annotations

from dataclasses import dataclass
from functools import partial
from typing import Callable, Iterable, NamedTuple

from .facts_tree import Json

# How many faults of a file are kept.
MAX_FAULTS = 1_000
LINE_BREAKS = (b"\n", b"\r")


class Fault(NamedTuple):
    """A fault. Lines and columns count from 1; columns and width are characters. The width is that on its first line, or None if it isn't
    known. The code and the arguments are those of its entry, if it has one. If it is an undefined property, `of` has the names before it,
    from a context on, `*` for an index that isn't a string."""

    path: str
    line: int
    column: int
    message: str
    kind: str
    width: int | None
    code: str = ""
    arguments: tuple[str, ...] = ()
    of: tuple[str, ...] = ()


@dataclass(frozen=True)
class FileFaults:
    """The first 1,000 faults of a file, in order, and how many more there are."""

    faults: tuple[Fault, ...] = ()
    more: int = 0


NO_FAULTS = FileFaults()


def fault_of(path: str, said: Json, left_on_line: Callable[[], int | None]) -> Fault:
    """A fault of a file, at least one character wide. `left_on_line` is asked only if the fault ends on a later line: how many characters
    its first line has from its place on, if that is known."""
    width = said["end_column"] - said["column"] if said["line"] == said["end_line"] else left_on_line()
    return Fault(path, said["line"], said["column"], said["message"], said["kind"], None if width is None else max(width, 1), said["code"],
                 tuple(said["arguments"]), tuple(said.get("of", ())))


def faults_of(path: str, found: Iterable[Json], data: bytes) -> tuple[Fault, ...]:
    return tuple(fault_of(path, said, partial(_left_on_line, said, data)) for said in found)


def _left_on_line(said: Json, data: bytes) -> int:
    """How many characters of its first line a fault of several lines has."""
    ends = [at for sign in LINE_BREAKS if (at := data.find(sign, said["start"], said["end"])) >= 0]
    return sum(byte & 0xC0 != 0x80 for byte in data[said["start"]:min(ends, default=said["end"])])
