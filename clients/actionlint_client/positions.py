"""Ranges of an editor: lines from 0, columns in UTF-16 code units (Language Server Protocol, "Position")."""
from __future__ import annotations

import re
from bisect import bisect_left
from functools import lru_cache

from .faults import Fault
from .protocol import Position, Range
from .text import BYTE_ORDER_MARK, LINE_BREAK, LINE_BREAK_OF_BYTES, Point, Span

WORD = re.compile(r"[\w.-]+|.", re.S)
TWO_UNITS = re.compile("[\U00010000-\U0010ffff]")


def lines_of(data: bytes) -> list[bytes]:
    return LINE_BREAK_OF_BYTES.split(data) if b"\r" in data else data.split(b"\n")


def span_of(fault: Fault, lines: list[str], has_mark: bool) -> Span:
    """A fault's span, which ends with its first line. If its width is unknown, it ends with the word. The linter counts a byte order mark,
    which these lines don't have, as a character of the first one."""
    number = fault.line - 1
    start = max(fault.column - 1 - (has_mark and number == 0), 0)
    word = WORD.match(lines[number], start) if fault.width is None and number < len(lines) else None
    return Span.on_line(number, start, start + (fault.width or (len(word[0]) if word else 0)))


class Lines:
    """The lines of a file, for its faults' ranges."""

    def __init__(self, data: bytes, is_buffer: bool):
        # An editor removes the byte order mark of a file that it opens.
        self._has_mark = not is_buffer and data.startswith(BYTE_ORDER_MARK)
        self._lines = LINE_BREAK.split(data.decode("utf-8", "replace")[self._has_mark:])

    def range_of(self, fault: Fault) -> Range:
        return range_of_span(self._lines, span_of(fault, self._lines, self._has_mark))


def point_of(lines: list[str], position: Position) -> Point:
    """An editor's position as a line and a character of a text. One past the end of a line or of the text is that end."""
    number = min(position["line"], len(lines) - 1)
    line, units = lines[number], position["character"]
    if line.isascii():
        return Point(number, min(units, len(line)))
    before = line.encode("utf-16-le", "surrogatepass")[:2 * units].decode("utf-16-le", "ignore")
    return Point(number, len(before))


def range_of_span(lines: list[str], span: Span) -> Range:
    """A span of a text as an editor's range."""
    return {"start": _position_of(lines, span.start), "end": _position_of(lines, span.end)}


def _position_of(lines: list[str], point: Point) -> Position:
    line = lines[point.line] if point.line < len(lines) else ""
    column = min(point.column, len(line))
    return {"line": point.line, "character": column if line.isascii() else column + bisect_left(_two_units(line), column)}


@lru_cache(maxsize=64)
def _two_units(line: str) -> list[int]:
    """The characters of a line that take two units. Many places may be on one long line."""
    return [found.start() for found in TWO_UNITS.finditer(line)]
