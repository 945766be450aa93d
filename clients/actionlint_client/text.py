"""Places in a text: lines and columns, both from 0, and offsets. Columns and offsets count characters."""
from __future__ import annotations

import re
from array import array
from bisect import bisect_left, bisect_right
from typing import NamedTuple

LINE_BREAK = re.compile("\r\n|\n|\r")
LINE_BREAK_OF_BYTES = re.compile(rb"\r\n|\n|\r")
BYTE_ORDER_MARK = b"\xef\xbb\xbf"


class Point(NamedTuple):
    line: int
    column: int


class Span(NamedTuple):
    start: Point
    end: Point

    @classmethod
    def at(cls, point: Point) -> Span:
        """The empty span at a point."""
        return cls(point, point)

    @classmethod
    def on_line(cls, line: int, start: int, end: int) -> Span:
        """The span between two columns of a line."""
        return cls(Point(line, start), Point(line, end))

    def holds(self, point: Point) -> bool:
        """Whether the point is in the span or at one of its ends."""
        return self.start <= point <= self.end


def end_of(pattern: re.Pattern[str], text: str, start: int) -> int:
    """Where the match of a pattern at an offset of a text ends, or the offset itself without one."""
    found = pattern.match(text, start)
    return found.end() if found else start


class Places:
    """The points of a text and their offsets. What is before the offset `begin` belongs to no line."""

    def __init__(self, text: str, begin: int = 0):
        self._length = len(text)
        self._starts = [begin, *(found.end() for found in LINE_BREAK.finditer(text, begin))]

    def offset(self, point: Point) -> int:
        """The offset of a point, at most that of the end of the text."""
        return min(self._starts[point.line] + point.column, self._length) if point.line < len(self._starts) else self._length

    def point(self, offset: int) -> Point:
        line = bisect_right(self._starts, offset) - 1
        return Point(line, offset - self._starts[line])

    def span(self, start: int, end: int) -> Span:
        return Span(self.point(start), self.point(end))


class BytePlaces:
    """The points of the bytes of a text, whose columns count characters. A byte order mark belongs to no line; `begin` is behind it."""

    def __init__(self, data: bytes):
        self.begin = len(BYTE_ORDER_MARK) if data.startswith(BYTE_ORDER_MARK) else 0
        self._data, self._is_ascii = data, data.isascii()
        self._starts = [self.begin, *(found.end() for found in LINE_BREAK_OF_BYTES.finditer(data))]
        # Of lines that were asked for, where their characters begin, nothing of those whose characters are bytes.
        self._characters: dict[int, array[int]] = {}

    def point(self, offset: int) -> Point:
        line = max(bisect_right(self._starts, offset) - 1, 0)
        column = max(offset - self._starts[line], 0)
        characters = None if self._is_ascii else self._characters_of(line)
        return Point(line, bisect_left(characters, column) if characters else column)

    def span(self, start: int, end: int) -> Span:
        return Span(self.point(start), self.point(end))

    def offset(self, point: Point) -> int:
        """The byte at a point of the text, at most that of its end."""
        characters = None if self._is_ascii else self._characters_of(point.line)
        if not characters:
            return min(self._starts[point.line] + point.column, len(self._data))
        return self._starts[point.line] + characters[point.column] if point.column < len(characters) else self._start_of(point.line + 1)

    def _start_of(self, line: int) -> int:
        """Where a line begins, or the text ends if there is none."""
        return self._starts[line] if line < len(self._starts) else len(self._data)

    def _characters_of(self, line: int) -> array[int]:
        found = self._characters.get(line)
        if found is None:
            data = self._data[self._starts[line]:self._start_of(line + 1)]
            found = array("L", () if data.isascii() else (at for at, byte in enumerate(data) if byte & 0xC0 != 0x80))
            self._characters[line] = found
        return found
