"""The place of a cursor by the indentation of the lines around it, for texts that aren't YAML, and what their lines have for repairs."""
from __future__ import annotations

import re
from dataclasses import dataclass, field, replace
from enum import Enum
from functools import lru_cache
from typing import NamedTuple, Sequence

from .text import Point, Span, end_of
from .tree import Path

DASH = re.compile(r"-(?= |$)")
KEY = re.compile(r"""(?:"([^"\\]*(?:\\.[^"\\]*)*)" *|'([^']*(?:''[^']*)*)' *|([^\s\[\]{},"'|>%@`#&*!-][^#]*?|-[^\s#][^#]*?)):(?=\s|$)""")
# A quoted scalar, or the start of a comment.
QUOTED_OR_COMMENT = re.compile(r"""(?:^|(?<=[\s\[{,:]))(?:"[^"\\]*(?:\\.[^"\\]*)*"?|'[^']*(?:''[^']*)*'?)|(?:^|(?<=\s))\#""")
# What can follow a key whose value is in the lines below.
NO_VALUE = re.compile(r"(?:[&!]\S+(?:\s+|$))*(?:#.*)?")
BLOCK_SCALAR = re.compile(r"(?:[&!]\S+ +)*[|>][-+0-9]*\s*(?:#.*)?$")
FLOW_TOKEN = re.compile(r"""\s+|\#[^\n]*|"[^"\\]*(?:\\.[^"\\]*)*"?|'[^']*(?:''[^']*)*'?|[\[\]{},]|:(?=[\s,\[\]{}]|$)"""
                        r"""|(?:[^\s,\[\]{}:"'\#]|:(?=[^\s,\[\]{}]))[^,\[\]{}:\n]*(?::(?=[^\s,\[\]{}])[^,\[\]{}:\n]*)*""")
WORD = re.compile(r"[^ \t,\[\]{}'\":]*(?::(?![ \t]|$)[^ \t,\[\]{}'\":]*)*")
COLON = re.compile(r"['\"]? *:(?:\s|$)")
QUOTES = ("'", '"')
MAX_FLOW_LINES = 100
MAX_CHARACTERS_AFTER = 10_000
# No file that the linter accepts is as deep.
MAX_DEPTH = 100
UNKNOWN: tuple[Path, tuple[dict[str, str], ...]] = ("",), ({},)


class Role(Enum):
    KEY = "a key"
    VALUE = "a value"
    EITHER = "the first key of a mapping, or a value"


@dataclass(frozen=True)
class Place:
    """What the cursor is on: a key of the mapping at `path`, or its value. `typed` is the part of it before the cursor, and `before` the
    value's whole text up to there without its opening `quote`. `siblings` are the other keys of the mapping with the texts of their values,
    and `around` has the same for each key of the path. `entries` are the texts of the other entries of the list that the cursor is in.
    Below a key with a value on its own line nothing can begin: the place is `taken`, though text may continue there. Where only an entry
    of a list can begin that has no dash yet, the place `needs_dash`, and `path` is that of the list. A key without a colon `has_value` if
    what is behind it or below it would be its value."""

    path: Path
    role: Role
    span: Span
    word: str
    typed: str
    before: str
    siblings: dict[str, str]
    around: tuple[dict[str, str], ...]
    has_colon: bool = False
    in_flow: bool = False
    taken: bool = False
    entries: tuple[str, ...] = ()
    quote: str = ""
    needs_dash: bool = False
    has_value: bool = False


class Element(NamedTuple):
    """A dash (without a name) or a key: its first column, and the one after the dash or the colon."""

    column: int
    name: str | None
    end: int


@dataclass
class Line:
    """A line's indentation, its dashes and key, and the rest. In a block scalar, `owner` is the line of its header."""

    indent: int
    elements: list[Element] = field(default_factory=list)
    rest: str = ""
    owner: int | None = None


class Outline:
    """The lines of a text."""

    def __init__(self, texts: Sequence[str]):
        self.texts = texts
        self.lines: list[Line] = []
        block: tuple[int, int] | None = None
        for number, text in enumerate(texts):
            bare = text.lstrip(" ")
            indent = len(text) - len(bare)
            if block and (not bare.strip() or indent > block[1]):
                self.lines.append(Line(indent, owner=block[0]))
                continue
            elements, rest = _elements(text, indent)
            self.lines.append(Line(indent, elements, rest))
            is_block = bool(elements) and BLOCK_SCALAR.match(rest) is not None
            block = (number, elements[-1].column) if is_block else None
        self._next, self._end = self._links()

    def _links(self) -> tuple[list[int], list[int]]:
        """For each line the next one with a dash or a key, and the next one of these that doesn't begin further right."""
        count = len(self.lines)
        following, ends, latest = [count] * count, [count] * count, count
        for number in range(count - 1, -1, -1):
            following[number] = latest
            elements = self.lines[number].elements
            if elements:
                below = latest
                while below < count and self.lines[below].elements[0].column > elements[0].column:
                    below = ends[below]
                ends[number], latest = below, number
        return following, ends

    def place(self, point: Point) -> Place:
        """The place of a point in the text."""
        line = self.lines[point.line]
        if line.owner is not None and (self.texts[point.line].strip() or point.column > self.lines[line.owner].elements[-1].column):
            return self._place_in_block_scalar(line.owner, point)
        found = self._place_in_flow(point) or self._place_in_lines(point)
        is_quoted = found.before[:1] in QUOTES
        return replace(found, before=found.before[1:], quote=found.before[0]) if is_quoted else found

    def is_in_comment(self, point: Point) -> bool:
        """Whether a point is behind the sign of a comment. Block scalars have none."""
        if self.lines[point.line].owner is not None:
            return False
        signs = (found.start() for found in QUOTED_OR_COMMENT.finditer(self.texts[point.line]) if found[0] == "#")
        return next(signs, point.column) < point.column

    def _place_in_block_scalar(self, owner: int, point: Point) -> Place:
        elements = self.lines[owner].elements
        path, around = self._way(owner, elements)
        before = "\n".join([*self.texts[owner + 1:point.line], self.texts[point.line][:point.column]])
        span, word, typed = self._word(point, 0)
        return Place(path, Role.VALUE, span, word, typed, before, {}, around)

    def _place_in_lines(self, point: Point) -> Place:
        line, text = self.lines[point.line], self.texts[point.line]
        before = [element for element in line.elements if element.end <= point.column]
        under = line.elements[len(before)] if len(before) < len(line.elements) else None
        if before and before[-1].name is not None:
            return self._value(point, before)
        start = before[-1].end if before else 0
        start += len(text[start:point.column]) - len(text[start:point.column].lstrip(" "))
        column = under.column if under else start
        path, around = self._way(point.line, before) if before else self._way_of_column(point.line, column)
        begun = None if before else self._value_above(point.line, column)
        if begun is not None:
            span, word, typed = self._word(point, start)
            return Place(path, Role.VALUE, span, word, typed, begun + text[start:point.column], {}, around, taken=True)
        siblings = self._keys_beside(point.line, column, False)
        if under and under.name is not None:
            end = under.end - 1
            span = Span.on_line(point.line, under.column, end)
            return Place(path, Role.KEY, span, under.name, text[under.column:point.column], "", siblings, around, True)
        span, word, typed = self._word(point, start)
        has_colon = COLON.match(text, span.end.column) is not None
        role = Role.KEY if siblings or has_colon else Role.EITHER
        entries = self._entries_beside(point.line, before[-1].column) if before else ()
        return Place(path, role, span, word, typed, text[start:point.column], siblings, around, has_colon, entries=entries)

    def _value(self, point: Point, elements: list[Element]) -> Place:
        """A value after a key on the same line."""
        path, around = self._way(point.line, elements)
        start = elements[-1].end
        start += len(self.texts[point.line][start:point.column]) - len(self.texts[point.line][start:point.column].lstrip(" "))
        span, word, typed = self._word(point, start)
        return Place(path, Role.VALUE, span, word, typed, self.texts[point.line][start:point.column], {}, around)

    def _word(self, point: Point, start: int) -> tuple[Span, str, str]:
        """The scalar at the point, from a column on: all that is between quotes, or up to the next space."""
        text = self.texts[point.line]
        if text[start:start + 1] in ("'", '"') and start < point.column:
            start += 1
            closing = text.find(text[start - 1], point.column)
            end = closing if closing >= 0 else len(text)
        else:
            end = end_of(WORD, text, point.column)
        return Span.on_line(point.line, start, end), text[start:end], text[start:point.column]

    def _place_in_flow(self, point: Point) -> Place | None:
        """The place in a flow sequence or mapping, or None if the point isn't in one."""
        for number in range(point.line, max(point.line - MAX_FLOW_LINES, -1), -1):
            line = self.lines[number]
            if line.owner is not None or not line.elements:
                continue
            if line.rest[:1] in ("[", "{"):
                start = len(self.texts[number].rstrip()) - len(line.rest)
                if number < point.line or start < point.column:
                    return self._read_flow(number, start, point)
            if number < point.line and not line.rest:
                return None
        return None

    def _read_flow(self, number: int, start: int, point: Point) -> Place | None:
        path, around = self._way(number, self.lines[number].elements)
        lines = [self.texts[number][start:], *self.texts[number + 1:point.line + MAX_FLOW_LINES]]
        cursor = sum(len(text) + 1 for text in lines[:point.line - number]) + point.column - (start if number == point.line else 0)
        flow = FlowReader(cursor)
        flow.read("\n".join(lines))
        if flow.found is None:
            return None
        frames, role, typed = flow.found
        below = tuple(frame.step for frame in frames)
        beside = tuple({} if frame.keys is None else dict(frame.keys) for frame in frames)
        column = point.column - len(typed)
        full = (*path, *below) if role is Role.VALUE else (*path, *below[:-1])
        last = frames[-1]
        closing = self.texts[point.line].find(flow.value_before[:1], point.column) if flow.value_before[:1] in ("'", '"') else -1
        end = closing if closing >= 0 else end_of(WORD, self.texts[point.line], point.column)
        word = self.texts[point.line][column:end]
        has_colon = role is Role.KEY and COLON.match(self.texts[point.line], end) is not None
        siblings = {name: value for name, value in (last.keys or {}).items() if role is Role.KEY and name != word}
        return Place(full, role, Span.on_line(point.line, column, end), word, typed, flow.value_before,
                     siblings, (*around, *beside)[:len(full)], has_colon, True,
                     entries=tuple(text for step, text in last.entries.items() if step != last.step))

    def _way(self, number: int, elements: list[Element], depth: int = 0) -> tuple[Path, tuple[dict[str, str], ...]]:
        """The path to the last of a line's elements, and what is beside each of its keys. UNKNOWN if there are too many levels."""
        if depth > MAX_DEPTH:
            return UNKNOWN
        path: list[str | int] = []
        around: list[dict[str, str]] = []
        for element in reversed(elements):
            path.insert(0, 0 if element.name is None else element.name)
            around.insert(0, {} if element.name is None else self._keys_beside(number, element.column))
        first = elements[0]
        if first.name is None:
            path[0] = self._position(number, first.column)
        above, beside = self._way_of_column(number, first.column, first.name is None, depth + 1)
        return (*above, *path), (*beside, *around)

    def _way_of_column(self, number: int, column: int, is_dash: bool = False, depth: int = 0) -> tuple[Path, tuple[dict[str, str], ...]]:
        """The path to the parent of a line that begins at a column. A list may begin at the column of its key."""
        for above in range(number - 1, -1, -1):
            elements = self.lines[above].elements
            if not elements or elements[0].column > column:
                continue
            fitting = [element for element in elements
                       if element.column < column or is_dash and element.column == column and element.name is not None]
            if fitting:
                return self._way(above, fitting, depth)
        return (), ()

    def _value_above(self, number: int, column: int) -> str | None:
        """The text, up to this line, of a value on the line of the parent key of a line that begins at a column, if there is one."""
        for above in range(number - 1, -1, -1):
            line = self.lines[above]
            if line.elements and line.elements[0].column < column:
                if line.elements[-1].column >= column or NO_VALUE.fullmatch(line.rest):
                    return None
                return "\n".join([line.rest, *self.texts[above + 1:number], ""])
        return None

    def _position(self, number: int, column: int) -> int:
        """How many dashes of the same list are above."""
        count = 0
        for above in range(number - 1, -1, -1):
            elements = self.lines[above].elements
            if not elements or elements[0].column > column:
                continue
            dashes = [element for element in elements if element.name is None and element.column == column]
            if not dashes and any(element.column <= column for element in elements):
                break
            count += len(dashes)
            if elements[0].column < column:
                break
        return count

    def _keys_beside(self, number: int, column: int, with_own: bool = True) -> dict[str, str]:
        """The keys at a column around a line, perhaps without its own, with the texts after them, up to lines that begin before it."""
        found: dict[str, str] = {}
        own = self.lines[number]
        is_first = any(element.name is None and element.column < column for element in own.elements)
        for above in range(number - 1, -1, -1) if not is_first else ():
            if not self._add_key(above, column, found):
                break
        if with_own:
            found.update((element.name, own.rest) for element in own.elements if element.name is not None and element.column == column)
        below = self._next[number]
        while below < len(self.lines) and (first := self.lines[below].elements[0]).column >= column:
            if first.column == column and first.name is not None:
                found[first.name] = self.lines[below].rest
            below = self._end[below]
        return found

    def _entries_beside(self, number: int, column: int) -> tuple[str, ...]:
        """The scalars of the list whose dashes are at a column around a line, without that line's."""
        found = []
        below, above = self._next[number], number - 1
        while below < len(self.lines) and self.lines[below].elements[0].column >= column:
            found.append(below)
            below = self._end[below]
        while above >= 0 and (not self.lines[above].elements or self.lines[above].elements[0].column >= column):
            found.append(above)
            above -= 1
        return tuple(line.rest.split(" #")[0].strip().strip("'\"") for line in map(self.lines.__getitem__, found)
                     if len(line.elements) == 1 and line.elements[0].name is None and line.elements[0].column == column)

    def _add_key(self, number: int, column: int, found: dict[str, str]) -> bool:
        """Whether the mapping may begin further above."""
        line = self.lines[number]
        for element in line.elements:
            if element.name is not None and element.column == column:
                found[element.name] = line.rest
        return not line.elements or line.elements[0].column >= column


@dataclass
class Frame:
    """An open sequence with the index of its entry, or an open mapping with its key, and the keys so far with the texts of their values.
    `entries` are the scalars of a sequence by their indices."""

    step: str | int
    keys: dict[str, str] | None
    has_value: bool = False
    entries: dict[int, str] = field(default_factory=dict)


class FlowReader:
    """Reads a text that begins with a bracket, some way past the cursor, and notes what is open there."""

    def __init__(self, cursor: int):
        self.cursor = cursor
        self.found: tuple[list[Frame], Role, str] | None = None
        self.value_before = ""
        self._open: list[Frame] = []
        self._last = ""

    def read(self, text: str) -> None:
        for match in FLOW_TOKEN.finditer(text):
            token = match[0]
            inside = match.start() < self.cursor <= match.end() and token not in "[]{},:" and token.strip()
            if self.found is None and (inside or match.start() >= self.cursor):
                if not self._open or len(self._open) > MAX_DEPTH:
                    return
                self._find(text[match.start():self.cursor] if inside else "", match.start())
            self._take(token)
            if not self._open or self.found and match.start() > self.cursor + MAX_CHARACTERS_AFTER:
                return
        if self.found is None and 0 < len(self._open) <= MAX_DEPTH:
            self._find("", len(text))

    def _find(self, typed: str, start: int) -> None:
        frame = self._open[-1]
        role = Role.VALUE if frame.keys is None or frame.has_value else Role.KEY
        self.value_before = typed
        # Steps are those at the cursor. Keys after it are still added to the mappings.
        frames = [Frame(open_.step, open_.keys, entries=open_.entries) for open_ in self._open]
        self.found = frames, role, typed[1:] if typed[:1] in ("'", '"') else typed

    def _take(self, token: str) -> None:
        if token in ("[", "{"):
            self._open.append(Frame(0 if token == "[" else "", None if token == "[" else {}))
        elif token in ("]", "}"):
            self._open.pop()
        elif not self._open or not token.strip() or token.startswith("#"):
            return
        elif token == ",":
            frame = self._open[-1]
            frame.has_value = False
            if frame.keys is None:
                self._open[-1].step = int(frame.step) + 1
        elif token == ":":
            frame = self._open[-1]
            if frame.keys is not None:
                frame.step, frame.has_value = self._last, True
                frame.keys.setdefault(self._last, "")
        else:
            self._last = token.strip().strip("'\"")
            frame = self._open[-1]
            if frame.keys is None:
                frame.entries[int(frame.step)] = self._last
            elif frame.has_value:
                frame.keys[str(frame.step)] = self._last


@lru_cache(maxsize=8)
def outline_of(text: str) -> Outline:
    return Outline(text.split("\n"))


def _elements(text: str, indent: int) -> tuple[list[Element], str]:
    """The dashes and the key at the start of a line, and the rest."""
    found: list[Element] = []
    at = indent
    while len(found) < MAX_DEPTH and (dash := DASH.match(text, at)) is not None:
        found.append(Element(at, None, dash.end()))
        at = dash.end() + len(text[dash.end():]) - len(text[dash.end():].lstrip(" "))
    key = KEY.match(text, at)
    if key:
        name = next(group for group in key.groups() if group is not None)
        found.append(Element(at, name.rstrip() if key[3] else name, key.end()))
        at = key.end()
    return found, text[at:].strip()
