"""The place of a cursor, from the tree of the text with a word put in there. Only a text that isn't YAML is read line by line."""
from __future__ import annotations

import re
from typing import Iterator, NamedTuple

from .facts_tree import Json
from .place import WORD as WORD_OF_LINE, Place, Role, outline_of
from .project import Project
from .text import BytePlaces, Point, Span, end_of
from .tree import Path

WORD, DASH = b"x", b"- "
# All that is before the cursor in the first word of a line, and all that is before a dash without a blank.
TO_FIRST_WORD = re.compile(r" *(?:- +)*(?P<word>[^\s\[\]{},'\"#]*)(?<!:)")
BARE_DASH = re.compile(r" *(?:- +)*-")
# What comes behind the first word: nothing but a comment, or the colon of a key.
NOTHING_MORE = re.compile(r"(?:[ \t]+(?:#.*)?)?")
KEY_COLON = re.compile(r"[ \t]*:(?:[ \t]|$)")
COLON = re.compile(rb"\s*:")
# What can come right behind a colon or a dash that is followed by no word yet.
AFTER_SIGN = ("", " ", "\t", ",", "]", "}")
# Right before these nothing can begin: blanks, a comment, a scalar with a sign, another collection, an alias.
OTHERS = re.compile(rb"[\s#&*!|>'\"%@`\[\]{},]|-(?:\s|$)")
QUOTES = {"single": "'", "double": '"'}
BLOCK_STYLES = ("literal", "folded")


class MarkedText(NamedTuple):
    """A text with a word at the cursor, which begins at a byte; perhaps with a blank before it, a colon behind the word that the cursor is
    in, at another byte, or a dash before that one."""

    data: bytes
    at: int
    has_blank: bool = False
    has_dash: bool = False
    colon: int | None = None


class Spot(NamedTuple):
    """The scalar with the word of a marked text, and its text before that. `around` are the collections that it is in, the outermost first,
    each with the number of the item or the entry that it is in."""

    scalar: Json
    before: str
    is_key: bool
    around: list[tuple[Json, int]]

    @property
    def path(self) -> Path:
        """The path of the scalar, or that of the mapping that it is a key of."""
        steps = self.around[:-1] if self.is_key else self.around
        return tuple(one["entries"][number][0]["text"] if one["kind"] == "mapping" else number for one, number in steps)

    @property
    def siblings(self) -> dict[str, str]:
        """The other keys of the mapping that it is a key of."""
        return _texts(*self.around[-1]) if self.is_key else {}

    @property
    def other_items(self) -> tuple[str, ...]:
        """The texts of the other scalars of the list that has it, or the mapping that it is a key of."""
        holders = self.around[:-1] if self.is_key else self.around
        return tuple(item["text"] for one, own in holders[-1:] for number, item in enumerate(one.get("items", ()))
                     if number != own and item["kind"] == "scalar")

    @property
    def value(self) -> Json:
        """The value of the key that it is."""
        mapping, number = self.around[-1]
        value: Json = mapping["entries"][number][1]
        return value

    def is_above_items(self, places: BytePlaces) -> bool:
        """Whether it is the only key of a mapping, above a list that begins at its column: then it is typed inside of that list."""
        value = self.value
        column, column_of_items = (places.point(one["start"]).column for one in (self.scalar, value))
        return not self.siblings and value["kind"] == "sequence" and column == column_of_items


def place_at(project: Project, file: str, point: Point) -> Place | None:
    """The place of a point of a file, or None where nothing can begin, such as in a comment."""
    here = _PointInText(project, file, point)
    is_yaml = False
    for marked in here.marked_texts():
        root = project.answered_tree(file, marked.data)
        if root is None:
            continue
        spot, is_yaml = _spot(root, marked.at), True
        if spot and here.fits(spot, marked):
            return here.place(spot, marked)
        if spot is None or marked.has_blank and spot.scalar["start"] == marked.at:
            return None
    return None if is_yaml or project.tree(file) else place_in_lines(project, file, point)


def place_in_lines(project: Project, file: str, point: Point) -> Place | None:
    """The place of a point by the lines around it, whether or not they are YAML."""
    outline = outline_of(project.text(file))
    place = outline.place(point)
    return None if point < place.span.start or outline.is_in_comment(point) else place


class _PointInText:
    """A point of a text."""

    def __init__(self, project: Project, file: str, point: Point):
        self._point, self._lines = point, project.lines(file)
        self._line = self._lines[point.line]
        self._data = project.read(file) or b""
        self._places = BytePlaces(self._data)
        self._at = self._places.offset(point)
        self._end_of_word = end_of(WORD_OF_LINE, self._line, point.column)
        # Where nothing follows a sign yet, not even the blank that a word needs.
        before, after = self._line[:point.column], self._line[point.column:]
        self._is_after_sign = after[:1] in AFTER_SIGN and (before.endswith(":") or BARE_DASH.fullmatch(before) is not None)

    def marked_texts(self) -> Iterator[MarkedText]:
        """The text with a word as a key, as it stands, and as an item of a list, as far as these are possible on the line."""
        head, tail, before = self._data[:self._at], self._data[self._at:], self._line[:self._point.column]
        spaced = head + b" " if self._is_after_sign else head
        is_first = self._is_in_first_word(before)
        if is_first:
            end = self._offset(self._end_of_word) - self._at
            key = spaced + WORD + tail[:end]
            yield MarkedText(key + b":" + tail[end:], len(spaced), self._is_after_sign, colon=len(key))
        elif self._is_after_sign:
            yield MarkedText(spaced + WORD + tail, len(spaced), has_blank=True)
        yield MarkedText(head + WORD + tail, len(head))
        if is_first and not before.lstrip(" ").startswith("-"):
            start = self._offset(len(before) - len(before.lstrip(" ")))
            yield MarkedText(head[:start] + DASH + head[start:] + WORD + tail, len(DASH + head), has_dash=True)

    def fits(self, spot: Spot, marked: MarkedText) -> bool:
        """Whether the scalar with the word has nothing besides what is typed at the cursor and the scalar that may be there."""
        start, end = spot.scalar["start"], spot.scalar["end"]
        begins = start == marked.at
        if begins and end > marked.at + len(WORD) and OTHERS.match(self._data, self._at):
            return False
        if marked.has_dash:
            return not spot.is_key and marked.data[start - len(DASH):start] == DASH
        if marked.has_blank and not begins:
            return False
        if self._is_after_sign and not marked.has_blank and spot.is_key and spot.scalar["style"] == "plain":
            # The sign would be a part of the key.
            return False
        return marked.colon is None or not spot.is_key or end == marked.colon and not spot.is_above_items(BytePlaces(marked.data))

    def place(self, spot: Spot, marked: MarkedText) -> Place:
        """The place of the word of a marked text."""
        scalar, siblings = spot.scalar, spot.siblings
        start = self._places.point(min(scalar["start"] - len(DASH) * marked.has_dash, self._at))
        has_colon = spot.is_key and marked.colon is None and COLON.match(marked.data, scalar["end"]) is not None
        span = self._span(spot, start, marked, has_colon)
        is_value = not spot.is_key and not marked.has_dash
        is_only_key = spot.is_key and not siblings and marked.colon is not None
        above = self._lines[start.line + (scalar["style"] in BLOCK_STYLES):self._point.line]
        path = spot.path[:-1] if marked.has_dash else spot.path
        return Place(
            path, Role.VALUE if is_value else Role.EITHER if is_only_key or marked.has_dash else Role.KEY,
            span, self._line[span.start.column:span.end.column], self._line[span.start.column:self._point.column], spot.before, siblings,
            tuple(_texts(one) for one, _ in spot.around[:len(path)]), has_colon,
            in_flow=any(marked.data[one["start"]:one["start"] + 1] in (b"[", b"{") for one, _ in spot.around),
            taken=is_value and any(line.strip() for line in above), entries=spot.other_items, quote=QUOTES.get(scalar["style"], ""),
            needs_dash=marked.has_dash, has_value=spot.is_key and not has_colon and spot.value["start"] < spot.value["end"])

    def _span(self, spot: Spot, start: Point, marked: MarkedText, has_colon: bool) -> Span:
        """What is replaced on the cursor's line: what is between quotes, a key with a colon, or a word. `start` is that of the scalar. A
        key in quotes without a colon is replaced with them, since the colon comes behind them."""
        quote = len(QUOTES.get(spot.scalar["style"], ""))
        inner = quote if has_colon or not spot.is_key else 0
        first, end = len(self._line) - len(self._line.lstrip()), self._end_of_word
        if start.line == self._point.line:
            first = start.column + inner
        if quote or has_colon:
            last = self._places.point(spot.scalar["end"] - (len(marked.data) - len(self._data)))
            end = last.column - inner if last.line == self._point.line else len(self._line)
        return Span.on_line(self._point.line, min(first, self._point.column), max(end, self._point.column))

    def _is_in_first_word(self, before: str) -> bool:
        """Whether the cursor is in the first word of a line, or where that would be, without the colon of a key behind it. A dash that no
        word follows is a sign, not a word."""
        found = TO_FIRST_WORD.fullmatch(before)
        if found is None or KEY_COLON.match(self._line, self._end_of_word):
            return False
        is_in_word = bool(found["word"]) and not self._is_after_sign
        return is_in_word or self._end_of_word > len(before) or NOTHING_MORE.fullmatch(self._line, len(before)) is not None

    def _offset(self, column: int) -> int:
        """The byte at a column of the line."""
        return self._places.offset(Point(self._point.line, column))


def _spot(root: Json, at: int) -> Spot | None:
    """The scalar whose text has a byte, None if there is none. What an alias stands for comes before it."""
    node, is_key = root, False
    around: list[tuple[Json, int]] = []
    while node["kind"] != "scalar":
        found = next((child for child in _children(node) if child[1]["start"] <= at < child[1]["end"]), None)
        if found is None:
            return None
        around.append((node, found[0]))
        _, node, is_key = found
    before = _text_before(node, at)
    return None if before is None else Spot(node, before, is_key, around)


def _children(collection: Json) -> Iterator[tuple[int, Json, bool]]:
    """The keys, values and items of a collection, each with the number of its entry or its own, and whether it is a key."""
    for number, (key, value) in enumerate(collection.get("entries", ())):
        yield number, key, True
        yield number, value, False
    for number, item in enumerate(collection.get("items", ())):
        yield number, item, False


def _text_before(scalar: Json, at: int) -> str | None:
    """The text of a scalar up to the character that comes from a byte of the file. None if none does, as in the comment of a header."""
    text: bytes = scalar["text"].encode("utf-8")
    places = scalar["places"]
    for (index, offset), (following, _) in zip(places, [*places[1:], (len(text), 0)]):
        if offset <= at < offset + following - index:
            return text[:index + at - offset].decode("utf-8")
    return None


def _texts(collection: Json, without: int = -1) -> dict[str, str]:
    """The keys of a mapping, perhaps without that of a number, with the texts of their values."""
    return {key["text"]: value.get("text", "") for number, (key, value) in enumerate(collection.get("entries", ())) if number != without}
