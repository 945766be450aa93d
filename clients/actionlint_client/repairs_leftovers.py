"""Repairs of what a merge, a page or a word processor leaves in a file: markers of conflicts, signs of Markdown, curly quotes."""
from __future__ import annotations

import re
from typing import Callable, Iterable, NamedTuple

from .repair import Case, Edit, Repair, quoted
from .text import Point, Span

BEGIN, BASE, MIDDLE, END = "<<<<<<<", "|||||||", "=======", ">>>>>>>"
MARKER = re.compile(r"(<{7}|\|{7}|={7}|>{7})(?: +(.*?))?\s*")
FENCE = re.compile(r"\s*(?:```|~~~)[\w-]*\s*")
BACKTICKS = re.compile(r"`(\$\{\{[^`]+\}\})`")
CURLY_QUOTED = re.compile("[\u2018\u201c\u201e\u201a]([^\u2018\u2019\u201c\u201d]*)[\u2019\u201d\u2018\u201c]")


class Conflict(NamedTuple):
    """The lines of a conflict's markers and the names of its sides. Without the common text the first side ends at the middle."""

    begin: int
    first_end: int
    middle: int
    end: int
    names: tuple[str, str]


def side_of_conflicts(case: Case) -> Iterable[Repair]:
    """One side of each conflict of a merge, without the markers."""
    conflicts = _conflicts(case.lines)
    if not any(one.begin <= case.span.start.line <= one.end for one in conflicts) or conflicts[-1].end + 1 >= len(case.lines):
        return
    where = "" if len(conflicts) == 1 else f" in all {len(conflicts)} conflicts"
    kept, lost = conflicts[0].names
    first = [edit for one in conflicts for edit in (_without_lines(one.begin, one.begin), _without_lines(one.first_end, one.end))]
    yield case.of(f'keep the lines of "{kept}"{where}, delete those of "{lost}"', *first, deletes=True)
    second = [edit for one in conflicts for edit in (_without_lines(one.begin, one.middle), _without_lines(one.end, one.end))]
    yield case.of(f'keep the lines of "{lost}"{where}, delete those of "{kept}"', *second, deletes=True)


def _conflicts(lines: list[str]) -> list[Conflict]:
    found: list[Conflict] = []
    at: dict[str, int] = {}
    names: list[str] = []
    for number, line in enumerate(lines):
        match = MARKER.fullmatch(line) if line[:1] in ("<", "|", "=", ">") else None
        if match and match[1] == BEGIN:
            at, names = {}, [match[2] or "the first side"]
        if match:
            at[match[1]] = number
        if match and match[1] == END and names and MIDDLE in at:
            found.append(Conflict(at[BEGIN], at.get(BASE, at[MIDDLE]), at[MIDDLE], number, (names[0], match[2] or "the second side")))
            at, names = {}, []
    return found


def _without_lines(first: int, last: int) -> Edit:
    return Edit(Span(Point(first, 0), Point(last + 1, 0)), "")


def without_fences(case: Case) -> Iterable[Repair]:
    """The text without the lines that begin and end a block of code in Markdown."""
    filled = [number for number, line in enumerate(case.lines) if line.strip()]
    fences = [number for number in dict.fromkeys((*filled[:1], *filled[-1:])) if FENCE.fullmatch(case.lines[number])]
    if case.span.start.line in fences:
        last = len(case.lines) - 1
        edits = [Edit(Span.on_line(one, 0, len(case.lines[one])), "") if one == last else _without_lines(one, one) for one in fences]
        yield case.of("delete the fences of Markdown", *edits, deletes=True)


def with_plain_quotes(case: Case) -> Iterable[Repair]:
    """A value in plain quotes in place of curly ones, which YAML takes as a part of it."""
    here = case.value
    match = CURLY_QUOTED.fullmatch(here.value.value) if here and not here.value.style else None
    if here and match and match[1]:
        yield case.replace("write plain quotes", quoted(match[1]), here.value.span, is_safe=True)


def without_backticks(case: Case) -> Iterable[Repair]:
    span = case.rest_span(case.span.start.line)
    match = BACKTICKS.fullmatch(case.slice(span)) if span else None
    if span and match:
        yield case.replace("leave out the backticks", match[1], span)


REPAIRS: dict[str, tuple[Callable[[Case], Iterable[Repair]], ...]] = {
    **{code: (side_of_conflicts, without_fences) for code in ("Y4", "Y5", "Y6", "Y17")},
    "Y13": (side_of_conflicts, without_fences, without_backticks),
    **{code: (with_plain_quotes,) for code in ("G1", "G2", "G4", "G8", "G12", "G14", "G19", "G20", "K5", "C1", "C7")},
}
