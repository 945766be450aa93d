"""Repairs of lines that aren't YAML: scripts that don't stand below their key, and missing or other spaces, dashes and colons."""
from __future__ import annotations

import itertools
import re
from typing import Iterable

from .expression_texts import ODD_SPACE
from .repair import Case, Edit, Repair
from .repairs_levels import indent_of
from .syntax import table
from .text import Point, Span

MAX_LINES_ABOVE = 200
HERE_DOCUMENT = re.compile(r"<<-?\s*['\"]?(\w+)")
COLON_WITHOUT_SPACE = re.compile(r"^ *(?:- +)?[A-Za-z_][\w-]*:(?=[^\s/:])")
DASH_WITHOUT_SPACE = re.compile(r"^( *)-(?=[A-Za-z_][\w-]*:(?: |$))")
SEMICOLON = re.compile(r"^ *(?:- +)?([A-Za-z_][\w-]*) *;(?=\s|$)")
FIRST_WORD = re.compile(r"^ *(?:- +)?([A-Za-z_][\w-]*)(?= (?! *=)|$)")
EQUALS = re.compile(r"^ *(?:- +)?([A-Za-z_][\w-]*) *= *(?=[^=\s])")
ODD_START = re.compile("[ \u00a0\u2000-\u200a\u202f\u3000-]*(?:[\\w-]+:)?[ \u00a0\u2000-\u200a\u202f\u3000]*")
WIDE_DASH = re.compile(r"^( *)- {2,}(?=[A-Za-z_][\w-]*:)")
MAX_LINES_OF_LIST = 30
ITEM_WITHOUT_SPACE = re.compile(r"( *)-(?=[\w./@'\"])")


def as_block(case: Case) -> Iterable[Repair]:
    """A script on lines of its own."""
    span = case.rest_span(case.span.start.line)
    line = case.outline.lines[case.span.start.line]
    if span and line.elements and line.elements[-1].name == "run":
        indent = " " * (line.elements[-1].column + 2)
        yield case.replace("move the script below its key", f"|\n{indent}{case.slice(span)}", span)


def script_in_lines(case: Case) -> Iterable[Repair]:
    """A script whose later lines begin at the column of its key, moved below that key."""
    number = case.span.start.line - 1
    while number > 0 and not case.outline.lines[number].elements:
        number -= 1
    line = case.outline.lines[number] if number >= 0 else None
    if line is None or not line.elements or line.elements[-1].name != "run" or not line.rest or line.rest[0] in "|>":
        return
    column = line.elements[-1].column
    if not _is_script(case, case.span.start.line, column):
        return
    indent = " " * (column + 2)
    last = case.span.start.line
    while last + 1 < len(case.lines) and case.lines[last + 1].strip() and _is_script(case, last + 1, column):
        last += 1
    texts = [line.rest, *(text.strip() for text in case.lines[number + 1:last + 1])]
    start = Point(number, line.elements[-1].end)
    yield case.replace("write the script as a block", " |" + "".join("\n" + indent + text for text in texts),
                       Span(start, Point(last, len(case.lines[last]))))


def _is_script(case: Case, number: int, column: int) -> bool:
    """Whether a line looks like one of a script whose key begins at a column: it has no key or dash, or is below that key."""
    line = case.outline.lines[number]
    name = line.elements[0].name if line.elements else None
    return not line.elements or line.indent > column and name is not None and name not in table()["shapes"]["Step"]["keys"]


def script_below(case: Case) -> Iterable[Repair]:
    """A script that isn't indented below its key."""
    number = case.span.start.line
    header = number - 1
    while header > 0 and not case.outline.lines[header].elements:
        header -= 1
    line = case.outline.lines[header] if header >= 0 else None
    if line is None or not line.elements or line.rest[:1] not in ("|", ">"):
        return
    column = line.elements[-1].column
    last, first = header, header + 1
    while last + 1 < len(case.lines):
        below = case.outline.lines[last + 1]
        if below.elements and below.indent <= column:
            break
        last += 1
    while last > header and not case.lines[last].strip():
        last -= 1
    lines = [one for one in range(first, last + 1) if case.lines[one].strip()]
    more = column + 2 - min((case.outline.lines[one].indent for one in lines), default=0)
    edits = [Edit(Span.at(Point(one, 0)), " " * more) for one in lines if more > 0]
    if edits and last >= number:
        yield case.of(f'indent the script below "{line.elements[-1].name}"', *edits)


def text_in_script(case: Case) -> Iterable[Repair]:
    """The lines of a script that are less indented than its first line, indented as that: up to the end of a here-document, or if another
    line of the script follows."""
    number, lines, outline = case.span.start.line, case.lines, case.outline.lines
    above = range(number - 1, max(number - MAX_LINES_ABOVE, -1), -1)
    header = next((one for one in above if [found.name for found in outline[one].elements[-1:]] == ["run"]), None)
    if header is None or outline[header].rest[:1] not in ("|", ">"):
        return
    texts = [one for one in range(header + 1, number + 1) if lines[one].strip()] or [number]
    column = indent_of(lines[texts[0]])
    first = next((one for one in texts if indent_of(lines[one]) < column), None)
    if first is None or column <= outline[header].elements[-1].column:
        return
    words = {word for one in lines[header:first] for word in HERE_DOCUMENT.findall(one)} - {line.strip() for line in lines[header:first]}
    last = next((one for one in range(number, min(number + MAX_LINES_ABOVE, len(lines))) if lines[one].strip() in words), None)
    if last is None and not any(outline[one].elements for one in range(first, number + 1)):
        after = (one for one in range(number + 1, len(lines)) if lines[one].strip())
        end = next((one for one in after if indent_of(lines[one]) >= column or outline[one].elements), None)
        last = end - 1 if end is not None and indent_of(lines[end]) >= column else None
    if last is not None:
        has_end = indent_of(lines[last]) >= column
        wrong = [one for one in range(first, last + 1) if lines[one].strip() and (not has_end or indent_of(lines[one]) < column)]
        more = " " * (column - indent_of(lines[first]))
        yield case.of("indent the lines of the script", *(Edit(Span.at(Point(one, 0)), more) for one in wrong))


def script_without_sign(case: Case) -> Iterable[Repair]:
    """A script that begins on the line below its key, with the sign of a text in lines."""
    number = case.span.start.line
    for header in range(number - 1, max(number - MAX_LINES_ABOVE, -1), -1):
        line = case.outline.lines[header]
        name = line.elements[-1].name if line.elements else None
        if name in ("run", "script"):
            below = [one for one in range(header + 1, number + 1) if case.lines[one].strip()]
            if not line.rest and all(case.outline.lines[one].indent > line.elements[-1].column for one in below):
                yield case.replace(f'write "|" after "{name}:"', " |", Span.at(Point(header, line.elements[-1].end)))
            return


def spaces_for_tabs(case: Case) -> Iterable[Repair]:
    """Spaces in place of each tab at the start of lines. The text doesn't tell how many columns a tab has."""
    tabs = [line for line in case.lines if "\t" in line[:len(line) - len(line.lstrip(" \t-"))]]
    indent = next((len(line) - len(line.lstrip(" ")) for line in reversed(case.lines[:case.span.start.line]) if line.strip()), 0)
    start = Span.on_line(case.span.start.line, 0, len(case.line) - len(case.line.lstrip(" \t")))
    for spaces in (indent, indent + 2) if len(tabs) == 1 else ():
        yield case.replace("replace tabs by spaces", " " * spaces, start)
    for width in (2, 4, 8, 1):
        edits = []
        for number, line in enumerate(case.lines):
            head = line[:len(line) - len(line.lstrip(" \t-"))]
            if "\t" in head:
                edits.append(Edit(Span.on_line(number, 0, len(head)), head.replace("\t", " " * width)))
        if edits:
            yield case.of("replace tabs by spaces", *edits)


def plain_spaces(case: Case) -> Iterable[Repair]:
    """Plain spaces in place of others at the start of the fault's line, or after its key."""
    for line in (case.span.start.line, case.span.start.line - 1):
        match = ODD_START.match(case.lines[line]) if line >= 0 else None
        if match and ODD_SPACE.search(match[0]):
            changed = ODD_SPACE.sub(" ", match[0])
            yield case.replace("write plain spaces", changed, Span.on_line(line, 0, match.end()), is_safe=True)


def with_space(case: Case) -> Iterable[Repair]:
    """A space after a colon or a dash that has none."""
    for place, match in _after_match(case, COLON_WITHOUT_SPACE, DASH_WITHOUT_SPACE):
        yield case.replace(f"add a space after the {'colon' if match[0].endswith(':') else 'dash'}", " ", place, is_safe=True)


def with_spaced_items(case: Case) -> Iterable[Repair]:
    """The entries of a list that lack the space after the dash, with it, beside an entry that has it."""
    number, lines = case.span.start.line, case.lines
    match = next((found for one in (number, number - 1) if one >= 0 and (found := ITEM_WITHOUT_SPACE.match(lines[one]))), None)
    if match is None:
        return

    dash = match[1] + "-"

    def of_list(numbers: Iterable[int]) -> list[int]:
        return list(itertools.takewhile(lambda one: lines[one].startswith(dash), numbers))
    around = [*of_list(range(number, max(number - MAX_LINES_OF_LIST, -1), -1)),
              *of_list(range(number + 1, min(number + MAX_LINES_OF_LIST, len(lines))))]
    edits = [Edit(Span.at(Point(one, match.end())), " ") for one in around if ITEM_WITHOUT_SPACE.match(lines[one])]
    if len(edits) < len(around):
        yield case.of("add a space after the dash", *edits, is_safe=True)


def without_spaces_after_dash(case: Case) -> Iterable[Repair]:
    """An entry above whose first key is further right than the others, with one space after its dash."""
    number = case.span.start.line - 1
    match = WIDE_DASH.match(case.lines[number]) if number >= 0 else None
    if match and len(match[1]) + 2 == indent_of(case.line):
        span = Span.on_line(number, len(match[1]) + 1, match.end())
        yield case.replace("write one space after the dash", " ", span, is_safe=True)


def with_dash(case: Case) -> Iterable[Repair]:
    """A dash before a text that follows an entry of a list of texts."""
    number = case.span.start.line
    above, here = (case.outline.lines[one].elements for one in (max(number - 1, 0), number))
    if above and not here and above[-1].name is None and case.rest_span(number - 1):
        yield case.replace("add a dash", " " * above[-1].column + "- ", Span.on_line(number, 0, indent_of(case.line)))


def with_colon(case: Case) -> Iterable[Repair]:
    """A colon after a word that is alone on its line, or before the value on it, also in place of an equals sign or a semicolon."""
    for place, match in _after_match(case, EQUALS):
        line = place.start.line
        yield case.replace(f'write a colon after "{match[1]}"', ": ", Span.on_line(line, match.end(1), match.end()))
    for place, match in _after_match(case, SEMICOLON):
        yield case.replace(f'write a colon after "{match[1]}"', ":", Span.on_line(place.start.line, match.end(1), match.end()))
    for place, match in _after_match(case, FIRST_WORD):
        yield case.replace(f'add a colon after "{match[1]}"', ":", place)


def _after_match(case: Case, *patterns: re.Pattern[str]) -> Iterable[tuple[Span, re.Match[str]]]:
    """The matches of patterns on the fault's line and on the one above it, and the empty span after each."""
    number = case.span.start.line
    for line in (number, number - 1):
        for pattern in patterns:
            if line >= 0 and (match := pattern.match(case.lines[line])):
                yield Span.at(Point(line, match.end())), match
