"""Repairs of lines that don't fit those around them: of texts in lines, of lists that lack a dash, and of values in brackets that lack a
comma or a space."""
from __future__ import annotations

import re
from itertools import takewhile
from typing import Callable, Iterable, Iterator

from .repair import Case, Edit, Repair
from .repairs_keys import SHORT_FORMS
from .repairs_levels import destination, indent_of, moved_line, section_of
from .syntax import shape_at, table
from .text import Point, Span

PLAIN_KEY = re.compile(r"[\w.-]+")
WORD_BEFORE_COLON = re.compile(r"\s([\w-]+)$")
KEY_WITHOUT_SPACE = re.compile(r"(['\"]?[A-Za-z_][\w-]*['\"]?):(?![\s/:])(.+)")
QUOTED_TEXTS = re.compile(r"""('[^']*'|"[^"\\]*")(?:\s*,\s*('[^']*'|"[^"\\]*"|[\w.-]+))+""")
PLAIN_TEXT = re.compile(r"(?:[\w./:-]|\$\{\{[^{}]*\}\})+")
CLOSERS = {"[": "]", "{": "}"}
IN_QUOTES = re.compile(r"'[^']*'|\"[^\"]*\"")
# What begins a value in brackets, quotes or lines, or a comment.
NO_PLAIN_TEXT = ("|", ">", "'", '"', "[", "{", "&", "*", "!", "#", "%", "@", "`", "")
# Of which a step has one.
OF_ONE_STEP = {"run", "uses"}
MAX_LINES_ABOVE = 200
MAX_LINES_OF_ENTRY = 60


def open_brackets(text: str) -> list[str]:
    """The brackets of a text in brackets that aren't closed in it."""
    found: list[str] = []
    for sign in IN_QUOTES.sub("", text) if text[:1] in CLOSERS else "":
        if sign in CLOSERS:
            found.append(sign)
        elif sign in CLOSERS.values() and found:
            found.pop()
    return found


def begins_entry(case: Case, number: int) -> bool:
    """Whether a line begins with a dash, or with a key that is a plain word."""
    elements = case.outline.lines[number].elements
    return bool(elements) and (elements[0].name is None or PLAIN_KEY.fullmatch(elements[0].name) is not None)


def _header_above(case: Case, number: int) -> int | None:
    """The line of the key whose text in lines a line may belong to."""
    for one in range(number - 1, max(number - MAX_LINES_ABOVE, -1), -1):
        line = case.outline.lines[one]
        if line.owner is None and line.elements and line.rest[:1] in ("|", ">"):
            return one
        if line.owner is None and case.lines[one].strip() and begins_entry(case, one):
            return None
    return None


def shallow_lines(case: Case) -> Iterable[Repair]:
    """The lines of a text that are less indented than its other lines, indented as the least indented of them. A quote in such a line may
    cause a fault far below."""
    outline, last = case.outline.lines, case.span.start.line
    above = (one for one in range(last - 1, max(last - MAX_LINES_ABOVE, 0), -1) if case.lines[one].strip() and outline[one].owner is None
             and (outline[one - 1].owner is not None or outline[one - 1].rest[:1] in ("|", ">")))
    for number in (last, *above):
        if not begins_entry(case, number):
            yield from _indented_at(case, number)


def _indented_at(case: Case, number: int) -> Iterable[Repair]:
    lines, header = case.lines, _header_above(case, number)
    if header is None:
        return
    column = case.outline.lines[header].elements[-1].column

    def is_of_text(one: int) -> bool:
        return not lines[one].strip() or indent_of(lines[one]) > column or not begins_entry(case, one)
    body = [*range(header + 1, number), *takewhile(is_of_text, range(number, min(number + MAX_LINES_ABOVE, len(lines))))]
    indents = {one: indent_of(lines[one]) for one in body if lines[one].strip()}
    depth = min((indent for one, indent in indents.items() if indent > column and one != number), default=0)
    wrong = [one for one, indent in indents.items() if indent < depth or one == number]
    if depth and indents[number] < depth:
        more = depth - min(indents[one] for one in wrong)
        what = "script" if case.outline.lines[header].elements[-1].name == "run" else "text"
        yield case.of(f"indent the lines of the {what}", *(Edit(Span.at(Point(one, 0)), " " * more) for one in wrong))


def as_folded_text(case: Case) -> Iterable[Repair]:
    """A plain text in several lines that has a colon or a comment's sign inside, as a text whose lines are joined."""
    number, lines, outline = case.span.start.line, case.lines, case.outline.lines
    header = next((one for one in range(number, max(number - MAX_LINES_ABOVE, -1), -1)
                   if lines[one].strip() and begins_entry(case, one)), None)
    if header is None or outline[header].elements[-1].name is None or outline[header].rest[:1] in NO_PLAIN_TEXT:
        return
    key = outline[header].elements[-1]
    below = list(takewhile(lambda one: lines[one].strip() and indent_of(lines[one]) > key.column and not begins_entry(case, one),
                           range(header + 1, min(header + MAX_LINES_ABOVE, len(lines)))))
    if below and below[-1] >= number and key.name != "run":
        indent = "\n" + " " * (key.column + 2)
        text = " >-" + "".join(indent + one.strip() for one in (outline[header].rest, *(lines[each] for each in below)))
        yield case.replace('write it in lines, after ">-"', text,
                           Span(Point(header, key.end), Point(below[-1], len(lines[below[-1]]))))


def _lines_with_key(case: Case) -> Iterator[int]:
    """The fault's line and those above it up to an entry of a list, which begin with a key, the nearest first."""
    number = case.span.start.line
    for one in range(number, max(number - MAX_LINES_OF_ENTRY, -1), -1):
        elements = case.outline.lines[one].elements
        if elements and begins_entry(case, one):
            if elements[0].name is None and one < number:
                return
            if elements[0].name is not None:
                yield one


def entry_without_dash(case: Case) -> Iterable[Repair]:
    """A key where the entries of a list begin, with their dash. It belongs to the entry above instead if that has no such key."""
    topmost = {indent_of(case.lines[line]): line for line in _lines_with_key(case)}
    for column, first in topmost.items():
        if not _has_dash_beside(case, first, column):
            continue
        rest = list(takewhile(lambda one: not case.lines[one].strip() or indent_of(case.lines[one]) > column
                              or _is_key_at(case, one, column),
                              range(first + 1, min(first + MAX_LINES_OF_ENTRY, len(case.lines)))))
        more = [one for one in rest if case.lines[one].strip()] if any(_is_key_at(case, one, column) for one in rest) else []
        begun = case.of("add a dash", Edit(Span.at(Point(first, column)), "- "), *(Edit(Span.at(Point(one, 0)), "  ") for one in more))
        above = _keys_of_entry_above(case, first, column)
        keys = [first, *(one for one in rest if _is_key_at(case, one, column))]
        names = {case.outline.lines[one].elements[0].name for one in keys}
        if above and not above & names and not (above & OF_ONE_STEP and names & OF_ONE_STEP):
            if keys == [case.span.start.line]:
                yield from moved_line(case)
            lines = [one for one in (first, *rest) if case.lines[one].strip()]
            title = f"move it {destination(case, section_of(case, first, column + 2)[0], column + 2)}"
            yield case.of(title, *(Edit(Span.at(Point(one, 0)), "  ") for one in lines))
        yield begun


def keys_below_short_form(case: Case) -> Iterable[Repair]:
    """A section that is written as a text, on its key's line or below it, with keys of the section below: the text as its first key."""
    number, outline, own = case.span.start.line, case.outline.lines, indent_of(case.line)
    word = number - 1
    is_alone = word > 0 and not outline[word].elements and indent_of(case.lines[word]) == own
    header = word - is_alone
    key = outline[header].elements[-1] if header >= 0 and outline[header].elements else None
    if key is None or key.name not in SHORT_FORMS or key.column >= own or not _is_key_at(case, number, own):
        return
    first, shape = SHORT_FORMS[key.name]
    text = case.lines[word].strip() if is_alone else outline[header].rest
    if bool(outline[header].rest) == is_alone or not PLAIN_TEXT.fullmatch(text):
        return
    name, rest = outline[number].elements[0].name, outline[number].rest
    end = Point(header, len(case.lines[header]))
    if name == first and rest == text and not is_alone:
        yield case.replace(f'delete "{text}" after "{key.name}"', "", Span(Point(header, key.end), end), deletes=True)
    elif name != first and name in table()["shapes"][shape]["keys"]:
        begin = Span.at(Point(word, own)) if is_alone else Span(Point(header, key.end), end)
        entry = f"{first}: " if is_alone else "\n" + " " * own + f"{first}: {text}"
        yield case.replace(f'write "{first}" before "{text}"', entry, begin)


def first_entry_without_dash(case: Case) -> Iterable[Repair]:
    """The keys between a key without a value and its list, as the first entry of that list."""
    number, lines, outline = case.span.start.line, case.lines, case.outline.lines
    if not outline[number].elements or outline[number].elements[0].name is not None:
        return
    column = outline[number].elements[0].column
    above = [one for one in range(number - 1, max(number - MAX_LINES_OF_ENTRY, -1), -1) if lines[one].strip()]
    body = list(takewhile(lambda one: indent_of(lines[one]) > column, above))
    header = above[len(body)] if len(body) < len(above) else None
    if not body or header is None or indent_of(lines[header]) > column or outline[header].rest or not outline[header].elements:
        return
    is_deeper = all(outline[one].owner is not None or indent_of(lines[one]) >= column + 2 for one in body)
    if is_deeper and _is_key_at(case, body[-1], column + 2):
        yield case.of("add a dash", Edit(Span.on_line(body[-1], column, column + 2), "- "))


def key_with_dash(case: Case) -> Iterable[Repair]:
    """A key of the entry above that has a dash of its own, without it."""
    number, lines = case.span.start.line, case.lines
    elements = case.outline.lines[number].elements
    if len(elements) != 2 or elements[0].name is not None or elements[1].name is None:
        return
    column = elements[0].column
    if _keys_of_entry_above(case, number, column - 2):
        below = takewhile(lambda one: not lines[one].strip() or indent_of(lines[one]) >= elements[1].column,
                          range(number + 1, min(number + MAX_LINES_OF_ENTRY, len(lines))))
        edits = [Edit(Span.on_line(one, column, elements[1].column), "") for one in (number, *below) if lines[one].strip()]
        yield case.of("delete the dash", *edits)


def only_entry_without_dash(case: Case) -> Iterable[Repair]:
    """The only entry of a list of mappings, whose further keys are as deep as a dash makes them."""
    number = case.span.start.line
    above = next((one for one in range(number - 1, max(number - MAX_LINES_OF_ENTRY, -1), -1) if case.lines[one].strip()), 0)
    column = indent_of(case.line) - 2
    if number and _is_key_at(case, above, column) and case.outline.lines[above].rest:
        if case.outline.place(Point(above, column)).path[-1:] in (("include",), ("exclude",), ("steps",)):
            yield case.of("add a dash", Edit(Span.at(Point(above, column)), "- "))


def _keys_of_entry_above(case: Case, number: int, column: int) -> set[str | None]:
    """The keys of the entry of a list that begins above a line at a column."""
    found: set[str | None] = set()
    for one in range(number - 1, max(number - MAX_LINES_OF_ENTRY, -1), -1):
        elements = case.outline.lines[one].elements
        if elements and elements[0].column == column:
            return found | {element.name for element in elements[1:2]} if elements[0].name is None else set()
        found |= {element.name for element in elements[:1] if element.column == column + 2}
    return set()


def _is_key_at(case: Case, number: int, column: int) -> bool:
    elements = case.outline.lines[number].elements
    return bool(elements) and elements[0].name is not None and elements[0].column == column and begins_entry(case, number)


def _has_dash_beside(case: Case, number: int, column: int) -> bool:
    """Whether the next entry below a line, or the one above it, is an entry of a list at a column."""
    lines, outline = case.lines, case.outline.lines
    for numbers in (range(number + 1, min(number + MAX_LINES_OF_ENTRY, len(lines))),
                    range(number - 1, max(number - MAX_LINES_OF_ENTRY, -1), -1)):
        beside = next((one for one in numbers if lines[one].strip() and indent_of(lines[one]) <= column
                       and not _is_key_at(case, one, column)), None)
        if beside is not None and outline[beside].elements[:1] and outline[beside].elements[0].name is None:
            if outline[beside].elements[0].column == column:
                return True
    return False


def keys_with_dashes(case: Case) -> Iterable[Repair]:
    """The entries of a list beside the keys of a mapping, as keys too."""
    column = indent_of(case.line)
    lines, outline = case.lines, case.outline.lines
    number = case.span.start.line
    above = list(takewhile(lambda one: not lines[one].strip() or indent_of(lines[one]) >= column,
                           range(number - 1, max(number - MAX_LINES_OF_ENTRY, -1), -1)))
    below = list(takewhile(lambda one: not lines[one].strip() or indent_of(lines[one]) >= column,
                           range(number, min(number + MAX_LINES_OF_ENTRY, len(lines)))))
    entries = [one for one in (*reversed(above), *below) if outline[one].elements[:1] and outline[one].elements[0].column == column]
    dashes = [one for one in entries if outline[one].elements[0].name is None]
    place = case.outline.place(Point(number, column))
    shape = shape_at(case.file, place.path, (*place.around, {}))
    if not dashes or len(dashes) == len(entries) or shape is None or not ("keys" in shape or shape["free"]):
        return
    edits = []
    for one in dashes:
        text = lines[one][column + 1:].strip()
        is_word = PLAIN_KEY.fullmatch(text) is not None
        if not is_word and len(outline[one].elements) != 2:
            return
        edits.append(Edit(Span.on_line(one, column, len(lines[one].rstrip())), text + ":" * is_word))
    yield case.of("make it a mapping", *edits)


def with_comma(case: Case) -> Iterable[Repair]:
    """A comma between two values in brackets: after a quote or a bracket, or before a key."""
    number, column = case.span.start.line, case.span.start.column
    before, sign = case.line[:column].rstrip(), case.line[column:column + 1]
    if not before and number and case.lines[number - 1].strip():
        number -= 1
        before = case.lines[number].rstrip()
    key = WORD_BEFORE_COLON.search(before)
    semicolon = re.search(r";(?=\s+[\w-]+$)", before) if sign == ":" else None
    if semicolon and "{" in before:
        yield case.replace("write a comma", ",", Span.on_line(number, semicolon.start(), semicolon.end()))
    elif sign == ":" and key and "{" in before:
        yield case.replace(f'add a comma before "{key[1]}"', ",", Span.at(Point(number, len(before[:key.start()].rstrip()))))
    elif sign == ";" and _ends_value(before, case.lines[number]):
        yield case.replace("write a comma", ",", Span.on_line(case.span.start.line, column, column + 1))
    elif sign not in ("", ":", ",", "]", "}") and _ends_value(before, case.lines[number]):
        yield case.replace("add a comma", ",", Span.at(Point(number, len(before))))


def _ends_value(before: str, line: str) -> bool:
    """Whether the beginning of a line ends with a quote that closes another one, or with a bracket that isn't alone."""
    sign = before[-1:]
    return sign in ("'", '"') and line.count(sign) % 2 == 0 or sign in ("]", "}") and before.strip() != sign


def other_bracket(case: Case) -> Iterable[Repair]:
    """The bracket that closes the one that is open, in place of another."""
    number, column = case.span.start.line, case.span.start.column
    span = case.rest_span(number)
    open_signs = open_brackets(case.slice(Span(span.start, case.span.start))) if span and span.start < case.span.start else []
    if open_signs and case.line[column:column + 1] in CLOSERS.values():
        closer = CLOSERS[open_signs[-1]]
        yield case.replace(f'change to "{closer}"', closer, Span.on_line(number, column, column + 1))


def list_without_brackets(case: Case) -> Iterable[Repair]:
    """Several quoted texts after a key, as a list."""
    span = case.rest_span(case.span.start.line)
    if span and QUOTED_TEXTS.fullmatch(case.slice(span)):
        yield case.replace("make it a list", f"[{case.slice(span)}]", span)


def space_in_brackets(case: Case) -> Iterable[Repair]:
    """A key in brackets whose colon lacks the space after it, so that its value is part of it."""
    here = case.key
    match = KEY_WITHOUT_SPACE.fullmatch(case.slice(here.key.span)) if here and here.key else None
    if here and here.key and match and here.parent.is_flow and not here.value.value:
        at = Point(here.key.span.start.line, here.key.span.start.column + match.start(2))
        yield case.replace("add a space after the colon", " ", Span.at(at), is_safe=True)


REPAIRS: dict[str, tuple[Callable[[Case], Iterable[Repair]], ...]] = {
    "Y4": (keys_below_short_form, shallow_lines, key_with_dash, only_entry_without_dash, entry_without_dash, first_entry_without_dash,
           keys_with_dashes),
    "Y13": (keys_below_short_form, list_without_brackets, with_comma, other_bracket, shallow_lines, as_folded_text, key_with_dash,
            only_entry_without_dash, entry_without_dash, first_entry_without_dash, keys_with_dashes),
    **{code: (space_in_brackets,) for code in ("K1", "G11", "G13", "G15", "C2", "C5")},
}
