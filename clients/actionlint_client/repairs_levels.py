"""Repairs of lines that have the indentation of another level."""
from __future__ import annotations

from typing import Callable, Iterable, Iterator

from .paths import is_workflow
from .place import Outline
from .repair import Case, Edit, Found, Repair, first_entry, known_keys, tight, without_entry
from .syntax import shape_at
from .text import Point, Span
from .tree import Node, Path, last_line

MAX_LINES_ABOVE = 200
EVENT_OF_CALLS = (("on", "workflow_dispatch", "outputs"), ("on", "workflow_dispatch", "secrets"))
MAX_COLUMNS = 6
# In longer files no section is looked up.
MAX_LINES = 5_000


def moved_line(case: Case) -> Iterable[Repair]:
    """The line and those below it with the indentation of one of the lines above: first where a section knows its key, and there as deep as
    possible, since a key usually belongs to what it follows."""
    number, own = case.span.start.line, indent_of(case.line)
    if case.line.lstrip().startswith("--"):
        # the options of a command
        return
    above = case.outline.lines[max(number - MAX_LINES_ABOVE, 0):number]
    columns = {column for line in above if line.elements for column in (line.elements[-1].column, line.indent)} - {own}
    nearest = sorted(columns, key=lambda column: (abs(column - own), -column))[:MAX_COLUMNS]
    lines = range(number, _last_line(case, number, own) + 1)
    found = []
    for column in nearest:
        path, rank = section_of(case, number, column)
        title = f"move it {destination(case, path, column)}"
        found.append((rank, abs(column - own), -column if rank == 0 else 0, moved(case, title, lines, column - own)))
        if lines[1:] and column == min(indent_of(case.lines[line]) for line in lines[1:] if case.lines[line].strip()):
            found.append((rank, abs(column - own), 0, moved(case, title, lines[:1], column - own)))
    # Of those where a section knows it, only the nearest are likely.
    reach = min((distance for rank, distance, _, _ in found if rank == 0), default=None)
    likely = [one for one in found if reach is None or one[0] == 0 and one[1] == reach]
    yield from (repair for *_, repair in sorted(likely, key=lambda one: (one[0], one[2])))


def line_above(case: Case) -> Iterable[Repair]:
    """A key above the fault's line that lacks indentation, so that the keys beside it seem to be below no other, moved to their column."""
    number, own = case.span.start.line, indent_of(case.line)
    for above in range(number - 1, max(number - MAX_LINES_ABOVE, -1), -1):
        column = indent_of(case.lines[above])
        if case.lines[above].strip() and column <= own:
            elements = case.outline.lines[above].elements
            if column < own and elements and elements[0].name is not None:
                path, rank = section_of(case, above, own)
                if rank == 0 or rank == 1 and _is_below_empty_key(case, above, path):
                    yield moved(case, f'move "{elements[0].name}" {destination(case, path, own)}', [above], own - column)
            return


def deeper_lines_above(case: Case) -> Iterable[Repair]:
    """The first lines of a section that are deeper than several keys below them, with the indentation of these."""
    number, own = case.span.start.line, indent_of(case.line)
    first = number
    while first and (not case.lines[first - 1].strip() or indent_of(case.lines[first - 1]) > own):
        first -= 1
    filled = [line for line in range(first, number) if case.lines[line].strip()]
    after = next((indent_of(line) for line in case.lines[number + 1:] if line.strip() and indent_of(line) <= own), 0)
    if not filled or after < own or not first or indent_of(case.lines[first - 1]) >= own or number - first > MAX_LINES_ABOVE:
        return
    elements, column = case.outline.lines[filled[0]].elements, indent_of(case.lines[filled[0]])
    if elements and elements[0].name is not None and min(indent_of(case.lines[line]) for line in filled) == column:
        path, rank = section_of(case, filled[0], own)
        if rank == 0:
            edits = [Edit(Span.on_line(line, 0, column - own), "") for line in filled]
            yield case.of(f'move "{elements[0].name}" {destination(case, path, own)}', *edits)


def _is_below_empty_key(case: Case, number: int, path: Path) -> bool:
    """Whether the line above another one, which isn't deeper, is the key of a section without a value."""
    above = next((one for one in range(number - 1, -1, -1) if case.lines[one].strip()), None)
    found = case.outline.lines[above] if above is not None else None
    if found is None or not found.elements or found.rest:
        return False
    return found.elements[-1].name == path[-1] and found.elements[-1].column >= indent_of(case.lines[number])


def indent_of(line: str) -> int:
    return len(line) - len(line.lstrip(" "))


def _last_line(case: Case, number: int, own: int) -> int:
    """The last line that belongs to a line, without blank ones below it."""
    last = number
    for below in range(number + 1, len(case.lines)):
        if case.lines[below].strip():
            if indent_of(case.lines[below]) <= own:
                break
            last = below
    return last


def section_of(case: Case, number: int, column: int) -> tuple[Path, int]:
    """The path of the mapping that a line would be in at a column. With it, 0 if the section has the line's key and it isn't there yet,
    1 if any key can stand there, 2 otherwise."""
    elements = case.outline.lines[number].elements
    if number > MAX_LINES or not elements or elements[0].name is None:
        return (), 2
    lines = [*case.lines[:number], " " * column + case.lines[number].lstrip(" ")]
    place = Outline(lines).place(Point(number, column))
    levels = (*place.around, place.siblings)
    if elements[0].name in known_keys(case.file, place.path, levels, set(place.siblings)):
        return place.path, 0
    shape = shape_at(case.file, place.path, levels)
    return place.path, 1 if shape and shape["free"] and "keys" not in shape else 2


def destination(case: Case, path: Path, column: int) -> str:
    """Where a key is moved, in words."""
    if path[-1:] and isinstance(path[-1], int):
        return "to the step above" if path[-2:-1] == ("steps",) else "to the entry above"
    if is_workflow(case.file) and path[:-1] == ("jobs",):
        return f'to the job "{path[-1]}"'
    return f'below "{path[-1]}"' if path else "to the top level" if column == 0 else f"to column {column + 1}"


def moved(case: Case, title: str, lines: Iterable[int], by: int) -> Repair:
    """Lines with more or fewer spaces before them, except blank ones. The first alone if the others fit it then."""
    first, *others = lines
    below = min((indent_of(case.lines[line]) for line in others if case.lines[line].strip()), default=0)
    if below == indent_of(case.lines[first]) + by + 2:
        others = []
    edits = [Edit(Span.at(Point(line, 0)), " " * by) if by > 0 else Edit(Span.on_line(line, 0, -by), "")
             for line in (first, *others) if case.lines[line].strip()]
    return case.of(title, *edits)


def another_level(case: Case) -> Iterable[Repair]:
    """A key that its section doesn't have, moved to one that has it: in the value before it, the innermost first, or around it."""
    if case.key:
        yield from (repair for _, repair in moves(case, case.key))


def of_all_jobs(case: Case) -> Iterable[Repair]:
    """A key beside `jobs` that only a job has, moved to each job that lacks it."""
    here, jobs = case.key, case.at("jobs")
    if here is None or here.key is None or jobs is None or len(here.path) != 1 or not is_workflow(case.file) or jobs.is_flow:
        return
    if _has_variables(here):
        return
    entry = case.slice(Span(here.key.span.start, tight(case, here.value).end))
    lacking = [name for name, job in jobs.entries if here.key.value in case.known_keys(("jobs", name.value), job.names())]
    added = [first_entry(job, entry) for _, job in jobs.entries if job.entries and not job.is_flow]
    if lacking and len(added) == len(lacking) == len(jobs.entries):
        where = f'to the job "{lacking[0].value}"' if len(lacking) == 1 else "to each job"
        yield case.of(f'move "{here.key.value}" {where}', without_entry(case, here.parent, here.key), *added)


def entry_of_another(case: Case) -> Iterable[Repair]:
    """A key of an input, an output or a service that stands beside it, where it seems to be another one, moved to the one above."""
    here = case.value
    if here and here.key and len(here.path) > 1 and here.path[-2] in ("inputs", "outputs", "secrets", "services"):
        yield from (repair for path, repair in moves(case, here) if len(path) == len(here.path))


def event_of_calls(case: Case) -> Iterable[Repair]:
    """The event of a workflow that is called, in place of the one that is started by hand and has neither outputs nor secrets."""
    here, on = case.key, case.at("on")
    key = on.key("workflow_dispatch") if on else None
    if here and on and key and here.path in EVENT_OF_CALLS and on.get("workflow_call") is None:
        yield case.replace('change "workflow_dispatch" to "workflow_call"', "workflow_call", key.span)


def _has_variables(here: Found) -> bool:
    """Whether a key is written for that of variables."""
    return here.path[-1] == "environment" and bool(here.value.entries) and here.value.get("name") is None


def moves(case: Case, here: Found) -> Iterator[tuple[Path, Repair]]:
    """The sections that have a key, and the repairs that move it there."""
    if here.key is None or here.parent.is_flow or case.lines[here.key.span.start.line][:here.key.span.start.column].strip():
        return
    if _has_variables(here):
        return
    is_of_container = here.path[-2:-1] == ("container",) or here.path[-3:-2] == ("services",)
    if is_of_container and here.key.value == "name" and here.parent.get("image") is None:
        # the image
        return
    lines = range(here.key.span.start.line, last_line(here.value, case.lines) + 1)
    is_last = here.parent.entries[-1][0] is here.key
    for path, names, column in (*_sections_before(here), *_sections_around(case, here)):
        if here.key.value in case.known_keys(path, names):
            title = f'move "{here.key.value}" {destination(case, path, column)}'
            by = column - here.key.span.start.column
            is_outward = path == here.path[:len(path)] and not is_last
            yield path, _moved_after(case, title, lines, by, here, path) if is_outward else moved(case, title, lines, by)


def _moved_after(case: Case, title: str, lines: range, by: int, here: Found, path: Path) -> Repair:
    """The lines of a key after the entry of an outer mapping that they are in, since they would end the entries below them."""
    outer = case.at(*here.path[:len(path) + 1])
    assert outer
    end = last_line(outer, case.lines)
    text = "".join("\n" + case.lines[line][-by:] for line in lines)
    whole = Span(Point(lines[0], 0), Point(lines[-1] + 1, 0))
    return case.of(title, Edit(whole, ""), Edit(Span.at(Point(end, len(case.lines[end]))), text))


def _sections_before(here: Found) -> list[tuple[Path, list[str], int]]:
    """The block mappings at the end of the value before a key, or below a key before it that has no value."""
    number = next(number for number, (key, _) in enumerate(here.parent.entries) if key is here.key)
    if not number:
        return []
    key, node = here.parent.entries[number - 1]
    path: Path = (*here.path[:-1], key.value)
    if node.kind == "scalar" and not node.value and not node.style:
        return [(path, [], key.span.start.column + 2)]
    return [found for found in _at_the_end(node, path)][::-1]


def _at_the_end(node: Node, path: Path) -> Iterator[tuple[Path, list[str], int]]:
    while node.alias is None and not node.is_flow and (node.entries or node.items):
        if node.entries:
            key, below = node.entries[-1]
            yield path, node.names(), key.span.start.column
            path = (*path, key.value)
        else:
            below = node.items[-1]
            path = (*path, len(node.items) - 1)
        node = below


def _sections_around(case: Case, here: Found) -> list[tuple[Path, list[str], int]]:
    """The block mappings around a key's mapping, the innermost first."""
    around = [(here.path[:depth], case.at(*here.path[:depth])) for depth in range(len(here.path) - 2, -1, -1)]
    return [(path, node.names(), node.entries[0][0].span.start.column)
            for path, node in around if node is not None and node.kind == "mapping" and not node.is_flow]


REPAIRS: dict[str, tuple[Callable[[Case], Iterable[Repair]], ...]] = {
    "K1": (event_of_calls, another_level, of_all_jobs),
    "K4": (entry_of_another,),
    "Y4": (line_above, deeper_lines_above),
    "Y13": (line_above,),
    "G1": (another_level,),
}
