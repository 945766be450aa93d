"""A fault to be repaired, with its place in the text and the tree, and the edits that repairs consist of."""
from __future__ import annotations

import re
from bisect import bisect_right
from dataclasses import dataclass, field
from functools import cached_property
from typing import Iterable, Iterator, NamedTuple

from .entries import Entry
from .facts_tree import Chunk, paths_in
from .faults import Fault
from .names import names
from .paths import is_workflow
from .place import Outline
from .positions import span_of
from .project import Project
from .scripts import default_shell, shell_of
from .syntax import is_refused_beside, shape_at, takes_filter
from .text import BYTE_ORDER_MARK, BytePlaces, Places, Point, Span
from .tree import Node, Path, last_line, walk

NEEDS_QUOTES = re.compile(r"^[!&*\[\]{}|>@`%'\"#,?-]|: | #|:$")
FLOW_SIGNS = re.compile(r"[\[\]{},]")
COMMENT = re.compile(r"(?<!\s)\s+(?:#.*)?$")
Levels = tuple[dict[str, str], ...]


class Edit(NamedTuple):
    """New text in place of a span, which may be empty."""

    span: Span
    text: str


@dataclass(frozen=True)
class Repair:
    """What can be done about a fault: edits by file, and new files. A safe one means what was written, or is the only reading that the
    fault leaves; any other is a guess. One that deletes something comes after all others. A last resort is offered only if nothing else
    repairs the fault."""

    title: str
    edits: dict[str, tuple[Edit, ...]]
    new_files: dict[str, str] = field(default_factory=dict)
    is_last_resort: bool = False
    is_safe: bool = False
    deletes: bool = False


class Found(NamedTuple):
    """A node of the tree with its path, the node of its key, and the mapping or list around it."""

    path: Path
    key: Node | None
    value: Node
    parent: Node


class Chain(NamedTuple):
    """A chain of names in an expression, `*` for an index that isn't a string, and its place."""

    names: tuple[str, ...]
    span: Span


class Nodes:
    """The nodes of a tree by their places."""

    def __init__(self, tree: Node | None):
        self.tree = tree
        self.keys: dict[Point, Found] = {}
        self.values: dict[Point, Found] = {}
        self._scalars: list[Found] = []
        if tree is None:
            return
        self.values[tree.span.start] = Found((), None, tree, tree)
        parents: dict[Path, Node] = {(): tree}
        for path, key, value in walk(tree):
            parents[path] = value
            found = Found(path, key, value, parents[path[:-1]])
            if key is not None:
                self.keys.setdefault(key.span.start, found)
            self.values.setdefault(value.span.start, found)
            if value.kind == "scalar" and value.span.start < value.span.end:
                self._scalars.append(found)
        self._starts = [found.value.span.start for found in self._scalars]

    def scalar_at(self, point: Point) -> Found | None:
        """The first scalar that contains a point or ends there."""
        number = bisect_right(self._starts, point) - 1 if self._scalars else -1
        found = [self._scalars[one] for one in (number - 1, number) if one >= 0]
        return next((one for one in found if one.value.span.holds(point)), None)


class Case:
    """A fault of a file, with its arguments, the names before it and its span, and the text and the tree of the file."""

    def __init__(self, project: Project, fault: Fault, entry: Entry):
        self.project, self.file, self.code, self.entry = project, fault.path, entry.code, entry
        self.arguments, self.names_before = fault.arguments, fault.of
        self.text = project.text(fault.path)
        self.lines = project.lines(fault.path)
        self.span = span_of(fault, self.lines, (project.read(fault.path) or b"").startswith(BYTE_ORDER_MARK))

    @property
    def written(self) -> str:
        """The text at the fault's place."""
        return self.slice(self.span)

    @cached_property
    def tree(self) -> Node | None:
        return self.project.tree(self.file)

    @cached_property
    def outline(self) -> Outline:
        return Outline(self.lines)

    @property
    def line(self) -> str:
        return self.line_at(self.span.start.line)

    def line_at(self, number: int) -> str:
        """A line of the text, or an empty one past its end."""
        return self.lines[number] if number < len(self.lines) else ""

    @property
    def key(self) -> Found | None:
        """The entry whose key begins at the fault."""
        return self.nodes.keys.get(self.span.start)

    @property
    def value(self) -> Found | None:
        """The outermost node that begins at the fault."""
        return self.nodes.values.get(self.span.start)

    @property
    def scalar(self) -> Found | None:
        """The scalar value that contains the fault."""
        return self.nodes.scalar_at(self.span.start)

    @property
    def chain(self) -> Chain:
        """The chain that has the fault, if it is on one line: the one in an index, not the one around it."""
        return self._chains_here[-1]

    @property
    def outer_chain(self) -> Chain:
        """The same, but the one around an index."""
        return self._chains_here[0]

    @cached_property
    def _chains_here(self) -> list[Chain]:
        start = self.span.start
        found = [one for one in self.chains if one.span.start <= start < one.span.end and one.span.start.line == one.span.end.line]
        return found or [Chain((), self.span)]

    @cached_property
    def chains(self) -> list[Chain]:
        """Those of the expression that has the fault, in the order of the text."""
        here = self.scalar
        place = self.project.expressions(self.file).get(here.value.start) if here else None
        if here is None or place is None:
            return []
        offset = here.value.places.offset(self.span.start)
        return list(chains_of((chunk for chunk in place.chunks if chunk.start <= offset <= chunk.end), here.value.places))

    def chains_between(self, start: int, end: int) -> Iterator[Chain]:
        """Those of the scalars that begin between two bytes of the file."""
        if self.tree:
            for place in self.project.expressions(self.file).values():
                if start <= place.start < end:
                    yield from chains_of(place.chunks, self.tree.places)

    @cached_property
    def nodes(self) -> Nodes:
        known = self.project.memory.get(("nodes", self.file))
        if not isinstance(known, Nodes) or known.tree is not self.tree:
            known = self.project.memory["nodes", self.file] = Nodes(self.tree)
        return known

    def levels(self, path: Path) -> Levels:
        """The keys of each mapping on the way to a node."""
        return levels_of(self.tree, path)

    def at(self, *path: str | int) -> Node | None:
        return self.tree.get(*path) if self.tree else None

    @property
    def job(self) -> str | None:
        here = self.key or self.scalar or self.value
        path = here.path if here else ()
        return str(path[1]) if is_workflow(self.file) and path[:1] == ("jobs",) and len(path) > 1 else None

    def shell_of(self, script: Found) -> str:
        """The name of the shell of a step's script, or nothing if it isn't known."""
        assert self.tree
        return shell_of(script.parent, default_shell(self.tree, self.at("jobs", self.job) if self.job else None))

    def slice(self, span: Span) -> str:
        lines = self.lines[span.start.line:span.end.line + 1]
        if not lines:
            return ""
        lines[-1] = lines[-1][:span.end.column]
        lines[0] = lines[0][span.start.column:]
        return "\n".join(lines)

    def of(self, title: str, *edits: Edit, is_safe: bool = False, deletes: bool = False) -> Repair:
        """A repair of this file alone."""
        return Repair(title, {self.file: edits}, is_safe=is_safe, deletes=deletes)

    def replace(self, title: str, text: str, span: Span | None = None, is_safe: bool = False, deletes: bool = False) -> Repair:
        """Replaces the text at the fault's place, or at another one."""
        return self.of(title, Edit(span or self.span, text), is_safe=is_safe, deletes=deletes)

    def known_keys(self, path: Path, beside: Iterable[str] = ()) -> list[str]:
        """The keys that the mapping at a path can have beside others, by GitHub's syntax too."""
        return known_keys(self.file, path, levels_of(self.tree, (*path, "")), set(beside))

    def rest_span(self, line: int) -> Span | None:
        """What follows the dashes and the key of a line, without a comment."""
        found = self.outline.lines[line] if line < len(self.outline.lines) else None
        if found is None or found.owner is not None:
            return None
        text = self.lines[line]
        start = found.elements[-1].end if found.elements else found.indent
        start += len(text[start:]) - len(text[start:].lstrip())
        end = start + len(COMMENT.sub("", text[start:]))
        return Span.on_line(line, start, end) if end > start else None


def chains_of(chunks: Iterable[Chunk], places: BytePlaces) -> Iterator[Chain]:
    """The chains of names in expressions."""
    for chunk in chunks:
        for part, words in paths_in(chunk.tree) if chunk.tree else ():
            yield Chain(tuple(word.text for word in words), places.span(part.start, part.end))


def known_keys(file: str, path: Path, levels: Levels, beside: set[str]) -> list[str]:
    """The keys that the mapping at a path can have beside others, by GitHub's syntax too, except those that are there."""
    shape = shape_at(file, path, levels)
    if shape is None or "keys" not in shape:
        return []
    section, rows = str(shape["section"]), shape["keys"]
    barred = {row["clash"] for key, row in rows.items() if key in beside} | beside
    found = [key for key, row in rows.items() if key not in barred and row["clash"] not in beside
             and not is_refused_beside(section, key, beside)]
    if section == "event":
        return [key for key in found if takes_filter(str(path[-1]), key)]
    if section == "on":
        found += [name for name in names()["events"] if name not in beside and name not in rows]
    return found


def levels_of(tree: Node | None, path: Path) -> Levels:
    """The keys of each mapping on the way to a node, with the texts of their values."""
    found: list[dict[str, str]] = []
    node = tree
    for step in path:
        found.append({key.value: value.value for key, value in node.entries} if node else {})
        node = node.get(step) if node else None
    return tuple(found)


def quoted(text: str) -> str:
    """A text in single quotes."""
    return "'" + text.replace("'", "''") + "'"


def in_quotes(text: str, style: str) -> str:
    """A part of a scalar's text as the scalar's quotes in YAML ask for."""
    return text.replace("'", "''") if style == "'" else text.replace('"', '\\"') if style == '"' else text


def without_quotes(text: str, style: str) -> str:
    """A part of a scalar without what the scalar's quotes in YAML ask for."""
    return text.replace("''", "'") if style == "'" else text.replace('\\"', '"') if style == '"' else text


def as_scalar(text: str, style: str, in_flow: bool) -> str:
    """A text as a value: in quotes if the old one had some, or if YAML would read it differently without."""
    needs_quotes = style in ("'", '"') or NEEDS_QUOTES.search(text) or in_flow and FLOW_SIGNS.search(text)
    return quoted(text) if needs_quotes else text


def is_within_flow(case: Case, path: Path) -> bool:
    """Whether the node at a path is in a flow sequence or mapping."""
    nodes = (case.at(*path[:depth]) for depth in range(len(path)))
    return any(node is not None and node.is_flow for node in nodes)


def first_entry(mapping: Node, entry: str) -> Edit:
    """An entry at the start of a mapping; its further lines are indented with it."""
    start = mapping.span.start
    if mapping.is_flow:
        start = Point(start.line, start.column + 1)
        return Edit(Span.at(start), entry + (", " if mapping.entries else ""))
    start = mapping.entries[0][0].span.start if mapping.entries else start
    indent = "\n" + " " * start.column
    return Edit(Span.at(start), entry.replace("\n", indent) + indent)


def entries_of(node: Node) -> str:
    """How many entries a node has, in words for a title."""
    count = len(node.entries) or len(node.items)
    return "" if node.kind == "scalar" else f", with its {count} {'entry' if count == 1 else 'entries'}"


def next_entry(case: Case, mapping: Node, key: str, entry: str) -> Edit:
    """A new entry after another one of a mapping."""
    name, value = next((name, value) for name, value in mapping.entries if name.value == key)
    if mapping.is_flow:
        return Edit(Span.at(value.span.end), ", " + entry)
    line = last_line(value, case.lines)
    end = Point(line, len(case.lines[line]))
    return Edit(Span.at(end), ("\n" + entry).replace("\n", "\n" + " " * name.span.start.column))


def without_entry(case: Case, mapping: Node, key: Node) -> Edit:
    """A mapping without one of its entries, which isn't the only one."""
    number = next(number for number, (name, _) in enumerate(mapping.entries) if name is key)
    value = mapping.entries[number][1]
    has_next = number + 1 < len(mapping.entries)
    if mapping.is_flow:
        if has_next:
            return Edit(Span(key.span.start, mapping.entries[number + 1][0].span.start), "")
        start = mapping.entries[number - 1][1].span.end if number else key.span.start
        return Edit(Span(start, value.span.end), "")
    line = last_line(value, case.lines)
    if case.lines[key.span.start.line][:key.span.start.column].strip() and has_next:
        return Edit(Span(key.span.start, mapping.entries[number + 1][0].span.start), "")
    if line + 1 < len(case.lines):
        return Edit(Span(Point(key.span.start.line, 0), Point(line + 1, 0)), "")
    above = max(key.span.start.line - 1, 0)
    return Edit(Span(Point(above, len(case.lines[above])), Point(line, len(case.lines[line]))), "")


def without_key(case: Case, mapping: Node, name: str) -> Edit:
    """A mapping without the entry that has a key, which isn't the only one."""
    key = mapping.key(name)
    assert key
    return without_entry(case, mapping, key)


def moved_out(case: Case, here: Found, outer: Node) -> Edit:
    """A mapping that is the value of a key of an outer one without an entry, or the outer one without it if that is the only entry."""
    assert here.key
    if len(here.parent.entries) > 1:
        return without_entry(case, here.parent, here.key)
    return without_key(case, outer, str(here.path[-2]))


def indented(case: Case, entries: Iterable[tuple[Node, Node]], by: str) -> list[Edit]:
    """Edits that put a text before the lines of entries: for `- `, before the first line only, and as many spaces before the others."""
    edits = []
    for key, value in entries:
        column = key.span.start.column if by.strip() else 0
        lines = range(key.span.start.line, last_line(value, case.lines) + 1)
        edits += [Edit(Span.at(Point(line, column)), by if line == lines[0] else " " * len(by)) for line in lines]
    return edits


def tight(case: Case, node: Node) -> Span:
    """The span of a node without the lines after it."""
    line = last_line(node, case.lines)
    return node.span if node.span.end.line == line else Span(node.span.start, Point(line, len(case.lines[line])))


def replaced(text: str, edits: Iterable[Edit]) -> str:
    """A text after edits whose spans don't overlap."""
    places = Places(text)
    for edit in sorted(edits, key=lambda edit: edit.span.start, reverse=True):
        text = text[:places.offset(edit.span.start)] + edit.text + text[places.offset(edit.span.end):]
    return text
