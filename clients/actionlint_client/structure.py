"""The structure of a file: its jobs and steps, its links, and the lines that belong together."""
from __future__ import annotations

import re
from typing import Iterator, NamedTuple
from urllib.parse import quote

from .paths import is_workflow
from .project import Project
from .text import Point, Span
from .tree import Node, last_line, walk

MAX_NAME_CHARACTERS = 80
# The name of a step that has nothing to be named by.
UNNAMED = "step"
# A scalar in double quotes with an escape, or what looks like one.
ESCAPED = re.compile(rb'(?:^|[:,\[{-])[ \t]*(?:[&!]\S+[ \t]+)?"[^"\\]*\\', re.M)
BETWEEN_WORDS = re.compile(r"[\s'\"]+")


class Part(NamedTuple):
    """A workflow, an action, a job or a step: its name, its kind, its span, and the span of its name."""

    name: str
    kind: str
    span: Span
    naming: Span
    parts: tuple[Part, ...]


class Named(NamedTuple):
    """A part without its place in the file's structure: its name, its kind, the name of what is around it, and the span of its name."""

    name: str
    kind: str
    around: str
    naming: Span


class _Known(NamedTuple):
    """The parts of a text."""

    data: bytes
    found: tuple[Named, ...]


class Link(NamedTuple):
    """A text that links to a file of the folder, or to an address."""

    span: Span
    file: str | None
    address: str | None


def part_of(project: Project, file: str) -> Part | None:
    """The workflow or the action, or None if the file has never been valid YAML."""
    tree, lines = project.tree(file), project.lines(file)
    if tree is None or tree.kind != "mapping":
        return None
    kind = "workflow" if is_workflow(file) else "action"
    if is_workflow(file):
        parts = tuple(_job(key, value, lines) for key, value in tree.entries_at("jobs"))
    else:
        parts = tuple(_steps(tree.get("runs", "steps"), lines))
    start = Point(0, 0)
    end = Point(len(lines) - 1, len(lines[-1]))
    name = tree.get("name")
    return Part(tree.text("name") or file.rpartition("/")[2], kind, Span(start, end), name.span if name else Span.at(start), parts)


def parts_with(project: Project, file: str, query: str, may_read: bool) -> list[Named]:
    """The parts of a file whose names contain a text in lower case. If the file may not be read, only those that are known already."""
    data = project.read(file) or b""
    known = project.memory.get(("parts", file))
    if not isinstance(known, _Known) or known.data != data:
        if not may_read or not _may_name(data, file, query):
            return []
        known = project.memory["parts", file] = _Known(data, tuple(_named(part_of(project, file), file)))
    return [part for part in known.found if query in part.name.lower()]


def _may_name(data: bytes, file: str, query: str) -> bool:
    """Whether a part of the file can have a name with a text in lower case. Names are words of the file, which may be on several lines,
    have quotes twice and escapes."""
    if query in file.lower() or query in UNNAMED or b"\\" in data and ESCAPED.search(data):
        return True
    text = data.decode("utf-8", "replace").lower()
    return all(word in text for word in BETWEEN_WORDS.split(query))


def _named(part: Part | None, around: str) -> Iterator[Named]:
    """A part and those in it."""
    if part is not None:
        yield Named(part.name, part.kind, around, part.naming)
        for inner in part.parts:
            yield from _named(inner, part.name)


def _job(key: Node, value: Node, lines: list[str]) -> Part:
    """A job. One that is an alias has no parts, since they are elsewhere."""
    steps = value.get("steps") if value.alias is None else None
    return Part(key.value, "job", Span(key.span.start, _end(value, lines)), key.span, tuple(_steps(steps, lines)))


def _steps(steps: Node | None, lines: list[str]) -> Iterator[Part]:
    for step in steps.items if steps and steps.alias is None else ():
        if step.kind != "mapping" or step.alias is not None:
            continue
        naming = next((node for key in ("name", "id", "uses", "run") if (node := step.get(key)) and node.kind == "scalar"), None)
        name = (naming.value.strip().split("\n")[0] if naming else "")[:MAX_NAME_CHARACTERS] or UNNAMED
        yield Part(name, "step", Span(step.span.start, _end(step, lines)), _within(naming or step, step, lines), ())


def _end(node: Node, lines: list[str]) -> Point:
    line = last_line(node, lines)
    return node.span.end if node.span.end.line == line else Point(line, len(lines[line]))


def _within(node: Node, outer: Node, lines: list[str]) -> Span:
    end = min(_end(node, lines), _end(outer, lines))
    return Span(node.span.start, max(end, node.span.start))


def links(project: Project, file: str) -> list[Link]:
    """The calls of a file: of files of the folder, and of other repositories on GitHub."""
    tree = project.tree(file)
    found = []
    for path, _, value in walk(tree) if tree else ():
        if path[-1] != "uses" or value.kind != "scalar":
            continue
        callee = project.callee(value.value, is_workflow(file) and len(path) == 3)
        address = None if callee else address_of(value.value)
        if callee or address:
            found.append(Link(value.span, callee, address))
    return found


def address_of(uses: str) -> str | None:
    """Where GitHub shows what a call of another repository names."""
    name, _, ref = uses.partition("@")
    owner, *rest = name.split("/")
    if uses.startswith((".", "docker:")) or not owner or not rest or not rest[0] or not ref or "$" in uses or " " in uses:
        return None
    kind = "blob" if rest[-1].endswith((".yml", ".yaml")) else "tree"
    return "https://github.com/" + quote("/".join([owner, rest[0], kind, ref, *rest[1:]]), errors="replace")


def folds(project: Project, file: str) -> list[tuple[int, int]]:
    """The first and the last lines of top-level keys, jobs and steps that take several lines."""
    tree, lines, part = project.tree(file), project.lines(file), part_of(project, file)
    found = [(key.span.start.line, last_line(value, lines)) for key, value in (tree.entries if tree else ())]
    for one in part.parts if part else ():
        found += [(inner.span.start.line, inner.span.end.line) for inner in (one, *one.parts)]
    return sorted({(first, last) for first, last in found if last > first})
