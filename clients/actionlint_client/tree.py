"""The tree of a YAML text with the places of its nodes, as actionlint-facts reads it."""
from __future__ import annotations

import re
from dataclasses import dataclass, field
from functools import cached_property
from typing import Any, Iterator, Union

from .facts_tree import Json
from .text import BytePlaces, Span

# The signs with which scalars begin.
SIGNS = {"plain": "", "single": "'", "double": '"', "literal": "|", "folded": ">"}
# What is between scalars besides brackets, anchors and aliases; and the name of one of these.
BETWEEN = re.compile(rb"(?:[\s,:?\[\]{}-]|#[^\r\n]*)*")
NAME = re.compile(rb"[&*]([^\s,\[\]{}]+)")
# The entries and the items of scalars.
NOTHING: list[Any] = []

Path = tuple[Union[str, int], ...]


@dataclass
class Node:
    """A node, from one byte of the text up to another. An alias has the contents of its anchor, at its own place, and that node as
    `anchored`. `schema_class` is the `class` of a scalar in docs/FACTS.md, and `pieces` tell where the bytes of its text come from, as
    `places` there."""

    kind: str
    start: int
    end: int
    places: BytePlaces = field(repr=False)
    value: str = ""
    style: str = ""
    schema_class: str = ""
    entries: list[tuple[Node, Node]] = field(default_factory=list)
    items: list[Node] = field(default_factory=list)
    anchor: str | None = None
    alias: str | None = None
    anchored: Node | None = None
    # Where the anchor or the alias begins.
    sign: int = 0
    is_flow: bool = False
    pieces: list[list[int]] = field(default_factory=list)

    @cached_property
    def span(self) -> Span:
        return self.places.span(self.start, self.end)

    @cached_property
    def _by_key(self) -> dict[str, tuple[Node, Node]]:
        """The entries by their keys, the first of those with equal keys."""
        return {name.value: (name, value) for name, value in reversed(self.entries)}

    @property
    def origin(self) -> Node:
        """Where its contents are written: the node at the anchor of an alias, else itself."""
        return self.anchored or self

    @property
    def is_null(self) -> bool:
        return self.schema_class == "null"

    def get(self, *path: str | int) -> Node | None:
        """The node at the end of a path of keys and positions."""
        node: Node | None = self
        for step in path:
            if node is None:
                return None
            if isinstance(step, int):
                node = node.items[step] if step < len(node.items) else None
            else:
                found = node._by_key.get(step)
                node = found[1] if found else None
        return node

    def key(self, key: str) -> Node | None:
        found = self._by_key.get(key)
        return found[0] if found else None

    def text(self, *path: str | int) -> str | None:
        """The text of the scalar at the end of a path."""
        node = self.get(*path)
        return node.value if node and node.kind == "scalar" else None

    def texts(self, *path: str | int) -> list[str]:
        """The text of the scalar at the end of a path, or those of its list."""
        node = self.get(*path)
        if node is None or node.kind == "mapping":
            return []
        return [node.value] if node.kind == "scalar" else [item.value for item in node.items if item.kind == "scalar"]

    def entries_at(self, *path: str | int) -> list[tuple[Node, Node]]:
        """The entries of the mapping at the end of a path."""
        node = self.get(*path)
        return node.entries if node else NOTHING

    def items_at(self, *path: str | int) -> list[Node]:
        """The items of the list at the end of a path."""
        node = self.get(*path)
        return node.items if node else NOTHING

    def names(self, *path: str | int) -> list[str]:
        """The keys of the mapping at the end of a path."""
        return [key.value for key, _ in self.entries_at(*path)]


def tree_of(root: Json, data: bytes) -> Node:
    """The tree of a text, from what actionlint-facts answers."""
    return _Builder(data).node(root, False)


def walk(node: Node, path: Path = ()) -> Iterator[tuple[Path, Node | None, Node]]:
    """Each node below one with its path and the node of its key, in the order of the text, except the contents of aliases."""
    if node.alias is not None:
        return
    for key, value in node.entries:
        yield (*path, key.value), key, value
        yield from walk(value, (*path, key.value))
    for number, item in enumerate(node.items):
        yield (*path, number), None, item
        yield from walk(item, (*path, number))


def last_line(node: Node, lines: list[str]) -> int:
    below = [value for _, value in node.entries] or node.items
    if node.alias is None and not node.is_flow and below:
        return last_line(below[-1], lines)
    line = node.span.end.line
    while node.style in ("|", ">") and line > node.span.start.line and not lines[line].strip():
        line -= 1
    # If a key ends a text without a line feed, its value is past the end.
    return min(line, len(lines) - 1)


class _Builder:
    """Makes the nodes of a text in its order, with the names and places of anchors and aliases, which stand between scalars."""

    def __init__(self, data: bytes):
        self._data, self._places = data, BytePlaces(data)
        # Where the last scalar, bracket, anchor or alias ends.
        self._end = self._places.begin
        # The nodes with anchors, by where they begin.
        self._anchored: dict[int, Node] = {}

    def node(self, said: Json, in_flow: bool) -> Node:
        if "shared" not in said:
            return self._written(said, in_flow)
        # What an alias stands for comes before it.
        if known := self._anchored.get(said["start"]):
            return self._alias(known)
        name, sign, _ = self._name()
        node = self._anchored[said["start"]] = self._written(said, in_flow)
        node.anchor, node.sign = name, sign
        return node

    def _written(self, said: Json, in_flow: bool) -> Node:
        return self._scalar(said) if said["kind"] == "scalar" else self._collection(said, in_flow)

    def _scalar(self, said: Json) -> Node:
        self._end = max(self._end, said["end"])
        return Node("scalar", said["start"], said["end"], self._places, said["text"], SIGNS[said["style"]], said["class"], NOTHING,
                    NOTHING, pieces=said["places"])

    def _collection(self, said: Json, in_flow: bool) -> Node:
        start = said["start"]
        has_brackets = self._data[start:start + 1] in (b"[", b"{")
        is_flow = in_flow or has_brackets
        node = Node(said["kind"], start, said["end"], self._places, is_flow=is_flow)
        if has_brackets:
            self._end = max(self._end, start + 1)
        for key, value in said.get("entries", NOTHING):
            node.entries.append((self.node(key, is_flow), self.node(value, is_flow)))
        for item in said.get("items", NOTHING):
            node.items.append(self.node(item, is_flow))
        self._end = max(self._end, said["end"])
        return node

    def _alias(self, known: Node) -> Node:
        name, start, end = self._name()
        return Node(known.kind, start, end, self._places, known.value, known.style, known.schema_class, known.entries, known.items,
                    alias=name, anchored=known, sign=start)

    def _name(self) -> tuple[str, int, int]:
        """The next anchor or alias: its name, and where it begins and ends."""
        between = BETWEEN.match(self._data, self._end)
        start = between.end() if between else self._end
        found = NAME.match(self._data, start)
        self._end = found.end() if found else start
        return (found[1].decode("utf-8", "replace") if found else ""), start, self._end
