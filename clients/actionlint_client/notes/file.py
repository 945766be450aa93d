"""What a rule knows: a file as a tree of YAML with its expressions, and the files beside it."""
from __future__ import annotations

import json
import re
from bisect import bisect_right
from dataclasses import dataclass
from functools import cached_property, lru_cache
from pathlib import Path
from typing import Any, Callable, Iterator, NamedTuple

from ..entries import Entry
from ..facts_tree import Expression, Place, Word, inner
from ..facts_tree import Path as Dotted
from ..tree import Node, walk

HERE = Path(__file__).parent
_SIGNS = re.compile(r"[^A-Za-z]")


class Finding(NamedTuple):
    """A note: its code, the texts that its message names, and a span of bytes."""

    start: int
    end: int
    code: str
    arguments: tuple[str, ...]


def note(code: str, part: Node | Expression, *arguments: str) -> Finding:
    """A note on what is written. For an alias that is at its anchor."""
    origin = part.origin if isinstance(part, Node) else part
    return Finding(origin.start, origin.end, code, arguments)


def table(name: str) -> Any:
    """A table of this package. Its `sources` say where the rows come from, and on which day they were true."""
    return json.loads((HERE / f"{name}.json").read_text(encoding="utf-8"))


@dataclass
class File:
    """A workflow or an action. `is_there` says whether the folder on disk has a file, and `deprecated` what the action in a folder says of
    its deprecated inputs, by their names in lower case."""

    path: str
    root: Node
    places: list[Place]
    is_there: Callable[[str], bool] = lambda path: True
    deprecated: Callable[[str], dict[str, str]] = lambda folder: {}

    @cached_property
    def is_workflow(self) -> bool:
        return self.path.startswith(".github/workflows/")

    @cached_property
    def nodes(self) -> list[Node]:
        """The root and all nodes below it, without keys and the contents of aliases."""
        return [self.root, *(node for _, _, node in walk(self.root))]

    @cached_property
    def jobs(self) -> list[tuple[Node, Node]]:
        """The ids of jobs and the jobs, as far as these are mappings."""
        return [(key, job) for key, job in self.root.entries_at("jobs") if job.kind == "mapping"] if self.is_workflow else []

    @cached_property
    def events(self) -> list[tuple[Node, Node | None]]:
        """The names of events, and what is below each."""
        on = self.root.get("on") if self.is_workflow else None
        if on is None:
            return []
        if on.kind == "mapping":
            return [(key, value) for key, value in on.entries]
        return [(one, None) for one in (on.items if on.kind == "sequence" else [on]) if one.kind == "scalar" and not one.is_null]

    @cached_property
    def inputs(self) -> list[tuple[str, Node, Node]]:
        """The inputs of workflow_dispatch and workflow_call: the event, the name, and what it is."""
        return [(event.value, key, value) for event, below in self.events
                if event.value in ("workflow_dispatch", "workflow_call") and below and (declared := below.get("inputs"))
                for key, value in declared.entries]

    @cached_property
    def steps(self) -> list[tuple[Node | None, Node]]:
        """The steps, each with its job; an action's have none."""
        jobs: list[tuple[Node | None, Node | None]] = [(job, job.get("steps")) for _, job in self.jobs]
        lists = jobs if self.is_workflow else [(None, self.root.get("runs", "steps"))]
        return [(job, step) for job, steps in lists if steps for step in steps.items if step.kind == "mapping"]

    @cached_property
    def _by_span(self) -> dict[tuple[int, int], Place]:
        return {(place.start, place.end): place for place in self.places}

    def place(self, node: Node) -> Place | None:
        """The expressions of a scalar, if it has some."""
        return self._by_span.get((node.origin.start, node.origin.end))

    def expressions(self) -> Iterator[Expression]:
        """The expressions that have a tree."""
        return (chunk.tree for place in self.places for chunk in place.chunks if chunk.tree)

    @cached_property
    def expressions_by_job(self) -> list[tuple[Node, list[Expression]]]:
        """The jobs, or an action as a whole, each with its expressions."""
        owners = [job for _, job in self.jobs] if self.is_workflow else [self.root]
        owners.sort(key=lambda owner: owner.start)
        starts = [owner.start for owner in owners]
        found: list[tuple[Node, list[Expression]]] = [(owner, []) for owner in owners]
        for place in self.places:
            number = bisect_right(starts, place.start) - 1
            if number >= 0 and place.start < owners[number].end:
                found[number][1].extend(chunk.tree for chunk in place.chunks if chunk.tree)
        return found

    def whole(self, node: Node | None) -> Expression | None:
        """The expression that a scalar is as a whole: `${{ .. }}` without anything outside."""
        place = self.place(node) if node else None
        if node is None or place is None or len(place.chunks) != 1:
            return None
        text = node.value.strip()
        return place.chunks[0].tree if text.startswith("${{") and text.endswith("}}") else None


def names_of(expression: Expression) -> list[str]:
    """The names of a path in lower case, such as `github`, `event`, and `*` for all properties. Empty for no path or a computed index."""
    expression = inner(expression)
    if isinstance(expression, Word) and expression.kind == "name":
        return [expression.text.lower()]
    if not isinstance(expression, Dotted) or not (names := names_of(expression.base)):
        return []
    for step in expression.steps:
        literal = text_of(step.index) if step.index else None
        names.append("*" if step.kind == "all" else step.text.lower() if step.kind == "property" else (literal or "").lower())
    return names if all(names) else []


def text_of(expression: Expression) -> str | None:
    """The text of a string literal."""
    expression = inner(expression)
    if isinstance(expression, Word) and expression.kind == "string":
        return expression.text[1:-1].replace("''", "'")
    return None


def has_expression(text: str) -> bool:
    return "${{" in text


def is_slip(name: str, known: str) -> bool:
    """Whether a name differs from another by one letter, or by two that changed places. Digits and signs are no slips."""
    if name == known or abs(len(name) - len(known)) > 1 or _SIGNS.sub("", name) == _SIGNS.sub("", known):
        return False
    first = next((i for i, (a, b) in enumerate(zip(name, known)) if a != b), min(len(name), len(known)))
    rest, other = name[first:], known[first:]
    swapped = len(rest) > 1 and len(other) > 1 and rest[:2] == other[1::-1] and rest[2:] == other[2:]
    return rest[1:] == other[1:] or rest[1:] == other or rest == other[1:] or swapped


class NoNotes(Exception):
    """The program that the notes need is missing, or could not go on."""


@lru_cache(maxsize=None)
def entries_of_notes() -> dict[str, Entry]:
    """The entries of docs/NOTES.md by their codes. make_tables.py writes notes.json."""
    return {row["code"]: Entry(**row) for row in table("notes")}


def entry_of_note(code: str) -> Entry:
    return entries_of_notes()[code]
