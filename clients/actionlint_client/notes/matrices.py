"""Rows of matrices: values that are there twice, and values that no row has."""
from __future__ import annotations

from typing import Any, Iterator

from ..facts_tree import Chain, Expression, inner
from ..facts_tree import walk as parts_of
from ..tree import Node
from .file import File, Finding, has_expression, names_of, note, text_of

OPTIONS = ("include", "exclude")


def rows(job: Node) -> list[tuple[Node, Node]]:
    """The rows of a job's matrix, as far as they are lists."""
    matrix = job.get("strategy", "matrix")
    return [(key, row) for key, row in matrix.entries if key.value not in OPTIONS and row.kind == "sequence"] if matrix else []


def is_literal(job: Node) -> bool:
    """Whether a job has a matrix, and each of its values is written there."""
    matrix = job.get("strategy", "matrix")
    return matrix is not None and matrix.kind == "mapping" and _is_written(matrix)


def _is_written(node: Node) -> bool:
    below = [*node.items, *(one for entry in node.entries for one in entry)]
    return not has_expression(node.value) and all(map(_is_written, below))


def values_of(job: Node, names: list[str]) -> list[Node]:
    """The nodes that `matrix` can have under these names in lower case: those of the row, and those of the entries of `include`."""
    matrix = job.get("strategy", "matrix")
    if matrix is None or not names or "*" in names:
        return []
    found = [item for key, row in rows(job) if key.value.lower() == names[0] for item in row.items]
    found += [value for entry in matrix.items_at("include") for key, value in entry.entries if key.value.lower() == names[0]]
    for name in names[1:]:
        found = [value for node in found for key, value in node.entries if key.value.lower() == name]
    return found


def repeated_values(file: File) -> Iterator[Finding]:
    """N21: a row of the matrix, a value of a row, or a job under `needs` that is there twice. An alias is where it stands."""
    for _, job in file.jobs:
        named = [key for key, _ in job.entries_at("strategy", "matrix")]
        for items in [*(row.items for _, row in rows(job)), job.items_at("needs"), named]:
            seen: set[tuple[Any, ...]] = set()
            for item in items:
                value, text = _value(item), _in_a_line(item)
                if value in seen and not has_expression(text):
                    yield Finding(item.start, item.end, "N21", (text,))
                seen.add(value)


def _value(node: Node) -> tuple[Any, ...]:
    """What two equal values have in common."""
    below: list[Any] = [(key.value, _value(value)) for key, value in node.entries] or [_value(item) for item in node.items]
    return node.kind, node.schema_class, node.value, *below


def _in_a_line(node: Node) -> str:
    if node.kind == "mapping":
        return "{" + ", ".join(f"{key.value}: {_in_a_line(value)}" for key, value in node.entries) + "}"
    return "[" + ", ".join(map(_in_a_line, node.items)) + "]" if node.kind == "sequence" else node.value


def excluded_values(file: File) -> Iterator[Finding]:
    """N20: a value under `exclude` that its row doesn't have."""
    for _, job in file.jobs:
        exclude = job.items_at("strategy", "matrix", "exclude")
        known = {key.value.lower(): _texts(row.items) for key, row in rows(job) if exclude}
        for key, value in (entry for one in exclude for entry in one.entries):
            texts = known.get(key.value.lower())
            if texts and value.kind == "scalar" and not has_expression(value.value) and _folded(value.value) not in texts:
                yield note("N20", value, f"matrix.{key.value}", value.value)


def compared_values(file: File) -> Iterator[Finding]:
    """N20: a text with which a value of the matrix is compared, and which no row has."""
    for job, trees in file.expressions_by_job:
        if not is_literal(job):
            continue
        known: dict[tuple[str, ...], set[str]] = {}
        for part in (part for tree in trees for part in parts_of(tree)):
            # (what is left unequal on purpose is often a row that went)
            if isinstance(part, Chain) and len(part.rest) == 1 and part.rest[0][0] == "==":
                yield from _never_equal(job, known, part.first, part.rest[0][1])
                yield from _never_equal(job, known, part.rest[0][1], part.first)


def _never_equal(job: Node, known: dict[tuple[str, ...], set[str]], one: Expression, other: Expression) -> Iterator[Finding]:
    names, text = names_of(one), text_of(other)
    if names[:1] != ["matrix"] or not text:
        return
    path = tuple(names[1:])
    if path not in known:
        values = values_of(job, names[1:])
        known[path] = _texts(values) if all(value.schema_class == "str" for value in values) else set()
    if known[path] and _folded(text) not in known[path]:
        yield note("N20", inner(other), ".".join(names), text)


def _texts(nodes: list[Node]) -> set[str]:
    """The texts of scalars as GitHub compares them. None if one isn't known, or isn't a scalar."""
    if any(node.kind != "scalar" or has_expression(node.value) for node in nodes):
        return set()
    return {_folded(node.value) for node in nodes}


def _folded(text: str) -> str:
    """A text as GitHub compares it: without case, and a number by its value."""
    try:
        return str(float(text))
    except ValueError:
        return text.lower()
