"""Conditions that are constant, and comparisons that are never true."""
from __future__ import annotations

from typing import Iterator

from ..facts_tree import Call, Chain, Expression, Group, Not, Word, inner
from ..facts_tree import walk as parts_of
from ..tree import Node
from .file import File, Finding, names_of, note, text_of
from .values import COMPARISONS, kind_of

# The functions whose results depend on nothing but their arguments.
OF_ARGUMENTS = ("contains", "startswith", "endswith", "format", "join", "tojson", "fromjson")


def _conditions(file: File) -> Iterator[Node]:
    owners = [job for _, job in file.jobs] + [step for _, step in file.steps]
    return (found for owner in owners if (found := owner.get("if")) is not None and found.kind == "scalar")


def _is_constant(expression: Expression) -> bool:
    """Whether an expression has the same value in each run."""
    return all(isinstance(part, (Group, Not, Chain)) or isinstance(part, Word) and part.kind != "name"
               or isinstance(part, Call) and part.name.text.lower() in OF_ARGUMENTS for part in parts_of(expression))


def _switches_off(expression: Expression) -> bool:
    """Whether it is `false`, which people write to switch a job or a step off."""
    expression = inner(expression)
    return isinstance(expression, Word) and expression.text.lower() == "false"


def constant_conditions(file: File) -> Iterator[Finding]:
    """N17: a condition that is the same in each run, and not `false` alone."""
    for condition in _conditions(file):
        place = file.place(condition)
        tree = place.chunks[0].tree if place and len(place.chunks) == 1 else None
        is_alone = "${{" not in condition.value or file.whole(condition) is not None
        if tree and is_alone and _is_constant(tree) and not _switches_off(tree):
            yield note("N17", condition)


def blanks_outside(file: File) -> Iterator[Finding]:
    """N18: a condition with blanks or a line break outside of `${{ }}`, which makes it a text, so it is always true."""
    for condition in _conditions(file):
        text = condition.value
        if file.whole(condition) is not None and text != text.strip():
            yield note("N18", condition)


def compared_kinds(file: File) -> Iterator[Finding]:
    """N19: a boolean that is compared with a text that is no number, or a text with `true`: the two are never equal."""
    kinds: dict[str, set[str]] = {}
    for _, key, declared in file.inputs:
        kinds.setdefault(key.value.lower(), set()).add(declared.text("type") or "string")
    for key, _ in [] if file.is_workflow else file.root.entries_at("inputs"):
        kinds[key.value.lower()] = {"string"}
    for part in (part for tree in file.expressions() for part in parts_of(tree)):
        if isinstance(part, Chain) and len(part.rest) == 1:
            (operator, other), one = part.rest[0], part.first
            find = _never_equal if operator in ("==", "!=") else _ordered if operator in COMPARISONS else None
            yield from (*find(one, other, kinds), *find(other, one, kinds)) if find else ()


def _never_equal(one: Expression, other: Expression, inputs: dict[str, set[str]]) -> Iterator[Finding]:
    text, kind, given = text_of(other), _kind(one, inputs), inner(other)
    if kind == "boolean" and text and not text.strip().replace(".", "").isdigit():
        yield note("N19", given, "boolean", "text")
    elif kind == "string" and isinstance(given, Word) and (given.kind, given.text.lower()) == ("keyword", "true"):
        yield note("N19", given, "text", "boolean")


def _ordered(one: Expression, other: Expression, inputs: dict[str, set[str]]) -> Iterator[Finding]:
    """A boolean has no order."""
    if _kind(one, inputs) == "boolean" and _kind(other, inputs) in ("number", "string"):
        yield note("N19", inner(other), "boolean", {"string": "text"}.get(_kind(other, inputs), "number"))


def _kind(expression: Expression, inputs: dict[str, set[str]]) -> str:
    """`boolean` or `string`, if each value of an expression is one, else nothing. Outputs and the inputs of an event are texts."""
    names = names_of(expression)
    if len(names) == 2 and names[0] == "inputs" and len(inputs.get(names[1], ())) == 1:
        return next(iter(inputs[names[1]]))
    if len(names) == 4 and names[0] in ("steps", "needs") and names[2] == "outputs" or names[:3] == ["github", "event", "inputs"]:
        return "string"
    return kind_of(expression)
