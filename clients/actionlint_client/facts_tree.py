"""The expressions of a file as actionlint-facts answers them, with their places as offsets of bytes."""
from __future__ import annotations

from dataclasses import dataclass
from typing import Any, Iterator, Union

Json = dict[str, Any]


@dataclass(frozen=True)
class Part:
    """What is written from one byte up to another."""

    start: int
    end: int


@dataclass(frozen=True)
class Word(Part):
    """A name, keyword, number or string, as written."""

    kind: str
    text: str


@dataclass(frozen=True)
class Group(Part):
    """An expression in brackets."""

    inner: Expression


@dataclass(frozen=True)
class Not(Part):
    operand: Expression


@dataclass(frozen=True)
class Call(Part):
    name: Word
    arguments: tuple[Expression, ...]


@dataclass(frozen=True)
class Step(Part):
    """A step of a path: a `property` with its text, an `index`, or `all` (`.*`, `[*]`)."""

    kind: str
    text: str
    index: Expression | None


@dataclass(frozen=True)
class Path(Part):
    base: Expression
    steps: tuple[Step, ...]


@dataclass(frozen=True)
class Chain(Part):
    """Operands with the operators of one level between them, from the left."""

    first: Expression
    rest: tuple[tuple[str, Expression], ...]


Expression = Union[Word, Group, Not, Call, Path, Chain]


@dataclass(frozen=True)
class Chunk(Part):
    """An expression of a text, without a tree if it has a fault."""

    tree: Expression | None


@dataclass(frozen=True)
class Place(Part):
    """A scalar that has expressions."""

    chunks: tuple[Chunk, ...]


def walk(expression: Expression) -> Iterator[Expression]:
    """An expression and those in it, in the order of the text."""
    yield expression
    if isinstance(expression, Group):
        yield from walk(expression.inner)
    elif isinstance(expression, Not):
        yield from walk(expression.operand)
    elif isinstance(expression, Call):
        for argument in expression.arguments:
            yield from walk(argument)
    elif isinstance(expression, Path):
        yield from walk(expression.base)
        for step in expression.steps:
            if step.index is not None:
                yield from walk(step.index)
    elif isinstance(expression, Chain):
        yield from walk(expression.first)
        for _, operand in expression.rest:
            yield from walk(operand)


def paths_in(expression: Expression) -> Iterator[tuple[Expression, list[Word]]]:
    """The paths and names in an expression, such as `needs.build.outputs['list']`, with the names of each; one in an index comes after the
    one around it."""
    bases: set[int] = set()
    for part in walk(expression):
        if isinstance(part, Path):
            bases.add(id(inner(part.base)))
        names = _names_of(part) if isinstance(part, (Path, Word)) and id(part) not in bases else []
        if names:
            yield part, names


def _names_of(expression: Expression) -> list[Word]:
    """The names of a path. An index that isn't a string is `*`. Nothing if it begins otherwise."""
    path = inner(expression)
    if isinstance(path, Word):
        return [path] if path.kind == "name" else []
    found = _names_of(path.base) if isinstance(path, Path) else []
    for step in path.steps if found and isinstance(path, Path) else ():
        index = step.index
        if isinstance(index, Word) and index.kind == "string":
            found.append(Word(index.start, index.end, "name", index.text[1:-1].replace("''", "'")))
        else:
            found.append(Word(step.start, step.end, "name", step.text or "*"))
    return found


def inner(expression: Expression) -> Expression:
    """An expression without the brackets around it."""
    return inner(expression.inner) if isinstance(expression, Group) else expression


def _expression(said: Json) -> Expression:
    kind, start, end = said["kind"], said["start"], said["end"]
    if kind == "group":
        return Group(start, end, _expression(said["inner"]))
    if kind == "not":
        return Not(start, end, _expression(said["operand"]))
    if kind == "call":
        return Call(start, end, _word(said["name"]), tuple(map(_expression, said["arguments"])))
    if kind == "path":
        return Path(start, end, _expression(said["base"]), tuple(map(_step, said["steps"])))
    if kind == "chain":
        rest = tuple((one["operator"], _expression(one["operand"])) for one in said["rest"])
        return Chain(start, end, _expression(said["first"]), rest)
    return _word(said)


def _word(said: Json) -> Word:
    return Word(said["start"], said["end"], said["kind"], said["text"])


def _step(said: Json) -> Step:
    index = _expression(said["index"]) if "index" in said else None
    return Step(said["start"], said["end"], said["kind"], said.get("text", ""), index)


def read_place(said: Json) -> Place:
    chunks = (Chunk(one["start"], one["end"], _expression(one["tree"]) if "tree" in one else None) for one in said["chunks"])
    return Place(said["start"], said["end"], tuple(chunks))
