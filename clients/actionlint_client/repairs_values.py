"""Repairs of values in expressions: indexes, objects, and the arguments of calls."""
from __future__ import annotations

import itertools
import re
from typing import Callable, Iterable, Sequence

from .expressions import NAME, STRING
from .repair import Case, Repair, in_quotes
from .repairs_expressions import arguments_at, expression_of, is_compared, is_in_condition, is_operand
from .syntax import table
from .text import Point, Span
from .tree import Node

PLACEHOLDER = re.compile(r"\{(\d{1,3})\}")
# Contexts whose names are those of a file or a repository, so that none is a property of another context.
OF_FILES = ("env", "secrets", "vars", "inputs", "matrix")
CALL_WITH_REF = re.compile(r"(?:startsWith|endsWith|contains)\(\s*('+refs/[^',]*'+\s*\))", re.I)
# What expressions can't ask of a text.
LENGTHS = ("length", "len", "size", "count")
# What of a job or a step is compared with a text, and of which objects.
COMPARED = {"needs": "result", "steps": "outcome", "job": "status"}


def joined_property(chain: Sequence[str]) -> str | None:
    """The property of `github` whose words a chain has as properties of one another."""
    joined = "_".join(chain[1:]).lower()
    return joined if chain and chain[0].lower() == "github" and joined in table()["contexts"]["github"]["properties"] else None


def without_index(case: Case) -> Iterable[Repair]:
    """`github.ref_name` for `github.ref.name`; else the chain up to what can't be indexed, unless that makes a condition constant."""
    chain, span = case.chain
    line = case.line
    joined = joined_property(chain)
    if joined:
        yield case.replace(f"change to github.{joined}", f"github.{joined}", span)
        return
    names = [name.lower() for name in chain]
    if names[:2] == ["github", "repository"] and len(chain) == 3 and names[2] not in LENGTHS:
        yield case.replace(f"change to github.event.repository.{chain[2]}", f"github.event.repository.{chain[2]}", span)
        return
    if names[:1] in (["github"], ["env"]) and len(chain) == 3 and names[1] in OF_FILES:
        yield case.replace(f"change to {chain[1]}.{chain[2]}", f"{chain[1]}.{chain[2]}", span)
        return
    dot = max(line.rfind(sign, span.start.column, case.span.start.column + 1) for sign in (".", "["))
    here = case.scalar
    if not chain or dot <= span.start.column or here is None or names[-1] in LENGTHS:
        return
    is_test = is_in_condition(case) and not is_operand(line[:span.start.column], line[span.end.column:])
    if not is_test and not line[:span.start.column].rstrip().endswith("!"):
        index = line[dot:span.end.column]
        yield case.replace(f'delete "{index}"', "", Span(Point(case.span.start.line, dot), span.end), deletes=True)


def compared_part(case: Case) -> Iterable[Repair]:
    """What of a needed job, a step or an event is compared with a text, in place of all of it."""
    if case.code == "X18" and not is_in_condition(case):
        return
    for names, span in case.chains:
        before, after = case.line_at(span.start.line)[:span.start.column], case.line_at(span.end.line)[span.end.column:]
        if not is_compared(before, after) and not span.holds(case.span.start):
            continue
        here = [name.lower() for name in names]
        if here == ["github", "event"]:
            yield case.replace("change to github.event_name", "github.event_name", span)
        elif here[0] in COMPARED and len(here) == (1 if here[0] == "job" else 2):
            name = COMPARED[here[0]]
            yield case.replace(f'compare its "{name}"', f"{case.slice(span)}.{name}", span)


def all_results(case: Case) -> Iterable[Repair]:
    """The results of all needed jobs, for `contains`."""
    chain, span = case.chain
    if [name.lower() for name in chain] == ["needs"] and case.line[:span.start.column].lower().rstrip(" ").endswith("contains("):
        yield case.replace("take the results of all needed jobs", "needs.*.result", span)


def as_json(case: Case) -> Iterable[Repair]:
    """The value as a text, or its name if each has one, except in a condition, where a text is always true."""
    chain, span = case.chain
    if is_in_condition(case) and case.code == "X18" or chain[:2] == ("needs", "*") and chain[2:3] not in (("result",), ("outputs",)):
        return
    if chain:
        joined = list(_joined(case, chain, span)) if span.end.column > span.start.column else []
        values = _values_of_row(case, chain)
        has_lists = all(value.items and all(item.kind == "scalar" for item in value.items) for value in values)
        yield from joined if values and has_lists else ()
        if values and all(value.text("name") for value in values):
            yield case.replace(f"change to {case.slice(span)}.name", f"{case.slice(span)}.name", span)
        yield case.replace("convert it to JSON", f"toJSON({case.slice(span)})", span)
        yield from joined if "*" in chain else ()
    elif (expression := expression_of(case)) and expression.text.strip():
        yield case.replace("convert it to JSON", f" toJSON({expression.text.strip()}) ", expression.span)


def _joined(case: Case, chain: Sequence[str], span: Span) -> Iterable[Repair]:
    """The entries of a list as a text, with commas between them; with spaces only in a script, if the matrix has the list."""
    expression, here = expression_of(case), case.scalar
    between = "' '" if here and here.path[-1:] == ("run",) and chain[0].lower() == "matrix" else "', '"
    literal = in_quotes(between, expression.style) if expression else between
    yield case.replace("join its entries", f"join({case.slice(span)}, {literal})", span)


def _values_of_row(case: Case, chain: Sequence[str]) -> list[Node]:
    """The values of a matrix's row, those of `include` too."""
    matrix = case.at("jobs", case.job, "strategy", "matrix") if case.job else None
    if matrix is None or len(chain) != 2 or chain[0].lower() != "matrix":
        return []
    return [*matrix.items_at(chain[1]), *(value for item in matrix.items_at("include") if (value := item.get(chain[1])))]


def of_a_ref(case: Case) -> Iterable[Repair]:
    """The ref as the first argument of a call that has only the text that it is compared with."""
    match = CALL_WITH_REF.match(case.line, case.span.start.column)
    if match:
        yield case.replace("ask github.ref", "github.ref, ", Span.at(Point(case.span.start.line, match.start(1))))


def fewer_arguments(case: Case) -> Iterable[Repair]:
    """A call without its last arguments, if the function takes as few."""
    line, column = case.line, case.span.start.column
    match = re.match(rf"{NAME}\s*\(", line[column:])
    if not match:
        return
    start = column + match.end()
    arguments, end = arguments_at(line, start)
    name = match[0].rstrip("( \t")
    literals = [argument.strip("'") for argument in arguments[:-1] if STRING.fullmatch(argument)]
    expression = expression_of(case)
    if expression and name.lower() == "contains" and len(literals) == len(arguments) - 1 > 1 and not STRING.fullmatch(arguments[-1]):
        texts = ", ".join(f'"{text}"' for text in literals)
        listed = in_quotes(f"fromJSON('[{texts}]')", expression.style) + f", {arguments[-1]}"
        yield case.replace("make a list of the texts", listed, Span.on_line(case.span.start.line, start, end))
        return
    if name.lower() in ("contains", "startswith", "endswith") and len(arguments) > 2:
        if line[end:end + 1] == ")":
            any_of = " || ".join(f"{name}({arguments[0]}, {argument})" for argument in arguments[1:])
            is_whole = expression is not None and expression.text.strip() == line[column:end + 1]
            span = Span.on_line(case.span.start.line, column, end + 1)
            yield case.replace("ask for each of them", any_of if is_whole else f"({any_of})", span)
        return
    for kept in range(len(arguments) - 1, -1, -1):
        span = Span.on_line(case.span.start.line, start, end)
        yield case.replace(f"delete {', '.join(arguments[kept:])}", ", ".join(arguments[:kept]), span, deletes=True)


def _format_call(case: Case) -> tuple[list[str], Span] | None:
    """The arguments of the call of format around the fault, and their place."""
    start = case.line.rfind("format(", 0, case.span.end.column)
    if start < 0:
        return None
    begin = start + len("format(")
    parts, end = arguments_at(case.line, begin)
    return parts, Span.on_line(case.span.start.line, begin, end)


def right_format(case: Case) -> Iterable[Repair]:
    """As many placeholders as arguments, numbered from 0; braces that aren't placeholders doubled."""
    call = _format_call(case)
    if call is None or not call[0]:
        return
    (text, *arguments), span = call
    numbers = {int(number) for number in PLACEHOLDER.findall(text)}
    quote = "''" if text.startswith("''") else "'"
    unused = [number for number in range(len(arguments)) if number not in numbers]
    places = "".join(f" {{{number}}}" for number in unused)
    tries = [("number the placeholders", [_numbered(text, len(arguments)), *arguments]),
             ("write the braces twice", [re.sub(r"\{(?!\d+\})([^{}]*)\}", r"{{\1}}", text), *arguments]),
             ("put it into the text", [text.removesuffix(quote) + places + quote, *arguments])]
    for title, changed in tries:
        if changed != [text, *arguments]:
            yield case.replace(title, ", ".join(changed), span)
            if changed[0] == _numbered(text, len(arguments)):
                return
    if unused and unused == list(range(unused[0], len(arguments))):
        yield case.replace(f"delete {', '.join(arguments[unused[0]:])}", ", ".join([text, *arguments[:unused[0]]]), span, deletes=True)


def _numbered(text: str, count: int) -> str:
    """A text with its placeholders numbered: those without one in turn, or as many different ones as arguments by their order."""
    used = sorted({int(number) for number in PLACEHOLDER.findall(text)})
    if used:
        order = {number: place for place, number in enumerate(used)}
        return PLACEHOLDER.sub(lambda match: "{%d}" % order[int(match[1])], text) if len(used) == count else text
    numbers = itertools.count()
    return re.sub(r"\{\}|%s", lambda match: "{%d}" % next(numbers), text)


REPAIRS: dict[str, tuple[Callable[[Case], Iterable[Repair]], ...]] = {
    "X11": (of_a_ref, fewer_arguments),
    "X12": (all_results, as_json),
    "X14": (without_index,),
    "X15": (compared_part,),
    "X16": (right_format,),
    "X17": (right_format,),
    "X18": (as_json, compared_part),
}
