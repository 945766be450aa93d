"""Values that GitHub doesn't take: it refuses the file, or the run."""
from __future__ import annotations

import json
import re
from collections import Counter
from typing import Iterator

from ..facts_tree import Call, Chain, Expression, Not, Path, Word, inner
from ..facts_tree import walk as parts_of
from ..tree import Node
from .file import File, Finding, has_expression, names_of, note, table, text_of

EVENTS, VALUES = table("events"), table("values")
# (completion offers the same types, colors and icons)
GITHUB = table("../github")
NUMBER = re.compile(r"[-+]?(0x[0-9A-Fa-f]+|0o[0-7]+|(\d+(\.\d*)?|\.\d+)([eE][-+]?\d+)?)")
COMPARISONS = ("==", "!=", "<", "<=", ">", ">=")


def filters(file: File) -> Iterator[Finding]:
    """N8: a filter that its event hasn't."""
    for event, below in file.events:
        row = EVENTS["filters"].get(event.value)
        for key, _ in below.entries if below and row is not None else []:
            if key.value in EVENTS["all filters"] and key.value.removesuffix("-ignore") not in row:
                yield note("N8", key, event.value, key.value)


def activity_types(file: File) -> Iterator[Finding]:
    """N9: an activity type that its event hasn't, of the events whose types the linter doesn't check."""
    for event, below in file.events:
        row, types = GITHUB["activity types"].get(event.value), below.get("types") if below else None
        for one in (types.items or [types]) if row and types else []:
            if one.kind == "scalar" and not has_expression(one.value) and not one.is_null and one.value not in row:
                yield note("N9", one, event.value, one.value)


def fixed_values(file: File) -> Iterator[Finding]:
    """N7: a value that isn't one of those that its key takes."""
    for _, job in file.jobs:
        yield from _wrong(job, "secrets", ["inherit"])
        parallel = job.get("strategy", "max-parallel")
        if parallel and parallel.schema_class in ("int", "float") and not re.fullmatch(r"\+?0*[1-9]\d*(\.0*)?", parallel.value):
            yield note("N7", parallel, parallel.value, "max-parallel")
    for _, step in file.steps:
        uses, minutes = step.get("uses"), step.get("timeout-minutes")
        if uses and uses.value.startswith("docker://") and uses.value.endswith(":"):
            yield note("N7", uses, uses.value, "uses")
        if minutes and minutes.schema_class in ("int", "float") and re.fullmatch(r"-.*|[+]?[0.]+", minutes.value):
            yield note("N7", minutes, minutes.value, "timeout-minutes")
    for owner in [file.root, *(job for _, job in file.jobs)] if file.is_workflow else []:
        scopes = owner.get("permissions")
        for key, _ in scopes.entries if scopes else []:
            if key.value in VALUES["levels"]:
                yield from _wrong(scopes, key.value, VALUES["levels"][key.value])
    branding = None if file.is_workflow else file.root.get("branding")
    for name in ("icon", "color") if branding else ():
        yield from _wrong(branding, name, GITHUB["branding"][name])


def _wrong(section: Node | None, key: str, taken: list[str]) -> Iterator[Finding]:
    value = section.get(key) if section else None
    if value and value.kind == "scalar" and value.value and value.value not in taken and not has_expression(value.value):
        yield note("N7", value, value.value, key)


def inputs(file: File) -> Iterator[Finding]:
    """N10: options and defaults of inputs, and their number."""
    for event, key, declared in file.inputs:
        options, default, kind = declared.get("options"), declared.get("default"), declared.text("type")
        texts = [one.value for one in options.items] if options else []
        repeated = (text for text, count in Counter(texts).items() if count > 1)
        yield from (note("N10", key, key.value, f'has the option "{text}" twice') for text in repeated)
        if default is None or default.kind != "scalar" or not default.value or default.is_null or has_expression(default.value):
            continue
        if kind == "choice" and texts and default.value not in texts:
            yield note("N10", default, key.value, "has a default that is none of its options")
        elif kind == "boolean" and default.value.lower() not in ("true", "false"):
            yield note("N10", default, key.value, "has a default that is no boolean")
        elif kind == "number" and not NUMBER.fullmatch(default.value):
            yield note("N10", default, key.value, "has a default that is no number")
        if event == "workflow_call" and declared.text("required") == "true":
            yield note("N10", default, key.value, "is required, so its default is never used")
    dispatched = [key for event, key, _ in file.inputs if event == "workflow_dispatch"]
    for key in dispatched[VALUES["most dispatch inputs"]:]:
        yield note("N10", key, key.value, f"is one of more than {VALUES['most dispatch inputs']}")


def constant_json(file: File) -> Iterator[Finding]:
    """N11: the text of a `fromJSON` that is no JSON."""
    for part in (part for tree in file.expressions() for part in parts_of(tree)):
        if isinstance(part, Call) and part.name.text.lower() == "fromjson" and len(part.arguments) == 1:
            text = text_of(part.arguments[0])
            if text is not None and not _is_json(text):
                yield note("N11", part.arguments[0])


def _is_json(text: str) -> bool:
    """Whether a text is JSON, or what GitHub reads besides: single quotes, bare names, comments, a comma at the end."""
    if re.search(r"['/]|,\s*[\]}]|[{,]\s*[A-Za-z_]", text):
        return True
    try:
        json.loads(text)
    except (ValueError, RecursionError):
        return False
    return True


def kind_of(expression: Expression) -> str:
    """`string`, `number` or `boolean`, if each value of an expression is one, else nothing."""
    expression = inner(expression)
    if isinstance(expression, Word):
        flag = "boolean" if expression.text.lower() in ("true", "false") else ""
        return expression.kind if expression.kind in ("string", "number") else flag
    if isinstance(expression, Path):
        names = names_of(expression)
        return "string" if names[:1] == ["github"] and len(names) == 2 and names[1] in VALUES["texts of github"] else ""
    if isinstance(expression, Not):
        return "boolean"
    if isinstance(expression, Call):
        return str(VALUES["results"].get(expression.name.text.lower(), ""))
    if isinstance(expression, Chain):
        if expression.rest[0][0] in COMPARISONS:
            return "boolean"
        kinds = {kind_of(expression.first), *(kind_of(operand) for _, operand in expression.rest)}
        return kinds.pop() if len(kinds) == 1 else ""
    return ""


def expression_types(file: File) -> Iterator[Finding]:
    """N12: an expression whose value has another type than its key takes."""
    owners = [job for _, job in file.jobs] + [step for _, step in file.steps]
    strategies = [found for _, job in file.jobs if (found := job.get("strategy"))]
    for section in owners + strategies:
        for key, value in section.entries:
            taken = VALUES["types"].get(key.value)
            tree = file.whole(value) if taken and value.kind == "scalar" else None
            if tree and kind_of(tree) not in ("", taken):
                yield note("N12", value, key.value, taken)
    for name, section in [("env", file.root), *(("env", one) for one in owners), *(("matrix", one) for one in strategies)]:
        found = section.get(name)
        tree = file.whole(found) if found and found.kind == "scalar" else None
        if found and tree and kind_of(tree):
            yield note("N12", found, name, "mapping")
