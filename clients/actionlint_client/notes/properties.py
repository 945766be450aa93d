"""Properties that a context or a value doesn't have, where the linter takes any."""
from __future__ import annotations

import json
from typing import Any, Iterator

from ..facts_tree import Call, Expression, Path, Word, inner
from ..facts_tree import walk as parts_of
from .file import File, Finding, is_slip, names_of, note, table, text_of

TABLE = table("properties")


def unknown_properties(file: File) -> Iterator[Finding]:
    """N28: a property of `runner` or `job` that is a slip of a known one, one that a container, a service or constant JSON doesn't have, a
    number in place of a name, or an input of the event that the file doesn't declare."""
    events = [event.value for event, _ in file.events]
    is_dispatched = "workflow_dispatch" in events and "workflow_call" not in events and bool(file.inputs)
    declared = {"*", *(key.value.lower() for _, key, _ in file.inputs)}
    for part in (part for tree in file.expressions() for part in parts_of(tree)):
        yield from (*_of_numbers(part), *_of_json(part))
        names = names_of(part)
        is_no_input = is_dispatched and names[:3] == ["github", "event", "inputs"] and len(names) == 4 and names[3] not in declared
        if names and (is_no_input or _is_unknown(names)):
            yield note("N28", part, ".".join(names[:-1]), names[-1])


def _is_unknown(names: list[str]) -> bool:
    above = ".".join([*names[:2], "*"] if names[:2] == ["job", "services"] and len(names) == 4 else names[:-1])
    if above in TABLE["all"]:
        return names[-1] not in (*TABLE["all"][above], "*")
    known = TABLE["known"].get(above, [])
    return names[-1] not in known and any(is_slip(names[-1], one) for one in known)


def _of_numbers(part: Expression) -> Iterator[Finding]:
    """A number as the index of a context whose names never begin with a digit."""
    context = names_of(part.base) if isinstance(part, Path) else []
    index = part.steps[0].index if isinstance(part, Path) else None
    if len(context) == 1 and context[0] in TABLE["no digit"] and isinstance(index, Word) and index.kind == "number":
        yield note("N28", part, context[0], index.text)


def _of_json(part: Expression) -> Iterator[Finding]:
    """The first property that the constant JSON of a `fromJSON` doesn't have."""
    call = inner(part.base) if isinstance(part, Path) else None
    text = text_of(call.arguments[0]) if isinstance(call, Call) and call.name.text.lower() == "fromjson" and call.arguments else None
    value = _json(text) if text is not None else None
    for step in part.steps if isinstance(part, Path) else ():
        name = step.text if step.kind == "property" else text_of(step.index) if step.index else None
        if name is None or not isinstance(value, dict):
            return
        found = {key.lower(): one for key, one in value.items()}
        if name.lower() not in found:
            yield note("N28", part, "fromJSON(..)", name)
            return
        value = found[name.lower()]


def _json(text: str) -> Any:
    try:
        return json.loads(text)
    except (ValueError, RecursionError):
        return None
