"""Text that anyone can write, where it becomes a part of a script."""
from __future__ import annotations

from typing import Iterator

from ..facts_tree import Call, Chain, Expression, Path, Word, inner
from .file import File, Finding, names_of, note, table
from .values import COMPARISONS

TABLE = table("strangers")
# Those in `unknown` are no matter of the linter.
UNKNOWN = [text.split(".") for text in TABLE["unknown"]]
TEXTS = [text.split(".") for text in TABLE["texts"]] + UNKNOWN
HARMLESS = ("contains", "startswith", "endswith")


def inserted(expression: Expression, as_json: bool = False) -> Iterator[tuple[Expression, bool]]:
    """The paths whose values may become part of a text, and whether they do as JSON."""
    expression = inner(expression)
    if isinstance(expression, (Path, Word)):
        yield expression, as_json
    elif isinstance(expression, Call) and expression.name.text.lower() not in HARMLESS:
        for argument in expression.arguments:
            yield from inserted(argument, as_json or expression.name.text.lower() == "tojson")
    elif isinstance(expression, Chain) and expression.rest[0][0] not in COMPARISONS:
        operands = [expression.first, *(one for _, one in expression.rest)]
        # (an operand of `&&` before the last one is the value only where it is empty or false)
        for operand in operands[-1:] if expression.rest[0][0] == "&&" else operands:
            yield from inserted(operand, as_json)


def is_text(names: list[str]) -> bool:
    """Whether a path is that of such a text."""
    return any(len(text) == len(names) and all(a == b or b == "*" for a, b in zip(names, text)) for text in TEXTS)


def _is_filter_of_text(names: list[str]) -> bool:
    """Whether a path with `*` gives such texts, among others."""
    return "*" in names and not is_text(names) and any(
        len(text) == len(names) and all(a == b or "*" in (a, b) for a, b in zip(names, text)) for text in TEXTS)


def _has_text(names: list[str]) -> bool:
    """Whether such a text is below a path."""
    return bool(names) and any(len(text) > len(names) and all(a == b or b == "*" for a, b in zip(names, text)) for text in TEXTS)


def untrusted_texts(file: File) -> Iterator[Finding]:
    """N31: such a text in a script of github-script, by a filter, or as JSON in a script of a shell."""
    for _, step in file.steps:
        is_script = (step.text("uses") or "").lower().startswith("actions/github-script@")
        node = step.get("with", "script") if is_script else step.get("run")
        place = file.place(node) if node else None
        for chunk in place.chunks if place else ():
            for part, as_json in inserted(chunk.tree) if chunk.tree else ():
                names = names_of(part)
                if as_json and is_script:
                    continue
                if names in UNKNOWN or _is_filter_of_text(names) or is_script and is_text(names) or as_json and _has_text(names):
                    yield note("N31", part, ".".join(names))
