"""The operators of an expression's text outside of its strings and brackets, and conditional operators rewritten with `&&` and `||`."""
from __future__ import annotations

import re
from typing import Iterator, NamedTuple

TOKEN = re.compile(r"'(?:[^']|'')*'|\?\?|\?\.|&&|\|\||[=!]=|[<>]=?|[()\[\],?:!]|[^'()\[\],?:!&|=<>]+|.", re.S)
OPERATORS = ("&&", "||", "==", "!=", "<", ">", "<=", ">=", "!")
OPEN, CLOSED = "([", ")]"
NUMBER = re.compile(r"[-+]?(?:\d+(?:\.\d*)?|\.\d+)(?:[eE][-+]?\d+)?|0x[0-9a-fA-F]+")
# Calls whose value isn't false, if they have arguments like these.
TRUE_CALL = re.compile(r"(?:format\(\s*'[^'{]|fromJSON\(\s*'[\[{])", re.I)
MAX_CHOICES = 5


class Token(NamedTuple):
    """A part of an expression, its offset, and how many brackets are open before it."""

    text: str
    start: int
    depth: int


class Choice(NamedTuple):
    """A conditional operator without `?`. It means the same unless `doubtful` is false, which nobody can tell."""

    text: str
    doubtful: str = ""


def tokens(text: str) -> Iterator[Token]:
    depth = 0
    for match in TOKEN.finditer(text):
        depth -= match[0] in CLOSED
        yield Token(match[0], match.start(), depth)
        depth += match[0] in OPEN


def operators(text: str) -> list[str]:
    """The operators outside of brackets, with `?`."""
    return [token.text for token in tokens(text) if token.depth == 0 and token.text in (*OPERATORS, "?")]


def parts(text: str, operator: str) -> list[str]:
    """The texts between an operator outside of brackets."""
    found, begin = [], 0
    for token in tokens(text):
        if token.depth == 0 and token.text == operator:
            found.append(text[begin:token.start].strip())
            begin = token.start + len(operator)
    return [*found, text[begin:].strip()]


def grouped(text: str, beside: tuple[str, ...]) -> str:
    """A text in brackets if it has one of some operators outside of brackets."""
    return f"({text})" if set(beside) & set(operators(text)) else text


def negated(condition: str) -> str:
    """The opposite of a condition."""
    found = operators(condition)
    if found in (["=="], ["!="]):
        return {"==": " != ", "!=": " == "}[found[0]].join(parts(condition, found[0]))
    return condition[1:].strip() if found == ["!"] else "!" + grouped(condition, OPERATORS)


def is_false(text: str) -> bool:
    """Whether a text is a literal that is false in a condition."""
    return text in ("''", "false", "null") or NUMBER.fullmatch(text) is not None and not re.search("[1-9a-fA-F]", text.removeprefix("0x"))


def is_true(text: str) -> bool:
    """Whether a text is a literal or a call that is never false."""
    is_string = re.fullmatch(r"'(?:[^']|'')+'", text) is not None
    return is_string or text == "true" or NUMBER.fullmatch(text) is not None and not is_false(text) or TRUE_CALL.match(text) is not None


def choice(condition: str, yes: str, no: str) -> Choice | None:
    """`condition ? yes : no` with `&&` and `||`, which give `no` too where `yes` is false."""
    if is_false(yes):
        turned = is_true(no) and Choice(f"{negated(condition)} && {no} || {yes}")
        return turned or None
    if yes == condition:
        return Choice(f"{yes} || {no}")
    text = f"{grouped(condition, ('||',))} && {grouped(yes, ('||', '?'))} || {no}"
    return Choice(text, "" if is_true(yes) else yes)


def choice_in(text: str) -> Choice | None:
    """A text with its conditional operators rewritten. None if it has none, or one that can't be."""
    doubtful: list[str] = []
    begun = text
    if text.count("?") > MAX_CHOICES:
        return None
    for _ in range(MAX_CHOICES):
        found = next((token for token in tokens(text) if token.text == "?"), None)
        if found is None:
            break
        start, end = _around(text, found)
        made = _read(text[start:end])
        if made is None:
            return None
        doubtful += [made.doubtful] if made.doubtful else []
        inner = text[start:end]
        before, after = inner[:len(inner) - len(inner.lstrip())], inner[len(inner.rstrip()):]
        text = text[:start] + before + made.text + after + text[end:]
    return Choice(text, ", ".join(dict.fromkeys(doubtful))) if text != begun else None


def _around(text: str, mark: Token) -> tuple[int, int]:
    """The offsets of the bracket or the argument around a token."""
    start, end = 0, len(text)
    for token in tokens(text):
        is_comma = token.depth == mark.depth and token.text == ","
        if token.start < mark.start and (is_comma or token.depth == mark.depth - 1 and token.text in OPEN):
            start = token.start + 1
        if token.start > mark.start and (is_comma or token.depth < mark.depth):
            end = token.start
            break
    return start, end


def _read(text: str) -> Choice | None:
    """A conditional operator, whose last part may be another one."""
    mark = next((token.start for token in tokens(text) if token.depth == 0 and token.text == "?"), None)
    if mark is None:
        return None
    condition, rest = text[:mark].strip(), text[mark + 1:]
    colon, is_open = None, 0
    for token in tokens(rest):
        is_open += token.depth == 0 and token.text == "?"
        if token.depth == 0 and token.text == ":":
            if not is_open:
                colon = token.start
                break
            is_open -= 1
    if colon is None:
        return None
    yes, no = rest[:colon].strip(), rest[colon + 1:].strip()
    inner, last = (_read(part) if "?" in operators(part) else Choice(part) for part in (yes, no))
    if not (condition and yes and no and inner and last):
        return None
    made = choice(condition, f"({inner.text})" if inner.text != yes else yes, last.text)
    return made and Choice(made.text, made.doubtful or inner.doubtful or last.doubtful)
