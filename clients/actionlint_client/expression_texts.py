"""The text of an expression with the quotes, operators and calls that expressions have, in place of those of other languages, and with what
is missing in it: quotes at the end of a text, a second apostrophe, brackets of a call."""
from __future__ import annotations

import re
from functools import partial
from itertools import islice
from typing import Callable, Iterator

from .expressions import NAME, STRING
from .operators import grouped, operators, parts, tokens

DOUBLE_QUOTED = re.compile(r'\\?"([^"\\]*)\\?"')
CURLY = "\u2018\u2019\u201a\u201c\u201d\u201e\u00b4`"
CURLY_QUOTED = re.compile(rf"[{CURLY}]([^'\"{CURLY}]*)[{CURLY}]")
ODD_SPACE = re.compile("[\u00a0\u2000-\u200a\u202f\u3000]")
OPTIONAL_DOT = re.compile(r"(?<=[\w\])])\?\.(?=[A-Za-z_])")
OTHER_NULL = re.compile(r"([=!]=\s*)(?:undefined|None|nil)\b")
FLAG = re.compile(r"(?<=[=!]=)\s*(?:true|false)(?![\w.(\[-])", re.I)
LONE_WORD = re.compile(r"([=!]=\s*)(?!(?:true|false|null)\b)([A-Za-z][\w/-]*)(?=\s*(?:$|[)&|]))")
SINGLE_EQUALS = re.compile(r"(?<![=!<>])=(?![=!])")
TURNED_OPERATOR = re.compile(r"(?<![=!<>])=!(?!=)")
WORD_OPERATORS = {"and": "&&", "or": "||", "eq": "==", "ne": "!="}
WORDS = re.compile(r"(?<![\w.-])(" + "|".join(WORD_OPERATORS) + r")(?![\w.-])", re.I)
NOT = re.compile(r"(?<![\w.-])not(?![\w.-])\s*", re.I)
METHOD = re.compile(rf"(?<![\w.-])({NAME}(?:\.{NAME})*?)\.(contains|startsWith|endsWith)\(")
AMONG = re.compile(rf"(?<![\w.-])({NAME}(?:\.{NAME})*)\s+(not\s+)?in\s+[\[(]([^\[\]()]*)[\])]")
LISTED = re.compile(rf"(?<![\w.-])({NAME}(?:\.{NAME})*)\s*([=!])=\s*\[([^\[\]()]*)\]")
TEXT_IN = re.compile(rf"(?:\bcontains\(\s*)?('[^']*')\s+in\s+({NAME}(?:\.(?:{NAME}|\*))*)(?![\w.(\[])")
LIST_ARGUMENT = re.compile(r"\(\s*\[([^\[\]]*)\]\s*,")
# A chain of names in a text that isn't an expression.
CHAIN = re.compile(rf"(?<![\w.'-]){NAME}(?:\s*\.\s*(?:{NAME}|\*)|\[\s*'[^']*'\s*\]|\[[^\[\]']*\])*")
SUM = re.compile(rf"({CHAIN.pattern}|'[^']*')((?:\s*\+\s*(?:{CHAIN.pattern}|'[^']*'))+)")
COMPARISONS = ("==", "!=", "<", ">", "<=", ">=")
# Where a text that isn't closed may end.
END_OF_TEXT = re.compile(r"(?<!\s)\s*(?:&&|\|\||[=!]=|[,)\]]|$)")
APOSTROPHE = re.compile(r"(?<=[A-Za-z])'(?=[a-z])")
ONE_ARGUMENT = re.compile(r"\b((?:from|to)JSON\(\s*(?:'(?:[^']|'')*'|[\w.*-]+))\s*,", re.I)
MAX_TEXTS = 4
MAX_ENDS = 2


def outside_texts(text: str, change: Callable[[str], str]) -> str:
    """A text with changes only outside of quotes."""
    found, at = [], 0
    for match in STRING.finditer(text):
        found += [change(text[at:match.start()]), match[0]]
        at = match.end()
    return "".join([*found, change(text[at:])])


def outside(change: Callable[[str], str]) -> Callable[[str], str]:
    """A change of a text that keeps what is in quotes."""
    return lambda text: outside_texts(text, change)


def with_single_quotes(text: str) -> str:
    if "`" in text and "${" in text or without_curly_quotes(text):
        return text
    changed = DOUBLE_QUOTED.sub(lambda match: "'" + match[1].replace("'", "''") + "'", text)
    return outside_texts(changed, lambda part: CURLY_QUOTED.sub(r"'\1'", part))


def without_curly_quotes(text: str) -> str | None:
    """What stands in curly quotes that are around all of an expression, if it isn't a name."""
    whole = CURLY_QUOTED.fullmatch(text.strip())
    return whole[1] if whole and re.search(r"[(.=&|]", whole[1]) else None


with_plain_spaces = outside(partial(ODD_SPACE.sub, " "))
with_plain_dots = outside(partial(OPTIONAL_DOT.sub, "."))
with_equals = outside(lambda part: re.sub(r"===+", "==", part).replace("!==", "!=").replace("<>", "!="))
with_turned_operators = outside(partial(TURNED_OPERATOR.sub, "!="))
coalesced = outside(lambda part: part.replace("??", "||"))
# `true` and `false` as expressions have them, where they are compared in other letters.
_plain_flags = outside(partial(FLAG.sub, lambda match: match[0].lower()))
# Calls of `fromJSON` and `toJSON`, which take one argument, end before a comma.
with_closed_json = partial(ONE_ARGUMENT.sub, r"\1),")


def with_operators(text: str, with_lone_texts: bool = False) -> str:
    changed = outside_texts(text, lambda part: WORDS.sub(lambda match: WORD_OPERATORS[match[1].lower()], part))
    changed = _plain_flags(with_equals(changed))
    changed = _without_words(outside_texts(changed, lambda part: re.sub(r"! (?=\S)", "!", part)))
    has_lone_text = len(parts(changed, "||")) > 1 and any(STRING.fullmatch(part) for part in parts(changed, "||")[1:])
    return text if has_lone_text and "==" in changed and not with_lone_texts else changed


def spread(text: str) -> str | None:
    """`a == 'x' or 'y'` as `a == 'x' || a == 'y'`."""
    found = parts(with_operators(text, True), "||")
    first = re.fullmatch(r"(.+?)\s*==\s*'[^']*'", found[0])
    if first is None or len(operators(found[0])) != 1 or not any(STRING.fullmatch(part) for part in found[1:]):
        return None
    return " || ".join(f"{first[1]} == {part}" if STRING.fullmatch(part) else part for part in found)


def _without_words(text: str) -> str:
    """`not a == b` as `!(a == b)`: the word holds for all up to the next `&&` or `||`."""
    while (match := next((match for match in NOT.finditer(text) if not _is_in_text(text, match.start())), None)) is not None:
        rest = text[match.end():]
        ends = (token.start for token in tokens(rest) if token.depth < 0 or token.depth == 0 and token.text in ("&&", "||", ","))
        end = next(ends, len(rest))
        operand = rest[:end]
        tail = operand[len(operand.rstrip()):]
        text = text[:match.start()] + "!" + grouped(operand.strip(), COMPARISONS) + tail + rest[end:]
    return text


def _is_in_text(text: str, offset: int) -> bool:
    return any(match.start() < offset < match.end() for match in STRING.finditer(text))


def with_null(text: str) -> str:
    return outside_texts(with_equals(text), lambda part: OTHER_NULL.sub(r"\1null", part))


def doubled(text: str) -> str:
    changed = outside_texts(text, lambda part: SINGLE_EQUALS.sub("==", part))
    changed = outside_texts(changed, lambda part: re.sub(r"&+", "&&", re.sub(r"\|+", "||", part)))
    return _plain_flags(changed)


def doubled_with_quotes(text: str) -> str:
    """A text with `==`, and quotes around a lone word that is compared."""
    return outside_texts(doubled(text), lambda part: LONE_WORD.sub(r"\1'\2'", part)) if doubled(text) != text else text


def with_all_operators(text: str) -> str:
    return with_operators(doubled(with_single_quotes(text)))


def with_double_braces(text: str) -> str | None:
    bare = text.strip().removeprefix("$").lstrip()
    return "${{ " + bare.strip("{}").strip() + " }}" if bare[:1] == "{" and bare[-1:] == "}" else None


def with_calls(text: str) -> str:
    """`a.contains(b)` as `contains(a, b)`, `a in [b]` likewise, and `[b]` as a list from JSON; functions of JSON by their names."""
    text = text.replace("JSON.stringify(", "toJSON(").replace("JSON.parse(", "fromJSON(")
    changed = TEXT_IN.sub(lambda match: f"contains({match[2]}, {match[1]}" + ("" if match[0].startswith("contains") else ")"), text)
    changed = LISTED.sub(lambda match: ("!" if match[2] == "!" else "") + f"contains({_json_list(match[3])}, {match[1]})", changed)
    changed = METHOD.sub(lambda match: f"{match[2]}({match[1]}, ", changed)
    changed = AMONG.sub(lambda match: "!" * bool(match[2]) + f"contains({_json_list(match[3])}, {match[1]})", changed)
    return LIST_ARGUMENT.sub(lambda match: f"({_json_list(match[1])},", changed)


def _json_list(entries: str) -> str:
    texts = ", ".join('"' + text.strip().strip("'\"") + '"' for text in entries.split(","))
    return f"fromJSON('[{texts}]')"


def with_format(text: str) -> str | None:
    """`a + 'b'` as a call of format. Without a string it may be a sum, which expressions don't have."""
    def call(match: re.Match[str]) -> str:
        parts = [part.strip() for part in match[0].split("+")]
        if not any(part.startswith("'") for part in parts):
            return str(match[0])
        return f"format('{''.join('{%d}' % number for number in range(len(parts)))}', {', '.join(parts)})"
    return SUM.sub(call, text)


def closed_at_ends(text: str) -> Iterator[str]:
    """A text with a quote where a string of it may end: before an operator, a comma or a bracket."""
    begins = [match.start() for match in re.finditer("'", text)][::2]
    for begin in islice(begins, MAX_TEXTS):
        rest = text[begin + 1:].partition("'")[0]
        for match in islice(END_OF_TEXT.finditer(rest), MAX_ENDS):
            end = begin + 1 + match.start()
            if match.start() and text[end:end + 1] != "'":
                yield text[:end] + "'" + text[end:]


def with_apostrophes(text: str) -> str:
    r"""A text whose apostrophes in words, and those after `\`, are written twice."""
    return APOSTROPHE.sub("''", text.replace("\\'", "''"))
