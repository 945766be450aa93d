"""Expressions that are written as another language has them, in GitHub's syntax."""
from __future__ import annotations

import re
from functools import partial

from .names import names
from .operators import Choice, choice, tokens

PAIRS = {"(": ")", "[": "]"}
CONTEXTS = "|".join(names()["contexts"])
FUNCTIONS = "|".join(names()["functions"])
TEMPLATE = re.compile(r"`([^`'{}]*(?:\$\{[\w.-]+\}[^`'{}]*)+)`")
IN_TEMPLATE = re.compile(r"\$\{([\w.-]+)\}")
BETWEEN_NAMES = re.compile(rf"(?<![\w.-])({CONTEXTS})(?:->|\.\.|::?|/)(?=[A-Za-z_])")
OTHER_BRACKETS = re.compile(rf"(?<![\w.-])({FUNCTIONS})\s*(?:\[([^\[\]{{}}]*)\]|\{{([^\[\]{{}}]*)\}})", re.I)
NO_BRACKETS = re.compile(rf"(?<![\w.-])({FUNCTIONS})\s+([\w.*-]+\s*,\s*'[^']*')", re.I)
NO_BRACKETS_OF_ONE = re.compile(r"(?<![\w.-])(fromJSON|toJSON|hashFiles)\s+([A-Za-z][\w.*-]*|'[^']*')(?![\w.*-]|\s*,)", re.I)
BETWEEN_OPERANDS = re.compile(r"(?<![\w.*-])([\w.*-]+)\s+(contains|startsWith|endsWith)\s+('[^']*')", re.I)
DEFAULT = re.compile(r"\|\s*default\(((?:[^()']|'[^']*')*)\)")
STAR_IN_BRACKETS = re.compile(r"\.?\[\*\]")
IS_NOT = re.compile(r"(?<=\s)is\s+not(?=\s)|(?<=[\w\])]\s)not(?=\s+$)", re.I)
WORD_OF_CHOICE = re.compile(r"(?<![\w.-])(if|then|else)(?![\w.-])")
IS = re.compile(r"(?<=\s)(?:is|equals?)(?=\s)", re.I)
OPTION_OF_TEST = re.compile(r"(?<=\s)-(eq|ne|lt|le|gt|ge)(?=\s)")
OPERATOR_OF_OPTION = {"eq": "==", "ne": "!=", "lt": "<", "le": "<=", "gt": ">", "ge": ">="}
SPACE_IN_OPERATOR = re.compile(r"([=!]) =|& &|\| \|")
BRACKETED_WORDS = re.compile(r"(,\s*)(\[[A-Za-z][\w -]*\])(?=\s*\))")
SEARCH = re.compile(r"(?<![\w.*-])([\w.*-]+)\s*(?:=~|~=)\s*(?:'([^']*)'|/((?:[^/\\ ]|\\.)+)/)")
PLAIN_TEXT = re.compile(r"[\w/:@. -]+")
EMPTY = re.compile(r"(!\s*)?(?<![\w.-])(?:is_?)?(not_?)?(?:empty|null|blank)\(\s*([\w.-]+)\s*\)", re.I)
STATE = re.compile(r"(!?)(?<![\w.-])(steps|needs)\.([\w-]+)\.(fail|succe|pass|cancel|skip)[a-z]*\(\)")
CALLED_CONTEXT = re.compile(rf"(?<![\w.-])({CONTEXTS})\(\s*'?([A-Za-z_][\w-]*)'?\s*\)")
FILTER = re.compile(r"(\s*)([\w.*-]+)\s*\|\s*(to|from)_?json(\s*)", re.I)
STATES = {"fail": "failure", "succe": "success", "pass": "success", "cancel": "cancelled", "skip": "skipped"}
IF_AND_THEN = re.compile(r"(?<!.)(\s*)if\b\s*|(?<!\s)\s+then(?=\s*$)", re.S)

# Changes of the text of an expression: dots between a context and its property, `||` for a filter that gives a default, `.*` for a star in
# brackets, operators without spaces, quotes around last arguments that are words in brackets, comparisons for calls that ask whether a text
# is empty, properties of contexts for calls of them, and a condition without `if` and `then` around it.
with_dots = partial(BETWEEN_NAMES.sub, r"\1.")
with_default = partial(DEFAULT.sub, lambda match: "|| " + match[1].strip())
with_stars = partial(STAR_IN_BRACKETS.sub, ".*")
without_spaces_in_operators = partial(SPACE_IN_OPERATOR.sub, lambda match: match[0].replace(" ", ""))
with_text_in_brackets = partial(BRACKETED_WORDS.sub, r"\1'\2'")
with_empty_text = partial(EMPTY.sub, lambda match: f"{match[3]} {'!=' if bool(match[1]) != bool(match[2]) else '=='} ''")
with_properties = partial(CALLED_CONTEXT.sub, r"\1.\2")
without_if = partial(IF_AND_THEN.sub, lambda match: match[1] or "")


def template_as_format(text: str) -> str:
    def call(match: re.Match[str]) -> str:
        names = IN_TEMPLATE.findall(match[1])
        numbers = iter(range(len(names)))
        return "format('%s', %s)" % (IN_TEMPLATE.sub(lambda _: "{%d}" % next(numbers), match[1]), ", ".join(names))
    return TEMPLATE.sub(call, text)


def with_round_brackets(text: str) -> str:
    changed = OTHER_BRACKETS.sub(lambda match: f"{match[1]}({match[2] or match[3] or ''})", text)
    changed = NO_BRACKETS_OF_ONE.sub(r"\1(\2)", NO_BRACKETS.sub(r"\1(\2)", changed))
    return BETWEEN_OPERANDS.sub(r"\2(\1, \3)", changed)


def with_single_commas(text: str) -> str:
    """A text with one comma between arguments, and none after the last one."""
    return re.sub(r",(?:\s*,)+", ",", text.replace(";", ",")).replace(",)", ")").replace(", )", ")")


def with_matching_brackets(text: str) -> str:
    """A text whose brackets are closed by those of their kind."""
    signs, is_open = list(text), []
    for token in tokens(text):
        if token.text in PAIRS:
            is_open.append(PAIRS[token.text])
        elif token.text in PAIRS.values() and is_open:
            signs[token.start] = is_open.pop()
    return "".join(signs)


def without_stray_brackets(text: str) -> str:
    stray = next((token.start for token in tokens(text) if token.depth < 0), None)
    return text if stray is None else text[:stray] + text[stray + 1:]


def with_alternatives(text: str) -> str:
    """A text with `||` in place of commas that separate no arguments."""
    return "".join(" ||" if token.text == "," and token.depth == 0 else token.text for token in tokens(text))


def with_comparison(text: str) -> str:
    """A text with operators in place of words and options of a shell that compare."""
    return OPTION_OF_TEST.sub(lambda match: OPERATOR_OF_OPTION[match[1]], IS.sub("==", IS_NOT.sub("!=", text)))


def with_equal_quotes(text: str) -> str:
    """A text whose only double quote is a single one, like the other end of its string, or that has a quote before a string too."""
    if text.count('"') == 1 and text.count("'") % 2:
        return text.replace('"', "'")
    return re.sub(r"([=!]=\s*)([\w./-]+')", r"\1'\2", text) if text.count("'") % 2 else text


def with_search(text: str) -> str:
    """A text with `startsWith`, `contains` or `==` in place of a regular expression without other signs than those of its ends."""
    def call(match: re.Match[str]) -> str:
        pattern = (match[2] if match[2] is not None else match[3]).replace("\\/", "/").replace("\\.", ".")
        begins, ends = pattern.startswith("^"), pattern.endswith("$")
        wanted = pattern.removeprefix("^").removesuffix("$").removesuffix(".*")
        if not PLAIN_TEXT.fullmatch(wanted) or ends and not begins:
            return str(match[0])
        if begins and ends and not pattern.endswith(".*$"):
            return f"{match[1]} == '{wanted}'"
        return f"{'startsWith' if begins else 'contains'}({match[1]}, '{wanted}')"
    return SEARCH.sub(call, text)


def choice_in_words(text: str) -> Choice | None:
    """`if a then b else c`, or `b if a else c`, as `a && b || c`."""
    found = [part.strip() for part in WORD_OF_CHOICE.split(text)]
    words, operands = found[1::2], found[::2]
    if words == ["if", "then", "else"] and not operands[0]:
        condition, yes, no = operands[1:]
    elif words == ["if", "else"]:
        yes, condition, no = operands
    else:
        return None
    is_whole = all(operand and operand.count("'") % 2 == 0 for operand in (condition, yes, no))
    made = choice(condition, yes, no) if is_whole else None
    before, after = text[:len(text) - len(text.lstrip())], text[len(text.rstrip()):]
    return made and Choice(before + made.text + after, made.doubtful)


def with_filter(text: str) -> str:
    """A text with a call of a function of JSON in place of a filter."""
    return FILTER.sub(lambda match: f"{match[1]}{match[3].lower()}JSON({match[2]}){match[4]}", text) if FILTER.fullmatch(text) else text


def with_state(text: str) -> str:
    """A text with comparisons in place of calls that ask for the state of a step or a job."""
    def compared(match: re.Match[str]) -> str:
        what = "outcome" if match[2] == "steps" else "result"
        return f"{match[2]}.{match[3]}.{what} {'!=' if match[1] else '=='} '{STATES[match[4]]}'"
    return STATE.sub(compared, text)
