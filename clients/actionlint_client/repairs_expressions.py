"""Repairs of expressions that can't be read, and what other repairs of expressions use."""
from __future__ import annotations

import re
from collections import Counter
from typing import Callable, Iterable, NamedTuple

from . import expression_texts as texts, other_syntax as others
from .expressions import STRING
from .operators import Choice, Token, choice, choice_in, grouped, operators, tokens
from .repair import NEEDS_QUOTES, Case, Repair, as_scalar, in_quotes, is_within_flow, without_quotes
from .syntax import is_condition
from .text import Point, Span, end_of

BRACES = re.compile(r"\$\{\{((?:[^$}]|\$(?!\{\{)|\}(?!\}))*)\}\}")
TEXT_WITH_BRACES = re.compile(r"'([^'{}]*(?:\$\{\{[^'{}]*\}\}[^'{}]*)+)'")
QUOTED_BRACES = re.compile(r"(?<!\w)'(\$\{\{[^{}]*\}\})'(?!\w)")
MANY_BRACES = re.compile(r"\$\{{3,}([^{}]*)\}{2,}")
NESTED_BRACES = re.compile(r"\$\{\{([^{}]*)\$\{\{([^{}]*)\}\}([^{}]*)\}\}")
VERSION = re.compile(r"(?<![\w.-])v?\d[\w-]*(?:\.[\w-]+)+")
WHOLE_CALL = re.compile(rf"(?:{others.FUNCTIONS})\((?:'[^']*'|[^'()])*\)")
VARIABLE = re.compile(r"\$\{?(GITHUB_|RUNNER_)?([A-Za-z_][A-Za-z0-9_]*)\}?")
CALL_OF_CHOICE = re.compile(r"\b(case|iif|if|ternary|choose)\s*\(")
ARGUMENTS = re.compile(r"(?:'(?:[^']|'')*'|[^()']|\((?:[^()']|'[^']*')*\))*")
ARGUMENT = re.compile(r"(?:'(?:[^']|'')*'|\((?:[^()']|'[^']*')*\)|[^,()'])+")
MAX_CONDITION_CHARACTERS = 5_000
NO_SIGNS = (";", "$", "\\")
TWO_ARGUMENTS = re.compile(r"\b(?:contains|startsWith|endsWith)\([^()',]{1,200},\s*'[^']*'\s*$", re.I)
WORD = re.compile(r"[^\s'\"()=!,]*")
TEST = re.compile(r"[=!<>]=|[<>]|\w\(")
SIGNS = re.compile(r"!?=+|&+|\|+|!")


class Expression(NamedTuple):
    """An expression without its braces, its place, and how its value is quoted in YAML."""

    text: str
    span: Span
    style: str


def expression_of(case: Case) -> Expression | None:
    """The expression that has the fault: between the braces around it, or the whole text of a condition."""
    here = case.scalar
    if here is None:
        return None
    style, span = here.value.style, here.value.span
    start = case.line.rfind("${{", 0, case.span.start.column + 3)
    line = case.span.start.line
    if start >= 0 and (start >= span.start.column or line > span.start.line):
        end = case.line.find("}}", case.span.start.column)
        last = end if end >= 0 else len(case.line.rstrip()) - (1 if style in ("'", '"') else 0)
        inner = Span.on_line(line, start + 3, max(last, start + 3))
        return Expression(case.slice(inner), inner, style)
    if "${{" in case.slice(span):
        return None
    if style in ("|", ">"):
        inner = Span.on_line(line, len(case.line) - len(case.line.lstrip()), len(case.line.rstrip()))
    elif style:
        inner = Span(Point(span.start.line, span.start.column + 1), Point(span.end.line, span.end.column - 1))
    else:
        inner = span
    return Expression(case.slice(inner), inner, style)


def rewritten(title: str, change: Callable[[str], str | None], is_safe: bool = False,
              deletes: bool = False) -> Callable[[Case], Iterable[Repair]]:
    """A repair that replaces the whole expression."""
    def repairs(case: Case) -> Iterable[Repair]:
        expression = expression_of(case)
        text = change(decoded(expression)) if expression else None
        if expression and text is not None and text != decoded(expression):
            yield with_expression(case, title, expression, text, is_safe, deletes)
    return repairs


def repair_of_operators(change: Callable[[str], str]) -> Callable[[Case], Iterable[Repair]]:
    """A repair that writes the operators of an expression, and names those that it writes."""
    def repairs(case: Case) -> Iterable[Repair]:
        expression = expression_of(case)
        text = decoded(expression) if expression else ""
        before, after = (Counter(SIGNS.findall(STRING.sub("", it))) for it in (text, change(text)))
        *others_written, last = [f'"{sign}"' for sign in after - before] or ["the operators"]
        title = f"write {', '.join(others_written)} and {last}" if others_written else f"write {last}"
        yield from rewritten(title, change, True)(case)
    return repairs


def with_expression(case: Case, title: str, expression: Expression, text: str, is_safe: bool = False, deletes: bool = False) -> Repair:
    """The case's text with another one for an expression."""
    is_whole = case.scalar is not None and expression.span == case.scalar.value.span
    wrapped = "${{ " + text + " }}" if is_whole and NEEDS_QUOTES.search(text) else text
    return case.replace(title, in_quotes(wrapped, expression.style), expression.span, is_safe, deletes)


def decoded(expression: Expression) -> str:
    """The text of an expression without what its quotes in YAML ask for."""
    return without_quotes(expression.text, expression.style)


def from_context(case: Case) -> Iterable[Repair]:
    """Variables of the shell as properties: of `github` and `runner` by their names, of `env` if the file sets them."""
    expression = expression_of(case)
    if expression is None:
        return

    def property_of(match: re.Match[str]) -> str:
        context = (match[1] or "env_")[:-1].lower()
        name = match[2].lower() if match[1] else match[2]
        # (a word in small letters may be any key)
        sets = rf"(?<!\w){re.escape(name)}" + (r"['\"]?\s*[:=]" if name.isupper() else "=.*GITHUB_ENV")
        if context == "env" and not re.search(sets, case.text):
            return str(match[0])
        return f"{context}.{name}"
    text = texts.outside_texts(decoded(expression), lambda part: VARIABLE.sub(property_of, part))
    if text != decoded(expression):
        yield with_expression(case, "take it from the context", expression, text)


def as_choice(case: Case) -> Iterable[Repair]:
    """`a ? b : c`, or the same in words, as `a && b || c`, since expressions have no conditional operator."""
    expression = expression_of(case)
    made = choice_in(decoded(expression)) or others.choice_in_words(decoded(expression)) if expression else None
    if expression and made:
        yield with_expression(case, title_of(made), expression, made.text, not made.doubtful)


def title_of(made: Choice) -> str:
    return 'write "&&" and "||"' + (f", wrong where {made.doubtful} is empty or false" if made.doubtful else "")


def choice_by_call(case: Case) -> Iterable[Repair]:
    """`case(a, b, c)` as `a && b || c`; more pairs likewise."""
    expression = expression_of(case)
    text = decoded(expression) if expression else ""
    call = CALL_OF_CHOICE.search(text)
    if expression is None or call is None:
        return
    arguments, end = arguments_at(text, call.end())
    made = _choice_of(arguments) if call[1] == "case" or len(arguments) == 3 else None
    if made and text[end:end + 1] == ")":
        before, after = text[:call.start()], text[end + 1:]
        inner = made.text if not before.strip() and not after.strip() else f"({made.text})"
        yield with_expression(case, title_of(made), expression, before + inner + after, call[1] == "case" and not made.doubtful)


def _choice_of(arguments: list[str]) -> Choice | None:
    """A condition, a value, any more of both, and what is left."""
    if len(arguments) % 2 == 0 or len(arguments) < 3:
        return None
    made = Choice(arguments[-1])
    for condition, value in reversed(list(zip(arguments[:-1:2], arguments[1:-1:2]))):
        next_made = choice(condition, value, made.text)
        if next_made is None:
            return None
        made = Choice(next_made.text, next_made.doubtful or made.doubtful)
    return made


def arguments_at(text: str, start: int) -> tuple[list[str], int]:
    """The arguments of a call that begin at an offset, and the offset after them."""
    end = end_of(ARGUMENTS, text, start)
    return [part.strip() for part in ARGUMENT.findall(text[start:end])], end


def closed_brackets(case: Case) -> Iterable[Repair]:
    """The brackets that are open, closed before the next `&&` or `||`, or else at the end."""
    expression = expression_of(case)
    text = decoded(expression) if expression else ""
    open_brackets = [token for token in _unclosed(text)]
    if expression is None or not open_brackets:
        return
    closers = "".join({"(": ")", "[": "]"}[token.text] for token in reversed(open_brackets))
    innermost = open_brackets[-1]
    is_call = re.search(r"\w$", text[:innermost.start]) is not None
    ends = [token.start for token in tokens(text) if token.start > innermost.start and token.text in ("&&", "||")
            and token.depth == innermost.depth + 1]
    for end in (*ends[:1], len(text)) if is_call else (len(text),):
        inner = text[:end].rstrip()
        yield with_expression(case, "close the brackets", expression, inner + closers + text[len(inner):], not ends)


def _unclosed(text: str) -> list[Token]:
    found: list[Token] = []
    for token in tokens(text):
        if token.text in ("(", "["):
            found.append(token)
        elif token.text in (")", "]") and found:
            found.pop()
    return found


def with_and(case: Case) -> Iterable[Repair]:
    """`&&` between two parts of a condition, each of which compares or calls something, in one line or in two of a block."""
    here, line, column = case.scalar, case.span.start.line, case.span.start.column
    if here is None or not is_in_condition(case) or not TEST.search(case.line[column:]):
        return
    before = case.line[:column].rstrip()
    if case.line[column:column + 1] == "," and not _unclosed(STRING.sub("", before)):
        yield case.replace('write "&&"', " &&", Span.on_line(line, column, column + 1))
        return
    if not before and here.value.style in ("|", ">") and line > here.value.span.start.line + 1:
        line, before = line - 1, case.line_at(line - 1).rstrip()
    if re.search(r"[\w')\]]$", before) and TEST.search(before):
        yield case.replace('add "&&"', " &&", Span.at(Point(line, len(before))))


def with_or(case: Case) -> Iterable[Repair]:
    """`||` in place of commas between values of which the first is taken, outside of conditions."""
    if not is_in_condition(case):
        yield from rewritten('write "||"', others.with_alternatives)(case)


def without_rest(case: Case) -> Iterable[Repair]:
    """An expression without `&&` or `||` at its end, or without a bracket that closes nothing."""
    expression = expression_of(case)
    text = decoded(expression) if expression else ""
    stripped = text.rstrip()
    match = re.search(r"(?<!\s)\s*(&&|\|\||,|\))$", stripped)
    if expression and match and match.start():
        yield with_expression(case, f'delete "{match[1]}" at the end', expression, stripped[:match.start()] + text[len(stripped):],
                              deletes=True)


def with_comma(case: Case) -> Iterable[Repair]:
    """A comma between two arguments of a call, unless the function takes no more."""
    expression = expression_of(case)
    before = case.line[:case.span.start.column]
    is_argument = not TWO_ARGUMENTS.search(before) and re.search(r"[\w')]\s+$", before)
    if expression and is_argument and _unclosed(STRING.sub("", before[before.rfind("${{") + 1:])):
        yield case.replace("add a comma", ",", Span.at(Point(case.span.start.line, len(before.rstrip()))))


def without_character(case: Case) -> Iterable[Repair]:
    """An expression without a sign that has no meaning in it."""
    sign = case.line[case.span.start.column:case.span.start.column + 1]
    if sign in NO_SIGNS and not re.match(r"\$[^a-z]", case.line[case.span.start.column:]):
        end = Point(case.span.start.line, case.span.start.column + 1)
        yield case.replace(f'delete the "{sign}"', "", Span(case.span.start, end), deletes=True)


def inner_braces(case: Case) -> Iterable[Repair]:
    """Braces around a part of what is in braces already are taken away, and more than two in a row."""
    many = MANY_BRACES.search(case.line)
    if many:
        span = Span.on_line(case.span.start.line, many.start(), many.end())
        yield case.replace("write two braces", "${{" + many[1] + "}}", span, is_safe=True)
    column = case.span.start.column
    match = NESTED_BRACES.search(case.line)
    if match and (match.start() <= column < match.end() or case.code == "G18"):
        span = Span.on_line(case.span.start.line, match.start(), match.end())
        yield case.replace("take away the inner braces", "${{" + match[1] + match[2].strip() + match[3] + "}}", span, is_safe=True)


def closed_text(case: Case) -> Iterable[Repair]:
    """A string that isn't closed, closed where it may end. The strings after it seem to begin where they end, so in a condition of several
    lines it may be one of a line above."""
    yield from _closed_above(case)
    expression = expression_of(case)
    if expression:
        for text in texts.closed_at_ends(decoded(expression)):
            yield with_expression(case, "close the text", expression, text)
        quote = "''" if expression.style == "'" else "'"
        stripped = expression.text.rstrip()
        for text in (stripped + quote, stripped[:-1] + quote + stripped[-1:] if stripped.endswith(")") else stripped + quote + ")",
                     stripped + quote + "]"):
            yield case.replace("close the text", text + expression.text[len(stripped):], expression.span)


def _closed_above(case: Case) -> Iterable[Repair]:
    here, last = case.scalar, case.span.start.line
    if here is None or here.value.span.start.line == last:
        return
    for line in range(here.value.span.start.line + (here.value.style in ("|", ">")), last):
        text = case.lines[line]
        if text.count("'") % 2 and here.value.style != "'":
            if others.with_equal_quotes(text) != text:
                yield case.replace("write single quotes", others.with_equal_quotes(text), Span.on_line(line, 0, len(text)))
            yield from (case.replace("close the text", closed, Span.on_line(line, 0, len(text))) for closed in texts.closed_at_ends(text))
            return


def second_brace(case: Case) -> Iterable[Repair]:
    """Two braces in place of one, or of two with a space between, that end an expression."""
    line, column = case.line, case.span.start.column
    match = re.match(r"\}(?!\})(?:\s+\})?", line[column:])
    if match and "${{" in line[:column]:
        yield case.replace("close the braces", "}}", Span.on_line(case.span.start.line, column, column + match.end()))


def closed_braces(case: Case) -> Iterable[Repair]:
    """Two braces after the expression: before one that is there, after all of it if it has an operator, or after its first name."""
    rest, here = case.line[case.span.start.column:], case.scalar
    whole = re.match(r"\$\{\{[^}\n]*", rest)
    chain = re.match(rf"\$\{{\{{\s*{texts.CHAIN.pattern}", rest)
    if whole is None or here is None:
        return
    text = whole[0].rstrip()
    if here.value.style in ("'", '"') and text.endswith(here.value.style):
        text = text[:-1].rstrip()
    has_brace = rest[whole.end():whole.end() + 1] == "}"
    is_after_dollar = case.line[:case.span.start.column].endswith("$")
    is_one = has_brace or chain is None or re.match(r"\s*(?:[=!]=|&&|\|\||[<>(])", rest[chain.end():]) is not None
    if is_after_dollar and is_one and here.path[-1:] != ("run",):
        column = case.span.start.column
        span = Span.on_line(case.span.start.line, column - 1, column + whole.end() + has_brace)
        yield case.replace("write one dollar and close the braces", text + " }}", span)
    ends = [whole.end() if has_brace else len(text)] if is_one else []
    ends += [chain.end()] if chain else []
    ends += [] if is_one else [len(text)]
    for end in dict.fromkeys(ends):
        tail = rest[end:end + 1]
        braces = re.match(r"\}(?:\s+\}(?!\}))?", rest[end:])
        width = braces.end() if braces else 0
        span = Span.on_line(case.span.start.line, case.span.start.column + end, case.span.start.column + end + width)
        before = "" if rest[:end].endswith(" ") else " "
        yield case.replace("close the braces", before + "}}", span, is_safe=tail == "}" and end == ends[0] and not is_after_dollar)


def word_as_text(case: Case) -> Iterable[Repair]:
    """The text around the fault, up to the nearest spaces, in quotes, if it is compared or an argument."""
    expression = expression_of(case)
    line, column = case.line, case.span.start.column
    start = column - len(WORD.findall(line[:column][::-1])[0])
    end = column + len(WORD.findall(line[column:])[0].partition("}")[0])
    if expression and re.match(r"[\w./*-]", line[start:end]) and is_operand(line[:start], line[end:]):
        span = Span.on_line(case.span.start.line, start, end)
        yield case.replace("put it in quotes", in_quotes(f"'{line[start:end]}'", expression.style), span)


def version_as_text(case: Case) -> Iterable[Repair]:
    """A version with several dots, which is no number, in quotes."""
    for match in VERSION.finditer(case.line):
        if match.start() < case.span.start.column <= match.end() and is_operand(case.line[:match.start()], case.line[match.end():]):
            yield from word_as_text(case)


def is_operand(before: str, after: str) -> bool:
    """Whether what is between two texts is compared, or is an argument."""
    return re.search(r"(?:[=!]=|[<>]=?|[\w]\(|,)\s*$", before) is not None or re.match(r"\s*(?:[=!]=|[<>])", after) is not None


def is_alternative(before: str, after: str) -> bool:
    """Whether what is between two texts is the last value of `||` and `&&`, or the one between them."""
    return re.search(r"(?:&&|\|\|)\s*$", before) is not None and re.match(r"\s*(?:\}\}|\)|\|\||$)", after) is not None


def is_compared(before: str, after: str) -> bool:
    return re.search(r"(?:[=!]=|[<>]=?)\s*$", before) is not None or re.match(r"\s*(?:[=!]=|[<>])", after) is not None


def is_in_condition(case: Case) -> bool:
    here = case.scalar
    return here is not None and is_condition(here.path)


def _without_quotes(match: re.Match[str]) -> str:
    """An expression in quotes without them, or a call of `format` if there is more in the quotes."""
    found = [inner.strip() for inner in BRACES.findall(match[1])]
    if BRACES.fullmatch(match[1]):
        return str(match[1])
    numbers = iter(range(len(found)))
    return "format('%s', %s)" % (BRACES.sub(lambda _: "{%d}" % next(numbers), match[1]), ", ".join(found))


def one_pair(case: Case) -> Iterable[Repair]:
    """A condition with one pair of braces around all of it, or without any."""
    here = case.value
    if here is None or here.value.kind != "scalar" or len(here.value.value) > MAX_CONDITION_CHARACTERS:
        return
    in_flow = is_within_flow(case, here.path)
    text = " ".join(here.value.value.split())
    joined = TEXT_WITH_BRACES.sub(_without_quotes, QUOTED_BRACES.sub(r"\1", text))
    outside = operators(BRACES.sub("x", joined)) or WHOLE_CALL.fullmatch(BRACES.sub("x", joined))

    def inner(match: re.Match[str]) -> str:
        is_operand = re.search(r"(?:[=!<>]=?)\s*$", joined[:match.start()]) or re.match(r"\s*(?:[=!]=|[<>])", joined[match.end():])
        return grouped(match[1].strip(), (*texts.COMPARISONS, "&&", "||") if is_operand else ("&&", "||"))
    whole = BRACES.sub(inner, joined).strip()
    if outside:
        # a boolean isn't equal to the text `true`
        is_safe = "'true'" not in whole and "'false'" not in whole
        yield case.replace("put all of it into one pair of braces", as_scalar("${{ " + whole + " }}", here.value.style, in_flow),
                           here.value.span, is_safe)
    for match in BRACES.finditer(text):
        rest = text.replace(match[0], "").strip()
        if rest in (".", ";", ",", "'", '"', '""', "''"):
            alone = as_scalar(match[0], here.value.style, in_flow)
            yield case.replace(f"delete the {rest} beside the braces", alone, here.value.span, deletes=True)


SINGLE_QUOTES = rewritten("write single quotes", texts.with_single_quotes, True)
DOUBLED = repair_of_operators(texts.doubled)
DOUBLED_WITH_QUOTES = rewritten('write "==" and quotes', texts.doubled_with_quotes)
SPREAD = rewritten("compare it with each", texts.spread)
EQUALS = repair_of_operators(texts.with_equals)
OPERATORS = repair_of_operators(texts.with_operators)

DOTS = rewritten('write "." after the context', texts.outside(others.with_dots))
EQUAL_QUOTES = rewritten("write single quotes", others.with_equal_quotes)
WITHOUT_IF = rewritten("delete what isn't the condition", others.without_if, deletes=True)
OTHER_SYNTAX = (
    rewritten("delete the space in the operator", texts.outside(others.without_spaces_in_operators), True), DOTS,
    rewritten("write a call with round brackets", others.with_round_brackets),
    rewritten("write one comma", texts.outside(others.with_single_commas)),
    rewritten("write the other bracket", others.with_matching_brackets), rewritten("call a function", others.with_search),
    rewritten("write a call", others.with_filter), rewritten("compare its state", texts.outside(others.with_state)),
    rewritten("write the operator", texts.outside(others.with_comparison)), rewritten('write ".*"', texts.outside(others.with_stars), True),
    rewritten('write "||"', others.with_default), EQUAL_QUOTES, rewritten("put it in quotes", others.with_text_in_brackets), WITHOUT_IF)

REPAIRS: dict[str, tuple[Callable[[Case], Iterable[Repair]], ...]] = {
    "X1": (rewritten("write a call of format", others.template_as_format), SINGLE_QUOTES,
           rewritten("leave out the quotes", texts.without_curly_quotes), rewritten("write plain spaces", texts.with_plain_spaces, True),
           DOUBLED, as_choice, EQUALS, rewritten('write "!="', texts.with_turned_operators), OPERATORS, SPREAD, DOUBLED_WITH_QUOTES,
           rewritten('write "||", which takes the second for an empty text too', texts.coalesced), inner_braces,
           rewritten('write "."', texts.with_plain_dots, True), rewritten('write "null"', texts.with_null),
           rewritten("write a call of format", texts.with_format),
           rewritten("write the operators of expressions", texts.with_all_operators, True),
           rewritten('write "${{" and "}}"', texts.with_double_braces, True), from_context, *OTHER_SYNTAX, _closed_above, second_brace,
           word_as_text, without_character),
    "X2": (rewritten("write the apostrophe twice", texts.with_apostrophes), EQUAL_QUOTES, closed_text),
    "X3": (EQUALS, OPERATORS, SPREAD, DOUBLED, as_choice, *OTHER_SYNTAX, rewritten("call a function", texts.with_calls), inner_braces,
           closed_brackets, with_comma, with_and, with_or, version_as_text, without_rest,
           rewritten("delete the bracket", others.without_stray_brackets, deletes=True), without_character),
    "X4": (rewritten("close the brackets", texts.with_closed_json), closed_brackets, without_rest),
    "X7": (DOTS,),
    "X9": (rewritten('write "." after the context', others.with_properties), WITHOUT_IF),
    "X20": (closed_braces,),
    "G18": (inner_braces, one_pair),
}
