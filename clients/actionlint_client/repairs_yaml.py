"""Repairs of texts that aren't valid YAML: quotes, brackets, spaces."""
from __future__ import annotations

import itertools
import re
from itertools import islice
from typing import Callable, Iterable

from .names import likely, names
from .operators import OPERATORS, choice_in, grouped
from .repair import COMMENT, Case, Edit, Repair, known_keys, quoted
from .repairs_blocks import CLOSERS, open_brackets
from .repairs_expressions import title_of
from .repairs_levels import indent_of, moved_line
from .repairs_lines import (MAX_LINES_ABOVE, MAX_LINES_OF_LIST, as_block, plain_spaces, script_below, script_in_lines, script_without_sign,
                            spaces_for_tabs, text_in_script, with_colon, with_dash, with_space, with_spaced_items,
                            without_spaces_after_dash)
from .scripts import expressions_in
from .syntax import shape_at
from .text import Point, Span, end_of

FLOW_ITEM = re.compile(r"[^,\[\]{}]*")
KEY_IN_BRACKETS = re.compile(r"\s*[\w-]+: +")
IS_PAIR = re.compile(r"[a-z][\w-]*: |[\[{].*[\]}]$|\*[\w-]+$")
QUOTED_BRACES = re.compile(r"['\"]?\$\{\{([^{}]*)\}\}['\"]?")
OTHER_SIGN = re.compile(r"[%&@#]\{\{[^{}]*\}\}")
NEGATED_BRACES = re.compile(r"! *\$\{\{([^{}]*)\}\}")
CHAIN_IN_BRACES = re.compile(r"(?<!\$)\{\{(\s*(?:%s)\.[\w.-]+\s*)\}\}" % "|".join(names()["contexts"]))
ANCHOR = re.compile(r"(?<!\S)&([^\s,\[\]{}]+)")
ALIAS = re.compile(r"\*([^\s,\[\]{}]+)")
SIGNS_OF_LINES = re.compile(r"([|>])[|>:]* ?([-+]?)[-+]*:?")
PLAIN_ITEM = re.compile(r" *- [\w./*-]+")
ITEM = re.compile(r"""(?:[\w-]+: *)?(?:'[^']*'|"[^"]*"|[^'"]*)""")
KEY_IN_VALUE = re.compile(r"(?<=[^\s,]) +(?=([a-z][\w-]*): )")
# An entry of a list in brackets that begins with one quote and ends with the other.
OTHER_QUOTE_AT_END = re.compile(r"""(?<=[\[,{])\s*(['"])(?!\1)[^'"\[\]{},]+(?!\1)['"](?=\s*[,\]}])""")
SIGN_BEFORE_OWNER = re.compile(r"@[\w.-]+/[\w./-]+@[\w./-]+$")
OTHER_CLOSER = re.compile(r"(?<![)}\]>])[)}\]>]$")
# Several entries of a mapping beside each other.
PAIRS = re.compile(r"[\w-]+: [^\s,\[\]{}:]+(?:, *[\w-]+: [^\s,\[\]{}:]+)+")
MAX_ITEMS = 30
# Words in quotes before others.
QUOTED_WORDS = re.compile(r"""(['"])(?:(?!\1).)*(?<!\s)\1\s""")
EXPRESSION_AS_ITEM = re.compile(r"(?<=[\[,])\s*(\$\{\{[^{}]*\}\})\s*(?=[\],])")


def with_quotes(case: Case) -> Iterable[Repair]:
    """The value on the fault's line, or on one above it, in quotes. If the key takes texts only, that is what was written."""
    number = case.span.start.line
    for line in (number, number - 1):
        span = case.rest_span(line) if 0 <= line else None
        if span and span.start.column <= (case.span.start.column if line == number else span.end.column):
            text = case.slice(span)
            if _has_sign_before_owner(case, span):
                return
            if not _opens_quote(text) and not _is_collection(text):
                is_whole = line == number and _takes_texts(case, span) and not _key_in_value(case, line)
                is_whole = is_whole and not PAIRS.fullmatch(case.lines[line].strip())
                yield case.replace("put it in quotes", quoted(text), span, is_safe=is_whole)
    yield from list(_quoted_expressions(case)) or _quoted_item(case)


def without_sign_before_owner(case: Case) -> Iterable[Repair]:
    """An action without the `@` before its owner."""
    span = case.rest_span(case.span.start.line)
    if span and _has_sign_before_owner(case, span):
        yield case.replace('delete the "@"', "", Span.on_line(span.start.line, span.start.column, span.start.column + 1))


def _has_sign_before_owner(case: Case, span: Span) -> bool:
    return SIGN_BEFORE_OWNER.match(case.slice(span)) is not None and case.lines[span.start.line][:span.start.column].endswith("uses: ")


def _is_collection(text: str) -> bool:
    """Whether a text is a list or mapping in brackets, closed at its end or nowhere."""
    closer = CLOSERS.get(text[:1])
    return closer is not None and not text.startswith("{{") and (text.endswith(closer) or closer not in text)


def _quoted_expressions(case: Case) -> Iterable[Repair]:
    """The expressions that are whole entries of a list in brackets, in quotes."""
    span = case.rest_span(case.span.start.line)
    if span and _is_collection(case.slice(span)):
        edits = [Edit(Span.on_line(span.start.line, match.start(1), match.end(1)), quoted(match[1]))
                 for match in EXPRESSION_AS_ITEM.finditer(case.line)]
        if len(edits) > 0:
            yield case.of("put it in quotes" if len(edits) == 1 else "put the expressions in quotes", *edits)


def _opens_quote(text: str) -> bool:
    """Whether a text begins with a quote that isn't closed in it."""
    return text[:1] in ("'", '"') and text.count(text[:1]) % 2 == 1


def _takes_texts(case: Case, span: Span) -> bool:
    """Whether the key of a value takes a text and nothing else, and the value isn't an expression."""
    place = case.outline.place(span.start)
    shape = shape_at(case.file, place.path, (*place.around, {}))
    text = case.slice(span)
    is_text = shape is not None and not shape["items"] and not shape["free"] and "keys" not in shape and shape["scalars"] == "AnyScalar"
    begins_other = text.startswith(("- ", "|", ">", "'", '"', "`${{"))
    has_meaning = begins_other or "?" in text or IS_PAIR.match(text) is not None or OTHER_SIGN.match(text)
    return is_text and not has_meaning and place.path[-1:] not in (("if",), ("uses",))


def as_schedule(case: Case) -> Iterable[Repair]:
    """A schedule of every minute, which begins with a star, in quotes and as frequent as GitHub allows, or at the hours that it names."""
    span = case.rest_span(case.span.start.line)
    fields = case.slice(span).split() if span else []
    is_schedule = span and re.search(r"\bcron:\s*$", case.line[:span.start.column])
    if span and is_schedule and len(fields) == 5 and fields[0] == "*":
        if fields[1] != "*":
            yield case.replace("put it in quotes, at the full hour", quoted(" ".join(["0", *fields[1:]])), span)
        yield case.replace("put it in quotes, every 5 minutes", quoted(" ".join(["*/5", *fields[1:]])), span)


def _quoted_item(case: Case) -> Iterable[Repair]:
    """The entry of a list in brackets that has the fault, in quotes."""
    line, column = case.line, case.span.start.column
    text_start = line.find("${{") if 0 <= line.find("${{") < column else column
    start = max(line.rfind(sign, 0, text_start) for sign in "[{,") + 1
    key = KEY_IN_BRACKETS.match(line, start)
    start = key.end() if key and key.end() <= text_start else start + len(line[start:]) - len(line[start:].lstrip())
    ends = [end_of(FLOW_ITEM, line, max(column + 1, start)), *(match.end() for match in re.finditer(r"\}\}", line)),
            line.find(", ", column), line.rfind("]")]
    for end in dict.fromkeys(end for end in ends if end > column):
        text = line[start:end].rstrip()
        if text and start <= column and not _opens_quote(text):
            span = Span.on_line(case.span.start.line, start, start + len(text))
            yield case.replace("put it in quotes", quoted(text), span)


def pair_below(case: Case) -> Iterable[Repair]:
    """A key with its value that follow another key, on a line of their own; several of them in braces."""
    span = case.rest_span(case.span.start.line)
    elements = case.outline.lines[case.span.start.line].elements
    item = re.fullmatch(rf"( *- )({PAIRS.pattern})\s*", case.line)
    if item:
        yield case.replace("make it a mapping", "{" + item[2] + "}", Span.on_line(case.span.start.line, item.start(2), item.end(2)))
    elif PAIRS.fullmatch(case.line.strip()):
        column = indent_of(case.line)
        lines = ("\n" + " " * column).join(re.split(", *", case.line.strip()))
        yield case.replace("write each on a line of its own", lines, Span.on_line(case.span.start.line, column, len(case.line)))
    elif span and case.slice(span)[:1] == "[" and PAIRS.fullmatch(case.slice(span)[1:-1]):
        yield case.replace("make it a mapping", "{" + case.slice(span)[1:-1] + "}", span)
    if span and elements and elements[-1].name is not None and PAIRS.fullmatch(case.slice(span)):
        yield case.replace("make it a mapping", "{" + case.slice(span) + "}", span)
    elif span and elements and elements[-1].name is not None and re.match(r"[\w-]+:(?: |$)", case.slice(span)):
        start = Point(case.span.start.line, elements[-1].end)
        indent = "\n" + " " * (elements[-1].column + 2)
        yield case.replace("move it to a line of its own", indent + case.slice(span), Span(start, span.end))


def key_in_value(case: Case) -> Iterable[Repair]:
    """A key of the section that follows a value on its line, on a line of its own."""
    found = _key_in_value(case, case.span.start.line)
    if found:
        indent = "\n" + " " * case.outline.lines[case.span.start.line].elements[-1].column
        spaces = Span.on_line(case.span.start.line, found.start(), found.end())
        yield case.replace(f'move "{found[1]}" to a line of its own', indent, spaces)


def _key_in_value(case: Case, line: int) -> re.Match[str] | None:
    """The spaces before a key in a value whose section has the key."""
    span, elements = case.rest_span(line), case.outline.lines[line].elements
    if span is None or not elements or elements[-1].name is None:
        return None
    place = case.outline.place(Point(line, elements[-1].column))
    known = known_keys(case.file, place.path, (*place.around, place.siblings), {*place.siblings, elements[-1].name})
    return next((match for match in KEY_IN_VALUE.finditer(case.lines[line], span.start.column) if match[1] in known), None)


def as_condition(case: Case) -> Iterable[Repair]:
    """`a ? b : c` as `a && b || c`, since expressions have no conditional operator."""
    for at, text in expressions_in(case.line):
        made = choice_in(text)
        if made:
            span = Span.on_line(case.span.start.line, at, at + len(text))
            yield case.replace(title_of(made), f" {made.text.strip()} ", span, is_safe=not made.doubtful)
    here = case.rest_span(case.span.start.line)
    text = case.slice(here) if here else ""
    made = choice_in(text) if case.line.lstrip(" -").startswith("if:") and "${{" not in text and not text[:1] in ("'", '"') else None
    if here and made:
        yield case.replace(title_of(made), "${{ " + made.text.strip() + " }}", here, is_safe=not made.doubtful)


def inner_quotes(case: Case) -> Iterable[Repair]:
    """A text in quotes that has the same quotes inside, which are doubled or get a backslash. Not a condition that may begin and end with
    strings of its own, nor a text that begins with quoted words."""
    span = case.rest_span(case.span.start.line)
    text = case.slice(span) if span else ""
    quote, key = text[:1], case.outline.lines[case.span.start.line].elements[-1:]
    is_whole = len(text) > 2 and quote in ("'", '"') and text.endswith(quote) and not QUOTED_WORDS.match(text)
    if span and is_whole and (not (key and key[0].name == "if") or text.endswith(quote * 2)):
        inner = text[1:-1].replace("''", "'").replace("'", "''") if quote == "'" else re.sub(r'(?<!\\)"', r'\\"', text[1:-1])
        yield case.replace("write the quotes inside as a text", quote + inner + quote, span)


def list_in_line(case: Case) -> Iterable[Repair]:
    """A list whose first dash follows its key on the same line, with the others there or on the lines below; or a script after a dash."""
    number = case.span.start.line
    span = case.rest_span(number)
    text = case.slice(span) if span else ""
    if span and text.startswith("- ") and re.match(r" *(?:- +)?run: +- ", case.line):
        yield case.replace("delete the dash", "", Span.on_line(number, span.start.column, span.start.column + 2))
    if span and text.startswith("- ") and ": " not in text:
        deeper = " " * (indent_of(case.line) + 1)
        below = itertools.takewhile(lambda line: line.startswith(deeper) and PLAIN_ITEM.fullmatch(line),
                                    case.lines[number + 1:number + MAX_LINES_OF_LIST])
        items = [line.strip()[2:] for line in below]
        end = Point(number + len(items), len(case.lines[number + len(items)])) if items else span.end
        yield case.replace("make it a list", "[" + ", ".join([*text[2:].split(" - "), *items]) + "]", Span(span.start, end))


def closed_above(case: Case) -> Iterable[Repair]:
    """A quote that begins a value on a line above and isn't closed there, closed at its end, or in its list before the bracket."""
    for line in range(case.span.start.line, max(case.span.start.line - MAX_LINES_ABOVE, -1), -1):
        span = case.rest_span(line)
        text = case.slice(span) if span else ""
        if span and _opens_quote(text):
            yield from _other_quote_at_end(case, text, span)
            yield from _one_quote_at_end(case, text, span)
            yield case.replace("close the quotes", text[:1], Span.at(span.end))
            return
        open_quote = next((sign for sign in "'\"" if text[:1] in CLOSERS and text.count(sign) % 2), None)
        other_end = OTHER_QUOTE_AT_END.search(text) if open_quote else None
        if span and other_end:
            column = span.start.column + other_end.end()
            yield case.replace(f"close the quotes with {other_end[1]}", other_end[1], Span.on_line(line, column - 1, column))
            return
        if span and open_quote:
            ends = [*(match.start() for match in islice(re.finditer(",", text), MAX_ITEMS)), len(text.rstrip("]} "))]
            for end in (end for end in ends if _has_whole_items(text[:end] + open_quote + text[end:])):
                yield case.replace("close the quotes", open_quote, Span.at(Point(line, span.start.column + end)))
            return


def _other_quote_at_end(case: Case, text: str, span: Span) -> Iterable[Repair]:
    """A text that begins with one quote and ends with the other, with the first one at its end too."""
    other = "'" if text[:1] == '"' else '"'
    if len(text) > 2 and text.endswith(other) and text.count(other) % 2:
        end = Span.on_line(span.end.line, span.end.column - 1, span.end.column)
        yield case.replace(f"close the quotes with {text[:1]}", text[:1], end)


def _one_quote_at_end(case: Case, text: str, span: Span) -> Iterable[Repair]:
    """A text with two quotes at its end in place of one."""
    quote = text[:1]
    if quote in ("'", '"') and text.endswith(quote * 2) and text.count(quote) == 3 and len(text) > 3:
        yield case.replace("write one quote at the end", quote, Span.on_line(span.end.line, span.end.column - 2, span.end.column))


def _has_whole_items(text: str) -> bool:
    """Whether the quotes of a list or mapping in brackets are around whole values."""
    return all(ITEM.fullmatch(item.strip(" []{}")) for item in text.split(","))


def closed_quote(case: Case) -> Iterable[Repair]:
    """A quote at the end of its line, or before what follows on it."""
    line = case.line
    span = case.rest_span(case.span.start.line)
    if span and span.start == case.span.start:
        yield from _other_quote_at_end(case, case.slice(span), span)
        of_one = list(_one_quote_at_end(case, case.slice(span), span))
        yield from of_one
        if of_one:
            return
    quote = line[case.span.start.column:case.span.start.column + 1]
    other = next((match for match in OTHER_QUOTE_AT_END.finditer(line) if match.start(1) == case.span.start.column), None)
    if other:
        yield case.replace(f"close the quotes with {quote}", quote, Span.on_line(case.span.start.line, other.end() - 1, other.end()))
        return
    signs = (at for at in (line.find(sign) for sign in (" #", "]", "}", ",")) if at > case.span.start.column)
    ends = dict.fromkeys([len(line.rstrip()), *(len(line[:at].rstrip()) for at in signs)])
    for end in ends:
        here = Point(case.span.start.line, end)
        yield case.replace("close the quotes", quote, Span.at(here))
    yield from with_quotes(case)


def closed_bracket(case: Case) -> Iterable[Repair]:
    """A bracket at the end of its line, or below its last line."""
    opener = case.line[case.span.start.column:case.span.start.column + 1]
    if opener not in CLOSERS:
        return
    number = case.span.start.line
    for line in range(number, min(number + 20, len(case.lines))):
        if case.lines[line].strip():
            here = Point(line, len(case.lines[line].rstrip()))
            yield case.replace("close the bracket", CLOSERS[opener], Span.at(here))


def brackets_closed_above(case: Case) -> Iterable[Repair]:
    """The brackets that are open on a line above, closed at its end, or after the last of the deeper lines below it."""
    number = case.span.start.line
    for line in range(number, max(number - MAX_LINES_OF_LIST, -1), -1):
        span = case.rest_span(line)
        open_signs = open_brackets(case.slice(span)) if span else []
        if span and open_signs == ["["] and case.slice(span).startswith("[[") and case.slice(span).endswith("]"):
            yield case.replace("write one bracket", "[", Span.on_line(line, span.start.column, span.start.column + 2))
        closer = CLOSERS[open_signs[0]] if len(open_signs) == 1 else ""
        if span and closer and OTHER_CLOSER.search(case.slice(span)) and not case.slice(span).endswith(closer):
            end = span.end.column
            yield case.replace(f'change to "{closer}"', closer, Span.on_line(line, end - 1, end))
            return
        if span and open_signs:
            last = next((one for one in range(number - 1, line, -1) if case.lines[one].strip()), line)
            lines = case.outline.lines[line + 1:last + 1]
            is_list = last > line and all(below.indent > case.outline.lines[line].indent for below in lines)
            end = len(COMMENT.sub("", case.lines[last])) if is_list else span.end.column
            here = Point(last if is_list else line, end)
            open_signs = open_brackets(case.slice(Span(span.start, here)))
            yield case.replace("close the bracket", "".join(CLOSERS[sign] for sign in reversed(open_signs)), Span.at(here))


def as_expression(case: Case) -> Iterable[Repair]:
    """A condition in double quotes, as in a shell, or with `!` before its braces, as one expression; or one whose braces lack a dollar."""
    span = case.rest_span(case.span.start.line)
    text = case.slice(span).strip() if span else ""
    is_one = text.endswith("}}") and text.count("{{") == 1
    if span and text.startswith("{{") and (is_one or CHAIN_IN_BRACES.match(text)):
        changed = "$" + text if is_one else CHAIN_IN_BRACES.sub(r"${{\1}}", text)
        yield case.replace("write a dollar before the braces", changed, span, is_safe=is_one)
    key = case.outline.lines[case.span.start.line].elements[-1:]
    if span and text[:1] in ("'", '"') and "${{" in text and "}}" in text and key and key[0].name == "if":
        beside = () if QUOTED_BRACES.fullmatch(text) else OPERATORS
        bare = QUOTED_BRACES.sub(lambda match: grouped(match[1].strip(), beside), text).replace('"', "'")
        yield case.replace("write it as an expression", "${{ " + bare + " }}", span)
    if span and OTHER_SIGN.match(text):
        yield case.replace(f'write "$" for "{text[0]}"', "$" + text[1:], span)
    match = NEGATED_BRACES.fullmatch(text)
    if span and match:
        yield case.replace('put the "!" into the braces', "${{ !" + grouped(match[1].strip(), OPERATORS) + " }}", span, is_safe=True)


def comment(case: Case) -> Iterable[Repair]:
    """A comment that begins as in other languages."""
    match = re.match(r" *(//)(?!\S*:)", case.line)
    if match:
        yield case.replace('write "#"', "#", Span.on_line(case.span.start.line, match.start(1), match.end(1)))


def near_alias(case: Case) -> Iterable[Repair]:
    """An alias of a similar anchor."""
    match = ALIAS.match(case.line, case.span.start.column)
    if match is None:
        return
    for name, is_slip in likely(match[1], dict.fromkeys(ANCHOR.findall(case.text))):
        span = Span.on_line(case.span.start.line, match.start(1), match.end(1))
        yield case.replace(f'change to "*{name}"', name, span, is_slip)


def single_quotes(case: Case) -> Iterable[Repair]:
    """A text with backslashes in single quotes, or with each backslash doubled."""
    line, column = case.line, case.span.start.column
    start = line.rfind('"', 0, column)
    end = next((match.start() for match in re.finditer(r'(?<!\\)"', line) if match.start() > column), -1)
    if start >= 0 and end > 0:
        span = Span.on_line(case.span.start.line, start, end + 1)
        yield case.replace("put it in single quotes", quoted(line[start + 1:end]), span)
    here = Point(case.span.start.line, column)
    yield case.replace("double the backslash", "\\", Span.at(here))


def without_character(case: Case) -> Iterable[Repair]:
    end = Point(case.span.start.line, case.span.start.column + 1)
    edit = Edit(Span(case.span.start, end), "")
    sign = case.slice(edit.span)
    if case.code == "Y13" and sign not in (",", ";", "]", "}", ")", "\u200b", "\ufeff"):
        return
    title = f'delete the "{sign}"' if sign.isprintable() and sign.strip() else "delete the character"
    yield Repair(title, {case.file: (edit,)}, is_last_resort=True, deletes=True)


def without_line(case: Case) -> Iterable[Repair]:
    """The text without the fault's line, for instance if the line begins a second document or is a directive."""
    number = case.span.start.line
    if number + 1 < len(case.lines):
        yield case.replace(f'delete the line "{case.line.strip()[:40]}"', "", Span(Point(number, 0), Point(number + 1, 0)), deletes=True)


def text_on_next_line(case: Case) -> Iterable[Repair]:
    """The text after `|`, on a line of its own; or `|` with one sign after it."""
    line = case.outline.lines[case.span.start.line]
    signs = SIGNS_OF_LINES.fullmatch(line.rest)
    if signs:
        start = Point(case.span.start.line, case.line.rindex(line.rest))
        text = signs[1] + signs[2]
        yield case.replace(f'write "{text}"', text, Span(start, Point(start.line, start.column + len(line.rest))))
        return
    column = line.elements[-1].column if line.elements else 0
    rest = case.line[case.span.start.column:]
    span = Span(case.span.start, Point(case.span.start.line, len(case.line)))
    yield case.replace("begin the text on the next line", "\n" + " " * (column + 2) + rest.lstrip(), span)
    yield from with_quotes(case)


def quoted_key(case: Case) -> Iterable[Repair]:
    """A key that begins with a sign, in quotes."""
    match = re.match(r"^( *(?:- +)?)([^\s'\"][^:]*)(?=:(?: |$))", case.line)
    if match:
        span = Span.on_line(case.span.start.line, match.start(2), match.end(2))
        yield case.replace("put the key in quotes", quoted(match[2]), span)


REPAIRS: dict[str, tuple[Callable[[Case], Iterable[Repair]], ...]] = {
    "Y2": (without_character,),
    "Y3": (spaces_for_tabs,),
    "Y4": (plain_spaces, comment, list_in_line, without_spaces_after_dash, with_spaced_items, with_dash, with_colon, with_space,
           script_below, moved_line, with_quotes),
    "Y5": (closed_quote,),
    "Y6": (closed_bracket, with_quotes),
    "Y7": (with_quotes, quoted_key),
    "Y8": (as_expression, with_quotes, quoted_key),
    "Y9": (with_quotes, quoted_key),
    "Y10": (with_quotes, without_line),
    "Y11": (without_line,),
    "Y12": (single_quotes,),
    "Y13": (plain_spaces, comment, without_sign_before_owner, as_condition, as_expression, as_schedule, list_in_line, closed_above,
            inner_quotes, pair_below, key_in_value, with_spaced_items, script_without_sign, script_in_lines, script_below, with_quotes,
            as_block, with_space, with_colon, text_in_script, brackets_closed_above, moved_line, without_character),
    "Y16": (text_on_next_line,),
    "Y17": (as_expression, with_colon, with_quotes, quoted_key),
    "Y18": (near_alias, with_quotes),
}
