"""Repairs of values of another kind or type than their keys take, and of empty files."""
from __future__ import annotations

import itertools
import re
from typing import Callable, Iterable

from .action_versions import VERSIONS, versions
from .expression_texts import ODD_SPACE
from .names import likely, misspelled
from .operators import negated
from .other_keys import OTHER_TYPES
from .paths import is_workflow
from .repair import Case, Edit, Found, Repair, indented, is_within_flow, quoted, tight
from .repairs_keys import JOB, UNIT_OF_LIMIT, without_dash
from .repairs_levels import moved
from .repairs_lines import DASH_WITHOUT_SPACE
from .syntax import activity_types, table, takes_filter
from .text import Point, Span
from .tree import Node, Path, last_line, walk

WORKFLOW = f"on: push\njobs:\n  {JOB.replace(chr(10), chr(10) + '  ')}\n"
ACTION = "name: Name\ndescription: Description\nruns:\n  using: composite\n  steps:\n    - run: make\n      shell: bash\n"
FLAGS = {"yes": "true", "on": "true", "y": "true", "true": "true", "no": "false", "off": "false", "n": "false", "false": "false"}
OTHER_FLAGS = {**dict.fromkeys(("1", "enabled", "enable", "always", "yep", "required", "mandatory"), "true"),
               **dict.fromkeys(("0", "disabled", "disable", "never", "nope", "none", "optional"), "false")}
NEGATED_KEYS = ("unless", "if-not", "if_not", "ifnot", "not-if", "skip-if", "skip_if", "except-if")
NUMBERS = {word: number for number, word in enumerate("zero one two three four five six seven eight nine ten".split())} | {
    "fifteen": 15, "twenty": 20, "thirty": 30, "forty": 40, "forty-five": 45, "sixty": 60, "ninety": 90}
NUMBER = re.compile(r"(-?\d{1,9}(?:\.\d{1,9})?)\s*([A-Za-z]*)\.?")
PARTS_OF_TIME = re.compile(r"(\d{1,4}) ?(?:h|hr|hours?) ?(\d{1,4}) ?(?:m|mins?|minutes?)")
MINUTES = {"": 1.0, "m": 1.0, "min": 1.0, "mins": 1.0, "minute": 1.0, "minutes": 1.0, "h": 60.0, "hr": 60.0, "hrs": 60.0, "hour": 60.0,
           "hours": 60.0, "d": 1440.0, "day": 1440.0, "days": 1440.0, "s": 1 / 60, "sec": 1 / 60, "secs": 1 / 60, "second": 1 / 60,
           "seconds": 1 / 60}
CALL = re.compile(r"[\w.-]+/[\w./-]+@[\w./-]+|\./[\w./-]+|docker://\S+")
COLON_LACKS_SPACE = re.compile(r"([A-Za-z_][\w-]*):(?=[^\s/:])")
LINE_OF_PAIR = re.compile(r"(\s*)([A-Za-z_]\w*)=(\S.*)")
LINE_OF_LIST = re.compile(r" *-?[\w./@*][\w./@*-]*")
KEY_LACKS_COLON = re.compile(r"([A-Za-z_][\w-]*)(?= +[^\s=])")
SEPARATORS = re.compile(r"[-. ]")


def other_kind(case: Case) -> Iterable[Repair]:
    """A list if one is expected, a space after dashes, a first job, and an alias in place of `<<`."""
    here = case.value
    yield from _spaced_dashes(case)
    if case.arguments[0] == "jobs":
        yield from _indented_jobs(case)
        yield from _first_job(case)
    if case.arguments[0] == "<<":
        yield from _without_merge(case)
    if here is None:
        return
    yield from _of_its_section(case, here)
    value, text = here.value, case.slice(here.value.span)
    if value.kind == "scalar" and value.style not in ("|", ">") and value.value:
        with_keys = list(_with_key(case, here)) or list(_pairs_in_lines(case, value))
        yield from with_keys
        if with_keys:
            return
        words = text[1:-1] if text.startswith("(") and text.endswith(")") else text
        yield from list_of_lines(case, value) if "\n" in text else [case.replace("make it a list", f"[{words}]", value.span)]
        if here.path[-2:-1] == ("steps",):
            yield from _as_step(case, value)
        pair = re.fullmatch(r"([\w-]+)[=:]\s*(.+)", value.value)
        if pair:
            yield case.replace("make it a mapping", "{%s: %s}" % (pair[1], quoted(pair[2])), value.span)
    if value.kind == "mapping" and here.parent.kind == "sequence" and len(here.parent.items) == 1:
        yield from as_mapping(case, here.parent)
    if value.kind == "mapping":
        yield from _named_steps(case, value)
        if all(not entry.value and entry.kind == "scalar" for _, entry in value.entries):
            keys = ", ".join(case.slice(key.span) for key, _ in value.entries)
            yield case.replace("make it a list", f"[{keys}]", tight(case, value))
        if not value.is_flow:
            yield from as_list(case, value)
    if value.kind == "sequence":
        yield from _by_name(case, value)
        yield from as_mapping(case, value)
        yield from _scalars_as_other(case, here)


def _as_step(case: Case, value: Node) -> Iterable[Repair]:
    """A text as a step: a call of an action that is known by its name, another call, or a script."""
    action = f"actions/{value.value}"
    for version in versions(case.project, action) if action in VERSIONS else ():
        yield case.replace(f'call "{action}@{version}"', f"uses: {action}@{version}", value.span)
    name = "uses" if CALL.fullmatch(value.value) else "run"
    yield case.replace(f'make it a step with "{name}"', f"{name}: {case.slice(value.span)}", value.span)


def _pairs_in_lines(case: Case, value: Node) -> Iterable[Repair]:
    """Lines of names and values with equals signs between them, as a mapping."""
    pairs = [LINE_OF_PAIR.fullmatch(line) for line in case.slice(value.span).split("\n")]
    if all(pairs) and not value.style and len(pairs) > 1:
        lines = (pair[1] + pair[2] + ": " + pair[3] for pair in pairs if pair)
        yield case.replace("make it a mapping", "\n".join(lines), value.span)


def list_of_lines(case: Case, value: Node) -> Iterable[Repair]:
    """Lines of words as a list: with a dash before each, or with a space after each dash."""
    lines = range(value.span.start.line, value.span.end.line + 1)
    has_dashes = [case.lines[line].lstrip().startswith("-") for line in lines]
    starts = [Point(line, len(case.lines[line]) - len(case.lines[line].lstrip()) + has_dashes[0]) for line in lines]
    is_of_words = all(LINE_OF_LIST.fullmatch(case.lines[line]) for line in lines) and len({start.column for start in starts}) == 1
    if is_of_words and len(set(has_dashes)) == 1:
        title, sign = ("add a space after each dash", " ") if has_dashes[0] else ("make it a list", "- ")
        yield case.of(title, *(Edit(Span.at(start), sign) for start in starts))


def _named_steps(case: Case, steps: Node) -> Iterable[Repair]:
    """Steps below their names, each in a list."""
    values = [value for _, value in steps.entries]
    if case.arguments[0] != "steps" or steps.is_flow:
        return
    if any(value.kind != "mapping" or value.is_flow or value.get("name") for value in values):
        return
    if values and all(value.span.start.column == key.span.start.column + 2 for key, value in steps.entries):
        edits = [Edit(Span(key.span.start, Point(key.span.end.line, key.span.end.column + 1)), f"- name: {case.slice(key.span)}")
                 for key, _ in steps.entries]
        yield case.of("make it a list of steps", *edits)


def _by_name(case: Case, sequence: Node) -> Iterable[Repair]:
    """A list of mappings that begin with a name, as a mapping by these names."""
    firsts = [item.entries[0] for item in sequence.items if item.kind == "mapping" and not item.is_flow and len(item.entries) > 1]
    if sequence.is_flow or len(firsts) != len(sequence.items) or any(key.value not in ("name", "id") for key, _ in firsts):
        return
    edits = []
    for key, value in firsts:
        line = key.span.start.line
        edits.append(Edit(Span(Point(line, case.lines[line].index("-")), value.span.end), f"{case.slice(value.span)}:"))
    yield case.of("make it a mapping", *edits)


def _with_key(case: Case, here: Found) -> Iterable[Repair]:
    """A text that begins with a key, whose colon or the space after it is missing or isn't a plain one."""
    value = here.value
    if value.style:
        return
    text = case.slice(value.span)
    keys = table()["shapes"]["Step"]["keys"] if here.path[-2:-1] == ("steps",) else None
    if ODD_SPACE.search(text):
        yield case.replace("write plain spaces", ODD_SPACE.sub(" ", text), value.span, is_safe=True)
    for pattern, sign, title in ((COLON_LACKS_SPACE, " ", "add a space after the colon"), (KEY_LACKS_COLON, ":", "add a colon")):
        match = pattern.match(text)
        if match and (keys is None or match[1] in keys):
            end = Point(value.span.start.line, value.span.start.column + match.end())
            yield case.replace(title + (f' after "{match[1]}"' if sign == ":" else ""), sign, Span.at(end), is_safe=sign == " ")


def _scalars_as_other(case: Case, here: Found) -> Iterable[Repair]:
    """A list of texts as a mapping, as a script, or as a single text."""
    items, span = here.value.items, tight(case, here.value)
    texts = [item.value for item in items if item.kind == "scalar"]
    if not items or len(texts) != len(items):
        return
    if case.arguments[0] == "permissions":
        yield case.replace("make it a mapping", "{" + ", ".join(f"{scope}: read" for scope in texts) + "}", span)
    if case.arguments[0] == "run" and here.key:
        indent = "\n" + " " * (here.key.span.start.column + 2)
        yield case.replace("write the script as a block", "|" + "".join(indent + text for text in texts), span)
    pairs = [re.fullmatch(r"([\w-]+)=(.*)", text) for text in texts]
    if all(pairs):
        yield case.replace("make it a mapping", "{" + ", ".join(f"{pair[1]}: {quoted(pair[2])}" for pair in pairs if pair) + "}", span)
    if case.arguments[0] == "secrets":
        entries = (f"{name}: {quoted('${{ secrets.%s }}' % SEPARATORS.sub('_', name).upper())}" for name in texts)
        yield case.replace("pass each secret by its name", "{" + ", ".join(entries) + "}", span)
    elif len(items) == 1:
        yield case.replace("remove it from the list", case.slice(items[0].span), span)


def _of_its_section(case: Case, here: Found) -> Iterable[Repair]:
    """A schedule, steps, a job or an input, made from the text or the mapping in its place."""
    value, text, name = here.value, case.slice(here.value.span), case.arguments[0]
    is_text = value.kind == "scalar" and bool(value.value)
    column = here.key.span.start.column if here.key else 0
    if name == "schedule" and is_text:
        cron = "{cron: %s}" % quoted(value.value)
        yield case.replace('make it a list of "cron" entries', cron if isinstance(here.path[-1], int) else f"[{cron}]", value.span)
    elif name == "schedule" and value.is_flow:
        yield case.replace('make it a list of "cron" entries', f"[{text}]", value.span)
    elif here.path[:-1] == ("on",) and not value.entries:
        yield from _settings_of_event(case, here)
    elif name == "env" and is_text and len(here.path) == 3 and here.key and here.parent.get("environment") is None:
        yield case.replace('change "env" to "environment"', "environment", here.key.span)
    elif name == "steps" and is_text:
        yield case.replace("make it a list of steps", "[{run: %s}]" % quoted(value.value), value.span)
    elif name == "inputs" and value.kind == "sequence" and value.is_flow:
        entries = ", ".join("%s: {type: string}" % item.value for item in value.items)
        yield case.replace("make it a mapping", "{" + entries + "}", value.span)
    elif name == "type" and value.items and value.is_flow and "options" in case.known_keys(here.path[:-1], here.parent.names()):
        yield case.replace('make it a "choice" with these options', "choice\n" + " " * column + f"options: {text}", value.span)
    elif here.path[-2:-1] == ("inputs",) and is_text:
        yield case.replace("make it a mapping", "{type: string}", value.span)
    elif here.path[:-1] == ("jobs",) and here.path[-1] in table()["shapes"]["Job"]["keys"]:
        yield from _keys_beside_job(case, here)
    elif here.path[:-1] == ("jobs",) and here.key and value.kind == "scalar":
        yield from _indented_keys(case, here)
        run = value.value or "make"
        lines = JOB.replace("make", run).split("\n")[1:]
        yield case.replace("make it a job", ":" + "".join("\n" + " " * column + line for line in lines),
                           Span(here.key.span.end, value.span.end))
    elif name == "steps" and value.kind == "scalar" and isinstance(here.path[-1], int):
        line = case.line_at(value.span.start.line)
        yield case.replace("add a script", (" " if line.rstrip().endswith("-") else "") + "run: echo",
                           Span.on_line(value.span.start.line, len(line.rstrip()), len(line)))


def _settings_of_event(case: Case, here: Found) -> Iterable[Repair]:
    """The value of an event as its activity types, or as its branches."""
    event, value = str(here.path[-1]), here.value
    items, known = value.items or [value], activity_types(event)
    meant = [next(iter(_types_like(item.value, known)), "") for item in items]
    is_of_types = {item.value for item in items} <= set(known) or event == "repository_dispatch"
    if not is_of_types and all(meant):
        names_ = list(dict.fromkeys(meant))
        if here.key and takes_filter(event, "types"):
            text = f": {{types: [{', '.join(names_)}]}}"
            yield case.replace(f'put "{", ".join(names_)}" below "types"', text, Span(here.key.span.end, tight(case, value).end))
        return
    key = "types" if is_of_types else "workflows" if takes_filter(event, "workflows") else "branches"
    if here.key and all(item.value for item in items) and takes_filter(event, key):
        texts = ", ".join(case.slice(item.span) for item in items)
        yield case.replace(f'put it below "{key}"', f": {{{key}: [{texts}]}}", Span(here.key.span.end, tight(case, value).end))


def _types_like(word: str, known: list[str]) -> list[str]:
    """The activity types that a word may be meant for."""
    others = [name for name in OTHER_TYPES.get(word, "").split() if name in known]
    return [word] if word in known else others or [name for name, _ in likely(word, known)]


def _keys_beside_job(case: Case, here: Found) -> Iterable[Repair]:
    """A key of a job beside it, moved below it with the others."""
    before = [(key, value) for key, value in here.parent.entries if here.key and key.span.start < here.key.span.start]
    jobs = [(key, value) for key, value in before if key.value not in table()["shapes"]["Job"]["keys"]]
    if jobs:
        yield from _indented_keys(case, Found((*here.path[:-1], jobs[-1][0].value), jobs[-1][0], jobs[-1][1], here.parent))


def jobs_below(case: Case) -> Iterable[Repair]:
    """Jobs that are beside an empty `jobs`, moved below it."""
    here = case.key
    if here is None or here.key is None or len(here.path) != 1 or here.value.kind != "mapping":
        return
    if not {"steps", "runs-on", "uses"} & set(here.value.names()):
        return
    yield from _indented_jobs(case)
    jobs = case.at("jobs")
    if jobs and jobs.entries and not jobs.is_flow and not here.value.is_flow and here.value.alias is None:
        lines = range(here.key.span.start.line, last_line(here.value, case.lines) + 1)
        yield moved(case, f'move "{here.key.value}" below "jobs"', lines, jobs.entries[0][0].span.start.column)


def _indented_keys(case: Case, here: Found) -> Iterable[Repair]:
    """The keys of a job, moved below it if they are beside it."""
    if here.value.value or is_within_flow(case, here.path):
        return
    after = [(key, value) for key, value in here.parent.entries if here.key and key.span.start > here.key.span.start]
    keys = itertools.takewhile(lambda entry: entry[0].value in table()["shapes"]["Job"]["keys"], after)
    edits = indented(case, keys, "  ")
    if edits:
        yield case.of("indent the keys of the job", *edits)


def _indented_jobs(case: Case) -> Iterable[Repair]:
    """The jobs, moved below `jobs` if they are beside it."""
    tree, jobs = case.tree, case.at("jobs")
    if tree is None or jobs is None or jobs.kind != "scalar" or jobs.value:
        return
    after = tree.entries[tree.names().index("jobs") + 1:]
    found = itertools.takewhile(lambda entry: entry[0].value not in table()["shapes"]["Workflow"]["keys"], after)
    edits = indented(case, found, "  ")
    if edits:
        yield case.of("indent the jobs", *edits)


def as_list(case: Case, mapping: Node) -> Iterable[Repair]:
    """A block mapping as the only entry of a list, or each of its entries as one."""
    first, last = mapping.span.start.line, last_line(mapping, case.lines)
    start = mapping.span.start
    edits = [Edit(Span.at(start), "- ")]
    edits += [Edit(Span.at(Point(line, 0)), "  ") for line in range(first + 1, last + 1) if case.lines[line].strip()]
    yield case.of("make it a list", *edits)


def as_mapping(case: Case, sequence: Node) -> Iterable[Repair]:
    """A list of block mappings without its dashes."""
    if sequence.is_flow or not sequence.items or any(item.kind != "mapping" or item.is_flow for item in sequence.items):
        return
    yield case.of("delete the dashes", *(without_dash(case, item) for item in sequence.items))


def _spaced_dashes(case: Case) -> Iterable[Repair]:
    edits = []
    for number in range(case.span.start.line, len(case.lines)):
        match = DASH_WITHOUT_SPACE.match(case.lines[number])
        if match and match.end() - 1 == case.span.start.column:
            edits.append(Edit(Span.at(Point(number, match.end())), " "))
    if edits:
        yield case.of("add a space after the dash", *edits, is_safe=True)


def _first_job(case: Case) -> Iterable[Repair]:
    jobs = case.tree.key("jobs") if case.tree else None
    value = case.at("jobs")
    if jobs and value and not value.entries and not value.items:
        line = jobs.span.start.line
        span = Span.on_line(line, jobs.span.end.column, len(case.lines[line]))
        yield case.replace("add a job", ":\n  " + JOB.replace("\n", "\n  "), span)


def _without_merge(case: Case) -> Iterable[Repair]:
    """The alias alone if a mapping has nothing but `<<`, otherwise what the alias stands for in its place."""
    if case.tree is None:
        return
    parents: dict[Path, Node] = {(): case.tree}
    parents.update((path, value) for path, _, value in walk(case.tree))
    edits = []
    for path, key, value in walk(case.tree):
        parent = parents[path[:-1]]
        if key is None or key.value != "<<" or value.alias is None:
            continue
        if len(parent.entries) == 1 and len(path) > 1:
            edits.append(_alias_alone(case, parent, value))
        elif entries := _merged(case, parent, key, value):
            between = ", " if parent.is_flow else "\n" + " " * key.span.start.column
            edits.append(Edit(Span(key.span.start, value.span.end), between.join(entries)))
    if edits:
        yield case.of('replace "<<"', *edits)


def _merged(case: Case, parent: Node, key: Node, alias: Node) -> list[str]:
    """The entries that a mapping gets from an alias, as they are written there, or none if one is a text in lines, has an anchor, or can't
    stand in brackets."""
    more = key.span.start.column - alias.entries[0][0].span.start.column if alias.entries else 0
    entries = [(name, value) for name, value in alias.entries if parent.get(name.value) is None]
    texts = [case.slice(Span(name.span.start, tight(case, value).end)) for name, value in entries]
    if any("&" in text or "\n" in text and (parent.is_flow or more < 0) for text in texts):
        return []
    return [text.replace("\n", "\n" + " " * more) for text in texts]


def merge(case: Case) -> Iterable[Repair]:
    """What an alias stands for in place of `<<`, which lacks a key or isn't one."""
    here = case.value
    if case.arguments[0] == "<<" or here and here.value.get("<<"):
        yield from _without_merge(case)


def script_without_sign(case: Case) -> Iterable[Repair]:
    """A script below its key that looks like a mapping or a list, with the sign of a text in lines."""
    here = case.value
    if here and here.value.items and all(item.kind == "scalar" for item in here.value.items):
        return
    if here and here.key and here.path[-1:] == ("run",) and here.value.kind != "scalar" and not here.value.is_flow:
        end = here.key.span.end
        if here.value.span.start.line > end.line and case.line_at(end.line)[end.column:].strip() == ":":
            yield case.replace('write "|" after "run:"', " |", Span.at(Point(end.line, end.column + 1)))


def value_of_output(case: Case) -> Iterable[Repair]:
    """The text of an output as its value."""
    here = case.value
    if here and here.key and here.path[-2:-1] == ("outputs",) and here.value.kind == "scalar" and not is_within_flow(case, here.path):
        if here.value.value and here.value.style not in ("|", ">"):
            indent = "\n" + " " * (here.key.span.start.column + 2)
            start = Point(here.key.span.end.line, here.key.span.end.column + 1)
            yield case.replace('put it below "value"', f"{indent}value: {case.slice(here.value.span)}", Span(start, here.value.span.end))


def in_a_job(case: Case) -> Iterable[Repair]:
    """The keys of a job that stand below `jobs`, as a job."""
    here, jobs = case.value, case.at("jobs")
    if here is None or jobs is None or here.path[:-1] != ("jobs",) or jobs.is_flow or not is_workflow(case.file):
        return
    if set(jobs.names()) <= set(table()["shapes"]["Job"]["keys"]):
        first, *others = indented(case, jobs.entries, "  ")
        start = " " * jobs.entries[0][0].span.start.column + "build:\n"
        yield case.of('put them into a job "build"', first._replace(text=start + first.text), *others)


def _alias_alone(case: Case, mapping: Node, alias: Node) -> Edit:
    if mapping.is_flow:
        return Edit(mapping.span, f"*{alias.alias}")
    line = mapping.span.start.line
    before = case.lines[line - 1].rstrip() if line else ""
    if case.lines[line][:mapping.span.start.column].strip() or not before.endswith(":"):
        return Edit(Span(mapping.span.start, alias.span.end), f"*{alias.alias}")
    return Edit(Span(Point(line - 1, len(before)), alias.span.end), f" *{alias.alias}")


def other_type(case: Case) -> Iterable[Repair]:
    """A boolean or a number that is written as a text, or an expression without its braces."""
    here = case.value
    if here is None:
        return
    text = here.value.value.strip()
    name = str(here.path[-1]) if here.path else ""
    yield from as_flag(case, here.value)
    yield from as_number(case, here.value, MINUTES if name.endswith("minutes") else {})
    if here.path == ("on",) and not text:
        key = case.tree.key("on") if case.tree else None
        if key:
            span = Span(key.span.end, Point(key.span.end.line, len(case.lines[key.span.end.line])))
            yield case.replace('add "push"', ": push", span)
    if re.fullmatch(r"\$?\{.*\}?\}", text) and here.value.kind == "scalar":
        yield case.replace("write it as an expression", "${{ " + text.strip("${} ") + " }}", here.value.span, is_safe=True)
    elif re.fullmatch(r"!?[a-z]\w*(?:\.[\w*-]+)+(?: *(?:[=!]=|[<>]=?) *(?:'[^']*'|[\w.-]+))?", text) and "}" not in text:
        value = "${{ " + text + " }}"
        yield case.replace("write it as an expression", quoted(value) if is_within_flow(case, here.path) else value, here.value.span)


def negated_condition(case: Case) -> Iterable[Repair]:
    """A condition under which a step or a job doesn't run, turned round."""
    here = case.key
    if here and here.key and case.arguments[0] in NEGATED_KEYS and "if" in case.known_keys(here.path[:-1], here.parent.names()):
        text = here.value.value.strip().removeprefix("${{").removesuffix("}}").strip()
        if here.value.kind == "scalar" and text and "${{" not in text:
            turned = "${{ " + negated(text) + " }}"
            value = quoted(turned) if is_within_flow(case, here.path) else turned
            span = Span(here.key.span.start, tight(case, here.value).end)
            yield case.replace('change to "if", with the opposite condition', f"if: {value}", span)


def limit_in_minutes(case: Case) -> Iterable[Repair]:
    """A limit in seconds or hours, in minutes."""
    here = case.key
    unit = UNIT_OF_LIMIT.fullmatch(case.arguments[0])
    if here and here.key and unit and "timeout-minutes" in case.known_keys(here.path[:-1], here.parent.names()):
        if re.fullmatch(r"\d{1,9}", here.value.value):
            whole, rounded = _in_minutes(float(here.value.value) * MINUTES[unit[1].lower()])
            text = f"timeout-minutes: {whole}"
            yield case.replace(f'change to "{text}"{rounded}', text, Span(here.key.span.start, here.value.span.end))


def _in_minutes(amount: float) -> tuple[int, str]:
    """A time in whole minutes, and the words for a title if that isn't all of it."""
    exact = round(amount, 6)
    whole = max(1, -int(-exact // 1))
    return whole, "" if whole == exact else ", rounded up"


def as_flag(case: Case, node: Node) -> Iterable[Repair]:
    """`true` or `false` for a word that means it."""
    text = node.value.strip().lower()
    meant = FLAGS.get(text) or misspelled(text, ("true", "false"))
    if node.kind == "scalar" and (meant or text in OTHER_FLAGS):
        flag = meant or OTHER_FLAGS[text]
        yield case.replace(f'change to "{flag}"', flag, node.span, is_safe=meant is not None)


def as_number(case: Case, node: Node, units: dict[str, float]) -> Iterable[Repair]:
    """A number without its quotes, for a word, or in the unit of its key."""
    text = node.value.strip().lower()
    match = NUMBER.fullmatch(text)
    if node.kind != "scalar":
        return
    parts = PARTS_OF_TIME.fullmatch(text)
    if parts and "h" in units:
        total = int(parts[1]) * 60 + int(parts[2])
        yield case.replace(f'change to "{total}"', str(total), node.span, is_safe=True)
    elif text in NUMBERS:
        yield case.replace(f'change to "{NUMBERS[text]}"', str(NUMBERS[text]), node.span, is_safe=True)
    elif match and not match[2]:
        yield case.replace(f'change to "{match[1]}"', match[1], node.span, is_safe=True)
    elif match and not units:
        yield case.replace(f'change to "{match[1]}"', match[1], node.span)
    elif match and match[2] in units:
        whole, rounded = _in_minutes(float(match[1]) * units[match[2]])
        yield case.replace(f'change to "{whole}"{rounded}', str(whole), node.span, is_safe=not rounded)


def skeleton(case: Case) -> Iterable[Repair]:
    """A file to start from, after its comments."""
    end = Point(len(case.lines) - 1, len(case.lines[-1]))
    before = "\n" if case.lines[-1] else ""
    yield case.replace("insert a skeleton", before + (WORKFLOW if is_workflow(case.file) else ACTION), Span.at(end))


REPAIRS: dict[str, tuple[Callable[[Case], Iterable[Repair]], ...]] = {
    "K1": (limit_in_minutes, negated_condition, jobs_below, merge),
    "K2": (merge,),
    "K4": (in_a_job, script_without_sign, value_of_output, other_kind),
    "K5": (other_type,),
    "K7": (skeleton,),
}
