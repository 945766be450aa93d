"""Repairs of keys that a section doesn't have, lacks, or has twice."""
from __future__ import annotations

import itertools
import re
from typing import Callable, Iterable

from .names import likely, misspelled, names, near
from .other_keys import MEANINGLESS, other_keys
from .paths import is_workflow
from .repair import (FLOW_SIGNS, Case, Edit, Found, Repair, entries_of, first_entry, indented, next_entry, quoted, tight, without_entry,
                     without_key)
from .repairs_levels import moves
from .repairs_steps import STEP_STARTS, new_step
from .syntax import shape_at, table
from .text import Point, Span
from .tree import Node, Path, last_line

JOB = "build:\n  runs-on: ubuntu-latest\n  steps:\n    - run: make"
# The values of missing keys.
MISSING = {"on": "push", "jobs": "\n  " + JOB.replace("\n", "\n  "), "runs-on": "ubuntu-latest", "run": "echo", "type": "string",
           "group": "${{ github.workflow }}-${{ github.ref }}", "cron": "'0 0 * * *'", "value": "''", "name": "Name",
           "description": "Description", "using": "composite", "main": "index.js", "image": "Dockerfile", "steps": "[]",
           "runs": "\n  using: composite\n  steps: []"}
# What shows by a value which key it belongs to.
VALUES_OF_KEYS = {"image": re.compile(r"(?:[\w./-]*/)?Dockerfile[\w.-]*|docker://\S+|[\w./-]+:\d[\w.-]*"),
                  "main": re.compile(r"[\w./-]+\.[cm]?js"),
                  "uses": re.compile(r"[\w.-]+/[\w./-]+@[\w./-]+|\./[\w./-]+"), "cron": re.compile(r"[\d*][\d*/,-]*(?: [\w*/,-]+){4}"),
                  "using": re.compile(r"composite|docker|node\d\d"),
                  "runs-on": re.compile(r"(?:ubuntu|windows|macos)-[\w.-]+|self-hosted"), "value": re.compile(r"\$\{\{.*\}\}")}
# And by the keys of its entries.
ENTRIES_OF_KEYS = {"steps": {"run", "uses"}, "jobs": {"runs-on", "steps", "uses"}}
# A limit in another unit than minutes.
UNIT_OF_LIMIT = re.compile(r"timeout[-_]?(?:in[-_]?)?(s|secs?|seconds?|h|hrs?|hours?)", re.I)
# Sections that can be a text, which is the value of one of their keys.
SHORT_FORMS = {"concurrency": ("group", "Concurrency"), "environment": ("name", "Environment"), "container": ("image", "Container"),
               "runs-on": ("labels", "RunsOn")}
# What a call of a workflow and a step have in common.
CALL_KEYS = {"name", "if", "uses", "with", "secrets"}
# Where a missing key is looked for.
MAX_PLACES = 20


def near_key(case: Case) -> Iterable[Repair]:
    """A similar key of the section that can stand beside the others, or the one that is meant by another word."""
    here, wrong = case.key, case.arguments[0]
    if here is None or UNIT_OF_LIMIT.fullmatch(wrong):
        return
    known = case.known_keys(here.path[:-1], (name for name in here.parent.names() if name != wrong))
    found = likely(wrong, known)
    meant = next((key for key in other_names(wrong, here.value) if key in known), None)
    meant = meant or next((key for key in known if fits(key, here.value)), None)
    if meant in known and not any(is_slip for _, is_slip in found):
        only = here.value.entries[0][1] if len(here.value.entries) == 1 else None
        if only and here.key and fits(str(meant), only):
            yield case.replace(f'change to "{meant}"', f"{meant}: {case.slice(only.span)}", Span(here.key.span.start, only.span.end))
        else:
            yield in_its_quotes(case, str(meant))
    yield from (in_its_quotes(case, name, is_slip) for name, is_slip in found)


def other_names(word: str, value: Node) -> list[str]:
    """The keys that may be meant by another word: `on` only if its value has events."""
    events = {*value.names(), *(item.value for item in value.items), *([value.value] if value.kind == "scalar" else [])}
    has_events = events <= {*names()["events"], *table()["shapes"]["On"]["keys"]}
    return [key for key in other_keys(word) if key != "on" or has_events]


def fits(key: str, value: Node) -> bool:
    """Whether a value looks like those that a key takes, and no other key beside it."""
    if key in ENTRIES_OF_KEYS:
        entries = value.items if key == "steps" else [entry for _, entry in value.entries]
        return bool(entries) and all(set(entry.names()) & ENTRIES_OF_KEYS[key] for entry in entries)
    texts = [item.value for item in value.items] if key == "runs-on" and value.items else [value.value] if value.kind == "scalar" else []
    return key in VALUES_OF_KEYS and any(VALUES_OF_KEYS[key].fullmatch(text) for text in texts)


def unknown_beside(case: Case) -> Iterable[Repair]:
    """A similar key in place of one that can stand beside no other, since the section doesn't know it."""
    if case.key and case.arguments[0] not in case.known_keys(case.key.path[:-1]):
        yield from near_key(case)


def in_its_quotes(case: Case, name: str, is_safe: bool = False) -> Repair:
    """A name in place of the written one, in the same quotes."""
    quote = case.written[:1] if case.written[:1] in ("'", '"') else ""
    return case.replace(f'change to "{name}"', quote + name + quote, is_safe=is_safe)


def one_level_deeper(case: Case) -> Iterable[Repair]:
    """The keys of `defaults` moved below `run`, and the rows of a matrix below `matrix`; also the keys of a job's `defaults`."""
    here = case.key
    if here is None:
        return
    of_run, of_strategy, of_step = (table()["shapes"][shape]["keys"] for shape in ("RunDefaults", "Strategy", "Step"))
    if here.path[-2:-1] == ("defaults",) and here.path[-1] in of_run:
        yield from _below(case, here, "run", lambda key: key in of_run)
    elif len(here.path) == 3 and case.job and here.path[-1] in of_strategy and here.parent.get("strategy") is None:
        yield from _below(case, here, "strategy", lambda key: key in of_strategy)
    elif len(here.path) == 3 and case.job and here.path[-1] in of_step and not here.parent.get("steps") and not here.parent.get("uses"):
        yield from _as_step(case, here)
    elif here.path[-1] in names()["permission scopes"] and here.value.value in names()["permission values"]:
        given = here.parent.get("permissions")
        if given is None:
            yield from _below(case, here, "permissions", lambda key: key in names()["permission scopes"])
        elif given.entries and not given.is_flow and here.key:
            entry = case.slice(Span(here.key.span.start, here.value.span.end))
            yield case.of('put it below "permissions"', without_entry(case, here.parent, here.key), first_entry(given, entry))
    elif here.path[:1] == ("on",) and here.path[-2] in ("workflow_dispatch", "workflow_call") and _is_input(here):
        known = table()["shapes"]["Call"]["keys"]
        yield from _below(case, here, "inputs", lambda key: key not in known) if here.parent.get("inputs") is None else ()
    elif here.path[-2:-1] == ("strategy",) and here.parent.get("matrix") is None:
        yield from _below(case, here, "matrix", lambda key: key not in of_strategy)
    elif here.key and case.job and len(here.path) == 3 and here.path[-1] in of_run and here.parent.get("defaults") is None:
        span = Span(here.key.span.start, here.value.span.end)
        yield case.replace('put it below "defaults"', "defaults: {run: {" + case.slice(span) + "}}", span)


def _is_input(here: Found) -> bool:
    """Whether all entries beside a key that the section of a call doesn't have look like inputs."""
    shapes = table()["shapes"]
    known, keys = shapes["Call"]["keys"], {*shapes["DispatchInput"]["keys"], *shapes["CallInput"]["keys"]}
    values = [value for key, value in here.parent.entries if key.value not in known]
    return all(value.entries and set(value.names()) <= keys for value in values)


def _below(case: Case, here: Found, above: str, belongs: Callable[[str], bool]) -> Iterable[Repair]:
    """The consecutive entries around a key that belong below another key, which is missing."""
    numbers = [number for number, (key, _) in enumerate(here.parent.entries) if belongs(key.value)]
    if numbers != list(range(numbers[0], numbers[-1] + 1)):
        return
    entries = [here.parent.entries[number] for number in numbers]
    texts = [case.slice(Span(key.span.start, tight(case, value).end)) for key, value in entries]
    span = Span(entries[0][0].span.start, tight(case, entries[-1][1]).end)
    if here.parent.is_flow:
        yield case.replace(f'put it below "{above}"', f"{above}: {{" + ", ".join(texts) + "}", span)
    else:
        indent = "\n" + " " * (entries[0][0].span.start.column + 2)
        lines = indent.join(text.replace("\n", "\n  ") for text in texts)
        yield case.replace(f'put it below "{above}"', f"{above}:{indent}{lines}", span)


def below_inputs(case: Case) -> Iterable[Repair]:
    """Keys of a call that its section doesn't have, as inputs below `with`; below `env` those that look like variables."""
    if case.key:
        yield from moved_below(case, case.key)


def moved_below(case: Case, here: Found) -> Iterable[Repair]:
    """An entry of a call or a script, moved below `with` or `env`, with others that don't belong beside it either."""
    if here.key is None:
        return
    beside = here.parent.names()
    shape = shape_at(case.file, here.path[:-1], case.levels((*here.path[:-1], "")))
    known = list(shape["keys"]) if shape and shape.get("section") in ("step", "job", "workflow") else []
    is_variable = here.key.value.isupper() and not (shape and shape["section"] == "job" and "uses" in beside)
    target = "env" if is_variable else "with" if "uses" in beside else None
    others = [name for name in beside if name not in known and misspelled(name, known) is None and (name.isupper() or not is_variable)]
    if not known or target is None or here.key.value not in others:
        return
    around = here.parent.get(target)
    if around is None:
        yield from _below(case, here, target, lambda key: key in others)
    elif around.entries and around.is_flow == here.parent.is_flow and around.alias is None:
        text = case.slice(Span(here.key.span.start, tight(case, here.value).end))
        added = next_entry(case, around, around.entries[-1][0].value, text.replace("\n" + " " * here.key.span.start.column, "\n"))
        yield case.of(f'put it below "{target}"', without_entry(case, here.parent, here.key), added)


def below_empty(case: Case) -> Iterable[Repair]:
    """Consecutive keys that the section doesn't have, moved below an empty key before them that can have any."""
    here = case.key
    if here is None or here.key is None or here.parent.is_flow:
        return
    shape = shape_at(case.file, here.path[:-1], case.levels((*here.path[:-1], "")))
    known = shape["keys"] if shape and "keys" in shape else {}
    entries = here.parent.entries
    number = next(number for number, (key, _) in enumerate(entries) if key is here.key)
    first = number
    while first and entries[first - 1][0].value not in known:
        first -= 1
    key, value = entries[first - 1] if first else entries[0]
    below = table()["shapes"].get(known[key.value]["shape"], {}) if key.value in known else {}
    takes_any = key.value != "jobs" and (below.get("free") or below.get("others") == "unchecked")
    if first and takes_any and value.kind == "scalar" and not value.value and not value.style:
        moved = itertools.takewhile(lambda entry: entry[0].value not in known, entries[first:])
        yield case.of(f'move it below "{key.value}"', *indented(case, moved, "  "))


def _as_step(case: Case, here: Found) -> Iterable[Repair]:
    """Consecutive keys of a job without steps that only a step has, as its step."""
    known = table()["shapes"]["Job"]["keys"]
    entries = [(key, value) for key, value in here.parent.entries if key.value not in known]
    if here.parent.is_flow or not {"run", "uses"} & {key.value for key, _ in entries} or not here.key:
        return
    column = here.key.span.start.column
    first = entries[0][0].span.start
    start = Edit(Span.at(first), "steps:\n" + " " * (column + 2) + "- ")
    edits = [*indented(case, entries, "    ")][1:]
    yield case.of("make it a step", start, *edits)


def below_sibling(case: Case) -> Iterable[Repair]:
    """A key that only one of the sections beside it has, moved to its start."""
    here = case.key
    if here is None or here.key is None or here.parent.is_flow:
        return
    sections = [(key, value) for key, value in here.parent.entries if value.kind == "mapping" and not value.is_flow and not value.alias
                and here.key.value in case.known_keys((*here.path[:-1], key.value), value.names())]
    if len(sections) == 1 and all(path[:-1] != here.path[:-1] for path, _ in moves(case, here)):
        key, section = sections[0]
        entry = case.slice(Span(here.key.span.start, tight(case, here.value).end)).replace("\n" + " " * here.key.span.start.column, "\n")
        removed = without_entry(case, here.parent, here.key)
        yield case.of(f'put it below "{key.value}"', removed, first_entry(section, entry))


def beside_short_form(case: Case) -> Iterable[Repair]:
    """A key of a section beside that section, which is written as a text: both below its key."""
    here = case.key
    if here is None or here.key is None or here.parent.is_flow:
        return
    for name, (first, shape) in SHORT_FORMS.items():
        short, key = here.parent.get(name), here.parent.key(name)
        if short and key and short.kind == "scalar" and short.value and here.path[-1] in table()["shapes"][shape]["keys"]:
            indent = "\n" + " " * (key.span.start.column + 2)
            entry = case.slice(Span(here.key.span.start, tight(case, here.value).end)).replace("\n", "\n  ")
            text = f":{indent}{first}: {case.slice(short.span)}{indent}{entry}"
            removed = without_entry(case, here.parent, here.key)
            yield case.of(f'put it below "{name}"', Edit(Span(key.span.end, short.span.end), text), removed)


def part_of_value(case: Case) -> Iterable[Repair]:
    """A text that was cut at a comma in brackets, in quotes."""
    here = case.key
    if here is None or here.key is None or not here.parent.is_flow or here.value.value:
        return
    number = next(number for number, (key, _) in enumerate(here.parent.entries) if key is here.key)
    before = here.parent.entries[number - 1][1] if number else None
    if before and before.kind == "scalar" and not before.style:
        span = Span(before.span.start, here.key.span.end)
        yield case.replace("put it in quotes", quoted(case.slice(span)), span)


def step_of_keys(case: Case) -> Iterable[Repair]:
    """The keys of a step beside an empty `steps`, as its first step."""
    here = case.key
    names_ = here.parent.names() if here else []
    if here is None or here.key is None or here.parent.is_flow or "steps" not in names_:
        return
    after = here.parent.entries[names_.index("steps") + 1:]
    steps = here.parent.get("steps")
    if steps and steps.kind == "scalar" and not steps.value and after and after[0][0] is here.key:
        step = [(key, value) for key, value in after if key.value in table()["shapes"]["Step"]["keys"]]
        yield case.of("make it a step", *indented(case, step[:1], "- "), *indented(case, step[1:], "  "))


def deleted(case: Case) -> Iterable[Repair]:
    """The mapping without the key. What a key means that is none of GitHub's can't be known, so it stays."""
    here = case.key
    if here and here.key and len(here.parent.entries) > 1 and _has_meaning(case):
        yield case.of(f'delete "{here.key.value}"{entries_of(here.value)}', without_entry(case, here.parent, here.key), deletes=True)


def _has_meaning(case: Case) -> bool:
    """Whether it is known what a key means that its section doesn't have."""
    return case.code != "K1" or case.arguments[0] in (*names()["keys"], *MEANINGLESS)


def emptied_event(case: Case) -> Iterable[Repair]:
    """An event without its only setting, which it doesn't have."""
    here = case.key
    if here and here.key and here.path[:1] == ("on",) and len(here.path) == 3 and len(here.parent.entries) == 1 and not here.parent.is_flow:
        last = last_line(here.value, case.lines)
        if last + 1 < len(case.lines) and _has_meaning(case):
            span = Span(Point(here.key.span.start.line, 0), Point(last + 1, 0))
            yield case.replace(f'delete "{here.key.value}"{entries_of(here.value)}', "", span, deletes=True)


def required_or_not(case: Case) -> Iterable[Repair]:
    """`optional` as `required` with the opposite value."""
    here = case.key
    flag = {"true": "false", "false": "true"}.get(here.value.value) if here and case.arguments[0].lower() == "optional" else None
    if here and here.key and flag and "required" in case.known_keys(here.path[:-1], here.parent.names()):
        yield case.replace(f'change to "required: {flag}"', f"required: {flag}", Span(here.key.span.start, here.value.span.end))


def another_job(case: Case) -> Iterable[Repair]:
    """A second job with the same key under a new key."""
    here = case.key
    if here and here.path[:-1] == ("jobs",):
        yield case.replace(f'change to "{here.path[-1]}-2"', f"{here.path[-1]}-2")


def repeated(case: Case) -> Iterable[Repair]:
    """One of two equal keys, taken away if empty, or if it says the same and no other is there twice; else merged, or the second gone."""
    here = case.key
    if here is None or here.key is None:
        return
    first = here.parent.get(here.key.value)
    assert first
    name = here.key.value
    if case.slice(tight(case, first)) == case.slice(tight(case, here.value)):
        if len(set(here.parent.names())) + 1 < len(here.parent.entries):
            return
        yield case.of(f'delete the second "{name}", which is equal', without_entry(case, here.parent, here.key), is_safe=True)
        return
    key = here.parent.key(name)
    if key and first.kind == "scalar" and not first.value and not first.style and here.value.entries:
        yield case.of(f'delete the first "{name}", which is empty', without_entry(case, here.parent, key), is_safe=True)
        return
    yield from _merged(case, here, first)
    if name == "if" and first.kind == here.value.kind == "scalar" and "${{" not in first.value + here.value.value and not first.style:
        both = f"({first.value}) && ({here.value.value})"
        yield case.of('join both conditions with "&&"', Edit(first.span, both), without_entry(case, here.parent, here.key))
    if here.path != ("jobs", name):
        value = f' ("{here.value.value}")' if here.value.kind == "scalar" and 0 < len(here.value.value) < 40 else ""
        title = f'delete the second "{name}"{value}{entries_of(here.value)}'
        yield case.of(title, without_entry(case, here.parent, here.key), deletes=True)


def _merged(case: Case, here: Found, first: Node) -> Iterable[Repair]:
    """The entries of the second value after those of the first."""
    second = here.value
    assert here.key
    removed = without_entry(case, here.parent, here.key)
    title = f'merge it with the first "{here.key.value}"'
    if first.alias or second.alias or here.path[:-1] == ("jobs",):
        return
    if first.kind == second.kind == "mapping" and first.entries and second.entries:
        is_plain = first.is_flow == second.is_flow or all(_fits_anywhere(value) for _, value in second.entries)
        shared = [key.value for key, _ in second.entries if first.get(key.value)]
        new = [(key, value) for key, value in second.entries if key.value not in shared]
        if is_plain and new:
            texts = [case.slice(Span(key.span.start, tight(case, value).end)) for key, value in new]
            lost = ", without its " + ", ".join(f'"{name}"' for name in shared) if shared else ""
            indent, between = "\n" + " " * second.span.start.column, ", " if first.is_flow else "\n"
            added = next_entry(case, first, first.entries[-1][0].value, between.join(text.replace(indent, "\n") for text in texts))
            yield case.of(title + lost, added, removed, is_safe=not shared, deletes=bool(shared))
    elif first.kind == second.kind == "sequence" and not first.is_flow and not second.is_flow and first.items and second.items:
        line = last_line(first, case.lines)
        lines = case.lines[second.items[0].span.start.line:last_line(second, case.lines) + 1]
        dash, column = (case.lines[node.items[0].span.start.line].index("-") for node in (second, first))
        text = "".join("\n" + (" " * column + one[dash:] if one.strip() else "") for one in lines)
        yield case.of(title, Edit(Span.at(Point(line, len(case.lines[line]))), text), removed)
    elif _takes_list(case, here) and (first.kind == "scalar" or first.is_flow) and {first.kind, second.kind} <= {"scalar", "sequence"}:
        items = [item for node in (first, second) for item in (node.items or [node])]
        if not all(item.kind == "scalar" and item.value not in ("", "~", "null") for item in items):
            return
        texts = [case.slice(item.span) for item in items]
        yield case.of(title, Edit(first.span, f"[{', '.join(dict.fromkeys(texts))}]"), removed, is_safe=True)


def _fits_anywhere(value: Node) -> bool:
    """Whether a value means the same in brackets and on a line of its own."""
    return value.kind == "scalar" and value.style in ("", "'", '"') and not FLOW_SIGNS.search(value.value)


def _takes_list(case: Case, here: Found) -> bool:
    """Whether the value of a key can be a list of texts."""
    shape = shape_at(case.file, here.path, case.levels((*here.path, "")))
    return shape is not None and shape["items"] == "Text"


def missing_key(case: Case) -> Iterable[Repair]:
    """The missing key: a misspelled one of the mapping, or a new one with a first value."""
    here, name = case.value, case.arguments[0]
    if here is None or here.value.kind != "mapping" or here.value.get("<<"):
        return
    shape = shape_at(case.file, here.path, case.levels((*here.path, "")))
    row = shape["keys"].get(name, {}) if shape and "keys" in shape else {}
    wanted = [name, row["need"]] if isinstance(row.get("need"), str) else [name]
    unknown = [(key, value) for key, value in here.value.entries if shape and key.value not in shape.get("keys", ())]
    if "run" in wanted:
        unknown += [(key, value) for key, value in here.value.entries if key.value == "name" and fits("uses", value)]
    found = [*_renamed(case, unknown, wanted), *_moved_here(case, here.path, wanted), *_called_from_job(case, here)]
    yield from found
    if not found:
        yield from _joined(case, here)
        yield from _added(case, here, name)


def _renamed(case: Case, unknown: list[tuple[Node, Node]], wanted: list[str]) -> Iterable[Repair]:
    """The keys that are a slip of a wanted one, like it, another word for it, or have a value for it."""
    for key, value in unknown:
        meant = misspelled(key.value, wanted)
        others = other_names(key.value, value)
        having = [one for one in wanted if one in others or fits(one, value) or one in near(key.value, [one])]
        name = meant or (having[0] if having else None)
        if name:
            yield case.replace(f'change "{key.value}" to "{name}"', name, key.span, is_safe=meant is not None)


def _moved_here(case: Case, path: Path, wanted: list[str]) -> Iterable[Repair]:
    """A missing key that stands in another section, which doesn't have it."""
    others = (found for found in case.nodes.keys.values() if found.path[-1] in wanted and found.path[:-1] != path)
    near = (found for found in others if len(found.path) < 3 or found.path[:2] == path[:2])
    for found in itertools.islice(near, MAX_PLACES):
        if found.path[-1] not in case.known_keys(found.path[:-1]):
            yield from (repair for goal, repair in moves(case, found) if goal == path)


def _called_from_job(case: Case, here: Found) -> Iterable[Repair]:
    """A workflow that the only step of a job calls, called from the job."""
    key, steps = here.value.key("steps"), here.value.get("steps")
    step = steps.items[0] if steps and len(steps.items) == 1 else None
    if key is None or steps is None or step is None or "/.github/workflows/" not in (step.text("uses") or ""):
        return
    if not here.value.is_flow and {*step.names()} <= CALL_KEYS - {*here.value.names()}:
        column = key.span.start.column
        texts = [case.slice(Span(name.span.start, tight(case, value).end)).replace("\n" + " " * (name.span.start.column - column), "\n")
                 for name, value in step.entries]
        span = Span(key.span.start, tight(case, steps).end)
        yield case.replace("call the workflow from the job", ("\n" + " " * column).join(texts), span)


def _joined(case: Case, here: Found) -> Iterable[Repair]:
    """A step that a dash cut, joined with the next one or the one before it."""
    steps = case.at(*here.path[:-1]) if here.path[-2:-1] == ("steps",) else None
    if steps is None or steps.is_flow or here.value.is_flow or not isinstance(here.path[-1], int):
        return
    step, number = here.value, here.path[-1]
    after = steps.items[number + 1] if number + 1 < len(steps.items) else None
    before = steps.items[number - 1] if number else None
    if after and _fit(step, after) and set(step.names()) <= {*STEP_STARTS, "env"}:
        yield case.of("join it with the step below", without_dash(case, after))
    if before and _fit(before, step) and not set(step.names()) & {"name", "id"}:
        yield case.of("join it with the step above", without_dash(case, step))


def _fit(first: Node, second: Node) -> bool:
    """Whether two steps could be a single one."""
    names = {*first.names(), *second.names()}
    is_one = len(names) == len(first.entries) + len(second.entries) and len(names & {"run", "uses"}) == 1
    return is_one and second.kind == "mapping" and not second.is_flow and not ("with" in names and "run" in names)


def without_dash(case: Case, item: Node) -> Edit:
    """An item of a list with blanks in place of its dash."""
    line, column = item.span.start
    dash = case.lines[line].index("-")
    return Edit(Span.on_line(line, dash, column), " " * (column - dash))


def _added(case: Case, here: Found, name: str) -> Iterable[Repair]:
    value = _first_value(case, here, name)
    if value is None or name == "on" and not is_workflow(case.file) or here.value.is_flow and "\n" in value:
        return
    entry = f"{name}:{value}" if value.startswith("\n") else f"{name}: {value}"
    title = f'add "{name}" with a first job' if name == "jobs" else f'add "{entry}"' if "\n" not in entry else f'add "{name}"'
    if name in ("jobs", "run", "runs", "steps") and here.value.entries:
        yield case.of(title, next_entry(case, here.value, here.value.entries[-1][0].value, entry))
    else:
        yield case.of(title, first_entry(here.value, entry))


def _first_value(case: Case, here: Found, name: str) -> str | None:
    """The value of a new key: as the rest of the file suggests, or one that is often right."""
    jobs = case.at("jobs")
    if name == "runs-on" and jobs:
        used = [job.text("runs-on") or "" for _, job in jobs.entries if "${{" not in (job.text("runs-on") or "${{")]
        return max(used, key=used.count) if used else MISSING[name]
    if name == "type":
        default = here.value.get("default")
        if here.value.get("options"):
            return "choice"
        if default and not default.style and default.value in ("true", "false"):
            return "boolean"
        return "number" if default and not default.style and re.fullmatch(r"-?\d+(?:\.\d+)?", default.value) else "string"
    if name == "description":
        return here.value.text("name") or MISSING[name]
    if name == "run" and here.value.get("with") or name == "main" and here.value.get("steps"):
        return None
    return MISSING.get(name)


def excluded_patterns(case: Case) -> Iterable[Repair]:
    """The patterns of an `-ignore` filter as patterns with `!` in the filter beside it."""
    here = case.key
    names_ = case.arguments
    if here is None or here.key is None or len(names_) < 2 or not {names_[0] + "-ignore", names_[1] + "-ignore"} & set(names_):
        return
    kept, ignored = sorted(names_, key=len)
    first, second = here.parent.get(kept), here.parent.get(ignored)
    texts = [item for node in (first, second) if node for item in (node.items or [node])]
    if first and second and (first.is_flow or first.kind == "scalar") and all(item.kind == "scalar" for item in texts):
        items = [case.slice(item.span) for item in (first.items or [first])]
        items += [quoted("!" + item.value) for item in (second.items or [second])]
        yield case.of(f'put its patterns below "{kept}", each with "!"', Edit(first.span, f"[{', '.join(items)}]"),
                      without_key(case, here.parent, ignored))


REPAIRS: dict[str, tuple[Callable[[Case], Iterable[Repair]], ...]] = {
    "K1": (near_key, required_or_not, beside_short_form, below_sibling, below_empty, below_inputs, one_level_deeper, step_of_keys,
           part_of_value, deleted, emptied_event),
    "K2": (missing_key,),
    "K3": (new_step, another_job, repeated),
    "K6": (unknown_beside, below_inputs, new_step, excluded_patterns, deleted),
}
