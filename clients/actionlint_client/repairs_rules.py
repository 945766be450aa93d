"""Repairs of faults within one file that GitHub refuses, or accepts without doing what was meant."""
from __future__ import annotations

import itertools
import re
from typing import Callable, Iterable

from . import project as files
from .names import LISTS, likely, misspelled, names
from .other_keys import OTHER_TYPES
from .repair import Case, Edit, Found, Repair, as_scalar, is_within_flow, next_entry, quoted, without_key
from .repairs_expressions import BRACES
from .repairs_keys import deleted, fits, in_its_quotes
from .repairs_kinds import as_list, as_mapping, list_of_lines
from .repairs_levels import indent_of, moves
from .syntax import table, takes_access
from .text import Point, Span
from .tree import Node, last_line

# Events that are often written for another one.
OTHER_EVENTS = {"tag": "push", "tags": "push", "commit": "push", "merge": "push", "pr": "pull_request", "pull": "pull_request",
                "merge_request": "pull_request", "manual": "workflow_dispatch", "dispatch": "workflow_dispatch", "cron": "schedule",
                "issue": "issues", "comment": "issue_comment", "workflow": "workflow_run", "call": "workflow_call"}
# Values that are often written instead of another one that isn't similar enough to be found.
OTHER_VALUES = {"text": "string", "str": "string", "int": "number", "integer": "number", "float": "number", "bool": "boolean",
                "array": "string", "flag": "boolean", "checkbox": "boolean", "file": "string", "json": "string", "object": "string",
                "choice": "string", "environment": "string", "readonly": "read",
                "read-only": "read", "r": "read", "w": "write", "rw": "write", "admin": "write", "push": "write", "pull": "read",
                "all": "write-all", "merged": "closed", "merge": "closed", "updated": "synchronize", "pushed": "synchronize",
                "commented": "created", "approved": "submitted", "node18": "node20", "node22": "node24", "node14": "node20",
                **dict.fromkeys(("node", "nodejs", "javascript"), "node20"), "ps1": "pwsh", "shell": "bash", "bash.exe": "bash",
                "batch": "cmd", "python3": "python"}
OTHER_INPUT_TYPES = dict.fromkeys(("enum", "select", "dropdown", "option", "options", "choices", "list"), "choice string")
OTHER_SCOPES = {**dict.fromkeys(("pr", "prs", "pull", "pulls", "merge-requests", "reviews"), "pull-requests"),
                **dict.fromkeys(("code", "repo", "repository", "files", "releases"), "contents"),
                **dict.fromkeys(("oidc", "token", "id", "jwt"), "id-token"), "security": "security-events", "workflows": "actions"}
OTHER_LEVELS = {**dict.fromkeys(("true", "yes", "allow", "grant", "readwrite", "read-write", "full"), "write"),
                **dict.fromkeys(("false", "no", "deny", "off"), "none")}
OTHER_WORDS = {"G2": OTHER_TYPES, "G13": OTHER_SCOPES, "G14": OTHER_LEVELS, "G19": OTHER_INPUT_TYPES}
# Programs that run a script, given as a file.
INTERPRETERS = ("zsh", "fish", "dash", "ksh", "nu", "elvish", "node", "deno", "bun", "perl", "ruby", "Rscript", "php", "lua", "tclsh")
WORDS_OF_SCALARS = {"read": "read-all", "write": "write-all", "readonly": "read-all", "all": "write-all"}
# A secret that is written as a variable of a shell, or in other braces.
VARIABLE_OR_SECRET = re.compile(r"\$?(?:\(|\{{1,2})?\s*(?:(?:env:|secrets\.)?([A-Z]\w+)|secrets\.(\w+))\s*(?:\)|\}{1,2})?")
NO_ACCESS = ("none", "no", "null", "false", "{}", "[]", "deny", "empty")
# What signs of regular expressions are in patterns.
EXPRESSION_SIGNS = ((".*", "**"), (".+", "**"), (r"\.", "."), (r"\d", "[0-9]"), (r"\w", "[A-Za-z0-9_]"), (r"\/", "/"))
RANGE_WITHOUT_END = re.compile(r"\[((?:\w-\w)+)(?=[^]\w-]|$)")


def several_events(case: Case) -> Iterable[Repair]:
    """Several events in one text, as a list."""
    if case.value:
        yield from _list_of_words(case, case.value, r"[\s,|/]+", names()["events"])


def _list_of_words(case: Case, here: Found, between: str, known: Iterable[str]) -> Iterable[Repair]:
    """Several known words in one text, with signs that match a pattern between them, as a list or as entries of the one around it."""
    words = re.split(between, here.value.value.strip())
    if len(words) > 1 and all(word in known for word in words):
        text = ", ".join(words)
        yield case.replace("make it a list", text if isinstance(here.path[-1], int) else f"[{text}]", here.value.span, is_safe=True)


def other_event(case: Case) -> Iterable[Repair]:
    """The event that is meant by an unknown word, unless it is there; for `cron` with a time, the schedule."""
    meant = OTHER_EVENTS.get(case.arguments[0].lower().replace("-", "_"))
    here = case.key
    if here and here.key and meant == "schedule" and here.value.kind == "scalar" and here.value.value:
        text = "schedule: [{cron: %s}]" % quoted(here.value.value)
        yield case.replace("make it a schedule", text, Span(here.key.span.start, here.value.span.end))
    on = case.at("on")
    if meant and on and meant not in (*on.names(), *(item.value for item in on.items)):
        yield in_its_quotes(case, meant)


def near_listed(case: Case) -> Iterable[Repair]:
    """A similar name of the list, or the one that is meant by another word."""
    known, wrong, here = _listed(case), case.arguments[0], case.value
    lists = list(_list_of_words(case, here, r"[\s,|]+", known)) if case.code == "G2" and here else []
    yield from lists
    if lists:
        return
    found = likely(wrong, known)
    others = OTHER_WORDS.get(case.code, {}).get(wrong.lower(), "")
    meant = next((name for name in others.split() if name in known), OTHER_VALUES.get(wrong.lower()))
    if case.code == "G12" and wrong in INTERPRETERS:
        return
    # the other activity types in a list
    there = [item.value for item in here.parent.items if item.value != here.value.value] if case.code == "G2" and here else []
    if here and (meant if meant in known else found[0][0] if found else None) in there:
        yield case.of(f'delete "{here.value.value}"', _without_item(here.parent, here.value), deletes=True)
        return
    if meant in known and not any(is_slip for _, is_slip in found):
        yield in_its_quotes(case, str(meant))
        return
    yield from (in_its_quotes(case, name, is_slip) for name, is_slip in found if name not in there)


def _listed(case: Case) -> list[str]:
    """The names that are possible here: the types of the event, the access levels of the scope, or all of the list."""
    here, known = case.value, names()[LISTS[case.code]]
    if case.code == "G1":
        on = case.at("on")
        there = (*on.names(), *(item.value for item in on.items)) if on else ()
        return [name for name in known if name not in there]
    if case.code == "G2" and here and here.path[:1] == ("on",):
        return table()["activity types"].get(str(here.path[1]), known)
    if case.code == "G14" and here and here.path[-1:] != ("permissions",):
        return [name for name in ("read", "write", "none") if takes_access(str(here.path[-1]), name)]
    if case.code == "G19" and here and here.path[:2] == ("on", "workflow_call"):
        return list(table()["call input types"])
    return ["read-all", "write-all"] if case.code == "G14" else known


def access_to_all(case: Case) -> Iterable[Repair]:
    """One access level for all scopes, as a text in place of them, or none of them; or a scope and its level, with a colon between them."""
    here = case.value
    pair = re.fullmatch(r"([\w-]+)( +|:)([\w-]+)", case.arguments[0])
    if here and pair and pair[1] in names()["permission scopes"] and not here.value.style:
        end = Point(here.value.span.start.line, here.value.span.start.column + len(pair[1]))
        if case.line[:here.value.span.start.column].strip():
            yield case.replace("make it a mapping", "{%s: %s}" % (pair[1], pair[3]), here.value.span)
        elif pair[2] != ":":
            yield case.replace(f'add a colon after "{pair[1]}"', ":", Span.at(end))
    if here and here.path[-1:] == ("permissions",) and case.arguments[0].lower() in NO_ACCESS:
        yield case.replace('change to "{}"', "{}", here.value.span)
    meant = WORDS_OF_SCALARS.get(case.arguments[0].lower())
    if here and here.path[-1:] == ("permissions",) and here.value.kind == "scalar" and meant:
        yield in_its_quotes(case, meant)


def command_line(case: Case) -> Iterable[Repair]:
    """The program's command line, if it isn't one of the shells that GitHub knows by their names."""
    program, _, options = case.arguments[0].partition(" ")
    name = program.rpartition("/")[2].removesuffix(".exe")
    if case.arguments[0] in INTERPRETERS or options and "{0}" not in options:
        yield in_its_quotes(case, case.arguments[0] + " {0}", not options)
    elif name != program and name in names()["shells"]:
        yield in_its_quotes(case, name)


def without_expression(text: str) -> str:
    """A pattern for what is written as a regular expression: without its signs at the ends, and with those of patterns inside. Empty if
    patterns can't say it."""
    plain = re.sub(r"^\^|\$$", "", text)
    if plain == text:
        return text
    for sign, of_patterns in EXPRESSION_SIGNS:
        plain = plain.replace(sign, of_patterns)
    is_beginning = plain.endswith("/") and not text.endswith("$")
    return "" if re.search(r"[(|)]|\\\w", plain) else plain + "**" if is_beginning else plain


def pattern(case: Case) -> Iterable[Repair]:
    """A pattern without `./` or signs of regular expressions, with brackets that are closed, and without spaces."""
    here = case.value
    if here is None:
        return
    text = here.value.value
    entries = list(_entries_in_lines(case, here))
    yield from entries
    if entries:
        return
    words = [word.strip().strip("'\"") for word in text.split(",") if word.strip()]
    if len(words) > 1 and not is_within_flow(case, here.path) and not isinstance(here.path[-1], int):
        yield case.replace("make it a list", "[" + ", ".join(quoted(word) for word in words) + "]", here.value.span)
        return
    without_dot = re.sub(r"^(!?)(?:\./)+", r"\1", text)
    plain = without_expression(text)
    if not plain:
        return
    closed = RANGE_WITHOUT_END.sub(r"[\1]", plain)
    closer = "]" if closed.count("[") > closed.count("]") and closed[-1] not in "[-" else ""
    tries = [without_dot, re.sub(r"^(!?)/", r"\1", text), plain, closed, closed + closer,
             text.strip(), re.sub(r"\s+", "-", re.sub(r"\s*/\s*", "/", text.strip())), text.replace("\\", "/"), re.sub(r"[~^:]", "-", text),
             re.sub(r"^([+?])", r"\\\1", text)]
    for changed in dict.fromkeys(tries):
        if changed and changed != text:
            yield case.replace(f'change to "{changed}"', quoted(changed), here.value.span, changed in (without_dot, text.strip()))
            if changed == closed:
                break


def _entries_in_lines(case: Case, here: Found) -> Iterable[Repair]:
    """The lines of a text as the entries of a list: with a space after each dash, at the column of the list, or with a dash each."""
    value, lines = here.value, range(here.value.span.start.line, here.value.span.end.line + 1)
    dashes = [line for line in lines if re.match(r" *-\S", case.lines[line])]
    if value.value.startswith("-") and not value.style and dashes and dashes[0] == lines[0]:
        yield case.of("add a space after each dash", *(Edit(Span.at(Point(line, case.lines[line].index("-") + 1)), " ") for line in dashes),
                      is_safe=True)
    elif not value.style and len(lines) > 1 and isinstance(here.path[-1], int):
        column = indent_of(case.lines[lines[0]])
        if all(re.match(r" *- ", case.lines[line]) and indent_of(case.lines[line]) > column for line in lines[1:]):
            edits = (Edit(Span.on_line(line, column, indent_of(case.lines[line])), "") for line in lines[1:])
            yield case.of("move the dashes to the column of the list", *edits)
    elif not value.style and len(lines) > 1:
        yield from list_of_lines(case, value)


def right_id(case: Case) -> Iterable[Repair]:
    """An id of letters, digits, `_` and `-`, which expressions of the job may have; the job's key in the other jobs' `needs` too."""
    here = case.key or case.value
    if here is None:
        return
    wrong = case.arguments[0]
    name = re.sub(r"[^\w-]+", "-", wrong, flags=re.A).strip("-") or "id"
    name = name if re.match(r"[A-Za-z_]", name) else "_" + name
    words = {*re.split(r"[^\w-]+", wrong, flags=re.A), wrong.lstrip("0123456789-")}
    used = [one for one in _ids_without_step(case) if one in words or misspelled(wrong, [one])]
    lacking = [one for one in _jobs_without_key(case) if misspelled(one, [wrong]) or one in wrong.split()] if case.key else used
    name = lacking[0] if len(lacking) == 1 else name
    node = here.key if case.key and here.key else here.value
    others = [Edit(item.span, name) for item in _needs(case) if item.value == wrong] if case.key else []
    yield case.of(f'change to "{name}"', Edit(node.span, name), *others)


def _jobs_without_key(case: Case) -> list[str]:
    """The jobs in `needs` that the file doesn't have."""
    jobs = case.tree.names("jobs") if case.tree else []
    return list(dict.fromkeys(item.value for item in _needs(case) if item.value not in jobs))


def _names_used(case: Case) -> list[tuple[str, ...]]:
    """The names of the chains in the expressions of the fault's job, or of the action."""
    job = case.at("jobs", case.job) if case.job else case.at("runs")
    return [chain.names for chain in case.chains_between(job.start, job.end)] if job else []


def _ids_without_step(case: Case) -> list[str]:
    """The ids in expressions that no step of the fault's job has."""
    ids = [step.text("id") for step in files.steps_of(case.tree, case.job)]
    return list(dict.fromkeys(names[1] for names in _names_used(case)
                              if len(names) > 2 and names[0].lower() == "steps" and names[1] not in ids))


def _needs(case: Case) -> Iterable[Node]:
    for _, job in case.tree.entries_at("jobs") if case.tree else ():
        node = job.get("needs")
        if node:
            yield from node.items or [node]


def another_id(case: Case) -> Iterable[Repair]:
    """A step's id or a job's key with a number that none has; or the only id that expressions have and no step, if none but this step may
    write the output that they ask for."""
    here = case.key or case.value
    node = here.key if here and case.key and here.key else here.value if here else None
    used = _ids_without_step(case)
    # the outputs that expressions ask of the id
    of_id = [one for one in _names_used(case) if len(one) > 3 and (one[0].lower(), one[1]) == ("steps", used[0])] if len(used) == 1 else []
    asked = {one[3] for one in of_id} if not case.key else set()
    same = [step for step in files.steps_of(case.tree, case.job) if node and step.text("id") == node.value]
    wrong = next((one for one in same if asked & set(files.written_outputs(one))), None)
    if wrong is None and here and len(used) == 1 and not case.key and not files.written_outputs(here.parent):
        wrong = here.parent
    if wrong and (id_ := wrong.get("id")):
        yield case.replace(f'change to "{used[0]}"', used[0], id_.span)
    elif node:
        taken = set(re.findall(r"-(\d+)(?!\d)", case.text))
        name = f"{node.value}-" + next(str(number) for number in itertools.count(2) if str(number) not in taken)
        yield case.replace(f'change to "{name}"', name, node.span)


def near_job(case: Case) -> Iterable[Repair]:
    """A similar job of the file in place of one that doesn't exist, or removes it. Nothing if it is a word of a job's key that is no id."""
    here = case.value
    entries = list(_entries_in_lines(case, here)) if here else []
    yield from entries
    if here and case.tree and not entries:
        jobs = [name for name in case.tree.names("jobs") if name != case.job]
        if any(case.arguments[0] in name.split() for name in jobs):
            return
        yield from _list_of_words(case, here, r"[\s,;&|]+", jobs)
        found = likely(case.arguments[0], jobs)
        asked = [name for name in _jobs_asked_for(case) if name in jobs]
        found = [(asked[0], False)] if len(asked) == 1 and not any(is_slip for _, is_slip in found) else found
        yield from (case.replace(f'change to "{name}"', as_scalar(name, here.value.style, False), here.value.span, is_slip)
                    for name, is_slip in found)
    yield from without_need(case)


def _jobs_asked_for(case: Case) -> list[str]:
    """The jobs whose results the expressions of the fault's job read and its `needs` lacks."""
    if case.tree is None or case.job is None:
        return []
    used = dict.fromkeys(names[1] for names in _names_used(case) if len(names) > 1 and names[0].lower() == "needs")
    return [name for name in used if name not in files.needed(case.tree, case.job)]


def without_need(case: Case) -> Iterable[Repair]:
    """The job without the need."""
    here = case.value
    if here is None or case.job is None:
        return
    title = f'take "{here.value.value}" out of "needs"'
    job = case.at("jobs", case.job)
    needs = job.get("needs") if job else None
    if job is None or needs is None:
        return
    if needs.kind == "scalar" or len(needs.items) == 1:
        if len(job.entries) > 1:
            yield case.of(title, without_key(case, job, "needs"), deletes=True)
    else:
        yield case.of(title, _without_item(needs, here.value), deletes=True)


def _without_item(sequence: Node, item: Node) -> Edit:
    number = next(number for number, one in enumerate(sequence.items) if one is item)
    if not sequence.is_flow:
        line = item.span.start.line
        return Edit(Span(Point(line, 0), Point(line + 1, 0)), "")
    if number + 1 < len(sequence.items):
        return Edit(Span(item.span.start, sequence.items[number + 1].span.start), "")
    return Edit(Span(sequence.items[number - 1].span.end, item.span.end), "")


def list_of_row(case: Case) -> Iterable[Repair]:
    """A row as a list, or an option of the strategy moved there."""
    here = case.value
    if here is None:
        return
    if here.path[-2:-1] == ("matrix",) and here.path[-1] in table()["shapes"]["Strategy"]["keys"]:
        yield from (repair for goal, repair in moves(case, here) if goal == here.path[:-2])
        return
    if here.value.kind == "sequence":
        has_rows = any(value.kind == "sequence" for item in here.value.items for _, value in item.entries)
        yield from () if has_rows else _as_include(case, here)
        yield from as_mapping(case, here.value)
    text = case.slice(here.value.span)
    if here.value.kind == "scalar":
        words = _entries_of_text(text if not here.value.style else here.value.value)
        if len(words) > 1:
            yield case.replace("make it a list", "[" + ", ".join(words) + "]", here.value.span)
        elif not here.value.style.strip("'\""):
            yield case.replace("make it a list", f"[{text}]", here.value.span, is_safe=not re.search(r"\s", text))
    elif here.value.kind == "mapping" and here.value.is_flow:
        is_of_words = all(value.kind == "scalar" and not value.value for _, value in here.value.entries)
        yield case.replace("make it a list", f"[{text.strip('{}') if is_of_words else text}]", here.value.span)
    elif here.value.kind == "mapping":
        yield from as_list(case, here.value)


def _entries_of_text(text: str) -> list[str]:
    """The entries of a list that is written as a text: between commas, on lines of their own, or versions and labels beside each other."""
    text = text.strip()
    text = text[1:-1] if text[:1] == "(" and text[-1:] == ")" else text.rstrip("]") if "[" not in text else text
    words = text.split()
    is_of_words = all(re.search(r"[\d-]", word) for word in words)
    parts = text.split(",") if "," in text else text.split("\n") if "\n" in text else words if is_of_words else [text]
    return [part.strip() for part in parts if part.strip()]


def _as_include(case: Case, here: Found) -> Iterable[Repair]:
    """A list of mappings in place of a matrix, as its `include`."""
    items = here.value.items
    if here.path[-1:] != ("matrix",) or here.value.is_flow or not items or any(item.kind != "mapping" for item in items):
        return
    first = items[0].span.start.line
    dash = case.lines[first].index("-")
    lines = range(first + 1, last_line(here.value, case.lines) + 1)
    yield case.of('put it below "include"', Edit(Span.at(Point(first, dash)), "include:\n" + " " * (dash + 2)),
                  *(Edit(Span.at(Point(line, 0)), "  ") for line in lines if case.lines[line].strip()))


def near_row(case: Case) -> Iterable[Repair]:
    """A similar row of the matrix, the only one that has the value, or the item without it."""
    here = case.key
    matrix = case.at("jobs", case.job, "strategy", "matrix") if case.job else None
    if here and matrix:
        rows = [name for name in matrix.names() if name not in ("include", "exclude")]
        found = likely(case.arguments[0], rows)
        having = [name for name in rows if here.parent.get(name) is None and here.value.kind == "scalar"
                  and here.value.value in [item.value for item in matrix.entries[matrix.names().index(name)][1].items]]
        if not found and len(having) == 1:
            yield in_its_quotes(case, having[0])
        yield from (in_its_quotes(case, name, is_slip) for name, is_slip in found)
    yield from deleted(case)


def right_variable(case: Case) -> Iterable[Repair]:
    """A name of letters, digits and `_`, in the expressions of the file too, without the command that sets it in a shell."""
    here = case.key
    if here is None or here.key is None or case.tree is None:
        return
    name = re.sub(r"\W+", "_", re.sub(r"^(?:export|set|setx) ", "", here.key.value.strip()), flags=re.A).strip("_") or "NAME"
    if here.parent.get(name) is None:
        uses = (chain for chain in case.chains_between(case.tree.start, case.tree.end) if chain.names == ("env", here.key.value))
        yield case.of(f'change to "{name}"', Edit(here.key.span, name), *(Edit(chain.span, f"env.{name}") for chain in uses))


def secret_password(case: Case) -> Iterable[Repair]:
    """The only expression in the password, the secret that is written as a variable, or one that has to be made."""
    here = case.value
    if here is None:
        return
    found = BRACES.findall(here.value.value)
    in_flow = is_within_flow(case, here.path)
    if len(found) == 1:
        alone = "${{" + found[0] + "}}"
        rest = here.value.value.replace(alone, " ").split()
        yield case.replace(f"delete {', '.join(quoted(one) for one in rest)} beside the expression",
                           as_scalar(alone, here.value.style, in_flow), here.value.span, deletes=True)
    elif not found:
        variable = VARIABLE_OR_SECRET.fullmatch(here.value.value.strip())
        name = (variable[1] or variable[2]) if variable else "PASSWORD"
        text = as_scalar("${{ secrets.%s }}" % name, here.value.style, in_flow)
        yield case.replace(f'take it from {"the" if variable else "a new"} secret "{name}"', text, here.value.span)


def with_shell(case: Case) -> Iterable[Repair]:
    """The shell of the action's other steps, or else bash."""
    here = case.key
    used = [shell for step in files.steps_of(case.tree, None) if (shell := step.text("shell"))]
    if here:
        shell = max(used, key=used.count) if used else "bash"
        yield case.of(f'add "shell: {shell}"', next_entry(case, here.parent, "run", f"shell: {shell}"))


def output_value(case: Case) -> Iterable[Repair]:
    """A value of the output: an expression that another key has, or an output of a step with this name, if there is one."""
    here = case.key
    if here is None or here.key is None:
        return
    meant = next((key for key, given in here.value.entries if fits("value", given)), None)
    if meant:
        yield case.replace(f'change "{meant.value}" to "value"', "value", meant.span)
        return
    ids = [name for step in files.steps_of(case.tree, None) if (name := step.text("id"))]
    value = "${{ steps.%s.outputs.%s }}" % (ids[-1], here.key.value) if ids else "''"
    title = 'add "value", ' + (f'from the step "{ids[-1]}"' if ids else "empty")
    if here.value.kind == "mapping" and here.value.entries:
        text = quoted(value) if ids and here.value.is_flow else value
        yield case.of(title, next_entry(case, here.value, here.value.entries[-1][0].value, f"value: {text}"))
    else:
        text = quoted(value) if ids else value
        yield case.of(title, Edit(Span(here.key.span.end, here.value.span.end), ": {value: %s}" % text))


REPAIRS: dict[str, tuple[Callable[[Case], Iterable[Repair]], ...]] = {
    "G1": (several_events, other_event, near_listed),
    "G2": (near_listed,),
    "G3": (pattern,),
    "G6": (right_id,),
    "G7": (another_id,),
    "G8": (near_job,),
    "G9": (without_need,),
    "G10": (list_of_row,),
    "G11": (near_row,),
    "G12": (command_line, near_listed),
    "G13": (near_listed,),
    "G14": (access_to_all, near_listed),
    "G15": (right_variable,),
    "G16": (secret_password,),
    "G19": (near_listed,),
    "G20": (near_listed,),
    "G21": (with_shell,),
    "G22": (output_value,),
}
