"""Repairs of references to steps without an id, to rows of a matrix by another way, and to a step's output outside of its job; and of what
steps have for themselves."""
from __future__ import annotations

import re
from typing import Callable, Iterable

from . import project as files
from .action_versions import VERSIONS, versions
from .expressions import Scope
from .names import likely
from .paths import is_workflow
from .repair import Case, Edit, Found, Repair, first_entry, next_entry, tight, without_entry
from .text import Point, Span
from .tree import last_line

# Keys that are written for the id of a step.
OTHER_IDS = ("id", "ids", "step-id", "step_id", "stepid", "key")
MAX_NAMES = 40
STEP_STARTS = ("name", "id", "if")
# Values of an action's name as a key that say nothing more.
VALUES_OF_ACTIONS = ("self", "true", "yes", ".")
USING_OF_KEYS = {"main": "node20", "steps": "composite", "image": "docker"}
PROPERTIES_OF_ALL = {"needs": ["result", "outputs"], "steps": ["outputs", "outcome", "conclusion"]}


# The contexts in which a name is looked for: those whose names a file declares, and those of a word without a context.
DECLARED = ("matrix", "inputs", "env", "needs", "steps", "secrets")
OF_CONTEXTS = ("matrix", "inputs", "env", "needs", "steps", "github", "runner", "job")


def scope_of(case: Case) -> Scope | None:
    here = case.scalar
    if here is None:
        return None
    return Scope(case.project, case.file, case.tree, here.path)


def properties_before(case: Case) -> list[str]:
    """The properties of what is before the fault."""
    scope = scope_of(case)
    chain = case.names_before
    known = [one.name for one in scope.properties(chain)] if scope and chain else []
    is_one = len(chain) == 2 and chain[0].lower() in PROPERTIES_OF_ALL
    return PROPERTIES_OF_ALL[chain[0].lower()] if is_one and (known or chain[1] == "*") else known


def shorter_chain(case: Case) -> Iterable[Repair]:
    """`matrix.os` for `matrix.include.os` and `strategy.matrix.os`; a context that is written as a property of `github`."""
    chain, span = case.chain
    names_ = [name.lower() for name in chain]
    scope = scope_of(case)
    if len(chain) > 2 and names_[0] == "github" and names_[1] in ("secrets", "vars", "matrix", "needs", "steps", "runner"):
        text = ".".join(chain[1:])
        yield case.replace(f"change to {text}", text, span)
    if scope and len(chain) == 2 and names_[0] == "matrix":
        rows = [row.name for row in scope.properties(("matrix",))]
        for row in [row for row in rows if chain[1] in [one.name for one in scope.properties(("matrix", row))]]:
            yield case.replace(f"change to matrix.{row}.{chain[1]}", f"matrix.{row}.{chain[1]}", span)
    if scope and len(chain) > 2 and names_[:2] in (["matrix", "include"], ["strategy", "matrix"]):
        if names_[2] in [one.name.lower() for one in scope.properties(("matrix",))]:
            text = ".".join(("matrix", *chain[2:]))
            yield case.replace(f"change to {text}", text, span)


def named_step(case: Case) -> Iterable[Repair]:
    """The id, for the only step before that has none and has it as its name or writes the output that is asked for."""
    chain, _ = case.chain
    scope = scope_of(case)
    if scope is None or len(chain) < 2 or chain[0].lower() != "steps" or chain[1].lower() != case.arguments[0].lower():
        return
    steps = [step for step in scope.visible_steps() if step.kind == "mapping" and not step.text("id")]
    for key, value in (entry for step in steps for entry in step.entries):
        if value.value == chain[1] and key.value.lower() in OTHER_IDS:
            yield case.replace(f'change "{key.value}" to "id"', "id", key.span)
            return
    wanted = chain[3] if chain[2:3] == ("outputs",) and len(chain) > 3 else None
    if wanted and any(wanted in files.written_outputs(step) for step in scope.visible_steps() if step.text("id")):
        return
    found = [step for step in steps if wanted and wanted in files.written_outputs(step)
             or re.sub(r"\W+", "-", step.text("name") or "").lower() == chain[1].lower() and not (wanted and files.written_outputs(step))]
    if len(found) == 1:
        yield case.of(f'add "id: {chain[1]}" to the step', first_entry(found[0], f"id: {chain[1]}"))


def only_step(case: Case) -> Iterable[Repair]:
    """The id of the only step before that writes the output, or of the only one that has an id, if it calls an action."""
    chain, span = case.chain
    scope = scope_of(case)
    if scope is None or len(chain) < 2 or chain[0].lower() != "steps" or chain[1].lower() != case.arguments[0].lower():
        return
    steps = [step for step in scope.visible_steps() if step.kind == "mapping" and step.text("id")]
    wanted = chain[3] if chain[2:3] == ("outputs",) and len(chain) > 3 else None
    writes = [step for step in steps if wanted and wanted in files.written_outputs(step)]
    has_output = writes or [step for step in steps if step.get("uses")]
    name = has_output[0].text("id") if len(has_output) == 1 and (writes or len(steps) == 1) else None
    if len([step for step in steps if step.text("id") == name]) > 1:
        # the wrong id is that of another step, which is written twice
        return
    if name and not likely(chain[1], [name]):
        yield case.replace(f'change to "{name}"', name)


def only_job(case: Case) -> Iterable[Repair]:
    """The only job that has the output that is asked for."""
    chain, scope = case.chain[0], scope_of(case)
    is_output = len(chain) == 4 and chain[0].lower() in ("jobs", "needs") and chain[2].lower() == "outputs"
    if scope is None or not is_output or chain[1].lower() != case.arguments[0].lower():
        return
    jobs = [job.name for job in scope.properties(chain[:1])]
    found = [job for job in jobs if chain[3] in [one.name for one in scope.properties((chain[0], job, "outputs"))]]
    if len(found) == 1 and not likely(chain[1], jobs):
        yield case.replace(f'change to "{found[0]}"', found[0])


def same_name_elsewhere(case: Case) -> Iterable[Repair]:
    """The same name in another context that the file declares it for."""
    before, name, scope = case.names_before, case.arguments[0], scope_of(case)
    chain, span = case.chain
    if scope is None or len(before) != 1 or len(chain) < 2 or not case.line[span.start.column:].startswith(chain[0] + "."):
        return
    available = {one.name for one in scope.contexts()}
    for context in DECLARED:
        if context in available and context != before[0].lower() and name in [one.name for one in scope.properties((context,))]:
            end = Point(span.start.line, span.start.column + len(chain[0]))
            yield case.replace(f"change to {context}.{name}", context, Span(span.start, end))


def only_output(case: Case) -> Iterable[Repair]:
    """The only output of a step or a needed job, if no other has the one that is asked for."""
    before, scope = case.names_before, scope_of(case)
    is_output = len(before) == 3 and before[0].lower() in ("steps", "needs") and before[2].lower() == "outputs"
    outputs = properties_before(case) if is_output else []
    others = scope.properties(before[:1]) if scope and len(outputs) == 1 else []
    is_elsewhere = any(one.name.lower() == case.arguments[0].lower() for other in others if scope
                       for one in scope.properties((before[0], other.name, "outputs")))
    if len(outputs) == 1 and not is_elsewhere and not likely(case.arguments[0], outputs):
        yield case.replace(f'change to "{outputs[0]}"', outputs[0])


def unused_name(case: Case) -> Iterable[Repair]:
    """The only one of several names that a file declares and nothing reads, if the wrong one stands in one place alone."""
    before = case.names_before
    known = properties_before(case) if before and before[0].lower() in ("inputs", "matrix") else []
    prefix = rf"(?<![\w.-])(?:github\.event\.)?{re.escape('.'.join(before))}"
    places = {name: len(re.findall(rf"{prefix}(?:\.{re.escape(name)}(?![\w-])|\['{re.escape(name)}'\])", case.text, re.I))
              for name in (*known[:MAX_NAMES], case.arguments[0])}
    # (what reads all of them reads each)
    reads_all = any(re.search(prefix + r"(?![\w.\[-]|\s*:)", chunk, re.I) for chunk in re.findall(r"\$\{\{(.*?)\}\}", case.text, re.S))
    free = [name for name in known[:MAX_NAMES] if not places[name] and not reads_all]
    if len(free) == 1 < len(known) <= MAX_NAMES and places[case.arguments[0]] == 1 and not likely(case.arguments[0], known):
        yield case.replace(f'change to "{free[0]}", which nothing else reads', free[0])


def output_of_any_job(case: Case, span: Span) -> Iterable[Repair]:
    """The output of a job that has a step's output as its value, for an output of the workflow."""
    assert case.tree
    value = re.compile(rf"\$\{{\{{\s*{re.escape(case.slice(span))}\s*\}}\}}")
    for job in case.tree.names("jobs"):
        for name in case.tree.names("jobs", job, "outputs"):
            if value.fullmatch(case.tree.text("jobs", job, "outputs", name) or ""):
                yield case.replace(f"change to jobs.{job}.outputs.{name}", f"jobs.{job}.outputs.{name}", span)


def shell_of_all_steps(case: Case) -> Iterable[Repair]:
    """The shell or the directory of an action's scripts, which only its steps can have, on each of them that has none."""
    here, steps = case.key, case.at("runs", "steps")
    if is_workflow(case.file) or here is None or here.key is None or not steps or len(here.parent.entries) < 2:
        return
    settings = here.value.get("run") if here.path[-1] == "defaults" else here.parent
    edits = []
    for name in ("shell", "working-directory"):
        value = settings.text(name) if settings and here.path[-1] in ("defaults", name) else None
        scripts = [step for step in steps.items if value and step.get("run") and step.get(name) is None]
        edits += [next_entry(case, step, "run", f"{name}: {value}") for step in scripts]
    if edits:
        yield case.of("put it on each script", without_entry(case, here.parent, here.key), *edits)


def named_action(case: Case) -> Iterable[Repair]:
    """The call of an action that is known by its name, which is written as a key of a step."""
    here = case.value if case.code == "K2" else case.key
    steps = (here.value if case.code == "K2" else here.parent) if here else None
    for key, value in steps.entries if steps and steps.get("run") is None and steps.get("uses") is None else ():
        action = f"actions/{key.value}"
        for version in versions(case.project, action) if action in VERSIONS and value.value in VALUES_OF_ACTIONS else ():
            yield case.replace(f'call "{action}@{version}"', f"uses: {action}@{version}", Span(key.span.start, value.span.end))


def using_of_keys(case: Case) -> Iterable[Repair]:
    """The kind of action that the keys of `runs` belong to, if they are of another one."""
    runs = None if is_workflow(case.file) else case.at("runs")
    using = runs.get("using") if runs else None
    keys = [key for key in USING_OF_KEYS if runs and runs.get(key)]
    if runs is None or using is None or len(keys) != 1 or keys == ["main"] and not (runs.text("main") or "").endswith("js"):
        return
    meant = USING_OF_KEYS[keys[0]]
    if using.value != meant and not likely(using.value, [meant]):
        yield case.replace(f'change "using" to "{meant}"', meant, using.span)


def new_step(case: Case) -> Iterable[Repair]:
    """A step that has a second `uses` or `run`, or another key twice, cut in two: at the name, the id or the condition before that key, or
    at the key. The key with which other steps begin comes first. A script before the inputs of a call becomes a step after it."""
    here = case.key
    if here is None or here.key is None or here.path[-3:-2] != ("steps",) or here.parent.is_flow:
        return
    keys = [key for key, _ in here.parent.entries]
    names_ = [key.value for key in keys]
    number = next(number for number, key in enumerate(keys) if key is here.key)
    if "with" in names_[number:] and "uses" in names_[:number] and names_[number] == "run":
        yield from _script_after(case, here)
        return
    number = min(number, next((one for one, name in enumerate(names_) if name in names_[:one]), number))
    begun = max((one for one in range(number) if names_[one] in ("uses", "run", "with")), default=0)
    starts = [one for one in range(begun + 1, number) if names_[one] in STEP_STARTS]
    start = next(iter(starts), number)
    if names_[start] == "if":
        # which often is the last key of a step too
        begins = _first_keys(case, here)
        start = next((one for one in (*starts, number) if names_[one] in begins), start)
    first = here.parent.span.start
    dash = case.lines[first.line][:first.column]
    for one in dict.fromkeys([start, number]):
        before = {key.value for key in keys[:one]}
        at = keys[one].span.start
        if before & {"run", "uses"} and dash.strip() == "-" and not case.lines[at.line][:at.column].strip():
            yield case.replace(f'begin a new step at "{keys[one].value}"', dash, Span(Point(at.line, 0), at))


def _script_after(case: Case, here: Found) -> Iterable[Repair]:
    """A step without its script, which the next one has."""
    assert here.key
    start, line = here.parent.span.start, last_line(here.parent, case.lines)
    dash = case.lines[start.line][:start.column]
    if dash.strip() == "-":
        text = case.slice(Span(here.key.span.start, tight(case, here.value).end))
        added = Edit(Span.at(Point(line, len(case.lines[line]))), f"\n{dash}{text}")
        yield case.of('move "run" to a step of its own', without_entry(case, here.parent, here.key), added)


def _first_keys(case: Case, here: Found) -> set[str]:
    """The keys with which the other steps begin, and the step of a key if that is a name, an id or a condition."""
    steps = case.at(*here.path[:-2])
    others = {step.entries[0][0].value for step in (steps.items if steps else ()) if step.entries and step is not here.parent}
    return others | {here.parent.entries[0][0].value} & set(STEP_STARTS)


REPAIRS: dict[str, tuple[Callable[[Case], Iterable[Repair]], ...]] = {
    "G20": (using_of_keys,),
    "K1": (named_action, using_of_keys, shell_of_all_steps),
    "K2": (named_action, using_of_keys),
}
