"""Repairs of what a job takes from other jobs: the jobs that it needs, and their outputs."""
from __future__ import annotations

from typing import Iterable

from . import project as files
from .names import likely, misspelled
from .other_keys import other_keys
from .repair import Case, Edit, Repair, first_entry, next_entry, quoted
from .repairs_steps import properties_before
from .syntax import table
from .text import Point, Span
from .tree import Node


def needed_job(case: Case) -> Iterable[Repair]:
    """`needs` with the job whose name is used, or with a similar one."""
    chain, _ = case.chain
    tree, job = case.tree, case.job
    if tree is None or job is None or len(chain) < 2 or chain[0].lower() != "needs" or chain[1].lower() != case.arguments[0].lower():
        return
    free = [name for name in tree.names("jobs") if name not in files.dependents(tree, job) and name not in files.needed(tree, job)]
    name = next((name for name in free if name.lower() == case.arguments[0].lower()), None)
    needs = case.at("jobs", job, "needs")
    if needs is not None and needs.kind == "mapping" or needs is None and is_written_elsewhere(case, job, "needs"):
        return
    wrong = [item for item in (needs.items or [needs]) if item.value not in tree.names("jobs")] if needs else []
    slip = next((item for item in wrong if name and misspelled(item.value, [name])), None)
    if name and slip:
        yield case.replace(f'change "{slip.value}" to "{name}" in "needs"', name, slip.span)
    elif name:
        yield case.of(f'add "{name}" to "needs"', need_of(case, job, name))
    elif same := next((item for item in wrong if item.value.lower() == case.arguments[0].lower()), None):
        yield from (case.of(f'change to "{one}", in "needs" too', Edit(case.span, one), Edit(same.span, one), is_safe=is_slip)
                    for one, is_slip in likely(case.arguments[0], free))
    elif not likely(case.arguments[0], files.needed(tree, job)):
        yield from (case.of(f'change to "{one}", and add it to "needs"', Edit(case.span, one), need_of(case, job, one))
                    for one, _ in likely(case.arguments[0], free))


def is_written_elsewhere(case: Case, job: str, name: str) -> bool:
    """Whether a job has a key by another word or as a slip, or one of its steps has it."""
    node = case.at("jobs", job)
    steps = node.get("steps") if node else None
    of_steps = any(step.get(name) for step in steps.items) if steps else False
    return of_steps or node is not None and is_in_other_words(node, name, table()["shapes"]["Job"]["keys"])


def is_in_other_words(node: Node, name: str, known: Iterable[str]) -> bool:
    """Whether a mapping has a key by another word or as a slip, which its section doesn't know."""
    return any(name in other_keys(key) or misspelled(key, [name]) for key in node.names() if key not in known)


def need_of(case: Case, job: str, name: str) -> Edit:
    """The edit that adds a job to the needs of another one."""
    node = case.at("jobs", job)
    needs = node.get("needs") if node else None
    assert node
    if needs is None:
        return first_entry(node, f"needs: {name}")
    if needs.kind == "scalar":
        return Edit(needs.span, f"[{needs.value}, {name}]")
    last = needs.items[-1] if needs.items else None
    if last is None:
        return Edit(needs.span, f"[{name}]")
    if needs.is_flow:
        return Edit(Span.at(last.span.end), f", {name}")
    end = Point(last.span.end.line, len(case.lines[last.span.end.line]))
    return Edit(Span.at(end), "\n" + " " * (last.span.start.column - 2) + "- " + name)


def output_of_job(case: Case) -> Iterable[Repair]:
    """An output of another job's step, as an output of that job: one that has it as its value, or a new one."""
    chain, span = case.chain
    tree, job = case.tree, case.job
    if tree is None or job is None or len(chain) != 4 or chain[0].lower() != "steps" or chain[2].lower() != "outputs":
        return
    for other in tree.names("jobs"):
        node = tree.get("jobs", other)
        if other == job or node is None or chain[1] not in [step.text("id") for step in files.steps_of(tree, other)]:
            continue
        name, added = _output_with(case, node, chain[3], f"${{{{ steps.{chain[1]}.outputs.{chain[3]} }}}}")
        edits = [Edit(span, f"needs.{other}.outputs.{name}"), *added]
        if other not in files.needed(tree, job) and other not in files.dependents(tree, job):
            edits.append(need_of(case, job, other))
        is_there = len(edits) == 1
        yield case.of(f"change to needs.{other}.outputs.{name}" if is_there else f'pass it as an output of "{other}"', *edits)


def _output_with(case: Case, job: Node, name: str, value: str) -> tuple[str, list[Edit]]:
    """The output of a job that has a value, and the edits that declare it if there is none."""
    outputs = job.get("outputs")
    entry = f"{name}: {value}"
    there = next((key.value for key, given in (outputs.entries if outputs else ()) if given.value == value), None)
    if there:
        return there, []
    if outputs is None:
        below = f"outputs:\n  {entry}"
        return name, [next_entry(case, job, "runs-on", below) if job.get("runs-on") else first_entry(job, below)]
    return name, [first_entry(outputs, entry)] if outputs.get(name) is None and outputs.entries else []


def needs_for_jobs(case: Case, chain: tuple[str, ...], span: Span) -> Iterable[Repair]:
    assert case.tree and case.job
    name = next((one for one in case.tree.names("jobs") if one.lower() == chain[1].lower()), None)
    edit = Edit(Span(span.start, Point(span.start.line, span.start.column + len("jobs"))), "needs")
    if name and name in files.needed(case.tree, case.job):
        yield case.of("change to needs", edit, is_safe=True)
    elif name and name not in files.dependents(case.tree, case.job):
        yield case.of(f'change to needs, and add "{name}" to "needs"', edit, need_of(case, case.job, name))


def declared_output(case: Case) -> Iterable[Repair]:
    """The output, as a new one of the needed job or of the workflow that it calls."""
    chain, _ = case.chain
    job = case.at("jobs", chain[1]) if len(chain) == 4 and chain[0].lower() == "needs" and chain[2].lower() == "outputs" else None
    if job is None:
        return
    name = case.arguments[0]
    if any(is_slip for _, is_slip in likely(name, properties_before(case))):
        return
    callee = case.project.callee(job.text("uses"), True)
    if callee:
        yield from _declared_by(case, callee, name)
        return
    steps = [step for step in files.steps_of(case.tree, chain[1]) if step.text("id")]
    writes = [step for step in steps if name in files.written_outputs(step)]
    writes = writes or [step for step in steps if not files.written_outputs(step)]
    if steps and not writes:
        return
    step = writes[-1].text("id") if writes else None
    entry = f"{name}: {quoted('${{ steps.%s.outputs.%s }}' % (step, name)) if step else quoted('')}"
    outputs = job.get("outputs")
    if outputs is None and is_written_elsewhere(case, chain[1], "outputs"):
        return
    title = f'add the output "{name}" to "{chain[1]}", ' + (f'from its step "{step}"' if step else "without a value")
    if outputs and outputs.entries:
        yield case.of(title, first_entry(outputs, entry))
    elif outputs is None and job.get("runs-on"):
        yield case.of(title, next_entry(case, job, "runs-on", f"outputs: {{{entry}}}" if job.is_flow else f"outputs:\n  {entry}"))


def _declared_by(case: Case, callee: str, name: str) -> Iterable[Repair]:
    """The output, as a new one of a called workflow, without a value yet."""
    tree = case.project.tree(callee)
    on = tree.get("on") if tree else None
    call, key = (on.get("workflow_call"), on.key("workflow_call")) if on else (None, None)
    if call is None or key is None:
        return
    entry = f"{name}: {{value: ''}}"
    outputs = call.get("outputs")
    if outputs and outputs.entries:
        edit = first_entry(outputs, entry)
    elif call.kind == "mapping" and outputs is None:
        edit = first_entry(call, f"outputs: {{{entry}}}")
    else:
        edit = Edit(Span(key.span.end, call.span.end), f": {{outputs: {{{entry}}}}}")
    yield Repair(f'add the output "{name}" to {callee}, without a value', {callee: (edit,)}, is_last_resort=True)
