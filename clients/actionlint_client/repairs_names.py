"""Repairs of names in expressions: similar ones, and changes that make a name known at its place."""
from __future__ import annotations

import re
from typing import Callable, Iterable

from .expressions import chain_before
from .names import likely, misspelled, short_forms
from .operators import grouped, parts
from .other_keys import other_keys
from .other_syntax import with_empty_text
from .paths import is_workflow
from .repair import Case, Edit, Found, Repair, first_entry, in_quotes, moved_out, next_entry, quoted, without_key
from .repairs_expressions import choice_by_call, expression_of, is_alternative, is_in_condition, is_operand, rewritten
from .repairs_needs import declared_output, is_in_other_words, is_written_elsewhere, needed_job, needs_for_jobs, output_of_job
from .repairs_steps import (DECLARED, OF_CONTEXTS, PROPERTIES_OF_ALL, named_step, only_job, only_output, only_step,
                            output_of_any_job, properties_before, same_name_elsewhere, scope_of, shorter_chain, unused_name)
from .repairs_values import OF_FILES, joined_property
from .syntax import shape_at, table
from .text import Point, Span
from .tree import Path

# Words that are often written for a property of `github`.
OTHER_PROPERTIES = {"branch": "ref_name", "branch_name": "ref_name", "tag": "ref_name", "tag_name": "ref_name", "sha_short": "sha",
                    "commit": "sha", "commit_sha": "sha", "user": "actor", "author": "actor", "repo": "repository",
                    "owner": "repository_owner", "event_type": "event_name", "build_number": "run_number", "run": "run_id",
                    "username": "actor", "login": "actor", "organization": "repository_owner", "org": "repository_owner",
                    "base_branch": "base_ref", "target_branch": "base_ref", "head_branch": "head_ref", "source_branch": "head_ref",
                    "pr_number": "event.pull_request.number", "pull_request_number": "event.pull_request.number",
                    "pr_title": "event.pull_request.title", "issue_number": "event.issue.number",
                    "head_sha": "event.pull_request.head.sha", "base_sha": "event.pull_request.base.sha",
                    "commit_message": "event.head_commit.message", "default_branch": "event.repository.default_branch",
                    "repo_name": "event.repository.name", "workflow_name": "workflow", "job_name": "job", "job_id": "job",
                    "repository_name": "event.repository.name"}
# What events have, which is often written without `event`.
OF_EVENTS = {"pull_request", "issue", "release", "inputs", "comment", "review", "discussion", "head_commit", "commits", "sender", "label",
             "workflow_run", "deployment", "client_payload", "before", "after", "forced", "number", "check_run", "check_suite"}
OTHER_FUNCTIONS = {"failed": "failure", "succeeded": "success", "canceled": "cancelled", "toboolean": "fromJSON", "tonumber": "fromJSON",
                   "parsejson": "fromJSON", "tostring": "toJSON", "includes": "contains", "glob": "hashFiles", "hash": "hashFiles",
                   "beginswith": "startsWith", "hasprefix": "startsWith", "hassuffix": "endsWith"}
VARIABLE_OF_RUNNER = re.compile(r"(?:GITHUB|RUNNER)_[A-Z]")
WORDS = ("true", "false", "null")
OTHER_NULLS = ("none", "nil", "undefined")
# Words for the state of a job or a step that the other one has.
OTHER_STATES = {"needs": {"outcome": "result", "conclusion": "result", "status": "result", "state": "result"},
                "steps": {"result": "outcome", "status": "outcome", "state": "outcome"}, "job": {"state": "status", "result": "status"}}
OF_STRATEGY = {"fail-fast", "max-parallel"}


def near_name(case: Case) -> Iterable[Repair]:
    """A similar name: a property that the object has here, a context or a function that is available here."""
    wrong = case.arguments[0]
    if case.code == "X7" and VARIABLE_OF_RUNNER.match(wrong):
        return
    quote = case.written[:1] if case.written[:1] == "'" else ""
    known = properties_before(case) if case.code == "X13" else _scope_names(case)
    word = misspelled(wrong, WORDS) if case.code == "X7" else None
    found = [(word, True)] if word else likely(wrong, known)
    meant = OTHER_FUNCTIONS.get(wrong.lower()) if case.code == "X9" else None
    if meant in known and not any(is_slip for _, is_slip in found):
        found = [(str(meant), False)]
    for name, is_slip in found:
        yield case.replace(f'change to "{name}"', quote + name + quote, is_safe=is_slip)
    if case.code == "X13" and not likely(wrong, known):
        declared = known if (case.names_before or ("",))[0].lower() in DECLARED else []
        yield from (case.replace(f'change to "{name}"', quote + name + quote) for name in short_forms(wrong, declared))


def _scope_names(case: Case) -> list[str]:
    scope = scope_of(case)
    if scope is None:
        return []
    return scope.functions() if case.code == "X9" else [one.name for one in scope.contexts()]


def of_github(case: Case) -> Iterable[Repair]:
    """A property of `github` that is written without its context, or as the variable of its name."""
    name = case.arguments[0].lower().removeprefix("github_")
    name = OTHER_PROPERTIES.get(name, name)
    of_runner = case.arguments[0].lower().removeprefix("runner_")
    if case.arguments[0].startswith("RUNNER_") and of_runner in table()["contexts"]["runner"]["properties"]:
        yield case.replace(f"change to runner.{of_runner}", f"runner.{of_runner}")
    is_property = case.line[:case.span.start.column].endswith("->")
    if name in table()["contexts"]["github"]["properties"] and not is_property:
        yield case.replace(f"change to github.{name}", f"github.{name}")


def other_property(case: Case) -> Iterable[Repair]:
    """The property that another word means: of `github`, or the state of a job or a step; or an output without `outputs`."""
    before, wrong = case.names_before, case.arguments[0]
    state = OTHER_STATES.get(before[0].lower(), {}).get(wrong.lower()) if before else None
    if state and len(before) == (1 if before[0].lower() == "job" else 2):
        yield case.replace(f'change to "{state}"', state)
    if [one.lower() for one in before] == ["github"] and wrong.lower().startswith("event_"):
        yield case.replace(f'change to "event.{wrong[6:]}"', f"event.{wrong[6:]}")
    if [one.lower() for one in before] == ["needs"] and wrong.lower() == "result":
        yield case.replace("change to needs.*.result", "*.result")
    scope = scope_of(case)
    if scope and len(before) == 2 and before[0].lower() in ("steps", "needs", "jobs"):
        outputs = [one.name for one in scope.properties((*before, "outputs"))]
        name = wrong if wrong in outputs else misspelled(wrong, outputs)
        steps = [step for step in scope.visible_steps() if step.text("id") == before[1]] if before[0].lower() == "steps" else []
        is_open = not outputs and any(step.get("uses") for step in steps) and not likely(wrong, PROPERTIES_OF_ALL["steps"])
        if name or is_open:
            yield case.replace(f'change to "outputs.{name or wrong}"', f"outputs.{name or wrong}")
    name = wrong.lower().removeprefix("github_")
    of_github_ = table()["contexts"]["github"]["properties"]
    meant = OTHER_PROPERTIES.get(wrong.lower()) or (name if name != wrong.lower() and name in of_github_ else None)
    if meant is None and wrong.lower() in OF_EVENTS:
        meant = f"event.{wrong}"
    if meant and [one.lower() for one in before] == ["github"]:
        yield case.replace(f'change to "{meant}"', meant)


def include_of_matrix(case: Case) -> Iterable[Repair]:
    """`include` for a row of the matrix with a similar name whose entries have the property."""
    chain, matrix = case.chain[0], case.at("jobs", case.job, "strategy", "matrix") if case.job else None
    if matrix and len(chain) == 2 and chain[0].lower() == "matrix" and matrix.get("include") is None:
        for key, value in matrix.entries:
            if misspelled(key.value, ["include"]) and any(item.get(chain[1]) for item in value.items):
                yield case.replace(f'change "{key.value}" to "include"', "include", key.span)


def declared_row(case: Case) -> Iterable[Repair]:
    """A new row in the matrix of the job, if the job then runs as often as before: not beside `include` alone, whose entries would all be
    added to the new row's only value."""
    chain, _ = case.chain
    job = case.at("jobs", case.job) if case.job else None
    if job is None or case.job is None or is_written_elsewhere(case, case.job, "strategy"):
        return
    include = case.at("jobs", case.job, "strategy", "matrix", "include")
    if include and include.kind == "mapping" or job.get("matrix") or len(chain) != 2 or chain[0].lower() != "matrix":
        return
    if likely(chain[1], properties_before(case)) or short_forms(chain[1], properties_before(case)):
        return
    value = "ubuntu-latest" if chain[1] == "os" else ""
    row = f"{chain[1]}: [{value or quoted('')}]"
    matrix, strategy = case.at("jobs", case.job or "", "strategy", "matrix"), job.get("strategy")
    title = f'add the row "{chain[1]}", with the value "{value}" alone'
    if matrix and matrix.kind == "mapping" and set(matrix.names()) - {"include", "exclude"}:
        yield case.of(title, first_entry(matrix, row))
    elif matrix is None and strategy and strategy.kind == "mapping" and strategy.entries and set(strategy.names()) <= OF_STRATEGY:
        yield case.of(title, first_entry(strategy, f"matrix: {{{row}}}" if strategy.is_flow else f"matrix:\n  {row}"))
    elif strategy is None:
        yield case.of(title,
                      first_entry(job, f"strategy: {{matrix: {{{row}}}}}" if job.is_flow else f"strategy:\n  matrix:\n    {row}"))


def unknown_word(case: Case) -> Iterable[Repair]:
    """A function with its brackets, a property with its context, or a text in quotes: that first, if it is compared to its left."""
    if VARIABLE_OF_RUNNER.match(case.arguments[0]) and list(of_github(case)):
        return
    scope = scope_of(case)
    is_function = scope is not None and case.arguments[0].lower() in [name.lower() for name in scope.functions()]
    if is_function and not is_operand(case.line[:case.span.start.column], case.line[case.span.end.column:]):
        yield case.replace('add "()"', case.written + "()", is_safe=True)
        return
    if case.arguments[0].lower() in OTHER_NULLS:
        yield case.replace('change to "null"', "null")
        return
    if case.arguments[0].lower() in WORDS:
        yield case.replace(f'change to "{case.arguments[0].lower()}"', case.arguments[0].lower(), is_safe=True)
        return
    before, after = case.line[:case.span.start.column], case.line[case.span.end.column:]
    expression = expression_of(case)
    chain, _ = case.outer_chain
    if expression and before.endswith("[") and after.startswith("]") and chain[:1] and chain[0].lower() in _scope_names(case):
        yield case.replace("put it in quotes", in_quotes(f"'{case.written}'", expression.style))
        return
    if before.endswith("->"):
        return
    is_right_side = re.search(r"[=!]=\s*$", case.line[:case.span.start.column]) is not None
    ways = (as_text, with_context) if is_right_side else (with_context, as_text)
    yield from (repair for way in ways for repair in way(case))


def with_context(case: Case) -> Iterable[Repair]:
    """A word that is a property of contexts that are available here, with each of them."""
    scope = scope_of(case)
    chain, span = case.chain
    if scope is None or not chain:
        return
    available = {one.name for one in scope.contexts()}
    for context in OF_CONTEXTS:
        names_ = [one.name.lower() for one in scope.properties((context,))] if context in available else []
        if chain[0].lower() in names_:
            yield case.replace(f"change to {context}.{chain[0]}", f"{context}.{chain[0]}", Span(span.start, case.span.end))


def as_text(case: Case) -> Iterable[Repair]:
    """A word that isn't a context, in quotes, if it is compared, an argument or a value to choose. On the right side it is nothing else."""
    chain, span = case.outer_chain
    expression = expression_of(case)
    match = re.match(r"[\w./*-]+(?:\[\w+\])?", case.line[span.start.column:]) if chain else None
    if match is None or expression is None:
        return
    end = span.start.column + len(match[0])
    before, after = case.line[:span.start.column], case.line[end:]
    if not is_operand(before, after) and not (is_alternative(before, after) and not is_in_condition(case)):
        return
    is_word = "." not in match[0] and not match[0].isupper() and not likely(chain[0], _scope_names(case)) and not list(with_context(case))
    is_compared_with_name = re.search(r"[\w\])]\s*[=!]=\s*$", before) is not None
    place = Span.on_line(span.start.line, span.start.column, end)
    yield case.replace("put it in quotes", in_quotes(f"'{match[0]}'", expression.style), place, is_word and is_compared_with_name)


def sibling_property(case: Case) -> Iterable[Repair]:
    """A property of what is before the value that can't be indexed, in place of that value's."""
    chain, span = case.chain
    scope = scope_of(case)
    before = chain_before(case.line[span.start.column:case.span.start.column] + ".") if chain else None
    number = len(before.chain) if before else 0
    if scope is None or not 1 < number < len(chain) or joined_property(chain) or chain[number - 1].lower() in OF_FILES:
        return
    name = chain[number]
    if (chain[0].lower(), name.lower()) == ("runner", "name"):
        return
    if name in [one.name for one in scope.properties(chain[:number - 1])]:
        text = ".".join([*chain[:number - 1], *chain[number:]])
        yield case.replace(f"change to {text}", text, span)


def declared_input(case: Case) -> Iterable[Repair]:
    """The input, as a new one of the file."""
    chain, _ = case.chain
    if not chain or chain[0].lower() != "inputs" or case.tree is None:
        return
    name = case.arguments[0]
    if any(is_slip for _, is_slip in likely(name, properties_before(case))):
        return
    ways: list[Path] = [("on", "workflow_dispatch"), ("on", "workflow_call")] if is_workflow(case.file) else [()]
    for way in ways:
        yield from _declaring(case, way, name, f'declare the input "{name}"')
    on = case.tree.get("on")
    if is_workflow(case.file) and on and on.kind == "scalar" and on.value:
        text = f"{{{on.value}: , workflow_dispatch: {{inputs: {{{name}: {{type: string}}}}}}}}"
        yield case.replace(f'declare the input "{name}"', text, on.span)


def _declaring(case: Case, way: Path, name: str, title: str, *edits: Edit) -> Iterable[Repair]:
    entry = f"{name}:\n  type: string" if is_workflow(case.file) else f"{name}:\n  description: {name}"
    flow = f"{name}: {{type: string}}" if is_workflow(case.file) else f"{name}: {{description: {name}}}"
    around = case.at(*way)
    inputs = case.at(*way, "inputs")
    if around and is_in_other_words(around, "inputs", table()["shapes"]["Call" if way else "Action"]["keys"]):
        return
    if inputs and inputs.entries:
        yield case.of(title, first_entry(inputs, flow if inputs.is_flow else entry), *edits)
    elif inputs is None and around and around.entries:
        key = "description" if around.get("description") else around.entries[-1][0].value
        text = f"inputs: {{{flow}}}" if around.is_flow else "inputs:\n  " + entry.replace("\n", "\n  ")
        yield case.of(title, next_entry(case, around, key, text), *edits)


def in_known_section(case: Case) -> Iterable[Repair]:
    """A key around the value that its section doesn't have, by the word that the section has for it."""
    whole = case.scalar.path if case.scalar else ()
    for depth, name in enumerate(whole):
        path = whole[:depth]
        node = case.at(*path)
        key = node.key(name) if node and isinstance(name, str) else None
        known = case.known_keys(path, node.names()) if node and key else []
        meant = next((one for one in other_keys(str(name)) if one in known), None) or misspelled(str(name), known)
        shape = shape_at(case.file, path, case.levels((*path, "")))
        if key and meant and shape and name not in shape.get("keys", ()) and not shape["free"]:
            yield case.replace(f'change "{name}" to "{meant}"', meant, key.span)
            return


def other_context(case: Case) -> Iterable[Repair]:
    """An available context for one that isn't, or what it stands for: a variable's value, a needed job, an input of an action."""
    chain, span = case.chain
    if len(chain) < 2 or case.tree is None:
        return
    context = chain[0].lower()
    if context == "env" and len(chain) == 2:
        scope = scope_of(case)
        yield from (case.replace(f"change to inputs.{one.name}", f"inputs.{one.name}", span) for one in scope.properties(("inputs",))
                    if one.name.lower().replace("-", "_") == chain[1].lower() and chain[1] not in case.tree.names("env")) if scope else ()
        if not _is_condition_of_job(case):
            yield from _value_of_variable(case, chain[1], span)
    if context in ("job", "needs") and case.scalar and case.scalar.path[:3] == ("on", "workflow_call", "outputs"):
        yield case.replace('change to "jobs"', "jobs", Span.on_line(span.start.line, span.start.column, span.start.column + len(chain[0])))
    if context == "steps" and case.scalar and case.scalar.path[:3] == ("on", "workflow_call", "outputs"):
        yield from output_of_any_job(case, span)
    if context == "jobs" and case.job:
        yield from needs_for_jobs(case, chain, span)
    if context == "secrets" and not is_workflow(case.file):
        if chain[1].lower() == "github_token":
            yield case.replace("change to github.token", "github.token", span, is_safe=True)
        yield from _input_for_secret(case, chain, span)
    if context == "secrets" and is_workflow(case.file):
        yield from _by_env(case, chain, span)
        yield from as_secret(case, case.scalar) if case.scalar and case.job else ()
    if _is_condition_of_job(case):
        yield from _moved_to_steps(case, chain, span)
    if context == "env" and len(chain) == 2 and (_is_condition_of_job(case) or "${{" not in (case.tree.text("env", chain[1]) or "")):
        yield case.replace(f"change to vars.{chain[1]}, a variable of the repository", f"vars.{chain[1]}", span)


def _is_condition_of_job(case: Case) -> bool:
    return case.job is not None and case.scalar is not None and case.scalar.path[2:] == ("if",)


def _input_for_secret(case: Case, chain: tuple[str, ...], span: Span) -> Iterable[Repair]:
    name = chain[1].lower()
    edit = Edit(span, f"inputs.{name}")
    if case.at("inputs", name):
        yield case.of(f"change to inputs.{name}", edit)
    else:
        yield from _declaring(case, (), name, f'take it from a new input "{name}"', edit)


def as_secret(case: Case, here: Found) -> Iterable[Repair]:
    """An entry of `with` of a called workflow, moved to `secrets`."""
    job = case.at(*here.path[:2])
    if here.key is None or job is None or here.path[2:3] != ("with",) or len(here.path) != 4:
        return
    secrets, text = job.get("secrets"), f"{here.key.value}: {case.slice(here.value.span)}"
    removed = moved_out(case, here, job)
    if secrets is None:
        added = next_entry(case, job, "uses", f"secrets: {{{text}}}" if job.is_flow or here.parent.is_flow else f"secrets:\n  {text}")
    elif secrets.entries:
        added = first_entry(secrets, text)
    else:
        return
    yield case.of('move it to "secrets"', removed, added)


def _value_of_variable(case: Case, name: str, span: Span) -> Iterable[Repair]:
    value = case.tree.text("env", name) if case.tree else None
    expression = expression_of(case)
    if value is None or expression is None or "${{" in value or "\n" in value:
        return
    literal = quoted(value)
    if case.line[:expression.span.start.column].endswith("${{") and expression.text.strip() == case.slice(span):
        whole = Span(Point(span.start.line, expression.span.start.column - 3), Point(span.end.line, expression.span.end.column + 2))
        yield case.replace(f"replace it by its value {literal}", value, whole)
    else:
        yield case.replace(f"replace it by its value {literal}", in_quotes(literal, expression.style), span)


def _by_env(case: Case, chain: tuple[str, ...], span: Span) -> Iterable[Repair]:
    """A secret in the condition of a step, by way of a variable of its job, since conditions can't read secrets."""
    job = case.at("jobs", case.job) if case.job else None
    if job is None or case.scalar is None or case.scalar.path[2:3] != ("steps",):
        return
    name, entry = _secret_variable(chain)
    edit = Edit(span, f"env.{name}")
    env = job.get("env")
    if env and env.entries:
        yield case.of(f'pass it in the variable "{name}"', first_entry(env, entry), edit)
    elif env is None:
        yield case.of(f'pass it in the variable "{name}"', first_entry(job, f"env:\n  {entry}"), edit)


def _secret_variable(chain: tuple[str, ...]) -> tuple[str, str]:
    """The name of a variable for a secret, and its entry."""
    name = re.sub(r"\W", "_", chain[1]).upper()
    return name, f"{name}: ${{{{ secrets.{chain[1]} }}}}"


def _moved_to_steps(case: Case, chain: tuple[str, ...], span: Span) -> Iterable[Repair]:
    """The condition of a job, moved to each of its steps, with a variable of the job in place of a secret. What is beside it after `&&` and
    has no such context stays."""
    job = case.at("jobs", case.job or "")
    value, steps = (job.get("if"), job.get("steps")) if job else (None, None)
    if not job or value is None or steps is None or any(step.kind != "mapping" for step in steps.items):
        return
    conditions = [condition for step in steps.items if (condition := step.get("if"))]
    if any(condition.style or "${{" in condition.value or condition.span.start.line != condition.span.end.line for condition in conditions):
        return
    text, whole = value.value.strip().removeprefix("${{").removesuffix("}}").strip(), case.slice(span)
    moved = [part for part in parts(text, "&&") if re.search(rf"\b{re.escape(chain[0])}\b", part)]
    stays = [part for part in parts(text, "&&") if part not in moved]
    if "${{" in text or any(re.search(r"\b(?:always|failure|cancelled)\(", part) for part in moved):
        return
    variable, new = [], " && ".join(moved)
    if chain[0].lower() == "secrets" and job.get("runs-on") and job.get("env") is None:
        name, entry = _secret_variable(chain)
        new = new.replace(whole, f"env.{name}")
        variable = [next_entry(case, job, "runs-on", f"env: {{{entry}}}" if job.is_flow else f"env:\n  {entry}")]
    kept = Edit(value.span, _as_condition(" && ".join(stays))) if stays else without_key(case, job, "if")
    edits = [first_entry(step, f"if: {_as_condition(new, step.is_flow)}") for step in steps.items if step.get("if") is None]
    edits += [Edit(one.span, f"{grouped(new, ('||',))} && {grouped(one.value, ('||',))}") for one in conditions]
    yield case.of("put the condition on the steps" if not stays else f'put "{new}" on the steps', kept, *variable, *edits)


def _as_condition(text: str, in_flow: bool = False) -> str:
    text = "${{ " + text + " }}" if text.startswith("!") else text
    return quoted(text) if in_flow and re.search(r"[\[\]{},]", text) else text


def moved_variable(case: Case) -> Iterable[Repair]:
    """A variable of a job, moved to its step, where more contexts are available."""
    here, job = case.scalar, case.at("jobs", case.job) if case.job else None
    if here is None or here.key is None or job is None or here.path[2:3] != ("env",) or len(here.path) != 4:
        return
    entry = f"{here.key.value}: {case.slice(here.value.span)}"
    edits = []
    for step in job.items_at("steps"):
        env = step.get("env")
        flow_entry = f"{here.key.value}: {case.slice(here.value.span) if here.value.style else quoted(here.value.value)}"
        if env and env.entries:
            edits.append(first_entry(env, flow_entry if env.is_flow else entry))
        elif env is None:
            edits.append(first_entry(step, f"env: {{{flow_entry}}}" if step.is_flow else f"env:\n  {entry}"))
    if not edits:
        return
    yield case.of("move it to the steps", moved_out(case, here, job), *edits)


REPAIRS: dict[str, tuple[Callable[[Case], Iterable[Repair]], ...]] = {
    "X7": (near_name, unknown_word, of_github),
    "X8": (in_known_section, other_context, output_of_job, moved_variable),
    "X9": (near_name, choice_by_call, rewritten("compare it with an empty text", with_empty_text)),
    "X10": (moved_variable,),
    "X14": (sibling_property,),
    "X13": (include_of_matrix, other_property, same_name_elsewhere, shorter_chain, near_name, needed_job, named_step, output_of_job,
            only_step, only_job, unused_name, declared_input, declared_output, only_output, declared_row),
}
