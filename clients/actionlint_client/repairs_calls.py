"""Repairs of calls of actions and workflows."""
from __future__ import annotations

import re
from typing import Callable, Iterable

from . import project as files
from .action_versions import VERSIONS, owners_of, versions
from .inputs_of_calls import EMPTY, VALUES, call_of, first_value, path_of_call
from .names import likely, misspelled
from .operators import operators
from .other_keys import other_keys
from .paths import ACTION_NAMES, WORKFLOW_ENDINGS, WORKFLOWS, is_workflow
from .repair import Case, Edit, Found, Repair, as_scalar, entries_of, is_within_flow, moved_out, next_entry, quoted, tight, without_entry
from .repairs_keys import deleted, moved_below
from .repairs_kinds import as_flag, as_number
from .repairs_names import as_secret
from .repairs_needs import is_in_other_words
from .syntax import table
from .text import Point, Span
from .tree import Node, last_line

CALLED = "on:\n  workflow_call:\njobs:\n  build:\n    runs-on: ubuntu-latest\n    steps:\n      - run: make\n"
# A workflow of another repository whose directory isn't named whole.
OTHER_FOLDER = re.compile(r"([\w-]+/[\w.-]+)/(?:\.?github/)?(?:workflows?/)?([\w.-]+\.ya?ml@[\w./-]+)")
# A program with its arguments, not an action with its version.
COMMAND = re.compile(r"(?:\./)?[\w.-]+ +(?!v?\d)[^\s@#:].*")
OWNER_AND_NAME = re.compile(r"[\w.-]+/[\w./-]+")


def near_file(case: Case) -> Iterable[Repair]:
    """A file of the folder that jobs can call, or a new one with this name."""
    here = case.value
    wrong = case.arguments[0]
    callable_files = ["./" + file for file in case.project.paths() if is_workflow(file) and file != case.file
                      and files.is_callable(case.project.good_tree(file))]
    for name, is_slip in likely(wrong, callable_files):
        yield case.replace(f'change to "{name}"', name, here.value.span if here else None, is_slip)
    if re.fullmatch(rf"\./{re.escape(WORKFLOWS)}/[\w.-]+\.ya?ml", wrong):
        yield Repair(f'create the file "{wrong[2:]}"', {}, {wrong[2:]: CALLED})


def near_declared(what: str) -> Callable[[Case], Iterable[Repair]]:
    """An input or a secret of the called file in place of one that it doesn't have, or none."""
    def repairs(case: Case) -> Iterable[Repair]:
        node, callee, of_job = call_of(case)
        here = case.key
        if here and node and callee:
            declared = files.declarations(callee, case.project.good_tree(callee), what, True)
            given = {name.lower() for name in node.names("with" if what == "inputs" else "secrets")}
            free = [one.name for one in declared if one.name.lower() not in given]
            found = likely(case.arguments[0], free)
            found = found or [(name, False) for name in _only_lacking(node, declared, "with" if what == "inputs" else "secrets")]
            yield from (case.replace(f'change to "{name}"', name, is_safe=is_slip) for name, is_slip in found)
            if free and not found:
                # One of the free ones is meant.
                return
            tree = case.project.good_tree(callee)
            call = tree.get("on", "workflow_call") if tree and of_job else tree
            if call and is_in_other_words(call, what, table()["shapes"]["Call" if of_job else "Action"]["keys"]):
                return
        yield from _without(case)
    return repairs


def _lacking(node: Node, declared: list[files.Declaration], below: str) -> list[files.Declaration]:
    """The required inputs or secrets that a call lacks."""
    given = {name.lower() for name in node.names(below)}
    return [one for one in declared if one.is_required and one.name.lower() not in given]


def _unknown(node: Node, declared: list[files.Declaration], below: str) -> list[Node]:
    """The names that a call gives and the called file doesn't declare."""
    around, known = node.get(below), [one.name.lower() for one in declared]
    return [key for key, _ in around.entries if key.value.lower() not in known] if around else []


def _only_lacking(node: Node, declared: list[files.Declaration], below: str) -> list[str]:
    """The required input or secret that a call lacks, if it is the only one, and the only unknown one may be meant by its value."""
    lacking, unknown = _lacking(node, declared, below), _unknown(node, declared, below)
    if len(lacking) != 1 or len(unknown) != 1:
        return []
    text, kind = node.text(below, unknown[0].value) or "", lacking[0].value.text("type")
    is_flag, is_number = text in ("true", "false"), text.replace(".", "", 1).isdigit()
    may_be = "${{" in text or {"boolean": is_flag, "number": is_number, "string": not is_flag}.get(kind or "", True)
    return [lacking[0].name] if may_be else []


def _without(case: Case) -> Iterable[Repair]:
    """The call without the input, and without `with` if it was the only one."""
    here = case.key
    if here is None or here.key is None:
        return
    if len(here.parent.entries) > 1:
        yield from deleted(case)
        return
    node = case.at(*here.path[:-2])
    outer = node.key(str(here.path[-2])) if node else None
    if node and outer:
        yield case.of(f'delete "{outer.value}"' + entries_of(here.parent), without_entry(case, node, outer), deletes=True)


def required(what: str) -> Callable[[Case], Iterable[Repair]]:
    """The missing input or secret, and all that are missing."""
    def repairs(case: Case) -> Iterable[Repair]:
        node, callee, of_job = call_of(case)
        if node is None or callee is None:
            return
        below = "with" if what == "inputs" else "secrets"
        declared = files.declarations(callee, case.project.good_tree(callee), what, True)
        one = next((one for one in declared if one.name.lower() == case.arguments[0].lower()), None)
        lacking = _lacking(node, declared, below)
        there = list(_written_elsewhere(case, node, below, one.name)) if one else []
        yield from there
        if there:
            return
        if one:
            yield from _given(case, node, below, [one])
        if len(lacking) > 1:
            yield from _given(case, node, below, lacking)
        if what == "secrets" and of_job:
            yield from _all_secrets(case, node)
    return repairs


def _written_elsewhere(case: Case, node: Node, below: str, name: str) -> Iterable[Repair]:
    """What is missing, if it is there: beside `uses`, misspelled, below another word for its section, or a secret among the inputs."""
    path = path_of_call(case)
    known = table()["shapes"]["Job" if len(path) == 2 else "Step"]["keys"]
    for word, section in node.entries:
        is_meant = below in other_keys(word.value) or misspelled(word.value, [below])
        if word.value not in known and section.get(name) and is_meant:
            yield case.replace(f'change "{word.value}" to "{below}"', below, word.span)
            return
    key, value = node.key(name), node.get(name)
    if key and value:
        yield from moved_below(case, Found((*path, name), key, value, node))
    callee = call_of(case)[1]
    what = "secrets" if below == "secrets" else "inputs"
    declared = files.declarations(callee, case.project.good_tree(callee), what, True) if callee else []
    for key in _unknown(node, declared, below) if declared else []:
        found = likely(key.value, [name]) or [(one, False) for one in _only_lacking(node, declared, below)]
        yield from (case.replace(f'change "{key.value}" to "{name}"', name, key.span, is_safe=is_slip) for _, is_slip in found)
    inputs = node.get("with")
    key, value = (inputs.key(name), inputs.get(name)) if inputs and below == "secrets" else (None, None)
    if inputs and key and value:
        yield from as_secret(case, Found((*path, "with", name), key, value, inputs))


def declared_as_secret(case: Case) -> Iterable[Repair]:
    """An input of a called workflow that is one of its secrets, moved to `secrets`."""
    node, callee, of_job = call_of(case)
    here = case.key
    if node and callee and of_job and here:
        declared = files.declarations(callee, case.project.good_tree(callee), "secrets", True)
        if case.arguments[0].lower() in [one.name.lower() for one in declared]:
            yield from as_secret(case, here)


def action_of_job(case: Case) -> Iterable[Repair]:
    """An action that a job calls, called from a step. The fault is in its name, or in a key of a job with steps."""
    here = case.value if case.code == "C8" else case.key
    uses, key = (here.parent.get("uses"), here.parent.key("uses")) if here else (None, None)
    if here and uses and key and len(here.path) == 3 and here.path[0] == "jobs" and ".github/workflows/" not in uses.value:
        yield from _called_from_step(case, Found((*here.path[:-1], "uses"), key, uses, here.parent))


def variables_as_inputs(case: Case) -> Iterable[Repair]:
    """The variables of a job that calls a workflow of the folder, passed as inputs if the workflow has them all."""
    job, callee, of_job = call_of(case)
    key, env, given = (job.key("env"), job.get("env"), job.get("with")) if job else (None, None, None)
    if job is None or key is None or env is None or callee is None or not of_job or not env.entries:
        return
    declared = {one.name for one in files.declarations(callee, case.project.good_tree(callee), "inputs", True)}
    if not declared.issuperset(env.names()):
        return
    if given is None:
        yield case.replace('change to "with"' if case.code == "K6" else 'change "env" to "with"', "with", key.span)
    elif given.entries and not given.is_flow and not env.is_flow and not set(given.names()) & set(env.names()):
        indent = "\n" + " " * env.entries[0][0].span.start.column
        texts = (case.slice(Span(name.span.start, tight(case, value).end)).replace(indent, "\n") for name, value in env.entries)
        added = next_entry(case, given, given.entries[-1][0].value, "\n".join(texts))
        yield case.of('put its entries below "with"', without_entry(case, job, key), added)


def list_as_text(case: Case) -> Iterable[Repair]:
    """A list as the text that an input takes: JSON for a called workflow, lines for an action."""
    here = case.value
    texts = [item.value for item in here.value.items if item.kind == "scalar"] if here else []
    if here is None or here.key is None or here.path[-2:-1] != ("with",) or not texts or len(texts) != len(here.value.items):
        return
    if any('"' in text or "\n" in text for text in texts):
        return
    after = Span(Point(here.key.span.end.line, here.key.span.end.column + 1), tight(case, here.value).end)
    if here.path[2:3] == ("with",):
        json = "[" + ", ".join(f'"{text}"' for text in texts) + "]"
        yield case.replace("write it as JSON", " " + quoted(json), after)
    elif not is_within_flow(case, here.path):
        indent = "\n" + " " * (here.key.span.start.column + 2)
        yield case.replace("write it in lines", " |" + "".join(indent + text for text in texts), after)


def _all_secrets(case: Case, job: Node) -> Iterable[Repair]:
    """All secrets of the caller, unless some are passed one by one."""
    secrets = job.get("secrets")
    if secrets is None:
        yield case.of("pass all secrets", next_entry(case, job, "uses", "secrets: inherit"))
    elif secrets.kind == "scalar" and secrets.value:
        yield case.replace("pass all secrets", "inherit", secrets.span)


def _given(case: Case, node: Node, below: str, declared: list[files.Declaration]) -> Iterable[Repair]:
    entries = [f"{one.name}: {first_value(case, one, below)}" for one in declared]
    title = "add " + ", ".join(f'"{entry}"' for entry in entries)
    around = node.get(below)
    if node.is_flow or around and around.is_flow:
        values = [first_value(case, one, below) for one in declared]
        # (an empty text is in quotes already)
        entries = [f"{one.name}: {value if value == EMPTY else as_scalar(value, '', True)}" for one, value in zip(declared, values)]
    if around and around.entries:
        yield case.of(title, next_entry(case, around, around.entries[-1][0].value, (", " if around.is_flow else "\n").join(entries)))
    elif around is None:
        text = f"{below}: {{{', '.join(entries)}}}" if node.is_flow else f"{below}:\n  " + "\n  ".join(entries)
        yield case.of(title, next_entry(case, node, "uses", text))
    else:
        key = node.key(below)
        assert key
        yield case.of(title, Edit(Span(key.span.end, around.span.end), ": {" + ", ".join(entries) + "}"))


def key_of_call(case: Case) -> Iterable[Repair]:
    """A key below `with` that the call itself lacks, such as `secrets`, moved beside `with`."""
    here, node = case.key, call_of(case)[0]
    if here is None or here.key is None or node is None or here.path[-2:-1] != ("with",) or here.parent.is_flow or node.is_flow:
        return
    name, column = here.key.value, here.key.span.start.column
    if name in case.known_keys(here.path[:-2], node.names()):
        entry = case.slice(Span(here.key.span.start, tight(case, here.value).end)).replace("\n" + " " * column, "\n")
        yield case.of(f'move "{name}" beside "with"', moved_out(case, here, node), next_entry(case, node, "uses", entry))


def script_for_call(case: Case) -> Iterable[Repair]:
    """A command that is written as a call, as the script of its step."""
    here = case.value
    step = here.parent if here else None
    if here and here.key and step and COMMAND.fullmatch(here.value.value.strip()) and not step.get("with") and not step.get("run"):
        yield case.replace('change "uses" to "run"', "run", here.key.span)


def other_type(case: Case) -> Iterable[Repair]:
    """A value of the input's type."""
    here = case.value
    if here is None:
        return
    text, kind = here.value.value.strip(), case.arguments[1]
    expression = re.fullmatch(r"\$\{\{(.*)\}\}", text, re.S)
    if kind == "boolean" and not expression:
        yield from as_flag(case, here.value)
    if kind == "number" and not expression:
        yield from as_number(case, here.value, {})
    if expression and "}}" not in expression[1]:
        inner = expression[1].strip()
        if kind == "number" and set(operators(inner)) & {"==", "!=", "<", ">", "<=", ">=", "!"}:
            return
        changed = "${{ fromJSON(" + inner + ") }}" if kind in ("boolean", "number") else "${{ format('{0}', " + inner + ") }}"
        shown = as_scalar(changed, here.value.style, is_within_flow(case, here.path))
        yield case.replace("read it with fromJSON" if kind != "string" else "write it as a text", shown, here.value.span)
    if kind == "string" and not expression and here.value.kind == "scalar":
        yield case.replace("put it in quotes", quoted(text), here.value.span, is_safe=True)


def right_uses(case: Case) -> Iterable[Repair]:
    """A call with a version, without an expression, and with `./` before a directory of this repository."""
    here = case.value
    if here is None:
        return
    text = here.value.value.strip()
    is_workflow_path = ".github/workflows/" in text or text.endswith(WORKFLOW_ENDINGS)
    of_job = len(here.path) == 3 and here.path[0] == "jobs" and is_workflow(case.file)
    other_folder = OTHER_FOLDER.fullmatch(text)
    if of_job and other_folder:
        changed = f"{other_folder[1]}/{WORKFLOWS}/{other_folder[2]}"
        yield case.replace(f'change to "{changed}"', changed, here.value.span)
        return
    if of_job and here.key and not is_workflow_path:
        yield from _called_from_step(case, here)
    for changed, is_safe in _right_calls(case, text):
        if changed != text:
            yield case.replace(f'change to "{changed}"', changed, here.value.span, is_safe)


def _called_from_step(case: Case, here: Found) -> Iterable[Repair]:
    """A job's call of an action, from a step: a new first one, or the only one."""
    assert here.key
    steps, column = here.parent.get("steps"), here.key.span.start.column
    uses = f"uses: {case.slice(here.value.span)}"
    if steps and steps.items and not steps.is_flow and not here.parent.is_flow:
        start = steps.span.start
        added = Edit(Span.at(start), f"- {uses}\n" + " " * start.column)
        yield case.of("call it from a step", without_entry(case, here.parent, here.key), added)
    elif steps is None:
        indent = "\n" + " " * column
        runs_on = "" if here.parent.get("runs-on") else f"runs-on: ubuntu-latest{indent}"
        yield case.replace("call it from a step", f"{runs_on}steps:{indent}  - {uses}", Span(here.key.span.start, here.value.span.end))


def _right_calls(case: Case, text: str) -> Iterable[tuple[str, bool]]:
    """What a call may be meant to be, and whether that is the only reading."""
    own = re.sub(r"^(?:\.?/)+", "", text).partition("@")[0].removesuffix("/")
    if case.project.has(own) and is_workflow(own) or any(case.project.has(f"{own}/{name}") for name in ACTION_NAMES):
        yield "./" + own, True
        return
    named = [f"{own}{ending}" for ending in WORKFLOW_ENDINGS if case.project.has(f"{own}{ending}") and is_workflow(f"{own}{ending}")]
    if named:
        yield "./" + named[0], True
        return
    yield from (("./" + folder, False) for folder in _folders_of_action(case, text))
    if is_workflow(case.file) and text.rpartition("/")[2] and case.project.has(f"{WORKFLOWS}/{text.rpartition('/')[2]}"):
        yield f"./{WORKFLOWS}/{text.rpartition('/')[2]}", False
    if not is_workflow(case.file) or (here := case.value) is None or len(here.path) > 3:
        image = re.fullmatch(r"[a-z][a-z0-9.-]*:(?:\d[\w.-]*|latest)|[\w-]+(?:\.[\w-]+)+/[\w./-]+:[\w.-]+", text)
        if image and not text.startswith("github.com/"):
            yield f"docker://{text}", False
            return
    if re.fullmatch(r"docker:[\w./:-]+", text):
        yield re.sub(r"^docker:/*", "docker://", text), True
    text = text.replace("\\", "/")
    bare = re.sub(r"^(?:https?://)?(?:www\.)?github\.com/", "", text)
    bare = re.sub(r"\.git(?=@|$)", "", bare).strip("/")
    name, sign, version = bare.partition("@")
    if not sign:
        match = re.fullmatch(r"([\w.-]+/[\w./-]+?)\s*(?:[:=# ]|==)\s*([\w.-]+)", bare) or re.fullmatch(r"([\w.-]+) +(v\d[\w.]*)", bare)
        name, version = (match[1], match[2]) if match else (bare, "")
    turned = re.fullmatch(r"([\w-]+)[@/]([\w.-]+)/(v?\d[\w.]*)", bare)
    if turned:
        yield f"{turned[1]}/{turned[2]}@{turned[3]}", False
        return
    name, version = re.sub(r"\s+", "", name).rstrip("/"), version.strip()
    name = _with_owner(case, name) if re.fullmatch(r"[\w.-]+", name) else name
    if not OWNER_AND_NAME.fullmatch(name):
        return
    if version and "${{" not in version and " " not in version:
        yield f"{name}@{version}", name in bare
    else:
        yield from ((f"{name}@{known}", False) for known in versions(case.project, name))


def _folders_of_action(case: Case, name: str) -> Iterable[str]:
    """The folders of this repository that have a name and an action."""
    files_ = tuple(f"/{name}/{file}" for file in ACTION_NAMES) if re.fullmatch(r"[\w.-]+", name) else ()
    return dict.fromkeys(path.rpartition("/")[0] for path in case.project.paths() if path.endswith(files_))


def _with_owner(case: Case, name: str) -> str:
    """An action with its owner: GitHub, or the only one that is known. Empty if there is none."""
    owners = [f"actions/{name}"] if f"actions/{name}".lower() in VERSIONS else owners_of(case.project, name)
    return owners[0] if len(owners) == 1 else ""


def made_callable(case: Case) -> Iterable[Repair]:
    """`workflow_call` as an event of the called workflow, or the call on a job or a step of its own."""
    node, callee, of_job = call_of(case)
    tree = case.project.tree(callee) if callee else None
    on = tree.get("on") if tree else None
    if callee is None or tree is None or on is None or not of_job or not is_workflow(callee):
        return
    text = case.project.text(callee).split("\n")
    title = f'add "workflow_call" to {callee}'
    flow = text[on.span.start.line][on.span.start.column:on.span.start.column + 1]
    if on.kind == "scalar":
        yield Repair(title, {callee: (Edit(on.span, f"[{on.value}, workflow_call]"),)})
    elif flow in ("[", "{"):
        after = Point(on.span.start.line, on.span.start.column + 1)
        entry = "workflow_call, " if flow == "[" else "workflow_call: {}, "
        yield Repair(title, {callee: (Edit(Span.at(after), entry),)})
    else:
        start = on.entries[0][0].span.start if on.entries else on.span.start
        entry = "workflow_call:" + _inputs_of_dispatch(on, text) if on.entries else "- workflow_call"
        indent = "\n" + " " * start.column
        yield Repair(title, {callee: (Edit(Span.at(start), entry + indent),)})


def _inputs_of_dispatch(on: Node, lines: list[str]) -> str:
    """The lines of the inputs of `workflow_dispatch`, if a caller can give each of them too."""
    dispatch = on.get("workflow_dispatch")
    key, inputs = (dispatch.key("inputs"), dispatch.get("inputs")) if dispatch else (None, None)
    if key is None or inputs is None or inputs.is_flow or not inputs.entries:
        return ""
    if any(value.text("type") not in VALUES or value.get("options") for _, value in inputs.entries):
        return ""
    return "".join("\n" + line for line in lines[key.span.start.line:last_line(inputs, lines) + 1])


def without_step(case: Case) -> Iterable[Repair]:
    """The steps without the one that closes the cycle."""
    here = case.scalar
    if here is None or "steps" not in here.path:
        return
    steps = case.at(*here.path[:here.path.index("steps") + 1])
    if steps and len(steps.items) > 1 and not steps.is_flow:
        item = here.parent
        number = next((number for number, one in enumerate(steps.items) if one is item), None)
        if number is not None:
            end = steps.items[number + 1].span.start.line if number + 1 < len(steps.items) else steps.span.end.line
            end = end if number + 1 < len(steps.items) or steps.span.end.column == 0 else end + 1
            yield case.replace("delete the step", "", Span(Point(item.span.start.line, 0), Point(end, 0)), deletes=True)


REPAIRS: dict[str, tuple[Callable[[Case], Iterable[Repair]], ...]] = {
    "C1": (near_file,),
    "K4": (list_as_text,),
    "K6": (action_of_job, variables_as_inputs),
    "C2": (declared_as_secret, key_of_call, near_declared("inputs")),
    "C3": (variables_as_inputs, required("inputs")),
    "C4": (other_type,),
    "C5": (near_declared("secrets"),),
    "C6": (required("secrets"),),
    "C7": (script_for_call, right_uses),
    "C8": (action_of_job, made_callable),
    "C9": (without_step,),
}
