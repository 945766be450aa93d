"""The calls that faults are in, and first values of the inputs and secrets that they lack."""
from __future__ import annotations

import re
from collections import Counter

from . import project as files
from .paths import is_workflow
from .repair import Case, as_scalar
from .tree import Node, Path, walk

EMPTY = "''"
VALUES = {"boolean": "true", "number": "0", "string": EMPTY}
# Inputs that take the token of the job, and those that take a secret.
TOKEN_OF_JOB = re.compile(r"(?:(?:github|gh|repo|repository)[-_]?)?token", re.I)
NAME_OF_SECRET = re.compile(r"(?:^|[-_])(?:token|password|passphrase|secret|(?:api|access|private|signing|ssh)[-_]?key)$", re.I)
PLAIN_VALUE = re.compile(r"[\w./-]+")
SEPARATORS = re.compile(r"[-_]")


def path_of_call(case: Case) -> Path:
    """The path of the step or the job with the call."""
    here = case.scalar or case.key or case.value
    path = here.path if here else ()
    while path and not ((node := case.at(*path)) and node.kind == "mapping" and node.get("uses")):
        path = path[:-1]
    return path


def call_of(case: Case) -> tuple[Node | None, str | None, bool]:
    """The step or the job with the call, the callee, and whether it is a job."""
    path = path_of_call(case)
    node = case.at(*path) if path else None
    if node is None:
        return None, None, False
    of_job = is_workflow(case.file) and len(path) == 2
    return node, case.project.callee(node.text("uses"), of_job), of_job


def first_value(case: Case, one: files.Declaration, below: str) -> str:
    """A first value: a secret for what is named as one, the default, or one of its type."""
    if below == "secrets":
        is_own = case.at("on", "workflow_call", "secrets", one.name) is not None or "-" not in one.name
        return "${{ secrets.%s }}" % (one.name if is_own else one.name.replace("-", "_").upper())
    if is_workflow(case.file) and TOKEN_OF_JOB.fullmatch(one.name):
        return "${{ github.token }}"
    if is_workflow(case.file) and NAME_OF_SECRET.search(one.name) and call_of(case)[2] is False:
        return "${{ secrets.%s }}" % re.sub(r"\W", "_", one.name).upper()
    if is_workflow(case.file) and case.at("on", "workflow_call", "inputs", one.name):
        return "${{ inputs.%s }}" % one.name
    if found := _of_its_job(case, one.name):
        return "${{ " + found + " }}"
    others = _given_elsewhere(case, one.name)
    if not others and SEPARATORS.search(one.name):
        others = _given_to_any(case, one.name)
        if len(others) == 1:
            return as_scalar(next(iter(others)), "'" if one.value.text("type") == "string" else "", False)
    if len(others) == 1 and (one.value.text("type") == "number" or max(others.values()) > 1):
        return next(iter(others))
    default = one.value.text("default")
    return default if default and re.fullmatch(r"[\w./-]+", default) else VALUES.get(one.value.text("type") or "", EMPTY)


def _of_its_job(case: Case, name: str) -> str | None:
    """A row of the matrix or an output of a needed job that has the name of an input."""
    path = path_of_call(case)
    tree, job = case.tree, str(path[1]) if path[:1] == ("jobs",) else None
    if tree is None or job is None or not is_workflow(case.file):
        return None
    having = [need for need in files.needed(tree, job) if name in tree.names("jobs", need, "outputs")]
    if name in files.matrix_rows(tree, job):
        return f"matrix.{name}"
    return f"needs.{having[0]}.outputs.{name}" if len(having) == 1 else None


def _given_elsewhere(case: Case, name: str) -> Counter[str]:
    """The plain values that other calls of the same file in this folder give an input."""
    node = call_of(case)[0]
    uses = node.text("uses") if node else None
    found: Counter[str] = Counter()
    for path in case.project.paths() if uses else ():
        tree = case.project.good_tree(path) if uses and uses in case.project.text(path) else None
        for _, _, value in walk(tree) if tree else ():
            given = value.get("with", name) if value.kind == "mapping" and value.text("uses") == uses else None
            if given and given.kind == "scalar" and PLAIN_VALUE.fullmatch(given.value):
                found[given.value] += 1
    return found


def _given_to_any(case: Case, name: str) -> Counter[str]:
    """The plain values that calls of any action or workflow in this file give an input of this name."""
    given = (found.value for found in case.nodes.keys.values() if found.path[-2:] == ("with", name))
    return Counter(value.value for value in given if value.kind == "scalar" and PLAIN_VALUE.fullmatch(value.value))
