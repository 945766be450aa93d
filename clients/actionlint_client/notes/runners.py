"""Labels of runners that no longer exist, are slips of known ones, or exclude each other; and shells that they lack."""
from __future__ import annotations

import re
from typing import Iterator

from ..tree import Node
from .file import File, Finding, has_expression, is_slip, names_of, note, table
from .matrices import values_of

TABLE = table("runners")
DIGITS = re.compile(r"\d+")


def _named(job: Node) -> list[Node]:
    """What stands at `runs-on`, or in its list."""
    runs_on = job.get("runs-on")
    named = runs_on.items or [runs_on] if runs_on and runs_on.kind != "mapping" else []
    return [label for label in named if label.kind == "scalar"]


def labels(file: File) -> Iterator[Node]:
    """The labels of jobs that run on runners of GitHub, those of a matrix included. A list with another label names own runners."""
    for _, job in file.jobs:
        named = _named(job)
        found = [one for label in named for one in _given_by(file, job, label)]
        if len(named) == 1 or all(one.value.lower() in TABLE["known"] or one.value.lower() in TABLE["ended"] for one in found):
            yield from (one for one in found if not has_expression(one.value))


def _given_by(file: File, job: Node, label: Node) -> list[Node]:
    """The texts that a label may have: itself, or the values of `${{ matrix.x }}`."""
    tree = file.whole(label)
    names = names_of(tree) if tree else []
    return values_of(job, names[1:]) if names[:1] == ["matrix"] else [label]


def ended_labels(file: File) -> Iterator[Finding]:
    """N13: a label of runners that no longer exist."""
    for label in labels(file):
        if label.kind == "scalar" and (row := TABLE["ended"].get(label.value.lower())):
            yield note("N13", label, label.value, row["in"])


def slips_of_labels(file: File) -> Iterator[Finding]:
    """N14: a label that differs by a letter from one that exists, with the same numbers."""
    known = [*TABLE["known"], *TABLE["ended"]]
    for label in labels(file):
        text = label.value.lower()
        if label.kind == "scalar" and text not in known:
            like = next((one for one in known if is_slip(text, one) and DIGITS.findall(text) == DIGITS.findall(one)), None)
            if like:
                yield note("N14", label, label.value, like)


def labels_of_two_runners(file: File) -> Iterator[Finding]:
    """N29: two labels of GitHub's own runners, each of which has one. An alias is where it stands."""
    for _, job in file.jobs:
        named = [label for label in _named(job) if label.value.lower() in TABLE["known"]]
        is_own = any(label.value.lower() == "self-hosted" for label in _named(job))
        yield from (Finding(label.start, label.end, "N29", (label.value, named[0].value)) for label in named
                    if not is_own and label.value != named[0].value)


def missing_shells(file: File) -> Iterator[Finding]:
    """N30: a shell that GitHub doesn't list for the only system of a job's runners, of a step or as the default that it has."""
    systems = {job.start: _system(file, job) for _, job in file.jobs}
    for job, step in file.steps:
        if job is None or step.get("run") is None:
            continue
        defaults = [section for owner in (job, file.root) if (section := owner.get("defaults", "run"))]
        shell = next((found for section in [step, *defaults] if (found := section.get("shell"))), None)
        system, label = systems[job.start]
        if shell and shell.value in TABLE["missing shells"].get(system, []):
            yield note("N30", shell, shell.value, label)


def _system(file: File, job: Node) -> tuple[str, str]:
    """The only system of a job's runners, with a label. Empty if there are several, or it may run on own runners or in a container."""
    named = _named(job) if job.get("container") is None else []
    given = _given_by(file, job, named[0]) if len(named) == 1 else []
    systems = {one.value.lower().partition("-")[0] if one.value.lower() in TABLE["known"] else "" for one in given}
    return (systems.pop(), given[0].value) if len(systems) == 1 else ("", "")
