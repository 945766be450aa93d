"""Keys that are empty, missing, unknown or misplaced: GitHub refuses the file."""
from __future__ import annotations

from typing import Iterator

from ..tree import Node
from .file import File, Finding, has_expression, is_slip, note, table

TABLE = table("keys")


def sections(file: File) -> Iterator[tuple[str, Node]]:
    """The parts of a file that are mappings of a kind, by their names in the table."""
    for _, job in file.jobs:
        yield "job", job
        for name in ("environment", "container"):
            if (found := job.get(name)) is not None:
                yield name, found
        services = [value for _, value in job.entries_at("services")]
        yield from (("service", value) for value in services)
        boxes = [job.get("container"), *services]
        yield from (("credentials", found) for box in boxes if box and (found := box.get("credentials")) is not None)
    for _, step in file.steps:
        yield ("step" if file.is_workflow else "composite step"), step
    if not file.is_workflow and (found := file.root.get("branding")):
        yield "branding", found


def empty_values(file: File) -> Iterator[Finding]:
    """N1: a value that must not be empty."""
    owners = [("workflow", file.root)] if file.is_workflow else []
    for name, section in [*owners, *sections(file)]:
        for key, value in section.entries:
            allowed = TABLE["not empty"].get(name, {}).get(key.value, [])
            is_empty = value.is_null if value.kind == "scalar" and not value.style else not (value.value or value.entries or value.items)
            if is_empty and value.kind in allowed:
                yield note("N1", key, key.value)


def jobs_without_steps(file: File) -> Iterator[Finding]:
    """N2: a job that neither has steps nor calls a workflow."""
    yield from (note("N2", key, key.value) for key, job in file.jobs if job.get("steps") is None and job.get("uses") is None)


def missing_keys(file: File) -> Iterator[Finding]:
    """N3: a key without which GitHub refuses what it stands in."""
    for name, section in sections(file):
        for key in TABLE["needed"].get(name, []) if section.kind == "mapping" else []:
            if section.get(key) is None:
                yield note("N3", section, key, name)
    for event, below in file.events:
        for key in TABLE["needed"].get(event.value, []):
            if below is None or below.get(key) is None:
                yield note("N3", event, key, event.value)
    for _, key, declared in file.inputs:
        if declared.text("type") == "choice" and declared.get("options") is None:
            yield note("N3", key, "options", key.value)


def unknown_keys(file: File) -> Iterator[Finding]:
    """N4: a key that GitHub doesn't know, or, where it takes any, one that is a slip of a known one."""
    for name, section in sections(file):
        known = TABLE["known"].get(name)
        for key, _ in section.entries if known else []:
            if key.value not in known:
                yield note("N4", key, key.value, name)
    for name in ("inputs", "outputs"):
        for _, one in [] if file.is_workflow else file.root.entries_at(name):
            known = TABLE["loose"][name]
            yield from (note("N4", key, key.value, name.removesuffix("s")) for key, _ in one.entries
                        if key.value not in known and any(is_slip(key.value, word) for word in known))
    if not file.is_workflow:
        yield from (note("N4", key, key.value, "composite step") for _, step in file.steps for key, _ in step.entries
                    if key.value in TABLE["not in composite step"])


def keys_beside(file: File) -> Iterator[Finding]:
    """N5: keys of which GitHub takes only one."""
    for name, section in sections(file):
        for key, _ in section.entries:
            others = TABLE["beside"].get(name.removeprefix("composite "), {}).get(key.value, [])
            other = next((one for one in others if section.get(one) is not None), None)
            if other is not None:
                yield note("N5", key, key.value, other)


def keys_by_case(file: File) -> Iterator[Finding]:
    """N6: keys that differ only in case, which are one key for GitHub. Ids of jobs are a matter of the linter."""
    jobs = file.root.get("jobs")
    for node in file.nodes:
        seen: dict[str, str] = {}
        for key, _ in node.entries if node is not jobs else []:
            first = seen.setdefault(key.value.lower(), key.value)
            if first != key.value and not has_expression(key.value):
                yield note("N6", key, key.value, first)
