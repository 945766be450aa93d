"""What a file says of others of its folder: local actions and their files, anchors, and names that a slip hides."""
from __future__ import annotations

import posixpath
from typing import Iterator

from ..facts_tree import walk as parts_of
from ..tree import Node
from .file import File, Finding, has_expression, is_slip, names_of, note, table

ACTION_FILES = ("action.yml", "action.yaml", "Dockerfile")
# A workflow that declares more is none that a person wrote.
MOST_SECRETS = 100
# Folders whose files are often built in a run, and not committed.
BUILT = frozenset(table("folders")["built"])


def local_path(uses: str) -> str | None:
    """The directory of a local action, without a slash at its end. None if it isn't one, or is outside the folder."""
    path = posixpath.normpath(uses) if uses.startswith("./") else ".."
    return None if path.startswith("..") or has_expression(uses) or "@" in uses else path


def deprecated_inputs(file: File) -> Iterator[Finding]:
    """N25: an input that its action calls deprecated."""
    for _, step in file.steps:
        folder, given = local_path(step.text("uses") or ""), step.get("with")
        messages = file.deprecated(folder) if folder and given else {}
        yield from (note("N25", key, key.value, messages[key.value.lower()]) for key, _ in (given.entries if given else [])
                    if key.value.lower() in messages)


def missing_files(file: File) -> Iterator[Finding]:
    """N26: a file of an action, or a local action, that isn't in the folder."""
    if not file.is_workflow:
        here, runs = posixpath.dirname(file.path), file.root.get("runs")
        for name in ("main", "pre", "post"):
            named = runs.get(name) if runs else None
            if named and named.kind == "scalar" and named.value and not has_expression(named.value):
                path = posixpath.normpath(posixpath.join(here, named.value))
                if not path.startswith("..") and BUILT.isdisjoint(path.split("/")) and not file.is_there(path):
                    yield note("N26", named, named.value)
    changed: set[int] = set()
    for job, step in file.steps:
        uses, owner = step.get("uses"), job.start if job else -1
        folder = local_path(uses.value) if uses else None
        if uses and folder and owner not in changed and not any(
                file.is_there(posixpath.normpath(f"{folder}/{name}")) for name in ACTION_FILES):
            yield note("N26", uses, uses.value)
        if not _keeps_folder(step):
            changed.add(owner)


def _keeps_folder(step: Node) -> bool:
    """Whether the files beside the workflow are the same after a step: it is a plain checkout, or the setup of a language."""
    uses, given = step.text("uses") or "", step.get("with")
    is_plain = given is None or not any(given.get(key) for key in ("repository", "path", "ref", "sparse-checkout", "submodules"))
    return uses.startswith(("actions/checkout@", "actions/setup-")) and is_plain


def slips_of_secrets(file: File) -> Iterator[Finding]:
    """N27: a secret that a workflow that is only called doesn't declare, and that differs from a declared one by a letter."""
    calls = file.events[0][1] if [event.value for event, _ in file.events] == ["workflow_call"] else None
    secrets = calls.get("secrets") if calls else None
    declared = {key.value.lower() for key, _ in secrets.entries} if secrets and len(secrets.entries) <= MOST_SECRETS else set()
    for part in (part for tree in file.expressions() for part in parts_of(tree)) if declared else ():
        names = names_of(part)
        if len(names) == 2 and names[0] == "secrets" and names[1] not in declared:
            like = next((one for one in sorted(declared) if is_slip(names[1], one)), None)
            if like:
                yield note("N27", part, names[1].upper(), like.upper())


def unused_anchors(file: File) -> Iterator[Finding]:
    """N24: an anchor that no alias names."""
    named = {id(node.anchored) for node in file.nodes}
    yield from (Finding(node.sign, node.sign + len(f"&{node.anchor}".encode()), "N24", ()) for node in file.nodes
                if node.anchor is not None and id(node) not in named)
