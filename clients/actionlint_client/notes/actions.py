"""Versions of actions that GitHub no longer runs, and inputs and outputs of known actions in other repositories."""
from __future__ import annotations

import re
from typing import Iterator

from .file import File, Finding, is_slip, note, table

TABLE = table("actions")
VERSION = re.compile(r"v?(\d+)(?:\.(\d+))?(?:\.\d+)?")
ACTIONS = table("interfaces")["actions"]
SIGNS = re.compile(r"[-_]")


def versions(file: File) -> Iterator[Finding]:
    """N15: a version that GitHub fails. N16: a version that was made for a Node that GitHub no longer has."""
    for _, step in file.steps:
        uses = step.get("uses")
        name, _, version = (uses.value if uses else "").partition("@")
        found, row = VERSION.fullmatch(version), TABLE["actions"].get(name.lower())
        if uses is None or found is None or row is None:
            continue
        major, minor = int(found[1]), int(found[2]) if found[2] else None
        if minor is not None and major in row.get("mixed", []):
            continue
        node = next((node for node in ("12", "16") if major in row.get(f"node {node}", [])), None)
        if major in row.get("fail", []) or minor is not None and minor < row.get("fail before", {}).get(str(major), 0):
            yield note("N15", uses, uses.value)
        elif node:
            yield note("N16", uses, uses.value, node)


def lacks(uses: str, kind: str, name: str) -> bool:
    """Whether an action surely has no input or output (`kind`) of a name in lower case. For versions that may still get others, only slips
    of known names are sure."""
    action, _, version = uses.partition("@")
    row = ACTIONS.get(action.lower(), {})
    known, found = [one.lower() for one in row.get(kind, [])], VERSION.fullmatch(version)
    if not known or name in known:
        return False
    is_closed = found is not None and int(found[1]) <= row["closed"]
    return is_closed or any(is_slip(name, one) or SIGNS.sub("", name) == SIGNS.sub("", one) for one in known)


def inputs_of_actions(file: File) -> Iterator[Finding]:
    """N33: an input that a known action doesn't have. N34: one that it needs, and isn't given."""
    for _, step in file.steps:
        uses, given = step.get("uses"), step.get("with")
        if uses is None:
            continue
        # (a blank in a name is the same as `_`)
        names = [(key, key.value.lower().replace(" ", "_")) for key, _ in (given.entries if given else [])]
        yield from (note("N33", key, uses.value, key.value) for key, name in names if lacks(uses.value, "inputs", name))
        needed = ACTIONS.get(uses.value.partition("@")[0].lower(), {}).get("needed", [])
        yield from (note("N34", uses, uses.value, one) for one in needed if one not in [name for _, name in names])
