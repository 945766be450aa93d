"""Outputs of steps that their scripts or actions never write."""
from __future__ import annotations

import re
from typing import Iterator

from ..facts_tree import walk as parts_of
from .actions import lacks
from .file import File, Finding, names_of, note, table

NAME = re.compile(r"""\s*(?:echo|printf)\s+["']?([A-Za-z_][\w-]*)(?:=|<<)[^|;&]*>>\s*"?\$\{?GITHUB_OUTPUT\}?"?\s*""")
COMMAND = re.compile(r"(?:^|\||&&|;|\$\(|`|\bif\b|\bthen\b|\bdo\b|\belse\b)\s*(?=((?:\w+=(?:[^\s$`]|\$(?!\())*\s+)*[^\s;|&()`]+))")
# Commands that write no output by themselves.
PLAIN = frozenset(table("outputs")["commands"])


def names_written(script: str) -> set[str] | None:
    """The names of the outputs that a script writes in lines `echo "NAME=.." >> "$GITHUB_OUTPUT"`. None if anything else may write some."""
    names: set[str] = set()
    for line in script.replace("\\\n", " ").splitlines():
        if line.lstrip().startswith("#"):
            continue
        found = NAME.fullmatch(line)
        # (`\n` may begin another output)
        if not _is_plain(line) or ("GITHUB_OUTPUT" in line or "::set-output" in line) and (found is None or "\\n" in line):
            return None
        if found:
            names.add(found[1].lower())
    return names


def _is_plain(line: str) -> bool:
    """Whether each command of a line is a plain one, or an assignment."""
    return all(found.split()[-1] in PLAIN or re.match(r"\w+=", found.split()[-1]) for found in COMMAND.findall(line))


def unwritten_outputs(file: File) -> Iterator[Finding]:
    """N23: an output that its step's script surely doesn't write, though it writes others; or one that a known action doesn't have."""
    written: dict[tuple[int, str], set[str] | None] = {}
    called: dict[tuple[int, str], str] = {}
    for job, step in file.steps:
        identifier, script, uses = step.text("id"), step.text("run"), step.text("uses")
        if identifier and script:
            written[(job or file.root).start, identifier.lower()] = names_written(script)
        elif identifier and uses:
            called[(job or file.root).start, identifier.lower()] = uses
    for owner, trees in file.expressions_by_job:
        for part in (part for tree in trees for part in parts_of(tree)):
            names = names_of(part)
            if len(names) == 4 and (names[0], names[2]) == ("steps", "outputs") and names[3] != "*":
                step_id = owner.start, names[1]
                found, uses = written.get(step_id), called.get(step_id, "")
                if found and names[3] not in found or lacks(uses, "outputs", names[3]):
                    yield note("N23", part, names[1], names[3])
