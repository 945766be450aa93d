"""Filter patterns that match nothing, or are regular expressions."""
from __future__ import annotations

import re
from typing import Iterator

from ..tree import Node
from .file import File, Finding, note

EVENTS = ("push", "pull_request", "pull_request_target", "workflow_run")
FILTERS = ("paths", "branches", "tags")
# What no path of a repository and no name of a branch or tag has.
NO_PATH = re.compile(r"^/|/$|(^|/)\.\.(/|$)|^\.$|//|^\s|\s$")
NO_NAME = re.compile(r"^/|/$|//|\.\.|\.$|^\s|\s$|\.lock$")
# The items of a pattern: a character behind a backslash, a class, or a character.
ITEM = re.compile(r"\\.|\[[^\]]*\]|.", re.S)


def _patterns(file: File) -> Iterator[tuple[str, Node, str]]:
    """The name of a filter without `-ignore`, an entry, and its pattern without the `!` before it."""
    for event, below in file.events:
        for key, value in below.entries if below and event.value in EVENTS else []:
            name = key.value.removesuffix("-ignore")
            for one in (value.items or [value]) if name in FILTERS else []:
                if one.kind == "scalar" and one.value:
                    yield name, one, one.value.removeprefix("!")


def patterns(file: File) -> Iterator[Finding]:
    """N22: a pattern that matches no path, or no name of a branch or tag."""
    for name, one, pattern in _patterns(file):
        if (NO_PATH if name == "paths" else NO_NAME).search(pattern):
            yield note("N22", one, one.value)


def regular_expressions(file: File) -> Iterator[Finding]:
    """N32: a letter or digit behind a backslash, or `+` or `?` behind `*`, `+` or `?`: there is no character that it repeats."""
    for _, one, pattern in _patterns(file):
        items = ITEM.findall(pattern)
        wrong = [item for item in items if item[0] == "\\" and item[1:].isalnum()]
        wrong += [before + item for before, item in zip(items, items[1:]) if before in ("*", "+", "?") and item in ("+", "?")]
        yield from (note("N32", one, found, one.value) for found in wrong[:1])
