"""Reads notes.cases, which says at its top what it has."""
from __future__ import annotations

import re
from dataclasses import dataclass
from pathlib import Path
from typing import Any, Iterator

FILE = Path(__file__).resolve().parent / "notes.cases"
HEAD = re.compile(r"== (N\d+) (\S+)")


@dataclass
class NoteCase:
    code: str
    name: str
    files: dict[str, str]
    notes: list[str]


def blocks(file: Path, head: re.Pattern[str]) -> Iterator[tuple[tuple[Any, ...], dict[str, str], list[str]]]:
    """The cases of a file: what stands in the line that begins each, its files (`-- PATH`), and its notes (`!! NOTE`)."""
    files: dict[str, str] = {}
    notes: list[str] = []
    begun: re.Match[str] | None = None
    path = ""
    for line in [*file.read_text(encoding="utf-8").splitlines(), None]:
        found = head.fullmatch(line) if line is not None else None
        if (found or line is None) and begun:
            yield begun.groups(), files, notes
        if found:
            begun, files, notes = found, {}, []
        elif line is not None and line.startswith("-- "):
            path = line[3:]
            files[path] = ""
        elif line is not None and line.startswith("!! "):
            notes.append(line[3:])
        elif line is not None and begun:
            files[path] += line + "\n"


def note_cases(file: Path = FILE) -> list[NoteCase]:
    return [NoteCase(*head, files=files, notes=notes) for head, files, notes in blocks(file, HEAD)]


def cases_by_name() -> dict[tuple[str, str], NoteCase]:
    return {(case.code, case.name): case for case in note_cases()}
