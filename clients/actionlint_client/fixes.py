"""Quick fixes: repairs of faults, each tried with the linter before it is offered."""
from __future__ import annotations

import re
import time
from collections import Counter
from dataclasses import replace
from enum import Enum
from itertools import islice
from typing import Callable, Iterable, NamedTuple, Sequence, Tuple

from . import (repairs_blocks, repairs_calls, repairs_expressions, repairs_keys, repairs_kinds, repairs_leftovers, repairs_levels,
               repairs_names, repairs_rules, repairs_schedules, repairs_scripts, repairs_steps, repairs_values, repairs_yaml)
from .child import LinterEnded
from .entries import entries_by_code
from .facts import EditRefused, Facts, NoAnswer
from .faults import Fault, faults_of
from .linter_limits import MAX_FILE_BYTES
from .paths import is_workflow
from .program import find_facts
from .project import Project
from .repair import Case, Edit, Repair, replaced
from .text import end_of

MAX_FAULTS = 20
MAX_LINE_CHARACTERS = 5_000
MAX_SECONDS = 1.0
MAX_TRIED = 24
MAX_SHOWN = 4
MAX_FILES = 64
MAX_REPORT_BYTES = 16 * 1_048_576
# Faults of expressions that can't be read.
UNREADABLE = ("X1", "X2", "X3", "X4", "X5", "X6", "X20")
# What isn't looked at as long as the event, the kind of an action or the called file isn't known.
HIDES = {"G1": ("G2", "G3", "K1", "K6"), "G20": ("K1", "K2", "K6", "G21"), "C1": ("C2", "C3", "C4", "C5", "C6"),
         "C7": ("C2", "C3", "C4", "C5", "C6"), "C8": ("C2", "C3", "C4", "C5", "C6"), "C2": ("C4",)}
INDENT = re.compile(r" *(?:- +)*")
KEY = re.compile(r"['\"]?[\w-]+['\"]?:(?:\s|$)|\s*$")
LOCAL_CALL = re.compile(r"\./[^\s'\"#,}\]]*")
MODULES = (repairs_leftovers, repairs_blocks, repairs_yaml, repairs_levels, repairs_steps, repairs_keys, repairs_kinds, repairs_rules,
           repairs_schedules, repairs_expressions, repairs_names, repairs_values, repairs_scripts, repairs_calls)
REPAIRS: dict[str, tuple[Callable[[Case], Iterable[Repair]], ...]] = {
    code: tuple(each for module in MODULES for each in module.REPAIRS.get(code, ())) for found in MODULES for code in found.REPAIRS}

# How often each file has each message.
Counted = Counter[Tuple[str, str]]


class Fix(NamedTuple):
    """A fault and a repair for it."""

    fault: Fault
    repair: Repair


def repairs(project: Project, fault: Fault) -> list[Repair]:
    """Candidate repairs of a fault, the most likely first."""
    entry = entries_by_code().get(fault.code)
    if entry is None or entry.code not in REPAIRS:
        return []
    case = Case(project, fault, entry)
    if len(case.line) > MAX_LINE_CHARACTERS:
        return []
    found: dict[str, Repair] = {}
    for repair in (repair for each in REPAIRS[entry.code] for repair in each(case)):
        result = repr((repair.edits, repair.new_files))
        if result not in found or repair.is_safe and not found[result].is_safe:
            found[result] = repair
    return list(found.values())[:MAX_TRIED]


def fixes(words: list[str], timeout: float, project: Project, faults: Iterable[Fault], earlier: Iterable[Fault] = (),
          seconds: float = MAX_SECONDS) -> list[Fix]:
    """For the first 20 faults, the repairs after which the linter no longer reports the fault, and none that it didn't report before but
    what the fault has hidden, as many as can be tried in some seconds, and at least one. One that shows what was hidden is a guess. `words`
    start the linter. While a file isn't valid YAML, `earlier` are the faults that it had when it last was; these may come back."""
    deadline = time.monotonic() + seconds
    mended: list[Fix] = []
    trial = None
    try:
        for fault in islice(faults, MAX_FAULTS):
            if trial and time.monotonic() > deadline or len(project.read(fault.path) or b"") > MAX_FILE_BYTES:
                break
            found: dict[Result, list[Repair]] = {result: [] for result in Result}
            for repair in sorted(repairs(project, fault), key=lambda repair: not repair.is_safe):
                if trial is None:
                    trial = Trial(words, timeout, project, fault.path)
                    trial.earlier = counted(earlier)
                elif time.monotonic() > deadline:
                    break
                result = trial.result(repair, fault)
                found[result].append(repair if result is Result.CLEAN else replace(repair, is_safe=False))
            right = [*found[Result.CLEAN], *found[Result.UNCOVERS]] or found[Result.STOPS]
            mended += [Fix(fault, repair) for repair in _to_show(right)]
    except (LinterEnded, NoAnswer):
        pass
    finally:
        if trial is not None:
            trial.close()
    return mended


def _to_show(found: list[Repair]) -> list[Repair]:
    """The first repair with each title: the safe one, guesses, and guesses that delete something. Several safe ones are several readings,
    so each is a guess; beside a single one nothing is deleted. Last resorts only if there are no others."""
    better = [repair for repair in found if not repair.is_last_resort] or found
    safe = sum(repair.is_safe for repair in better)
    if safe > 1:
        better = [replace(repair, is_safe=False) for repair in better]
    in_order = sorted(better, key=lambda repair: (not repair.is_safe, repair.deletes))
    by_title = {repair.title: repair for repair in reversed(in_order) if repair.is_safe or safe != 1 or not repair.deletes}
    return list(by_title.values())[::-1][:MAX_SHOWN]


class Result(Enum):
    """What a repair does: it leaves the fault or causes another one, it leaves neither, or it shows what the fault has hidden, perhaps that
    the file isn't YAML further below."""

    WRONG = "wrong"
    CLEAN = "clean"
    UNCOVERS = "uncovers"
    STOPS = "stops"


class Trial:
    """A run of the linter of its own, with a file, what it calls and what calls it, so that the folder's has no text but files'."""

    def __init__(self, words: list[str], timeout: float, project: Project, file: str, max_files: int = MAX_FILES):
        self._facts = Facts([find_facts(words[0])], timeout)
        self._max_files = max_files
        self.earlier: Counted = Counter()
        self.project = project
        self.texts: dict[str, str] = {}
        callers = [path for path in project.paths() if path != file and _calls(project, path, file)]
        self._include([file, *callers])

    def close(self) -> None:
        self._facts.stop()

    def result(self, repair: Repair, fault: Fault) -> Result:
        """What the report after a repair says."""
        changed = {path: replaced(self.project.text(path), edits) for path, edits in repair.edits.items()}
        after = self.report_after(changed | repair.new_files)
        count = counted(after)
        key = fault.path, fault.message
        shown = [one for one in after if (one.path, one.message) in count - self.before - self.earlier]
        if count[key] >= self.before[key]:
            # There is one fault of YAML at a time; the next one may have the same message.
            shown += [one for one in after if (one.path, one.message) == key and one.code[:1] == "Y" and one.line > fault.line]
            if count[key] > self.before[key] or not shown or shown[-1].message != fault.message:
                return Result.WRONG
        if not shown:
            return Result.CLEAN
        before, lines = (text.split("\n") for text in (self.project.text(fault.path), changed.get(fault.path, "")))
        is_uncovered = all(_was_hidden(one, fault, repair, before, lines) for one in shown)
        return (Result.STOPS if any(one.code[:1] == "Y" for one in shown) else Result.UNCOVERS) if is_uncovered else Result.WRONG

    def report_after(self, texts: dict[str, str]) -> list[Fault]:
        """The report if some files had other texts. The folder is unchanged afterwards."""
        called = [path for text in texts.values() for path in self._called(text)]
        self._include([*(path for path in texts if self.project.has(path)), *called])
        for path, text in texts.items():
            self._put(path, text)
        after = self.report()
        for path in texts:
            self._put(path, self.texts.get(path))
        return after

    def report(self) -> list[Fault]:
        found = self._facts.report(MAX_REPORT_BYTES)
        return [fault for path, some in found.items() for fault in faults_of(path, some, b"")]

    def _include(self, paths: list[str]) -> None:
        """Puts files and what they call, one after another, if they aren't there yet and up to a limit."""
        waiting = [path for path in paths if path not in self.texts]
        if not waiting:
            return
        while waiting and len(self.texts) < self._max_files:
            path = waiting.pop(0)
            if path not in self.texts and self.project.has(path):
                self.texts[path] = self.project.text(path)
                self._put(path, self.texts[path])
                waiting += self._called(self.texts[path])
        self.before = counted(self.report())

    def _called(self, text: str) -> list[str]:
        """The files of the folder that a text seems to call."""
        names = set(LOCAL_CALL.findall(text))
        return sorted({path for name in names for of_job in (True, False) if (path := self.project.callee(name, of_job))})

    def _put(self, path: str, text: str | None) -> None:
        """Puts a file, or deletes it. A refused edit changes nothing."""
        try:
            if text is None:
                self._facts.delete(path)
            else:
                self._facts.put(path, text.encode("utf-8", "surrogatepass"))
        except EditRefused:
            pass


def _was_hidden(one: Fault, fault: Fault, repair: Repair, before: list[str], lines: list[str]) -> bool:
    """Whether a fault was there before a repair, hidden by the repaired one: an expression that can't be read has no other fault, the value
    of an unknown key has none, and a file that isn't YAML has none on its other lines. `before` and `lines` are those before and after the
    repair."""
    code, hidden = one.code, fault.code
    if one.path != fault.path:
        return False
    if hidden in HIDES:
        is_near = one.line == fault.line if hidden == "C2" else one.line >= fault.line
        return code in HIDES[hidden] and is_near and not repair.new_files
    if hidden in UNREADABLE:
        is_of_value = code[:1] == "X" and code not in UNREADABLE and code not in ("X7", "X9") or code in ("C4", "K5")
        return one.line == fault.line and is_of_value
    edits = repair.edits.get(fault.path, ())
    if hidden == "K1":
        return _renames(edits, fault) and (repair.is_safe or code[:1] != "K") and _is_below_key(lines, fault, one)
    if hidden[:1] != "Y" or not edits:
        return False
    if code in UNREADABLE or code[:1] in ("Y", "K"):
        return all(_keeps_key(edit, before) for edit in edits) and _is_past(lines, _last_touched(edits), one)
    touched = {line + 1 for edit in edits for line in range(edit.span.start.line, edit.span.end.line + 1)}
    keeps_lines = all("\n" not in edit.text and edit.span.start.line == edit.span.end.line for edit in edits)
    return keeps_lines and one.line not in touched


def _renames(edits: Sequence[Edit], fault: Fault) -> bool:
    """Whether a repair changes nothing but the key with the fault."""
    is_word = len(edits) == 1 and re.fullmatch(r"[^\s:]+", edits[0].text) is not None
    return is_word and edits[0].span.start == (fault.line - 1, fault.column - 1)


def _is_below_key(lines: list[str], key: Fault, one: Fault) -> bool:
    """Whether a fault is in the value of a key."""
    below = [line for line in lines[key.line:one.line] if line.strip()]
    return one.line >= key.line and (one.line, one.column) != (key.line, key.column) and all(
        len(line) - len(line.lstrip(" ")) >= key.column - (not line.lstrip(" ").startswith("- ")) for line in below)


def _keeps_key(edit: Edit, lines: list[str]) -> bool:
    """Whether an edit leaves the indentation, the dashes and the key of its first line as they are."""
    line = lines[edit.span.start.line] if edit.span.start.line < len(lines) else ""
    start = end_of(INDENT, line, 0)
    return edit.span.start.column > start or "-" in line[:start] and edit.span.start.column == start and not KEY.match(edit.text)


def _last_touched(edits: Iterable[Edit]) -> int:
    """The number of the last line that edits change, in the text after them, from 1."""
    more = sum(edit.text.count("\n") - edit.span.end.line + edit.span.start.line for edit in edits)
    return max(edit.span.end.line for edit in edits) + 1 + more


def _is_past(lines: list[str], above: int, fault: Fault) -> bool:
    """Whether a fault is below a line and what belongs to its key. The first line there may not fit the line above it."""
    found = INDENT.match(lines[above - 1]) if above <= len(lines) else None
    below = enumerate(lines[above:fault.line], above + 1)
    indents = ((number, len(line) - len(line.lstrip(" "))) for number, line in below if line.strip())
    past = next(((number, indent) for number, indent in indents if found and indent <= found.end()), None)
    is_misfit = past == (fault.line, fault.column - 1) and fault.code[:1] == "Y" and fault.code != "Y3"
    return past is not None and not is_misfit


def counted(faults: Iterable[Fault]) -> Counted:
    """How often each file has each message. Places aren't compared, since they may move."""
    return Counter((fault.path, fault.message) for fault in faults)


def _calls(project: Project, path: str, called: str) -> bool:
    name = called if is_workflow(called) else called.rpartition("/")[0]
    return "./" + name in project.text(path)
