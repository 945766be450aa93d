"""Ignored faults: by code, in all files or in one."""
from __future__ import annotations

import os
import re
import stat
from typing import Callable, Collection, Iterable, NamedTuple

from .disk import OPENED
from .entries import entries_by_code
from .faults import NO_FAULTS, Fault, FileFaults
from .notes.file import entries_of_notes
from .problems import Problem, problem_of

NOTE = re.compile(r"SC\d{4}")
MAX_FILE_BYTES = 1_048_576
SHOWN_RULES = 5


class WrongRule(Exception):
    """A rule without a valid code or path, or a file of rules that can't be read."""


class Rule(NamedTuple):
    """A code, and the path of the only file in which its faults are ignored, or nothing for all files."""

    code: str
    path: str

    def __str__(self) -> str:
        return f"{self.code}:{self.path}" if self.path else self.code


class Ignored:
    """Rules CODE and CODE:PATH. The code is in any case; the path is written as in a report."""

    def __init__(self, rules: Iterable[str]):
        self._rules = dict.fromkeys(map(_rule, rules))
        self._used: set[Rule] = set()

    def has(self, problem: Problem) -> bool:
        """Whether a rule ignores the problem. The rules that do are no longer unused."""
        found = {Rule(problem.code, ""), Rule(problem.code, problem.fault.path)} & self._rules.keys()
        self._used |= found
        return bool(found)

    def has_fault(self, fault: Fault) -> bool:
        return bool(self._rules) and self.has(problem_of(fault))

    def without(self, found: FileFaults) -> FileFaults:
        """The faults of a file that aren't ignored. Of those beyond the first ones only the number is known."""
        if not self._rules:
            return found
        kept = tuple(fault for fault in found.faults if not self.has_fault(fault))
        return FileFaults(kept, found.more) if kept or found.more else NO_FAULTS

    def unused(self) -> list[Rule]:
        """The rules that have ignored nothing so far."""
        return [rule for rule in self._rules if rule not in self._used]


def _rule(text: str) -> Rule:
    named, colon, path = text.partition(":")
    code = named.upper()
    if not is_note(code) and code not in entries_by_code():
        raise WrongRule(f"{named!r} is not a fault code")
    if colon and not path:
        raise WrongRule(f"{text!r} names no file")
    return Rule(code, path)


def is_note(code: str) -> bool:
    """Whether it is the code of a note, which isn't shown unless that is asked for."""
    return is_of_shellcheck(code) or code in entries_of_notes()


def is_of_shellcheck(code: str) -> bool:
    return NOTE.fullmatch(code) is not None


class IgnoreFiles:
    """The rules of some files, which are read again once they changed. If one can't be used, nothing is ignored."""

    def __init__(self, say: Callable[[str], None]):
        self.files: list[str] = []
        self._say = say
        self._stamps: list[tuple[int, ...]] = []
        self._rules = Ignored(())
        # The rules of each file, until those that ignore nothing were told.
        self._untold: dict[str, list[str]] = {}

    def rules(self) -> Ignored:
        """The rules of the files as they are now, the same object as before if no file changed."""
        stamps = list(map(_stamp, self.files))
        if stamps != self._stamps:
            self._stamps = stamps
            try:
                self._untold = {file: rules_in(file) for file in self.files}
                self._rules = Ignored(rule for rules in self._untold.values() for rule in rules)
            except WrongRule as error:
                self._rules, self._untold = Ignored(()), {}
                self._say(f"no fault is ignored: {error}")
        return self._rules

    def has_untold_rules(self) -> bool:
        """Whether `tell_unused` would say something, if a rule has ignored nothing."""
        return bool(self._untold)

    def tell_unused(self, unknown: Collection[str]) -> None:
        """Says of each file, once until it changes, which rules have ignored nothing, except those on notes, which only open files have,
        and those that may be about the files of `unknown`, whose faults aren't all known."""
        unused = set(self._rules.unused())
        for file, texts in self._untold.items():
            rules = [str(rule) for rule in dict.fromkeys(map(_rule, texts)) if rule in unused and not is_note(rule.code)
                     and (rule.path not in unknown if rule.path else not unknown)]
            more = f" and {len(rules) - SHOWN_RULES} more rules" if len(rules) > SHOWN_RULES else ""
            if rules:
                self._say(f"{file}: {', '.join(rules[:SHOWN_RULES])}{more} {'ignores' if len(rules) == 1 else 'ignore'} nothing")
        self._untold = {}


def _stamp(file: str) -> tuple[int, ...]:
    """What differs once a file changed. Empty if it can't be looked at."""
    try:
        found = os.stat(file)
    except (OSError, ValueError):
        return ()
    return found.st_mtime_ns, found.st_ctime_ns, found.st_size, found.st_dev, found.st_ino


def rules_in(file: str) -> list[str]:
    """The rules of a file, one per line, without blank lines and those that begin with `#`."""
    try:
        with open(file, "rb", opener=lambda path, _: os.open(path, OPENED)) as opened:
            if not stat.S_ISREG(os.fstat(opened.fileno()).st_mode):
                raise WrongRule(f"cannot read {file}: it is not a regular file")
            data = opened.read(MAX_FILE_BYTES + 1)
        if len(data) > MAX_FILE_BYTES:
            raise WrongRule(f"{file} has more than {MAX_FILE_BYTES} bytes")
        lines = data.decode("utf-8-sig").splitlines()
    except (OSError, ValueError) as error:
        raise WrongRule(f"cannot read {file}: {getattr(error, 'strerror', None) or 'it is not UTF-8'}") from error
    return [line.strip() for line in lines if line.strip() and not line.lstrip().startswith("#")]
