"""What to do about a fault, for all reports: the first fix that the language server would offer, and the sentence that fits."""
from __future__ import annotations

import os
import re
import sys
import time
from itertools import chain, groupby, islice
from typing import TYPE_CHECKING, Callable, Iterable, Iterator, NamedTuple

from .child import LinterMissing
from .entries import plain_text
from .names import names
from .problems import Problem
from .syntax import wanted_under

if TYPE_CHECKING:
    from .faults import Fault
    from .repair import Repair

# Fixes are tried for so many faults of a report and in so much time, and for the first ones of a file that `fixes` takes, fewer if it has
# more bytes than a twentieth of these.
MAX_TRIED = 200
MAX_TRIED_BYTES = 2_000_000
SECONDS_OF_A_FILE = 60.0
SECONDS_OF_A_REPORT = 120.0
SECONDS_OF_AN_ANSWER = 20.0
KEY_BEFORE_COLON = re.compile(r"\s*(?:- +)*[\w.-]+")
DASH_AND_KEY = re.compile(r"\s*-[^\s-]")
OF_A_MERGE = re.compile(r"<<<<<<<|=======|>>>>>>>")


class FirstFixes:
    """The fixes for the files on disk, each tried as in the language server."""

    def __init__(self, program: str, root: str | None, files: Iterable[str]):
        """`files` are those that were named, which the server would have open."""
        from .disk import actions_below
        from .files import Files
        from .project import Project
        from .reader import Reader, Started

        folder = os.fsencode(root or ".")
        self._program, self._left, self._named = program, MAX_TRIED, files
        self._seconds_left = SECONDS_OF_A_REPORT
        reader = Reader(Started(program, SECONDS_OF_AN_ANSWER))
        self._files = Files(folder, lambda _: None, reader, False)
        self._project = Project(reader, self._files.read, lambda: list(self._files.wanted), lambda: actions_below(folder))

    def add_to(self, problems: Iterable[Problem]) -> Iterator[Problem]:
        """The same problems, the first ones of each file with the first fix that would be offered."""
        from .fixes import MAX_FAULTS

        is_read = False
        for path, of_file in groupby(problems, key=lambda problem: problem.fault.path):
            size = len(self._files.read(path) or b"")
            first = list(islice(of_file, min(MAX_FAULTS, self._left, MAX_TRIED_BYTES // max(size, 1))))
            self._left -= len(first)
            if first and not is_read:
                is_read = True
                self._read_files()
            found = self._first_fixes(path, [problem.fault for problem in first]) if first and self._seconds_left > 0 else {}
            yield from chain((problem._replace(fix=found.get(problem.fault)) for problem in first), of_file)

    def _read_files(self) -> None:
        for path in self._named:
            data = self._files.read(path.removeprefix("./"))
            if data is not None:
                self._files.edit(path.removeprefix("./"), data)
        try:
            self._files.update()
        except LinterMissing as error:
            print(f"actionlint-report: no fixes, since {error}", file=sys.stderr)

    def _first_fixes(self, path: str, faults: list[Fault]) -> dict[Fault, Repair]:
        from .fixes import fixes

        found: dict[Fault, Repair] = {}
        begun = time.monotonic()
        try:
            seconds = min(SECONDS_OF_A_FILE, self._seconds_left)
            for fix in fixes([self._program], SECONDS_OF_AN_ANSWER, self._project, faults, seconds=seconds):
                found.setdefault(fix.fault, fix.repair)
        except Exception as error:
            # The report of the faults matters more than a fix.
            print(f"actionlint-report: {path}: no fixes, since {error!r}", file=sys.stderr)
        self._seconds_left -= time.monotonic() - begun
        return found


def fix_line(problem: Problem) -> str | None:
    """The title of the first fix, and whether it is safe or a guess."""
    if problem.fix is None:
        return None
    return f"{'Fix' if problem.fix.is_safe else 'Guess'}: {problem.fix.title}"


def advice(problem: Problem) -> list[str]:
    """The lines that say what to do: the first fix and the sentence, as far as there are any."""
    return [line for line in (fix_line(problem), sentence(problem)) if line]


def sentence(problem: Problem) -> str:
    """What to write instead: the sentence of the entry that fits the case, or its first one, or nothing without an entry."""
    if problem.entry is None:
        return ""
    return next((slip.sentence for slip in SLIPS if slip.code == problem.code and slip.fits(problem, *problem.fault.arguments)),
                first_sentence(plain_text(problem.entry.repair)))


def first_sentence(text: str) -> str:
    """The first sentence of a text: up to a full stop before a space or the end."""
    end = text.find(". ")
    return text if end < 0 else text[:end + 1]


class Slip(NamedTuple):
    """A sentence of an entry's repair that fits some of its faults best."""

    code: str
    fits: Callable[..., bool]
    sentence: str


def _before(problem: Problem) -> str:
    """What is on the line before the fault."""
    return problem.line()[:problem.fault.column - 1]


def _character(problem: Problem) -> str:
    """The character at the fault's place."""
    return problem.line()[problem.fault.column - 1:problem.fault.column]


def _is_of(context: str, *below: str) -> Callable[..., bool]:
    """Whether the fault is a property of a context, or of what a property of it has under these names."""
    def fits(problem: Problem, *_: str) -> bool:
        names_before = [name.lower() for name in problem.fault.of]
        return names_before[:1] == [context] and (not below or names_before[2:] == [*below])
    return fits


def _lacks_ref(problem: Problem, uses: str) -> bool:
    return "@" not in uses and "/" in uses and not uses.startswith((".", "/", "docker://")) and "${{" not in uses


def _wants(wanted: str) -> Callable[..., bool]:
    """Whether the key takes only this, and the value follows the key or is in the lines below it. An entry of a list would follow a dash, a
    bracket or a comma."""
    def fits(problem: Problem, key: str) -> bool:
        before = _before(problem).rstrip()
        return bool(problem.line()) and wanted_under(key) == wanted and (not before or before.endswith(":"))
    return fits


def _is_colon_of_key(problem: Problem) -> bool:
    return _character(problem) == ":" and KEY_BEFORE_COLON.fullmatch(_before(problem)) is not None


SLIPS = (
    Slip("Y4", lambda problem: DASH_AND_KEY.match(problem.line()) is not None, "A dash before an entry needs a space after it."),
    Slip("Y13", lambda problem: OF_A_MERGE.match(problem.line()) is not None,
         "Lines that begin with `<<<<<<<`, `=======` or `>>>>>>>` are left from a merge: keep one of the two sides."),
    Slip("Y13", _is_colon_of_key,
         "If the place is the colon of a key, look at the line above: its colon has no space after it, or it has a value and this line "
         "is indented more, or a bracket or a quote isn't closed."),
    Slip("Y17", lambda problem: _character(problem) == "{" and _before(problem).endswith("{"),
         "An expression has a dollar before its braces."),
    Slip("K1", lambda problem, key: bool(key == "<<"), "`<<` doesn't merge anything; an alias stands for a whole value."),
    Slip("K2", lambda problem, key: key in ("run", "uses"), "A step needs `run` or `uses`."),
    Slip("K4", _wants("list"), "A list is expected, with each entry on its own line after a dash."),
    Slip("K4", _wants("mapping"), "A mapping is expected, as lines of the form `KEY: VALUE`."),
    Slip("K5", lambda problem, key: bool(key == "on"), "`on` needs an event."),
    Slip("K5", _wants("number"), "A number is expected, without quotes."),
    Slip("K5", _wants("flag"), "`true` or `false` is expected, without quotes."),
    Slip("G3", lambda problem, pattern: bool(pattern.removeprefix("!").startswith("./")),
         "Paths begin at the repository's root, without `./` in front."),
    Slip("X1", lambda problem: _character(problem) in tuple("+-*/%^~"), "Do arithmetic in a step's script."),
    Slip("X7", lambda problem, name: name.lower() in map(str.lower, names()["functions"]),
         "A function needs parentheses after its name, as in `always()`."),
    Slip("X13", _is_of("needs", "outputs"), "A job must declare the `outputs` that others read."),
    Slip("X13", _is_of("needs"), "A job must list in its own `needs` each job whose results it reads."),
    Slip("X13", _is_of("steps"), "To read the outputs of a step, give the step an `id`, and read them after it."),
    Slip("X13", _is_of("matrix"),
         "`matrix` has only the rows of the job's own matrix and what `include` adds to them: add the property there, or read another "
         "one."),
    Slip("X13", _is_of("inputs"), "An input has to be declared by the event or the action."),
    Slip("C7", _lacks_ref, "An action or a workflow in another repository needs `@REF` at its end: a branch, a tag or a commit."),
)
