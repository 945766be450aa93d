"""actionlint-report: runs the linter and writes its report in another format, for people or for programs.

It runs the linter itself (`actionlint-facts lint`), so a run that could not go on never looks like one without faults: the exit status is
the linter's, except for ignored faults and notes.
"""
from __future__ import annotations

import argparse
import os
import sys
import textwrap
from typing import TYPE_CHECKING, BinaryIO, Iterable

from . import shellcheck
from .advice import SECONDS_OF_AN_ANSWER, FirstFixes
from .characters import terminal_text
from .child import LinterEnded
from .entries import entries, explained
from .forms import WIDTH, Annotations, CodeQuality, Form, JsonLines, OneLine, Outcome, Text, has_color
from .ignoring import Ignored, Rule, WrongRule, is_note, is_of_shellcheck, rules_in
from .lint_run import CANNOT_GO_ON, LintFailed, LintRun, ReportTooLong
from .notes.file import NoNotes, entries_of_notes
from .output import STANDARD_OUTPUT, add_help_and_version, report_output
from .paths import path_of_word
from .problems import Problem
from .program import WHICH, find_program, missing_facts, missing_linter
from .reader import Reader, Started
from .sarif import Sarif, left_out_line

if TYPE_CHECKING:
    from .fixing import Request

WRONG_WORDS = 2
# The option that shows notes, and the value with which they count as faults do.
NOTES, COUNT = "--notes", "error"
FORMS: dict[str, type[Form]] = {
    "sarif": Sarif, "codequality": CodeQuality, "jsonl": JsonLines, "github": Annotations, "oneline": OneLine, "text": Text}


class NoReport(Exception):
    """The linter could not go on, and the report would look like one without faults, so it isn't written."""


def main(words: list[str] | None = None) -> int:
    options = _options(sys.argv[1:] if words is None else words)
    try:
        if options.explain is not None:
            return explain(options.explain)
        if lacks := missing_linter(options.program) or missing_facts(options.program):
            return _fail(lacks)
        ignored = Ignored([*map(path_of_word, options.ignore), *(rule for file in options.ignore_file for rule in rules_in(file))])
        if options.diff:
            return _diff(options, ignored)
        fixed_all = not options.fix or _fix(options, ignored)
        with report_output(options.out) as out:
            form, outcome = _report(options, ignored, out)
            if not (outcome.is_known() or form.tells_failure):
                raise NoReport
    except NoReport:
        pass
    except WrongRule as error:
        return _fail(str(error), WRONG_WORDS)
    except (LintFailed, NoNotes, shellcheck.ShellcheckFailed) as error:
        return _fail(str(error))
    except LinterEnded as error:
        return _fail(f"actionlint-facts: {error}")
    except OSError as error:
        return _fail(f"cannot write {options.out or 'standard output'}: {error.strerror}")
    _say(form, outcome)
    return outcome.status if fixed_all else CANNOT_GO_ON


def _request(options: argparse.Namespace, ignored: Ignored) -> Request:
    from .fixing import Request

    return Request(options.program, options.root, options.files, ignored, options.guesses)


def _diff(options: argparse.Namespace, ignored: Ignored) -> int:
    """Writes what the fixes would change. The status is that of the files as they are."""
    from .fixing import find_changes, write_diff

    found = find_changes(_request(options, ignored), _print)
    sys.stderr.write("".join(terminal_text(line) + "\n" for line in found.errors.splitlines()))
    if found.status in (0, 1):
        with report_output(options.out) as out:
            write_diff(found, out, options.out is None and os.isatty(STANDARD_OUTPUT))
        return 1 if found.faults else 0
    return found.status


def _fix(options: argparse.Namespace, ignored: Ignored) -> bool:
    """Writes what the fixes change. Whether all of it could be written. (The report says if the linter can't go on.)"""
    from .fixing import find_changes, write_files

    found = find_changes(_request(options, ignored), _print)
    write_files(found, options.root, _print)
    return not found.not_written


def _print(line: str) -> None:
    """Prints a line on standard error at once, since other programs may print there too."""
    sys.stderr.write(f"actionlint-report: {terminal_text(line)}\n")


def explain(code: str) -> int:
    """Prints the entry of a code, in any case. Raises OSError if it can't be written."""
    entry = next((entry for entry in (*entries(), *entries_of_notes().values()) if entry.code == code.upper()), None)
    if entry is None:
        return _fail(f"{code!r} is not a fault code", WRONG_WORDS)
    with report_output(None) as out:
        paragraphs = explained(entry).split("\n\n")
        # (an example has several lines, or is indented)
        wrapped = [one if "\n" in one or one.startswith(" ") else textwrap.fill(one, WIDTH, break_long_words=False, break_on_hyphens=False)
                   for one in paragraphs]
        out.write("\n\n".join(wrapped).encode() + b"\n")
    return 0


def _report(options: argparse.Namespace, ignored: Ignored, out: BinaryIO) -> tuple[Form, Outcome]:
    """Writes the report with source lines, unless these would be too many bytes."""
    try:
        return _write(options, ignored, out, True)
    except ReportTooLong:
        out.seek(0)
        out.truncate()
        return _write(options, ignored, out, False)


def _write(options: argparse.Namespace, ignored: Ignored, out: BinaryIO, has_source: bool) -> tuple[Form, Outcome]:
    form, outcome = _form(options, out), Outcome()
    form.begin()
    unread: set[str] = set()
    with LintRun(options.program, options.root, options.files, has_source) as run:
        for problem in _problems(options, run):
            if problem.code.startswith("Y"):
                unread.add(problem.fault.path)
            _tell(problem, form, ignored, outcome)
    outcome.errors = run.errors
    outcome.status = run.status
    for note in _notes(options, unread, outcome) if outcome.is_known() else ():
        _tell(note, form, ignored, outcome)
    if outcome.is_known():
        outcome.status = 1 if outcome.counting else 0
        outcome.warnings += [f"{rule} ignores nothing" for rule in ignored.unused() if _could_be_used(rule, options)]
    form.end(outcome)
    return form, outcome


def _problems(options: argparse.Namespace, run: LintRun) -> Iterable[Problem]:
    """The faults of a run, with fixes if they are to be shown."""
    if not FORMS[options.form].shows_fixes:
        return run
    return FirstFixes(options.program, options.root, list(map(path_of_word, options.files))).add_to(run)


def _notes(options: argparse.Namespace, unread: set[str], outcome: Outcome) -> Iterable[Problem]:
    """The notes that are asked for. `unread` are files that aren't valid YAML."""
    root, files = options.root or ".", list(map(path_of_word, options.files))
    if options.notes:
        # Other reports need neither the rules nor their tables.
        from .notes.run import notes

        yield from notes(options.program, root, files, options.notes == COUNT, outcome.say)
    if options.shellcheck:
        reader = Reader(Started(options.program, SECONDS_OF_AN_ANSWER))
        yield from shellcheck.notes(reader, root, files, unread, outcome.say)


def _tell(problem: Problem, form: Form, ignored: Ignored, outcome: Outcome) -> None:
    if ignored.has(problem):
        outcome.ignored += 1
    else:
        outcome.count(problem)
        form.add(problem)


def _could_be_used(rule: Rule, options: argparse.Namespace) -> bool:
    """Whether a rule would have ignored something if there was anything that it is about."""
    if is_note(rule.code) and not (options.shellcheck if is_of_shellcheck(rule.code) else options.notes):
        return False
    return not options.files or rule.path in map(path_of_word, options.files)


def _form(options: argparse.Namespace, out: BinaryIO) -> Form:
    if options.form != "text":
        return FORMS[options.form](out, options.docs)
    return Text(out, options.docs, has_color(options.color, options.out is None and os.isatty(STANDARD_OUTPUT)))


def _say(form: Form, outcome: Outcome) -> None:
    """Prints to standard error what the report doesn't say."""
    if not form.tells_errors:
        sys.stderr.write("".join(terminal_text(line) + "\n" for line in outcome.errors.splitlines()))
        for warning in outcome.warnings:
            _print(warning)
    if form.left_out:
        _print(left_out_line(form.left_out))
    if outcome.ignored and not form.tells_count:
        _print(outcome.count_line())


def _options(words: list[str]) -> argparse.Namespace:
    parser = argparse.ArgumentParser(prog="actionlint-report", description=__doc__.split("\n")[0], allow_abbrev=False,
                                     usage="%(prog)s [OPTION]... [--] [FILE]...", add_help=False)
    add_help_and_version(parser)
    parser.add_argument("--form", choices=tuple(FORMS), default="sarif", help="the format of the report (default: %(default)s)")
    parser.add_argument("--root", metavar="DIR", help="the root directory of the repository (default: the current directory)")
    parser.add_argument("--program", help=f"the linter (default: {WHICH})")
    parser.add_argument("--docs", metavar="ADDRESS", help="the address of the pages of faults, for links")
    parser.add_argument("--out", metavar="FILE", help="the file to write (default: standard output)")
    parser.add_argument("--color", choices=("auto", "always", "never"), default="auto",
                        help="whether the form text has colors (default: %(default)s)")
    parser.add_argument("--ignore", metavar="CODE[:PATH]", action="append", default=[],
                        help="a fault that doesn't count, in all files or in one; may be repeated")
    parser.add_argument("--ignore-file", metavar="FILE", action="append", default=[],
                        help="a file with a CODE[:PATH] on each line; may be repeated")
    parser.add_argument(NOTES, choices=("info", COUNT),
                        help=f"also show notes on what GitHub refuses and the linter accepts; {COUNT} makes them count (default: info)")
    parser.add_argument("--shellcheck", action="store_true", help="also show shellcheck's notes on scripts")
    change = parser.add_mutually_exclusive_group()
    change.add_argument("--diff", action="store_true", help="print what the safe fixes would change, as a patch, in place of a report")
    change.add_argument("--fix", action="store_true", help="write what the safe fixes change, and report what is left")
    parser.add_argument("--guesses", action="store_true", help="with --diff or --fix, take the first guess where no fix is safe")
    parser.add_argument("--explain", metavar="CODE", help="explain a fault or a note, and lint nothing")
    parser.add_argument("files", nargs="*", metavar="FILE",
                        help="workflows and actions below DIR (default: all workflows, and what they call)")
    end = words.index("--") if "--" in words else len(words)
    # (the argument after it may be a file)
    options = parser.parse_intermixed_args([f"{NOTES}=info" if word == NOTES else word for word in words[:end]])
    options.files += words[end + 1:]
    if options.out == "":
        parser.error("argument --out: it names no file")
    if options.guesses and not (options.diff or options.fix):
        parser.error("argument --guesses: it needs --diff or --fix")
    options.program = find_program(options.program)
    options.docs = options.docs and options.docs.rstrip("/")
    return options


def _fail(why: str, status: int = CANNOT_GO_ON) -> int:
    _print(why)
    return status
