"""The options of the language server. This imports none of its libraries, so that `--help` and `--version` work without them."""
from __future__ import annotations

import argparse

from .output import add_help_and_version
from .program import WHICH, find_program

MAX_SECONDS = 3_600


def options() -> argparse.Namespace:
    """The options of the command line. Ends the program if they are wrong or ask for help."""
    parser = argparse.ArgumentParser(prog="actionlint-lsp", description="A language server that shows the faults of actionlint.",
                                     add_help=False)
    add_help_and_version(parser)
    parser.add_argument("--program", help=f"the linter (default: {WHICH})")
    parser.add_argument("--docs", metavar="ADDRESS",
                        help="the address of the pages of faults, for links (default: the directory docs beside clients)")
    parser.add_argument("--no-earlier-faults", action="store_true",
                        help="while a file isn't valid YAML, don't keep showing its earlier faults")
    parser.add_argument("--no-notes", action="store_true", help="don't show notes on what GitHub refuses and the linter accepts")
    parser.add_argument("--shellcheck", action="store_true", help="also show shellcheck's notes on the scripts of open files")
    parser.add_argument("--ignore-file", metavar="FILE", action="append", default=[],
                        help="a file with a CODE[:PATH] on each line, of faults that aren't shown; may be repeated")
    parser.add_argument("--log", metavar="FILE", help="the file for error messages (default: standard error)")
    parser.add_argument("--timeout", metavar="SECONDS", type=_seconds, default=20.0,
                        help="how long the linter may take to answer (default: %(default)s)")
    parser.add_argument("--stdio", action="store_true", help="use standard input and output, which is the default")
    given = parser.parse_args()
    given.program = find_program(given.program)
    given.docs = given.docs and given.docs.rstrip("/")
    return given


def _seconds(word: str) -> float:
    seconds = float(word)
    if not 0 < seconds <= MAX_SECONDS:
        raise argparse.ArgumentTypeError(f"{word} is not between 0 and {MAX_SECONDS}")
    return seconds
