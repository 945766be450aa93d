"""Refuses allocations of the linter in turn, as many as ./test has time for: growth_sample.py PROGRAM [TESTS].

TESTS are the built tests of crates/al_tests, by default those of the clone; without them the first case is skipped. Needs a C compiler;
without one each case is skipped. tests/growths.py, run by hand, refuses all of them and records the places.

- Ten edits in a session, with reports and statuses after them, each allocation refused: a refused edit leaves everything as it was, and is
  accepted when it is repeated.
- The same edits as a script with a report after each, each allocation refused, alone and with all later ones: the run says that memory
  ran out, and its output is a prefix of the whole output.
- The allocations of one edit beside 1,000 files: at most 64 more than alone.
- For each run that tests/growth-runs names, a few allocations spread over the run.
"""

import pathlib
import shutil
import sys
import tempfile

from corpus import all_runs
from growths import BESIDE, CHOSEN, EDITS, MOST, TEN_EDITS, TESTS, Growths, growths_of_an_edit, in_turn, passes, stops
from running import exit_status, report, skip

FEW = 8
CASES = ("ten-edits-in-a-session", "ten-edits-as-a-script", "growths-of-an-edit", "growths-of-other-runs")


def spread(count):
    """A few numbers from 1 to a count, including both."""
    return sorted({1 + it * (count - 1) // (FEW - 1) for it in range(FEW)}) if count > 0 else []


def ten_edits_in_a_session(folder, tests):
    """What differs when each allocation of the test is refused in turn; None without the test."""
    if tests is None:
        return None
    done = Growths(folder, tests).each([EDITS], b"", ["%d"], passes)
    return [f"wrong with growths {done.wrong} of {done.growths} refused"] if done.wrong or done.growths == 0 else []


def ten_edits_as_a_script(growths, run):
    """What differs when each allocation of the script is refused, alone and with all later ones."""
    done = growths.each(*run, ["%d", "%d-"], stops)
    return [f"wrong with growths {done.wrong} of {done.growths} refused, {done.stopped} stop"] if done.wrong or done.stopped == 0 else []


def growths_of_one_edit(growths):
    """What differs when an edit is made beside many files."""
    alone, beside = growths_of_an_edit(growths, 0), growths_of_an_edit(growths, BESIDE)
    return [] if 0 < alone and beside <= alone + MOST else [f"{alone} growths alone, {beside} beside {BESIDE} files"]


def growths_of_other_runs(growths, runs):
    """What differs when a few allocations of each run are refused."""

    def refuse(name):
        words, stdin = runs[name]
        whole = growths.run(words, stdin)
        ways = [way % number for number in spread(whole.growths) for way in ("%d", "%d-")]
        ran = [(way, growths.run(words, stdin, way)) for way in ways]
        return [f"{name}: wrong with growth {way} refused" for way, it in ran if it.says() != whole.says() and not stops(it, whole)]

    return [it for found in in_turn(refuse, CHOSEN.read_text().split("\n")[:-1]) for it in found]


def main(words):
    """Prints a line for each case; the status is 1 if one of them differs."""
    program = pathlib.Path(words[0]).resolve()
    tests = pathlib.Path(words[1]).resolve() if len(words) > 1 else TESTS if TESTS.is_file() else None
    if shutil.which("cc") is None:
        for name in CASES:
            skip(name, "cc isn't there")
        return 0
    with tempfile.TemporaryDirectory() as folder:
        runs = all_runs(folder)
        growths = Growths(folder, program)
        found = (
            ten_edits_in_a_session(folder, tests),
            ten_edits_as_a_script(growths, runs[TEN_EDITS]),
            growths_of_one_edit(growths),
            growths_of_other_runs(growths, runs),
        )
    for name, differences in zip(CASES, found):
        if differences is None:
            skip(name, "the tests of al_tests aren't built")
        else:
            report(name, "-", differences)
    return exit_status()


if __name__ == "__main__":
    sys.exit(main(sys.argv[1:]))
