"""What a report costs if all faults are on one line: bench/report.py, after ./test or a build of crates/actionlint, otherwise with the
carried program.

One workflow has its faults on one line, after many spaces, so each column is some hundred thousand; the other one has as many faults, each
on its own line. The time of a report is that of a script with some reports minus that of the same script without any, each the least of
several runs, which take turns. Columns are counted from the previous fault: if each were counted from the start of its line, the first
workflow would take hundreds of times as long.
"""

import functools
import sys

from common import SESSION, WORKFLOW, least_in_turns, program, put_commands, run_seconds, tell

RUNS = 5
REPORTS = 3
FAULTS = 99_000
SPACES = 740_000

JOB = "on: push\njobs:\n  a:\n    runs-on: u\n    needs:"
ONE_LINE = JOB + " [" + " " * SPACES + "[]," * FAULTS + "]\n"
OWN_LINES = JOB + "\n" + "    - []\n" * FAULTS


def seconds(text, reports):
    """The time of a script that puts a workflow and reports this many times."""
    script = put_commands([(WORKFLOW, text)]) + b"report\n" * reports
    took, _, out = run_seconds([program("actionlint"), *SESSION], script)
    faults = out.count(b"\n") - 1 - reports
    if faults != FAULTS * reports:
        sys.exit(f"{faults} faults: {out[:200]}")
    return took


def main():
    """Prints both times and their ratio."""
    scripts = [(text, reports) for text in (ONE_LINE, OWN_LINES) for reports in (0, REPORTS)]
    times = least_in_turns(RUNS, [functools.partial(seconds, *script) for script in scripts])
    one_line, own_lines = ((reported - put) / REPORTS for put, reported in (times[:2], times[2:]))
    for name, took in (("faults on one line", one_line), ("faults on lines of their own", own_lines)):
        tell(f"{FAULTS} {name}: {took:.3f} s a report", name, this=took)
    print(f"ratio {one_line / own_lines:.2f}")


if __name__ == "__main__":
    sys.exit(main())
