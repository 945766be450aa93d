"""Runs a built program over cases and compares what it prints.

    python3 tests/run_cases.py PROGRAM CASES [WORD..]

CASES is a file of cases (tests/case_files.py), or a folder with such files, where the name of a case begins with the path of its file. A
case without arguments of its own gets the WORDs. Prints a line for each case: `case=NAME output=expected status=N`, or how the output or
the status differs. The status is 0 if there was a case and each was as expected.
"""

import subprocess
import sys

from case_files import read_cases

SECONDS = 60


def run(program, case, words):
    """Runs a case: its output, its status and its standard error; None if it doesn't end."""
    own = words if case.words is None else case.words
    try:
        return subprocess.run([program, *own], input=case.input, capture_output=True, timeout=SECONDS, check=False)
    except subprocess.TimeoutExpired:
        return None


def difference(got, wanted):
    """The first place where two outputs differ, with what is there."""
    at = next((i for i, (a, b) in enumerate(zip(got, wanted)) if a != b), min(len(got), len(wanted)))
    return f"at byte {at}, expected {wanted[at : at + 200]!r}, found {got[at : at + 200]!r}"


def is_right(program, name, case, words):
    """Runs a case and prints its line; returns whether output and status were as expected."""
    ran = run(program, case, words)
    if ran is None:
        print(f"case={name} output=none, no end after {SECONDS} seconds")
        return False
    if ran.stdout != case.output:
        print(f"case={name} output=differs status={ran.returncode}")
        print(f"  {difference(ran.stdout, case.output)}")
    elif ran.returncode != case.status:
        print(f"case={name} output=as-expected-but-the-status status={ran.returncode}")
        print(f"  expected status {case.status}, standard error {ran.stderr[:200]!r}")
    else:
        print(f"case={name} output=expected status={ran.returncode}")
        return True
    return False


def main(program, path, words):
    right = [is_right(program, name, case, words) for name, case in read_cases(path).items()]
    return 0 if right and all(right) else 1


if __name__ == "__main__":
    if len(sys.argv) < 3:
        sys.exit(__doc__)
    sys.exit(main(sys.argv[1], sys.argv[2], sys.argv[3:]))
