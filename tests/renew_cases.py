"""Shows how a program's outputs differ from those in files of cases, and rewrites them.

    python3 tests/renew_cases.py [--write] PROGRAM CASES [WORD..]

For use after an intended change, for instance of a message. For each case whose output or status has changed (CASES and WORDs are as in
tests/run_cases.py) it prints the removed and the added lines, and finally how many cases differ and how often each pair of lines does.
`--write` replaces the old outputs: read what is shown first, since from then on it is what is expected.
"""

import collections
import dataclasses
import difflib
import pathlib
import sys

from case_files import files_in, read_file, write_cases
from run_cases import run


def lines_of(output, status):
    """The lines of an output, and its status as one more."""
    return [*output.decode(errors="backslashreplace").splitlines(), f"(the run's status: {status})"]


def changes(old, new):
    """The removed and the added lines."""
    return [line for line in difflib.unified_diff(old, new, lineterm="", n=0) if line[:1] in "+-" and line[:3] not in ("+++", "---")]


class Renewal:
    """What differs between the cases and the outputs of a program."""

    def __init__(self, program, words):
        self.program, self.words = program, words
        self.differing, self.unended, self.often = 0, 0, collections.Counter()

    def renewed(self, name, case):
        """A case with the output and status of its run, after showing how they differ."""
        ran = run(self.program, case, self.words)
        if ran is None:
            print(f"{name}: no end")
            self.unended += 1
            return case
        if (case.output, case.status) == (ran.stdout, ran.returncode):
            return case
        changed = changes(lines_of(case.output, case.status), lines_of(ran.stdout, ran.returncode))
        print(f"== {name}", *changed, sep="\n")
        self.differing += 1
        self.often[tuple(changed)] += 1
        return dataclasses.replace(case, output=ran.stdout, status=ran.returncode)


def main(program, path, words, is_written):
    renewal = Renewal(program, words)
    for prefix, file in files_in(pathlib.Path(path)).items():
        old = read_file(file)
        new = {name: renewal.renewed(prefix + name, case) for name, case in old.items()}
        if is_written and new != old:
            write_cases(file, new)
    told = ", and were written" if is_written and renewal.differing else ""
    print(f"{renewal.differing} cases differ, in {len(renewal.often)} ways{told}")
    return 1 if renewal.unended else 0


if __name__ == "__main__":
    given = [word for word in sys.argv[1:] if word != "--write"]
    if len(given) < 2:
        sys.exit(__doc__)
    sys.exit(main(given[0], given[1], given[2:], "--write" in sys.argv[1:]))
