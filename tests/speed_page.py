"""Compares the rows of docs/SPEED.md with what the scripts of bench/ measure, and tests how figures get onto a page: speed_page.py TOP.

Each row has a script that gives its figures, or a test (a stack that suffices). Of a run with a few figures, the rows that it measured have
these, in the forms of the page, and all others keep theirs and get the mark of an earlier run; the paragraph about the run says when the
machine was busy.
"""

import importlib
import pathlib
import subprocess
import sys

TOP = pathlib.Path(__file__).resolve().parent.parent
sys.path.insert(0, str(TOP / "bench"))
bench = importlib.import_module("all")

FOUND = {
    "lint": {"a folder of 4,096 workflows": {"size": 2_748_416, "this": 0.1534, "libyaml": 0.1},
             "a folder of 200 workflows": {"size": 659_000, "this": 0.022, "libyaml": 0.02},
             "1,336 jobs of the usual kind": {"size": 885_125, "this": 0.03, "libyaml": 0.025, "instructions of this": 145.7,
                                              "instructions of libyaml": 174.4}},
    "session": {"put of other bytes, no file calls it: 0": {"this": 4.9e-6},
                "put of other bytes, no file calls it: 4095": {"this": 5.4e-6}},
    "growth": {"a step that gives 10,000 inputs": {"this": 0.031, "growth": 2.04},
               "a job that gives 10,000 inputs": {"this": 0.044, "growth": 2.11}},
    "memory": {"4,096 files in one call cycle": {"memory": 19 << 20, "this": 0.0996}},
}
RUN = {"date": "2026-12-01", "commit": "0123abcd", "machine": "2 processors (some)",
       "others": {"lint": 0.1, "memory": 1.25, "clients": 0.5}, "found": FOUND}
# rows, with the mark where the run has not all of a row's figures
WRITTEN = (
    "| a repository of 4,096 workflows, the most that are taken | 2.7 MB | 0.15 s | 1.5 times | |",
    "| instructions for a megabyte of usual jobs, and libyaml's | | 165; 197 M | | |",
    "| an edit of a small file in a session, alone or beside 4,095 files that don't call it | | 4.9 to 5.4 µs | | |",
    "| a caller that gives 10,000 inputs to an action; to a workflow | 0.031; 0.044 s | 2.0 to 2.1 | |",
    "| 4,096 files in one call cycle | 0.10 s | | 19 MiB |",
    "| 62 nested YAML collections: a stack that suffices | | | 256 KiB |",
)
MARKED = ("a repository of 200 workflows", "reading a workflow, without checks", "10,000 jobs")
SAID = ("Measured on 2026-12-01 at commit `0123abcd` on 2 processors (some); the machine was busy: beside `memory`, `clients` other "
        "programs used up\nto 1.2 processors. Rows with † are of earlier runs.\n\n")
LOG = """| `al_base` | 1,438 | 105 | 1,628 |  |  | 5 | 210 | 1,700 |
| `al_unit_tests` | 2,259 | 7 | 397 | 304 | 3,560 |  |  |  |
| `al_cli` | 973 | 230 | 2,913 |  |  | 8 | 412 | 2,950 |

The whole: 133.4 processor minutes in 45.2 minutes (4 processors, RT_JOBS not set). Proofs from nothing 45.1, tests
24.0, edits 64.2; linking, programs, cases and what the looks missed 0.1. The longest chain is
"""
SECONDS = {"al_base": [105, 0, 210], "al_unit_tests": [7, 304, 0], "al_cli": [230, 0, 412]}
OF_GATE = ("45.2 minutes on 4 processors, RT_JOBS not set, 133.4 processor minutes, of which 45.1 for proofs, 24.0 for tests and 64.2 for "
           "edits. The proofs that took longest: `al_cli` 230 s, `al_base` 105 s, `al_unit_tests` 7 s.")


def wrong(top):
    """What differs."""
    checked = subprocess.run([sys.executable, top / "bench/all.py", "--check"], capture_output=True, text=True, check=False)
    yield from checked.stderr.splitlines() if checked.returncode else []
    before = (top / "docs/SPEED.md").read_text(encoding="utf-8")
    after = bench.with_figures(before, RUN)
    yield from (f"a run doesn't write: {it}" for it in WRITTEN if it not in after.splitlines())
    old, new = ({name: bench.cells_of(line[0]) for line, name, _ in bench.rows_of(text)} for text in (before, after))
    for what in MARKED:
        if what not in old or new[what] != [what + bench.MARK, *old[what][1:]]:
            yield f"a row that isn't measured becomes {new.get(what)}"
    if SAID not in after:
        yield "the page doesn't say what the run was"
    yield from (f"a line is too long: {it}" for it in bench.said_of_gate(LOG).splitlines() if len(it) > bench.LONGEST_LINE)
    if len({text.partition("## What a user asks")[2].count("\n") for text in (before, after)}) != 1:
        yield "lines are lost or added"
    if bench.crates_of_gate(LOG) != SECONDS:
        yield f"of the gate's log it takes the seconds {bench.crates_of_gate(LOG)}"
    if OF_GATE not in " ".join(bench.said_of_gate(LOG).split("\n")):
        yield f"of the gate's log it says: {bench.said_of_gate(LOG)}"


if __name__ == "__main__":
    if found := list(wrong(pathlib.Path(sys.argv[1]).resolve())):
        sys.exit("\n".join(found))
