"""What an edit of a session costs beside other files, and what a report costs if files call one another: bench/session.py, after ./test or
a build of crates/actionlint, otherwise with the carried program.

A time is that of a script with more edits or reports minus that of one with fewer, the least of several runs that take turns. Files have a
line or two, so the session's own work shows, except for usual workflows of 3 KB and callers of 10 KB with 200 expressions. A put of an
existing file finds it by hash, and looks only at its callers: its time doesn't grow with the other files. A new path and a delete move the
files after them in the order of paths: this is shown with its cost.

Reports are over 4,096 workflows that call one another. Each is compared with the report on as many workflows without calls, with as many
faults, each as far into its line, whose printed lines are as long. Every workflow has a fault of its own, so the status after a report,
which then looks for no call cycle, takes nothing; two folders without faults show what both take. The session keeps the graph of calls from
one report to the next, so reports are timed with nothing between them, after a put of a workflow with the same calls, and after one with a
call more or less; the time of the puts is subtracted.
"""

import functools
import subprocess
import sys

import lint
from common import EMPTY, SESSION, least_in_turns, program, put_commands, run_seconds, tell

RUNS = 7
# how many edits are timed together: more if the difference of two scripts would be small compared with both
MANY, SOME, FEW = 20_000, 2_000, 200
BESIDE = [0, 1, 16, 256, 1_024, 4_095]
CALLERS = [1, 10, 100, 1_000]
NEW = [1_024, 2_048, 4_096]

EDITED = ".github/workflows/e.yml"
FIRST = ".github/workflows/0.yml"
CALLER = "on: push\njobs:\n  c:\n    uses: ./.github/workflows/e.yml\n"
CALLED = "on: workflow_call\njobs: {}\n"
# a caller of 10 KB that has 200 expressions too
LARGE_CALLER = CALLER + "  d:\n    runs-on: u\n    steps:\n" + "      - run: make ${{ github.ref }} # a step of its job\n" * 200
USUAL = lint.workflow(5)
OTHER_INTERFACE = "on:\n  workflow_call:\n    inputs: {a: {type: string}}\njobs: {}\n"

# what is timed: the text of the other files, the texts that are put in turn, how many of them, and the numbers of other files
TABLE = {
    "put of other bytes, no file calls it": (EMPTY, (EMPTY, f"{EMPTY}#\n"), MANY, BESIDE),
    "put of other bytes of a usual workflow, beside others": (USUAL, (USUAL, f"{USUAL}#\n"), SOME, [0, 200]),
    "put of the bytes that are there": (EMPTY, (EMPTY, EMPTY), MANY, BESIDE),
    "put of other bytes, all others call it": (CALLER, (CALLED, f"{CALLED}#\n"), MANY, CALLERS),
    "put of another interface, all others call it": (CALLER, (CALLED, OTHER_INTERFACE), FEW, CALLERS),
}
# whether each new file sorts before the others
ORDERS = {"puts of new paths, each after the others": False, "puts of new paths, each before the others": True}


FILES = 4_096
REPORTS = 200
LOOP_LINE = 'call of "./.github/workflows/0000.yml" leads back to this file [workflow-call]'
OWN_LINE = 'unexpected key "" [syntax-check]'

# the folders whose reports are timed: how many of the later workflows each workflow calls, whether the last ones call the first, and
# how many faults of its own it has
FOLDERS = {
    "a chain": (1, False, 1),
    "a ring": (1, True, 1),
    "ten calls each": (10, False, 1),
    "ten calls each, round": (10, True, 1),
    "a chain without faults": (1, False, 0),
    "a ring without others": (1, True, 0),
}

# the workflow that is put before each report, alternately changed and as it was, and the ways in which it changes
MIDDLE = FILES // 2
SAME_CALLS, OTHER_CALLS = "after a put with the same calls", "after a put with other calls"
BETWEEN = ["one after another", SAME_CALLS, OTHER_CALLS]


def workflow(number, calls, is_round, faults):
    """A workflow that calls later ones: its path and its text."""
    called = [number + step for step in range(1, calls + 1) if is_round or number + step < FILES]
    jobs = "".join(f"  c{it}:\n    uses: ./.github/workflows/{it % FILES:04}.yml\n" for it in called)
    # unknown keys, whose faults are as far into their lines as those of calls on a call cycle, with lines as long
    keys = "".join(" " * 10 + "x" * (len(LOOP_LINE) - len(OWN_LINE) - 2) + f"{it:02}: 1\n" for it in range(faults))
    unknown = f"defaults:\n{keys}" if faults else ""
    return f".github/workflows/{number:04}.yml", f"{unknown}on: workflow_call\njobs:" + (f"\n{jobs}" if jobs else " {}\n")


def put_folder(calls, is_round, faults):
    """The commands that put such workflows, each after those it calls."""
    return put_commands([workflow(number, calls, is_round, faults) for number in reversed(range(FILES))])


def edits_between(way, calls, is_round, faults):
    """The commands given before each report, in turn."""
    path, text = workflow(MIDDLE, calls, is_round, faults)
    others = {SAME_CALLS: f"{text}#\n", OTHER_CALLS: workflow(MIDDLE, calls + 1, is_round, faults)[1]}
    return [put_commands([(path, it)]) for it in (others[way], text)] if way in others else [b"", b""]


def script_seconds(script):
    """The time of a script whose output nobody reads."""
    return run_seconds([program("actionlint"), *SESSION], script, output=subprocess.DEVNULL)[0]


def times_of_more(pairs, counts):
    """The time of one edit or report, of which the second script of each pair has this many more than the first."""
    times = least_in_turns(RUNS, [functools.partial(script_seconds, script) for pair in pairs for script in pair])
    return [(more - less) / count for less, more, count in zip(times[::2], times[1::2], counts)]


def beside(count, text, is_backward=False):
    """The commands that put this many files with this text, in order of path or in reverse."""
    files = [(f".github/workflows/f{number:05}.yml", text) for number in range(count)]
    return put_commands(files[::-1] if is_backward else files)


def edit_times(text, texts, edits, counts):
    """The time of a put of these texts in turn, beside each number of files with the other text."""
    starts = [beside(count, text) + put_commands([(EDITED, texts[1])]) for count in counts]
    return times_of_more([(it, it + put_commands([(EDITED, one) for one in texts]) * (edits // 2)) for it in starts], [edits] * len(counts))


def large_caller_times(count):
    """The time of an edit of an interface for each of its callers with 200 expressions, and that of a put of one such caller."""
    interface = beside(count, LARGE_CALLER) + put_commands([(EDITED, CALLED)])
    edits = put_commands([(EDITED, OTHER_INTERFACE), (EDITED, CALLED)])
    bytes_of_one = put_commands([(FIRST, LARGE_CALLER), (FIRST, f"{LARGE_CALLER}#\n")])
    edit, put = times_of_more([(interface, interface + edits * (FEW // 20)), (b"", bytes_of_one * (SOME // 2))], [FEW // 10, SOME])
    return edit / count, put


def new_times(is_backward, counts):
    """The time of a put in a series of puts of new files."""
    return times_of_more([(b"", beside(count, EMPTY, is_backward)) for count in counts], counts)


def first_path_times(counts):
    """The time of a put of a new path that sorts before all others, with its delete."""
    both = put_commands([(FIRST, EMPTY)]) + b"delete %s\n" % FIRST.encode()
    return times_of_more([(it, it + both * SOME) for it in (beside(count, EMPTY) for count in counts)], [SOME] * len(counts))


def count_faults(puts):
    """The number of lines of a report."""
    return run_seconds([program("actionlint"), *SESSION], puts + b"report\n")[2].count(b"]\n")


def report_times(folders):
    """The time of a report on each folder after its edits, in seconds."""
    starts = [(puts + b"report\n", edits) for puts, edits in folders]
    half = REPORTS // 2
    pairs = [(it + b"".join(edits) * half, it + b"".join(edit + b"report\n" for edit in edits) * half) for it, edits in starts]
    return times_of_more(pairs, [REPORTS] * len(folders))


def print_reports(way):
    """Prints a line for each folder: the time of its report, and its ratio to that without calls."""
    print(f"reports of {FILES} workflows, {way}, beside those of as many without calls, with as many faults")
    for name, (calls, is_round, faults) in FOLDERS.items():
        on_cycles = calls if is_round else 0
        folders = [(calls, is_round, faults), (0, False, faults + on_cycles)]
        puts = [put_folder(*it) for it in folders]
        counts = [count_faults(it) for it in puts]
        if counts != [FILES * (faults + on_cycles)] * 2:
            sys.exit(f"{name}: the reports have {counts} lines")
        with_calls, without = report_times([(it, edits_between(way, *folder)) for it, folder in zip(puts, folders)])
        line = f"  {name:24} {counts[0]:6} faults {with_calls * 1000:10.2f} ms {with_calls / without:8.2f} times {without * 1000:.2f} ms"
        tell(line, f"report: {name}, {way}", this=with_calls, without=without)


def print_edits(name, counts, times):
    """Prints the time of an edit at each count, and its ratio to the first."""
    print(name)
    for count, time in zip(counts, times):
        tell(f"  {count:6} files {time * 1e6:10.2f} µs {time / times[0]:8.2f} times the first", f"{name}: {count}", this=time)


def main():
    """Prints the times of edits and of reports."""
    for name, (text, texts, edits, counts) in TABLE.items():
        print_edits(name, counts, edit_times(text, texts, edits, counts))
    for count in CALLERS[1:]:
        edit, put = large_caller_times(count)
        line = (f"an edit of an interface, for each of {count} callers of {len(LARGE_CALLER)} bytes with 200 expressions: "
                f"{edit * 1e3:.3f} ms, {edit / put:.2f} times a put of one, {put * 1e3:.3f} ms")
        tell(line, f"edit of an interface: {count} large callers", this=edit, put=put)
    print_edits("put of a new first path, and its delete", BESIDE, first_path_times(BESIDE))
    for name, is_backward in ORDERS.items():
        print_edits(name, NEW, new_times(is_backward, NEW))
    for way in BETWEEN:
        print_reports(way)


if __name__ == "__main__":
    sys.exit(main())
