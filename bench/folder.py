"""How the time to lint a folder grows with its files: bench/folder.py, after ./test or a build of crates/actionlint, otherwise with the
carried program.

Folders are linted without arguments, as by a person: copies of a workflow of some size; a workflow with actions of its own; one that calls
listed workflows, and whose name sorts before or after theirs; workflows that share some actions. Each time is the least of several runs.
Each file is read and checked once, so ten times the files take about ten times as long, and twice the calls twice. If the callers of each
called file were checked again, or missing files looked for again at each file, ten times the files would take a hundred times as long, and
twice the calls four times. The last lines compare folders with scripts that put the same files. More than `MOST` times as long is an error,
except for a script that puts callers first: there each is checked again for each file that it calls.
"""

import functools
import pathlib
import sys
import tempfile

from common import TOP, least_in_turns, program, put_seconds, run_seconds, tell, write_files

EXAMPLE = TOP / "examples" / "release" / ".github" / "workflows" / "release.yml"
WORKFLOWS = ".github/workflows"
ACTION = "name: A\ndescription: d\nruns:\n  using: node20\n  main: m.js\n"
CALLED = "on: workflow_call\njobs: {}\n"
RUNS = 5
# ten times the files, beyond the two megabytes whose trees a run keeps; twice the calls; and a folder beside its script
MOST = {10: 15, 2: 3, 1: 2}


def copies(count):
    """Copies of a workflow that calls nothing in the folder."""
    text = EXAMPLE.read_text()
    return [(f"{WORKFLOWS}/{number:04}.yml", text) for number in range(count)]


def steps(numbers):
    """A workflow whose steps call the actions of these numbers."""
    calls = "".join(f"      - uses: ./actions/a{number:04}\n" for number in numbers)
    return f"on: push\njobs:\n  a:\n    runs-on: ubuntu-latest\n    steps:\n{calls}"


def actions(count):
    """Actions."""
    return [(f"actions/a{number:04}/action.yml", ACTION) for number in range(count)]


def with_actions(count):
    """One workflow with actions of its own."""
    return [*actions(count), (f"{WORKFLOWS}/a.yml", steps(range(count)))]


def with_workflows(caller, count):
    """A workflow with this name whose jobs each call a workflow of the list."""
    names = [f"w{number:04}.yml" for number in range(count)]
    jobs = "".join(f"  j{number}:\n    uses: ./{WORKFLOWS}/{name}\n" for number, name in enumerate(names))
    return [*((f"{WORKFLOWS}/{name}", CALLED) for name in names), (f"{WORKFLOWS}/{caller}", f"on: push\njobs:\n{jobs}")]


def with_shared_actions(count):
    """Workflows that each call the same ten actions, which come first."""
    text = EXAMPLE.read_text() + "\n  shared:\n" + steps(range(10)).split("  a:\n")[1]
    return [*actions(10), *((f"{WORKFLOWS}/{number:04}.yml", text) for number in range(count))]


def seconds(folder):
    """What one run over a folder takes."""
    took, status, out = run_seconds([program("actionlint"), "--oneline"], folder=folder)
    if (status, out) != (0, b""):
        sys.exit(f"the folder has faults: {out[:200]}")
    return took


def compare(name, sizes, times):
    """Prints what each size takes and its ratio to the previous one; returns whether none takes more than allowed."""
    sizes_and_times = list(zip(sizes, times))
    line = f"{sizes[0]} {name} {times[0]:.3f}s"
    kept = True
    for (before, less), (size, took) in zip(sizes_and_times, sizes_and_times[1:]):
        line += f", {size} {took:.3f}s, {took / less:.2f} times as long"
        kept = kept and took <= MOST[size // before] * less
    tell(line, name, this=times[-1], growth=times[-1] / times[-2])
    return kept


def growth(name, make, sizes):
    """Compares folders of these sizes."""
    with tempfile.TemporaryDirectory() as top:
        folders = [pathlib.Path(top, str(size)) for size in sizes]
        for folder, size in zip(folders, sizes):
            write_files(folder, make(size))
        return compare(name, sizes, least_in_turns(RUNS, [functools.partial(seconds, folder) for folder in folders]))


def beside_scripts(name, files):
    """Compares the folder of these files with a script that puts called files first, and with one that puts callers first."""
    with tempfile.TemporaryDirectory() as top:
        write_files(top, files)
        runs = [functools.partial(put_seconds, files), functools.partial(put_seconds, files[::-1]), functools.partial(seconds, top)]
        called, callers, folder = least_in_turns(RUNS, runs)
    line = (f"{name}: {folder:.3f}s in a folder, {called:.3f}s as a script with called files first, {folder / called:.2f} times as long; "
            f"{callers:.3f}s with callers first, {callers / called:.1f} times")
    tell(line, name, this=folder, called_first=called, callers_first=callers)
    return folder <= MOST[1] * called


def main():
    """Prints the times and how they compare."""
    kept = [
        growth("workflows", copies, [100, 1_000]),
        growth("actions of one workflow", with_actions, [1_000, 2_000, 4_000]),
        growth("workflows called by a.yml", functools.partial(with_workflows, "a.yml"), [500, 1_000, 2_000]),
        growth("workflows called by z.yml", functools.partial(with_workflows, "z.yml"), [500, 1_000, 2_000]),
        beside_scripts("200 workflows with 10 shared actions", with_shared_actions(200)),
        beside_scripts("a workflow with 1,000 actions", with_actions(1_000)),
        beside_scripts("a workflow with 2,000 actions", with_actions(2_000)),
    ]
    return 0 if all(kept) else 1


if __name__ == "__main__":
    sys.exit(main())
