"""What a whole lint takes, compared with the bare event parsers of libyaml and libfyaml on the same bytes: bench/lint.py [BEFORE], after
./test or a build of crates/actionlint. BEFORE is a program of another version, which takes its turns in the same run.

Uses a C compiler, the libraries with their headers (Debian's libyaml-dev and libfyaml-dev), valgrind and yamllint; what is measured with
one that is missing is left out, and named. Each file is put into a session that reports; a peer reads it and keeps nothing. Ratios are to
the first peer, libyaml. Times are the least of several runs that take turns, including the start of the process; instructions are counted
by callgrind, since times on a shared machine vary by half. Folders are linted without arguments, compared with the peers on the same files,
each opened by its name, and with yamllint. One small file is also compared with a program that only reads it.
"""

import functools
import pathlib
import re
import subprocess
import sys
import tempfile

from common import SESSION, TOP, WORKFLOW, is_there, least_in_turns, peers, program, put_commands, run_seconds, tell, write_files

RUNS = 9
# of a run that takes a millisecond
SMALL_RUNS = 200
YAMLLINT_RUNS = 3
YAMLLINT = ["yamllint", "--config-data", "relaxed", ".github/workflows"]
JOB = """  job{n}:
    name: Build and test, part {n}
    runs-on: ${{{{ matrix.os }}}}
    strategy:
      matrix:
        version: [18, 20, 22]
        os: [ubuntu-latest, macos-latest]
    steps:
      - uses: actions/checkout@v4
        with:
          fetch-depth: 0
      - name: Set up Node
        uses: actions/setup-node@v4
        with:
          node-version: ${{{{ matrix.version }}}}
          cache: npm
      - name: Build
        run: |
          set -eu
          npm ci
          npm run build --if-present
        env:
          VERBOSE: 'yes'  # for the log
      - name: Test
        if: github.event_name != 'schedule'
        run: npm test -- --shard={n}
"""
# An expression of some 21,000 bytes, without the braces around it.
EXPRESSION = " && ".join(f"github.event_name == 'push{n:04}'" for n in range(600))


def workflow(count):
    """A workflow with this many jobs of the usual kind."""
    return "on: push\njobs:\n" + "".join(JOB.format(n=n) for n in range(count))


def steps(lines, count):
    """A workflow with one job that has this many steps of these lines."""
    return "on: push\njobs:\n  build:\n    runs-on: ubuntu-latest\n    steps:\n" + "".join(lines.format(n=n) for n in range(count))


def jobs(count):
    """A workflow with this many jobs of one step each."""
    job = "  job{}:\n    runs-on: ubuntu-latest\n    steps:\n      - run: make\n"
    return "on: push\njobs:\n" + "".join(job.format(n) for n in range(count))


def inputs(count):
    """A workflow that declares inputs and reads each."""
    declared = "".join(f"      input{n}:\n        type: string\n" for n in range(count))
    read = "".join(f"          I{n}: ${{{{ inputs.input{n} }}}}\n" for n in range(count))
    job = "jobs:\n  build:\n    runs-on: ubuntu-latest\n    steps:\n      - run: make\n        env:\n"
    return f"on:\n  workflow_call:\n    inputs:\n{declared}{job}{read}"


def matrix(rows):
    """A workflow whose matrix includes this many rows."""
    head = "on: push\njobs:\n  build:\n    runs-on: ubuntu-latest\n    strategy:\n      matrix:\n        include:\n"
    return head + "".join(f"          - {{version: {n}, os: linux}}\n" for n in range(rows)) + "    steps:\n      - run: make\n"


def aliases(count):
    """A workflow in which this many nodes come from aliases of one step's environment."""
    step = "      - run: make\n        env: &shared {" + ", ".join(f"V{n}: x" for n in range(50)) + "}\n"
    again = "      - run: make\n        env: *shared\n"
    return "on: push\njobs:\n  build:\n    runs-on: ubuntu-latest\n    steps:\n" + step + again * (count // 101)


def shapes():
    """Workflows of one shape each."""
    yield "1,336 jobs of the usual kind", workflow(1_336)
    yield "the same with names in Cyrillic", workflow(1_336).replace("Build and test, part", "Сборка и проверка, часть")
    yield "16,000 steps with an expression each", steps("      - name: Step ${{{{ github.run_id }}}}\n        run: make {n}\n", 16_000)
    yield "10,000 jobs", jobs(10_000)
    yield "10,000 steps with ids", steps("      - id: step{n}\n        run: make\n", 10_000)
    yield "5,000 inputs, each read", inputs(5_000)
    yield "a matrix of 10,000 rows", matrix(10_000)
    yield "40 expressions of 21,000 bytes", steps(f"      - run: make\n        if: {EXPRESSION}\n", 40)
    yield "90,000 nodes by aliases", aliases(90_000)


def fill(folder, count, jobs_of_each):
    """Puts workflows with this many jobs into a folder; returns their paths and the number of their bytes."""
    text = workflow(jobs_of_each)
    files = [(f".github/workflows/{number:04}.yml", text) for number in range(count)]
    write_files(folder, files)
    return [pathlib.Path(folder, path) for path, _ in files], count * len(text)


def seconds(command, data, folder):
    """The time of one run, which ends without a fault."""
    took, status, out = run_seconds(command, data, folder)
    if status:
        sys.exit(f"{command[0]} ended with {status}: {out[:200]}")
    return took


def instructions(command, data, folder):
    """The instructions of one run, in millions."""
    with tempfile.TemporaryDirectory() as counts:
        counting = ["valgrind", "--tool=callgrind", f"--callgrind-out-file={counts}/out", *command]
        run = subprocess.run(counting, input=data, cwd=folder, capture_output=True, check=False)
    return int(re.search(rb"Collected : (\d+)", run.stderr)[1]) / 1e6


def compare(name, size, commands, inputs, counts, folder=None):
    """Prints the times and, if they are counted, the instructions of the commands, by their names, on files with this many bytes. Each has
    its own standard input."""
    measures = [functools.partial(seconds, *it, folder) for it in zip(commands.values(), inputs)]
    times = dict(zip(commands, least_in_turns(RUNS, measures)))
    counted = [instructions(*it, folder) for it in zip(commands.values(), inputs)] if counts else []
    first, *others = times.values()
    cells = [f" {first:8.3f}s", *(f" {took:8.3f}s {took / first:6.2f}" for took in others)]
    told = zip(cells, [f" {it:8.1f}M" for it in counted] or [""] * len(cells))
    line = f"{name:42} {size:9}" + "".join(cell + count for cell, count in told)
    tell(line, name, size=size, **times, **{f"instructions of {it}": count for it, count in zip(commands, counted)})


def compare_with_reading(program_path, folder, path, found):
    """Prints what one small file takes: only read, parsed by the peers, and linted."""
    reader = pathlib.Path(folder) / "read_only"
    subprocess.run(["cc", "-O2", "-o", reader, TOP / "bench" / "read_only.c"], check=True)
    commands = {"read": [reader, path], **{name: [peer, path] for name, peer in found.items()}, "this": [program_path]}
    times = dict(zip(commands, least_in_turns(SMALL_RUNS, [functools.partial(seconds, it, b"", folder) for it in commands.values()])))
    told = ", ".join(f"{name} {took / times['read']:.2f}" for name, took in times.items() if name != "read")
    tell(f"one file of 4 KB: read {times['read'] * 1e3:.2f} ms, {told}", "one file of 4 KB", **times)


def compare_with_yamllint(program_path, made):
    """Prints what this program and yamllint take for the same folders."""
    print(f"\n{'folder':42} {'bytes':>9} {'yamllint':>9} {'this':>9} {'ratio':>6}")
    for count, jobs_of_each in ((1, 6), (1, 1_336), (200, 6)):
        folder = pathlib.Path(made) / f"yamllint-{count}-{jobs_of_each}"
        _, size = fill(folder, count, jobs_of_each)
        runs = [functools.partial(seconds, command, b"", folder) for command in (YAMLLINT, [program_path])]
        theirs, ours = least_in_turns(YAMLLINT_RUNS, runs)
        name = f"{count:,} workflows of {jobs_of_each:,} jobs"
        tell(f"{name} {size:9} {theirs:8.3f}s {ours:8.3f}s {theirs / ours:6.0f}", name, size=size, yamllint=theirs, this=ours)


def main():
    """Prints a table: the peers, this program and the earlier one for each shape."""
    programs = dict(zip(("this", "before"), [program("actionlint"), *(pathlib.Path(it).resolve() for it in sys.argv[1:2])]))
    counts = is_there("valgrind", "valgrind", "instructions")
    with tempfile.TemporaryDirectory() as made:
        found = peers(made)
        names = [*found, *programs]
        instructions_of_one = f" {'':9}" if counts else ""
        columns = [f" {names[0]:>9}", *(f" {name:>9} {'ratio':>6}" for name in names[1:])]
        print(f"{'file':42} {'bytes':>9}" + "".join(it + instructions_of_one for it in columns))
        for name, text in shapes():
            script = put_commands([(WORKFLOW, text)]) + b"report\n"
            data = text.encode()
            commands = {**{it: [peer] for it, peer in found.items()}, **{it: [path, *SESSION] for it, path in programs.items()}}
            compare(name, len(data), commands, [data] * len(found) + [script] * len(programs), counts)
        for count, jobs_of_each in ((1, 6), (200, 5), (4_096, 1)):
            folder = pathlib.Path(made) / str(count)
            paths, size = fill(folder, count, jobs_of_each)
            commands = {**{it: [peer, *paths] for it, peer in found.items()}, **{it: [path] for it, path in programs.items()}}
            compare(f"a folder of {count:,} workflows", size, commands, [b""] * len(commands), counts, folder)
            if count == 1 and found:
                compare_with_reading(programs["this"], folder, paths[0], found)
        if is_there("yamllint", "yamllint", "yamllint"):
            compare_with_yamllint(programs["this"], made)


if __name__ == "__main__":
    main()
