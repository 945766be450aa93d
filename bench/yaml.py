"""How long a YAML file takes to read, compared with the event parsers of libyaml and libfyaml on the same bytes: bench/yaml.py [BEFORE],
after ./test or a build of crates/al_facts. BEFORE is an `al_facts` program of another version, whose times are taken in the same run.

Uses a C compiler and the libraries with their headers (Debian's libyaml-dev and libfyaml-dev); one that is missing is left out, and named.
Each file ends with a line at which all readers stop with a fault, so none prints a tree, and each reads everything before it. Each time is
the least of several runs that take turns, minus that for this line alone. Each shape is read at half and at full size: if reading is
linear, the time grows like the bytes.
"""

import functools
import json
import sys
import tempfile

from common import least_in_turns, peers, program, run_seconds, tell

RUNS = 25
SIZE = 1_000_000

# an indicator that begins no node, at the start of a line
LAST = b"@\n"

JOB = """  job{n}:
    name: "Build and test, part {n}"
    runs-on: ubuntu-latest
    strategy:
      matrix:
        version: [3.10, 3.11, 3.12]
        os: {{linux: ubuntu-latest, 'mac': macos-14}}
    steps:
      - uses: actions/checkout@v4
      - name: Build
        run: |
          set -eu
          make -j2 all
          make check
        env:
          VERBOSE: 'yes'  # for the log
      - name: Note
        if: failure()
        run: >-
          echo "part {n}
          has failed"
"""


def workflow(size):
    """A workflow of jobs of the usual kind, with about this many bytes."""
    parts = ["on: push\njobs:\n"]
    length = len(parts[0])
    number = 0
    while length < size:
        parts.append(JOB.format(n=number))
        length += len(parts[-1])
        number += 1
    return "".join(parts).encode()


def shapes(size):
    """Files of one shape each, with about this many bytes."""
    yield "a workflow", workflow(size)
    yield "plain scalar, one line", b"on: push\njobs: " + b"a b " * (size // 4) + b"\n"
    yield "plain scalar, lines of three bytes", b"on: push\njobs: a\n" + b" b\n" * (size // 3)
    yield "double-quoted scalar, escapes", b'on: push\njobs: "' + b"\\x61" * (size // 4) + b'"\n'
    yield "block scalar, lines of four bytes", b"on: push\njobs: |\n" + b"  b\n" * (size // 4)
    yield "keys", b"on: push\njobs:\n" + b"".join(b"  key%08d: v\n" % n for n in range(49_000 * size // SIZE))
    yield "items in brackets, one line", b"on: push\njobs: [" + b"abcdefghi, " * (90_000 * size // SIZE) + b"]\n"
    yield "brackets, beside one another", b"on: push\njobs: [" + b"[]," * (60_000 * size // SIZE) + b"]\n"
    yield "lists of two, one a line", b"on: push\njobs:\n" + b"  - [a, b]\n" * (19_000 * size // SIZE)
    yield "comments", b"on: push\njobs: v\n" + b"# c\n" * (size // 4)
    yield "blank lines in one collection", b"- v\n" + b"\n" * size
    yield "blank lines in 63 collections", b"- " * 63 + b"v\n" + b"\n" * size


def shared_shapes(size):
    """Files with about this many bytes that contain anchors and aliases."""
    names = range(49_000 * size // SIZE)
    yield "anchors and aliases of other names", b"on: push\njobs: [" + b"".join(b"&a%05d v, *a%05d, " % (n, n) for n in names) + b"]\n"
    yield "aliases of one scalar", b"on: push\njobs: [&a v" + b", *a" * (98_000 * size // SIZE) + b"]\n"
    yield "one text, and an alias of it", b"on: push\njobs: [&a " + b"a b " * (size // 4) + b", *a]\n"
    nested = b"".join(b"&a%d [" % level for level in range(61))
    items = b"abcdefghijklmnopqr, " * (49_000 * size // SIZE)
    yield "items in 61 lists with anchors, and an alias", b"on: push\njobs: [" + nested + items + b"]" * 61 + b", *a0]\n"


def seconds(command, is_ours, file):
    """The time of one run. Ours reads a file up to its last line."""
    took, _, out = run_seconds(command, file)
    if is_ours and (at := json.loads(out)["fault"]["start"]) != len(file) - len(LAST):
        sys.exit(f"a fault at {at} of {len(file)} bytes")
    return took


def least(others, commands, files):
    """The least time that each of the peers' commands, and then of ours, takes to read each file."""
    every = [(it, False) for it in others] + [(it, True) for it in commands]
    measures = [functools.partial(seconds, command, is_ours, file) for file in files for command, is_ours in every]
    times = least_in_turns(RUNS, measures)
    return [times[first : first + len(every)] for first in range(0, len(times), len(every))]


def compare(name, names, commands, whole, half):
    """Prints what each reader takes for a file, compared with the first of ours, and how that grows with the bytes."""
    others = commands[: len(commands) - names.count("this") - names.count("before")]
    nothing, smaller, all_of_it = least(others, commands[len(others):], [LAST, half + LAST, whole + LAST])
    times = dict(zip(names, (a - b for a, b in zip(all_of_it, nothing))))
    took = times["this"]
    growth = took / (smaller[len(others)] - nothing[len(others)])
    beside = "".join(f" {it:8.3f}s {took / it:6.2f}" for reader, it in times.items() if reader != "this")
    tell(f"{name:44} {len(whole):9} {took:8.3f}s {growth:5.2f} of {len(whole) / len(half):.2f}{beside}", name, growth=growth, **times)


def main():
    """Prints a table. A reader of another version may not know aliases, so it isn't given files with any."""
    with tempfile.TemporaryDirectory() as folder:
        found = peers(folder)
        ours = [[path, "yaml"] for path in [program("al_facts"), *sys.argv[1:2]]]
        names = [*found, *["this", "before"][: len(ours)]]
        commands = [*([it] for it in found.values()), *ours]
        columns = "".join(f" {name:>9} {'ratio':>6}" for name in names if name != "this")
        print(f"{'file':44} {'bytes':>9} {'this':>9} whole/half   {columns}")
        for shapes_of_kind, count in ((shapes, len(names)), (shared_shapes, len(found) + 1)):
            for (name, whole), (_, half) in zip(shapes_of_kind(SIZE), shapes_of_kind(SIZE // 2)):
                compare(name, names[:count], commands[:count], whole, half)


if __name__ == "__main__":
    sys.exit(main())
