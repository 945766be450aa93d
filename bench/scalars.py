"""How the time to read one scalar grows with its bytes: bench/scalars.py, after ./test or a build of crates/al_facts.

Each shape of scalar is read at a quarter, half and all of its size by the program `al_facts`, which also prints its text with the offset of
each byte. If reading is linear, the time doubles with the size. The times are the least of several runs, minus the time of the empty
scalar.
"""

import functools
import sys

from common import least_in_turns, program, run_seconds, tell

RUNS = 5
SIZE = 1_000_000

SHAPES = {
    "plain, one line": lambda size: b"ab" * (size // 2),
    "plain, lines of three bytes": lambda size: b"a\n" + b"b \n" * (size // 3),
    "single-quoted, pairs of quotes": lambda size: b"'" + b"''" * (size // 2) + b"'",
    "double-quoted, one line": lambda size: b'"' + b"ab" * (size // 2) + b'"',
    "double-quoted, escapes": lambda size: b'"' + b"\\x61" * (size // 4) + b'"',
    "double-quoted, lines of three bytes": lambda size: b'"' + b"b \n" * (size // 3) + b'"',
    "literal, lines of three bytes": lambda size: b"|\n" + b" b\n" * (size // 3),
    "folded, lines of three bytes": lambda size: b">\n" + b" b\n" * (size // 3),
    "literal, empty lines": lambda size: b"|+\n b\n" + b"\n" * size,
}


def seconds(file):
    """What one run takes to read a scalar."""
    took, status, _ = run_seconds([program("al_facts"), "scalar"], file)
    if status != 0:
        sys.exit(f"the scalar was not read: {file[:80]}")
    return took


def main():
    """Prints a table."""
    print(f"{'scalar':38} {'quarter':>9} {'half':>9} {'whole':>9}  half/quarter whole/half")
    for name, shape in SHAPES.items():
        files = [b""] + [shape(size) for size in (SIZE // 4, SIZE // 2, SIZE)]
        nothing, *times = least_in_turns(RUNS, [functools.partial(seconds, file) for file in files])
        quarter, half, whole = (took - nothing for took in times)
        line = f"{name:38} {quarter:8.3f}s {half:8.3f}s {whole:8.3f}s  {half / quarter:12.2f} {whole / half:10.2f}"
        tell(line, name, this=whole, growth=whole / half)


if __name__ == "__main__":
    sys.exit(main())
