"""Checks that no two cases at a path have the same input, arguments and output, and that writing and reading them keeps each byte, and
those of texts that need each escape: case_copies.py CASES.."""

import pathlib
import random
import sys
import tempfile

from case_files import Case, WrongCases, files_in, read_cases, read_file, write_cases

# what a text may hold that a file of cases writes otherwise
PIECES = [b"a", b" ", b"\t", b"\n", b"\r", b"\x00", b"\x7f", b"\xff", b"\\", b"\\n", b"\\x41", b"}", b"{3:a}", b"\\{3:a}",
          b"== a\n", b"-- input\n", b"\n-- output\n", b"\xc3\xa9", b"\xe2\x80\xa8", b"\xef\xbb\xbf", b"status 1\n", b"ab" * 1_500,
          b"x}\n" * 900, b"\xc3\xa9" * 1_200]
WRONG_FILES = ["-- input\n", "== a\nx\n-- input\n-- output\n", "== a\n-- input\n", "== a\n-- input\n-- output, escaped\n\\y\n",
               "== a\n-- input\n-- input\n-- output\n", "== a\n-- input\n-- output\n== a\n-- input\n-- output\n",
               "== a\n-- inputs\n-- output\n", "== a\n-- input\n-- output\n-- more\n"]


def copies(path):
    """The cases at a path that are copies, each with the case it copies."""
    seen = {}
    for name, case in read_cases(path).items():
        first = seen.setdefault((case.input, tuple(case.words or ()), case.output), name)
        if first != name:
            yield f"{path}: {name} is a copy of {first}"


def random_cases(count):
    """Cases with what needs an escape."""
    chance = random.Random(1)
    text = lambda: b"".join(chance.choices(PIECES, k=chance.randrange(8)))
    words = lambda: chance.choice([None, [], ["--session", "a b"]])
    return {f"{number}": Case(text(), text(), chance.randrange(4), words()) for number in range(count)}


def lost(path):
    """The cases at a path that are read otherwise after they were written."""
    sets = [("random", random_cases(500)), *((str(file), read_file(file)) for file in files_in(pathlib.Path(path)).values())]
    with tempfile.TemporaryDirectory() as room:
        for name, cases in sets:
            write_cases(pathlib.Path(room) / "a.cases", cases)
            again = read_cases(pathlib.Path(room) / "a.cases")
            yield from (f"{name}: {it} is read as {again.get(it)}" for it, case in cases.items() if again.get(it) != case)


def accepted():
    """Files that aren't in the form of cases and are read."""
    with tempfile.TemporaryDirectory() as room:
        for text in WRONG_FILES:
            (pathlib.Path(room) / "a.cases").write_text(text)
            try:
                yield f"{text!r} is read as {read_cases(room)}"
            except WrongCases:
                pass


if __name__ == "__main__":
    wrong = [*accepted(), *(line for path in sys.argv[1:] for line in (*copies(path), *lost(path)))]
    sys.exit("\n".join(wrong) if wrong else 0)
