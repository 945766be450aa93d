"""Compares edits_by_hand.toml with the edits that are tried by hand, not by the gate: edits_by_hand.py TOP [--list].

Its rows name each edit of crates/*/more.edits after the name of its crate. Whatever a row names as showing an edit exists: edits of the
gate, tests of a crate, cases and their subjects, and files of tests/. Each edit can be applied: the text that it removes occurs once in its
file. `--list` prints the rows.
"""

import pathlib
import re
import sys
import tomllib

from case_files import read_cases
from more_edits import edits_by_hand, edits_of_the_gate, pairs_of

ROWS = pathlib.Path(__file__).resolve().with_suffix(".toml")
BY = re.compile(r"\bedits? ((?:`\w+`(?: \(`\w+`\))?(?:, | and )?)+)")
# cases and their subjects, after the word "case"; and what else is named by a path
CASES = re.compile(r"\bcases? (?:[^`;]*\()?((?:`\w[\w/-]*`(?:, )?)+)")
PATHS = re.compile(r"`(?!tests/)[\w-]+/[\w/-]+`")
CASE_PATHS = ("cases", "faults.cases", "yaml-trees.cases", "expressions.cases", "chunks.cases")
TESTS = re.compile(r"tests? ((?:`\w+`(?:, | and )?)+) of `(\w+)`")


def absent(top, cases, shown):
    """The tests, cases and files that a row names and that don't exist."""
    for names, crate in TESTS.findall(shown):
        source = "".join(it.read_text() for it in (top / "crates" / crate / "src").glob("*.rt"))
        yield from (f"test {it} of {crate}" for it in re.findall(r"`(\w+)`", names) if not re.search(rf"\b{it}\b", source))
    for case in sorted(set(re.findall(r"`([^`]+)`", " ".join([*CASES.findall(shown), *PATHS.findall(shown)])))):
        if not any(name == case or name.startswith(f"{case}/") for name in cases):
            yield f"case {case}"
    yield from (it for it in re.findall(r"`(tests/[\w./-]+)`", shown) if not (top / it).exists())


def unmakable(crate, name, text):
    """The texts that an edit removes and that don't occur once in their files when its changes are applied in order."""
    made = {}
    for path, old, new in pairs_of(text):
        source = made.get(path) or (crate / path).read_text()
        if source.count(old) != 1:
            yield f"{crate.name}: {name}: this occurs {source.count(old)} times in {path}: {old}"
        made[path] = source.replace(old, new)


def rows():
    """The crate of each row, its edits, and what shows them."""
    for crate, of_crate in tomllib.loads(ROWS.read_text(encoding="utf-8")).items():
        yield from ((crate, row["edits"], row["shown"]) for row in of_crate)


def wrong_of(top):
    """What of the rows doesn't exist, and which edits no row names or can't be made."""
    crates = sorted((top / "crates").iterdir())
    kept = {name for crate in crates for name in edits_of_the_gate(crate)}
    there = {(crate.name, name) for crate in crates for name in edits_by_hand(crate)}
    cases = [name for path in CASE_PATHS for name in read_cases(top / "tests" / path)]
    named = set()
    for crate, edits, shown in rows():
        named |= {(crate, it) for it in edits}
        others = {name for it in BY.findall(shown) for name in re.findall(r"`(\w+)`", re.sub(r" \(`\w+`\)", "", it))}
        yield from (f"{crate}: {it} is no edit of the gate" for it in sorted(others - kept))
        yield from (f"{crate}: there is no {it}" for it in absent(top, cases, shown))
    yield from (f"{crate}: there is no {name}" for crate, name in sorted(named - there))
    yield from (f"{crate}: {name} is not named" for crate, name in sorted(there - named))
    for crate in crates:
        for edits in (edits_of_the_gate(crate), edits_by_hand(crate)):
            yield from (it for edit in edits.items() for it in unmakable(crate, *edit))
    yield from () if there else ("no edits",)


def main(folder, option=None):
    if option == "--list":
        for crate, edits, shown in rows():
            print(f"{crate}: {', '.join(edits)}\n    {shown}")
    elif wrong := list(wrong_of(pathlib.Path(folder))):
        sys.exit("\n".join(wrong))


if __name__ == "__main__":
    main(*sys.argv[1:])
