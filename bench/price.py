"""Says what a change costs to prove: price.py [--check | --write] [CHANGE ..], after `rt ci` of the sources as they are.

CHANGEs, by default all, are the names of files in bench/changes. For each the change is made in a copy of the repository, and the kit's
gate runs there (`rt ci`): on a machine that has proved the sources as they are, it proves only what changed and the crates above it, tries
their edits, and builds and runs all tests and programs. Prints for each change how many crates were proved again, the processor minutes,
and the minutes on at most four processors until the program was built and the tests had passed. --write proves nothing: it adds up the
noted seconds (tools/proof_seconds.txt) of the crates that change and of those above them, all of which the kit proves again, and writes
the table of docs/PROVING.md and the line below the heading of each change in docs/CHANGING.md. --check looks whether each change can be
made, and whether both pages have what these seconds give.

A change is a list of replacements, each of three parts: a pattern of paths, a text that occurs once in the files of those paths (`all:` if
more often), and its new lines. Files that change get a comment with the time, since what was once proved is never proved again.
"""

from __future__ import annotations

import argparse
import os
import pathlib
import re
import resource
import sys
import tempfile
import time
from dataclasses import dataclass

from gate import Step, watch

TOP = pathlib.Path(__file__).resolve().parent.parent
sys.path.insert(0, str(TOP / "tests"))
sys.path.insert(0, str(TOP / "tools"))
from copying import commit, copy_files
from crates import crates_of, with_below
from schedule import schedule

CHANGES = TOP / "bench/changes"
PAGE = TOP / "docs/PROVING.md"
TABLE = re.compile(r"(<!-- made by bench/price\.py: prices -->\n)(?:\|.*\n)*")
STEPS = TOP / "docs/CHANGING.md"
# below a heading
PRICE = re.compile(r"(^## (.+)\n\n)\*\d+ processor minutes.+\n", re.MULTILINE)
# the heading of each change on the second page, and the contract that has the crates above it proved again
HEADINGS = {"event": "An event", "format": "A printed format", "function": "An expression function", "key": "A key of a section",
            "message": "A message", "property": "A field of a context", "rule": "A rule"}
SECTIONS, PRINTED = "`shape_faults` (`al_tree`): the table of sections", "`write_fault` (`al_text`): each printed byte"
HOLDERS = {"event": SECTIONS, "format": PRINTED, "function": "`signature_of` (`al_expr_names`): the table of functions", "key": SECTIONS,
           "message": PRINTED, "property": "`github_type` (`al_check_objects`): its fields",
           "rule": "`fault_list` (`al_base`): the order of codes"}
REPLACEMENT = re.compile(r"file: (.+)\n(old|all): (.+)\n((?:new: .*\n)+)")
# a crate, and the seconds of its proof, its tests and its edits
SECONDS = re.compile(r"^(\w+): (\d+) (\d+) (\d+)$", re.MULTILINE)
PROCESSORS = 4
COMMENTS = {".rt": "//", ".antt": "--"}


@dataclass(frozen=True)
class Replacement:
    """A text in the files of a pattern, and what stands there after the change."""

    paths: str
    old: str
    new: str
    is_everywhere: bool

    def make(self, texts: dict[pathlib.Path, str]) -> None:
        """Makes the replacement in the texts of changed files, to which it adds others."""
        files = {it: texts.get(it) or it.read_text() for it in TOP.glob(self.paths)}
        count = sum(text.count(self.old) for text in files.values())
        if count != 1 and not (count and self.is_everywhere):
            sys.exit(f"this occurs {count} times in {self.paths}: {self.old}")
        texts.update({it: text.replace(self.old, self.new) for it, text in files.items() if self.old in text})


def replacements(name: str) -> list[Replacement]:
    """The replacements of a change."""
    text = (CHANGES / f"{name}.change").read_text()
    rows = REPLACEMENT.findall(text)
    if not rows or REPLACEMENT.sub("", text):
        sys.exit(f"bench/changes/{name}.change isn't a list of replacements")
    return [Replacement(paths, old, new[5:-1].replace("\nnew: ", "\n"), how == "all") for paths, how, old, new in rows]


def changed_texts(name: str) -> dict[pathlib.Path, str]:
    """The files that a change changes, with their new texts."""
    texts: dict[pathlib.Path, str] = {}
    for it in replacements(name):
        it.make(texts)
    return texts


def make(name: str, room: pathlib.Path) -> None:
    """Makes a change in a copy."""
    for file, text in changed_texts(name).items():
        (room / file.relative_to(TOP)).write_text(f"{text}{COMMENTS[file.suffix]} {time.time_ns()}\n")


def crates_again(name: str) -> set[str]:
    """The crates that a change has proved again: those that change, and those above them."""
    named = crates_of(TOP)
    changed = {it.relative_to(TOP / "crates").parts[0] for it in changed_texts(name)}
    return {it for it in named if changed & set(with_below(named, it))}


@dataclass(frozen=True)
class Price:
    """What a change costs by the noted seconds: how many crates are proved again, the minutes of their proofs, tests and edits on one
    processor, and those until the program is built."""

    crates: int
    parts: tuple[float, ...]
    built: float

    @property
    def together(self) -> float:
        return sum(self.parts)


def price_of(name: str) -> Price:
    """The price of a change."""
    seconds = {it: took for it, *took in SECONDS.findall((TOP / "tools/proof_seconds.txt").read_text())}
    again = crates_again(name)
    parts = tuple(sum(int(seconds[it][part]) for it in again if it in seconds) / 60 for part in range(3))
    return Price(len(again), parts, schedule(TOP, again, PROCESSORS)["actionlint"] / 60)


def table_of(prices: dict[str, Price]) -> str:
    """The table of prices."""
    lines = ["| Change | Crates | Proofs | Tests | Edits | Together | Until built | Held by |", "|---|--:|--:|--:|--:|--:|--:|---|"]
    for name, price in prices.items():
        minutes = (*price.parts, price.together, price.built)
        lines.append(" | ".join([f"| {name}", str(price.crates), *(f"{it:.0f}" for it in minutes), HOLDERS[name]]) + " |")
    return "".join(f"{it}\n" for it in lines)


def line_of(price: Price) -> str:
    """What a page says of the price of a change."""
    return f"*{price.together:.0f} processor minutes; {price.built:.0f} minutes until the program is built.*\n"


def pages_with(prices: dict[str, Price]) -> dict[pathlib.Path, str]:
    """The pages with these prices. Exits if one lacks the place of a price."""
    page, steps = PAGE.read_text(encoding="utf-8"), STEPS.read_text(encoding="utf-8")
    changes = {HEADINGS[name]: price for name, price in prices.items()}
    if not TABLE.search(page) or sorted(it[2] for it in PRICE.finditer(steps)) != sorted(changes):
        sys.exit("a page lacks the place of a price, or has one of another change")
    return {PAGE: TABLE.sub(lambda it: it[1] + table_of(prices), page), STEPS: PRICE.sub(lambda it: it[1] + line_of(changes[it[2]]), steps)}


def check(names: list[str], is_written: bool) -> int:
    """Looks whether all changes can be made, and whether the pages have their prices, or writes these."""
    made = pages_with({name: price_of(name) for name in names})
    if is_written:
        for page, text in made.items():
            page.write_text(text, encoding="utf-8")
    elif any(page.read_text(encoding="utf-8") != text for page, text in made.items()):
        print("a page doesn't have the prices by the noted seconds: python3 bench/price.py --write renews them")
        return 1
    return 0


def minutes_of(steps: dict[tuple[str, str], Step]) -> tuple[int, float]:
    """How many crates were proved, and the processor minutes of all steps."""
    return len({crate for crate, step in steps if step == "proof"}), sum(it.total() for it in steps.values()) / 60


def measure(name: str) -> int:
    """Makes a change in a copy, runs the kit's gate there and prints what it took; returns the gate's status."""
    with tempfile.TemporaryDirectory(prefix="actionlint-price-") as folder:
        room = pathlib.Path(folder)
        copy_files(room)
        make(name, room)
        commit(room)
        before = resource.getrusage(resource.RUSAGE_CHILDREN)
        with open(room.parent / f"{room.name}.log", "wb") as log:
            status, steps, elapsed = watch(["rt", "ci"], room, log)
        after = resource.getrusage(resource.RUSAGE_CHILDREN)
        whole = (after.ru_utime + after.ru_stime - before.ru_utime - before.ru_stime) / 60
        crates, seen = minutes_of(steps)
        print(f"| {name} | {crates} | {whole:.1f} ({seen:.1f} seen) | {elapsed / 60:.1f} |", flush=True)
        if status:
            print(f"{name}: rt ci ends with {status}; {log.name} has what it said", file=sys.stderr)
        else:
            os.remove(log.name)
        return status


def main() -> int:
    every = sorted(it.stem for it in CHANGES.glob("*.change"))
    parser = argparse.ArgumentParser(description="Says what changes cost to prove.")
    parser.add_argument("changes", nargs="*", metavar="CHANGE", default=every, help="one of " + ", ".join(every))
    parser.add_argument("--check", action="store_true", help="looks whether the changes can be made, and at the prices on pages")
    parser.add_argument("--write", action="store_true", help="writes the prices by the noted seconds")
    given = parser.parse_args()
    if given.check or given.write:
        return check(every, given.write)
    os.sched_setaffinity(0, sorted(os.sched_getaffinity(0))[:PROCESSORS])
    print("| Change | Crates proved again | Processor minutes | Minutes |\n|---|--:|--:|--:|")
    return max(measure(name) for name in given.changes)


if __name__ == "__main__":
    sys.exit(main())
