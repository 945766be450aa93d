"""Refuses each allocation of the linter in turn: growths.py [--choose], after ./test, or after `rt test` in crates/al_tests. Runs the
program that was built here, otherwise the carried one. Needs a C compiler and objdump.

A library made from tests/growths.c is loaded before a program. It counts the program's allocations, refuses the given ones, and notes the
places in the program (tests/places.py) that lead to them.

- A test of ten edits in a session (crates/al_tests) runs with each of its allocations refused: each refused edit leaves everything as it
  was, and is accepted when it is repeated, and a report stops before its first byte or is whole.
- The runs that tests/growth-runs names, among them the same edits as a script with a report after each and the folders of examples/, run
  with each allocation refused, alone and with all later ones: a run says that memory ran out, and its output is a prefix of the whole. The
  kit's `collect` reserves room in advance and goes on without it: such a run is the whole one.
- For each place in the project's crates that a run of tests/corpus.py reaches, an allocation of these runs was refused. --choose selects
  the runs again and does nothing else. Prints the number of places of each crate, and those of the project's crates without a refusal.
- The allocations of one edit are counted: other bytes for an action that a workflow calls, alone and beside 1,000 workflows that call
  absent actions. Beside the others it makes at most 64 more.
"""

import collections
import concurrent.futures
import os
import pathlib
import re
import subprocess
import sys
import tempfile
import typing

from corpus import TOP, all_runs
from places import Places
from running import CALLED, CALLER, CLEAN, SCRIPT, WORKFLOWS, built_program, put

PROGRAM = built_program()
TESTS = TOP / "crates" / "al_tests" / "out" / "al_tests_tests"
EDITS = "edits::edits_refused_for_memory_change_nothing"
TEN_EDITS = "tests/cases/edits/ten-with-a-loop"
CHOSEN = TOP / "tests" / "growth-runs"
NO_MEMORY = b"actionlint: out of memory\n"
MOST = 64
BESIDE = 1_000


class Ran(typing.NamedTuple):
    """What a run did: its status, output and errors, the number of its allocations, and the places that led to them."""

    status: int
    out: bytes
    errors: bytes
    growths: int
    places: frozenset

    def says(self):
        """What a user sees of it."""
        return self.status, self.out, self.errors


class Refusals(typing.NamedTuple):
    """Results of runs with refused allocations: the number of allocations, how many of the runs ended otherwise than the whole one, which
    of those were wrong, and the places at which an allocation was refused."""

    growths: int
    stopped: int
    wrong: list
    places: frozenset


class Growths:
    """Runs a program whose allocations are counted, and recorded if its frames are given."""

    def __init__(self, folder, program, frames=None):
        self.program, self.frames = program, pathlib.Path(folder) / "frames"
        self.library = pathlib.Path(folder) / "growths.so"
        source = pathlib.Path(__file__).resolve().parent / "growths.c"
        subprocess.run(["cc", "-O1", "-shared", "-fPIC", "-o", self.library, source], check=True)
        self.env = {**os.environ, "LD_PRELOAD": str(self.library)}
        if frames is not None:
            self.frames.write_bytes(frames)
            self.env["GROWTH_FRAMES"] = str(self.frames)

    def run(self, words, stdin=b"", refused="0"):
        """A run with these allocations refused (the text is parsed by tests/growths.c). Its input is a file, so each run reads the same
        pieces."""
        env = {**self.env, "GROWTH": refused}
        with tempfile.TemporaryFile() as file:
            file.write(stdin)
            file.seek(0)
            done = subprocess.run([self.program, *words], cwd=TOP, stdin=file, env=env, capture_output=True, check=False)
        errors, _, told = done.stderr.rpartition(b"growths ")
        count, *places = told.split()
        if b"lost" in places:
            sys.exit(f"a stack of {words} isn't understood: {told[-40:]}")
        return Ran(done.returncode, done.stdout, errors, int(count), frozenset(int(it, 16) for it in places))

    def each(self, words, stdin, ways, holds):
        """Refuses each allocation of a run in these ways; a run that ends otherwise than the whole one is wrong unless this holds."""
        whole = self.run(words, stdin)

        def refuse(which):
            ran = self.run(words, stdin, which)
            ended = "whole" if ran.says() == whole.says() else "right" if holds(ran, whole) else "wrong"
            return which, ended, ran.places

        ends = in_turn(refuse, [way % number for number in range(1, whole.growths + 1) for way in ways])
        wrong = [which for which, ended, _ in ends if ended == "wrong"]
        stopped = sum(ended != "whole" for _, ended, _ in ends)
        return Refusals(whole.growths, stopped, wrong, frozenset().union(*(places for _, _, places in ends)))

    def of_script(self, commands):
        """The number of allocations of a script."""
        return self.run(SCRIPT, b"".join(commands)).growths


def in_turn(function, values):
    """The results of a function for each value, on all processors."""
    with concurrent.futures.ThreadPoolExecutor(os.cpu_count()) as pool:
        return list(pool.map(function, values))


def passes(ran, _):
    """Whether a test passed."""
    return ran.status == 0


def stops(ran, whole):
    """Whether a run stopped because memory ran out, its output a prefix of the whole."""
    return (ran.status, ran.errors) == (3, NO_MEMORY) and whole.out.startswith(ran.out)


def commands_in(script):
    """The commands of a script without its reports."""
    found, at = [], 0
    while at < len(script):
        head = re.compile(rb"put [^\n]* ([0-9]+)\n|[^\n]*\n").match(script, at)
        end = head.end() + (int(head[1]) + 1 if head[1] else 0)
        found.append(script[at:end])
        at = end
    return [it for it in found if it != b"report\n"]


def chosen(reached):
    """The names of runs that together reach each place that any run reaches: the ten edits and the folders, then repeatedly the one that
    reaches the most new places for its allocations, without those that the others make redundant."""
    found = [it for it in reached if it.startswith("examples/") or it == TEN_EDITS]
    count = len(found)
    left = set().union(*(it.places for it in reached.values())).difference(*(reached[it].places for it in found))
    while left:
        found.append(max(reached, key=lambda it: len(reached[it].places & left) / reached[it].growths))
        left -= reached[found[-1]].places
    for name in found[count:]:
        others = [it for it in found if it != name]
        if reached[name].places <= set().union(*(reached[it].places for it in others)):
            found = others
    return found


def project_crates():
    """The names of the project's crates."""
    return {line.split(":")[0] for line in (TOP / "crates.txt").read_text().split("\n") if ":" in line}


def tell_places(names, refused):
    """Prints the number of places of each crate, at how many an allocation was refused, and the remaining ones of the project's crates."""
    project = project_crates()
    crates = collections.Counter(name.split("::")[0] for name in names.values())
    those = collections.Counter(names[it].split("::")[0] for it in refused)
    for crate in sorted(crates):
        print(f"  {crate}: {crates[crate]} places, a growth refused under {those[crate]}")
    left = collections.Counter(name for place, name in names.items() if place not in refused and name.split("::")[0] in project)
    print("places of the project's crates under which no growth was refused:", sum(left.values()))
    for name, count in sorted(left.items()):
        print(f"  {count} of {name}")


def refused_in_turn(growths, runs, names):
    """Refuses the allocations of the named runs and prints what went wrong; returns whether all went well, and the places."""
    well, total, places = True, 0, set()
    for name in names:
        done = growths.each(*runs[name], ["%d", "%d-"], stops)
        print(f"{name}: {done.growths} growths, each refused; {done.stopped} runs stop; wrong: {done.wrong}", flush=True)
        well = well and 0 < done.stopped and not done.wrong
        total += done.growths
        places |= done.places
    print(f"{len(names)} runs: {total} growths, each refused alone, and with all later ones")
    return well, places


def refused_everywhere(growths, runs, names, places):
    """Refuses allocations at all places that any run reaches; returns whether all went well and no place is missing."""
    reached = dict(zip(runs, in_turn(lambda it: growths.run(*runs[it]), runs)))
    well, refused = refused_in_turn(growths, runs, names)
    tell_places(places.names, refused)
    project = project_crates()
    ours = {it for ran in reached.values() for it in ran.places if places.names.get(it, "").split("::")[0] in project}
    for place in sorted(ours - refused):
        name = next(it for it, ran in reached.items() if place in ran.places)
        print(f"{name} reaches a place of {places.names.get(place)} that no chosen run does: choose again")
        well = False
    return well


def growths_of_an_edit(growths, count):
    """How many allocations other bytes for a called action cause beside this many files: a script with the edit minus one without."""
    absent = lambda number: CLEAN.replace(b"run: echo", b"uses: ./x%d" % number)
    before = [put(f"{WORKFLOWS}/{number}.yml", absent(number)) for number in range(1, count + 1)]
    before += [put(f"{WORKFLOWS}/c.yml", CALLER), put("a/action.yml", CALLED)]
    edit = put("a/action.yml", CALLED.replace(b"description: d", b"description: e"))
    return growths.of_script([*before, edit]) - growths.of_script(before)


def counted(growths, script):
    """Prints the number of allocations of each edit; returns whether one edit makes few more beside many files."""
    edits = commands_in(script)
    sums = [growths.of_script(edits[:count]) for count in range(len(edits) + 1)]
    print("growths of each of the ten edits:", *(after - before for before, after in zip(sums, sums[1:])))
    alone, beside = growths_of_an_edit(growths, 0), growths_of_an_edit(growths, BESIDE)
    print(f"growths of an edit: {alone} alone, {beside} beside {BESIDE} files that call absent ones")
    return 0 < alone and beside <= alone + MOST


def in_a_session(growths):
    """Refuses each allocation of ten edits; returns whether all went well."""
    done = growths.each([EDITS], b"", ["%d"], passes)
    print(f"ten edits in a session: {done.growths} growths, each refused in turn; wrong: {done.wrong}", flush=True)
    return done.growths > 0 and not done.wrong


def main(words):
    """Counts and refuses; the status is 1 if a run went wrong, a place is missing or an edit allocates too often."""
    places = Places(PROGRAM)
    with tempfile.TemporaryDirectory() as folder:
        runs = all_runs(folder)
        growths = Growths(folder, PROGRAM, places.frames)
        if words == ["--choose"]:
            reached = dict(zip(runs, in_turn(lambda it: growths.run(*runs[it]), runs)))
            CHOSEN.write_text("".join(f"{it}\n" for it in chosen(reached)))
            return 0
        names = CHOSEN.read_text().split("\n")[:-1]
        parts = [in_a_session(Growths(folder, TESTS)), refused_everywhere(growths, runs, names, places)]
        return 0 if all([*parts, counted(growths, runs[TEN_EDITS][1])]) else 1


if __name__ == "__main__":
    sys.exit(main(sys.argv[1:]))
