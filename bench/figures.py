"""The rows of docs/SPEED.md whose figures the scripts of bench/ give: which script measured each cell, and how it is written.

A row is found by the words in its first cell, and its cells by the heads of their columns.
"""

import math
import sys
from typing import Callable, NamedTuple

from common import TOP

sys.path.insert(0, str(TOP / "tests"))
from limited_folders import LIMITED_FOLDERS
from products import FOLDERS  # type: ignore[attr-defined]  # of tests/: mypy takes it for bench/products.py

# What the scripts have told: by script, then by what is measured, then by the name of the figure.
Found = dict[str, dict[str, dict[str, float]]]
Figure = Callable[[Found], float]

MIB = 1 << 20
# folders of tests/products.py that have a row of their own
OWN_ROWS = ("30000-calls-of-40000-optional-inputs", "14000-calls-at-one-place-of-24900-inputs", "2400-calls-that-lack-1000-inputs",
            "30000-aliases-of-a-step-that-lacks-1000-inputs")
# and of tests/limited_folders.py
TREE, OWN_ACTIONS = "sets-of-mappings-of-a-tree-by-3000-paths", "4000-steps-that-call-an-action-with-100-outputs-each"


class Cell(NamedTuple):
    """A cell: figures, the form of each, what stands between them, and the words around them."""

    figures: tuple[Figure, ...]
    form: Callable[[float], str]
    between: str = "; "
    words: str = "{}"

    def text(self, found: Found) -> str:
        """What the cell says. Raises KeyError if a figure wasn't measured."""
        values = [figure(found) for figure in self.figures]
        if self.between == " to ":
            values = [min(values), max(values)]
        texts = [self.form(value) for value in values]
        if len(set(texts)) == 1:
            texts = texts[:1]
        # a unit that all have is written once
        units = {text.partition(" ")[2] for text in texts}
        if len(units) == 1 and len(texts) > 1:
            texts = [*(text.partition(" ")[0] for text in texts[:-1]), texts[-1]]
        return self.words.format(self.between.join(texts))


def rounded(value: float) -> str:
    """A number with two significant digits."""
    two = float(f"{value:.2g}")
    return f"{two:,.{max(0, 1 - math.floor(math.log10(two))) if two > 0 else 0}f}"


def seconds(value: float) -> str:
    for least, factor, unit in ((0.01, 1, "s"), (1e-4, 1e3, "ms")):
        if value >= least:
            return f"{rounded(value * factor)} {unit}"
    return f"{rounded(value * 1e6)} µs"


def times(value: float) -> str:
    return f"{rounded(value)} times"


def plain(value: float) -> str:
    return rounded(value)


def mebibytes(value: float) -> str:
    return f"{rounded(value / MIB)} MiB"


def size(value: float) -> str:
    return f"{rounded(value / 1e3)} KB" if value < 1e6 else f"{rounded(value / 1e6)} MB"


def millions(value: float) -> str:
    return f"{value:.0f} M"


def of(script: str, what: str, key: str = "this") -> Figure:
    """A figure of a script."""
    return lambda found: found[script][what][key]


def each(script: str, whats: tuple[str, ...], key: str = "this") -> tuple[Figure, ...]:
    return tuple(of(script, what, key) for what in whats)


def ratio(script: str, what: str, to: str, key: str = "this") -> Figure:
    """A figure divided by another one of the same measurement."""
    return lambda found: found[script][what][key] / found[script][what][to]


def to_libyaml(script: str, *whats: str) -> tuple[Figure, ...]:
    return tuple(ratio(script, what, "libyaml") for what in whats)


def per_megabyte(what: str, program: str) -> Figure:
    """The instructions of a program for a megabyte, in millions."""
    return lambda found: found["lint"][what][f"instructions of {program}"] / found["lint"][what]["size"] * 1e6


def run(what: str, yamllint: str | None = None) -> dict[str, Cell]:
    """The cells of a run of bench/lint.py."""
    cells = {"Size": Cell((of("lint", what, "size"),), size), "Takes": Cell((of("lint", what),), seconds),
             "Against libyaml": Cell(to_libyaml("lint", what), times)}
    return cells | ({"yamllint": Cell((of("lint", yamllint, "yamllint"),), seconds)} if yamllint else {})


def growing(script: str, *whats: str, memory: str | None = None) -> dict[str, Cell]:
    """The cells of shapes whose time is that of their check."""
    cells = {"Time": Cell(each(script, whats), seconds), "Twice": Cell(each(script, whats, "growth"), plain, " to ")}
    return cells | ({"Memory": Cell((of("memory", memory, "memory"),), mebibytes)} if memory else {})


def reading(*whats: str, between: str = " to ") -> dict[str, Cell]:
    """The cells of shapes that are only read."""
    return {"Time": Cell(to_libyaml("yaml", *whats), plain, between, "{} of libyaml's"),
            "Twice": Cell(each("yaml", whats, "growth"), plain, " to ")}


def product(*names: str) -> dict[str, Cell]:
    """The cells of folders of tests/products.py and tests/limited_folders.py."""
    return {"Time": Cell(each("products", names), seconds, " to "), "Memory": Cell(each("products", names, "memory"), mebibytes, " to ")}


def big(what: str) -> dict[str, Cell]:
    """The cells of a folder of bench/memory.py."""
    return {"Time": Cell((of("memory", what),), seconds), "Memory": Cell((of("memory", what, "memory"),), mebibytes)}


def asked(*whats: str) -> dict[str, Cell]:
    """The cells of what an editor asks for."""
    return {"Median": Cell(each("clients", whats, "median"), seconds), "p99": Cell(each("clients", whats, "p99"), seconds)}


EDIT = "put of other bytes, no file calls it"
LARGE_CALLERS = tuple(f"edit of an interface: {count} large callers" for count in (10, 100, 1_000))
CYCLE, CHAIN = "report: a ring, one after another", "report: a chain, one after another"
ROWS: dict[str, dict[str, Cell]] = {
    "a run on a workflow of 6 jobs": run("a folder of 1 workflows", "1 workflows of 6 jobs"),
    "reading a workflow, without checks": {"Against libyaml": Cell(to_libyaml("yaml", "a workflow"), times)},
    "a run on a workflow of 1,336 jobs of the usual kind": run("1,336 jobs of the usual kind", "1 workflows of 1,336 jobs"),
    "the same with names in Cyrillic": run("the same with names in Cyrillic"),
    "a run on a workflow of 16,000 steps with an expression each": run("16,000 steps with an expression each"),
    "a repository of 200 workflows": run("a folder of 200 workflows", "200 workflows of 6 jobs"),
    "a repository of 1,000 workflows of 4 KB": {"Takes": Cell((of("folder", "workflows"),), seconds)},
    "a repository of 4,096 workflows, the most that are taken": run("a folder of 4,096 workflows"),
    "an edit of a small file in a session, alone or beside 4,095 files that don't call it":
        {"Takes": Cell(each("session", (f"{EDIT}: 0", f"{EDIT}: 4095")), seconds, " to ")},
    "an edit of one of 200 workflows of 5 jobs, which is read and checked as a whole":
        {"Takes": Cell((of("session", "put of other bytes of a usual workflow, beside others: 200"),), seconds)},
    "an edit of a workflow with 200 expressions": {"Takes": Cell((of("session", LARGE_CALLERS[0], "put"),), seconds)},
    "an edit that changes what callers see, for each of 10 to 1,000 callers with 200 expressions":
        {"Takes": Cell(each("session", LARGE_CALLERS), seconds, " to ")},
    "putting a file in front of 1,024; of 4,095 others, and deleting it":
        {"Takes": Cell(each("session", tuple(f"put of a new first path, and its delete: {it}" for it in ("1024", "4095"))), seconds)},
    "instructions for a megabyte of usual jobs, and libyaml's":
        {"Takes": Cell(tuple(per_megabyte("1,336 jobs of the usual kind", it) for it in ("this", "libyaml")), millions)},
    "one small file, against a program that only reads it, and libyaml's":
        {"Takes": Cell(tuple(ratio("lint", "one file of 4 KB", "read", it) for it in ("this", "libyaml")), times)},

    "a plain scalar or a comment on one line; keys; items in brackets":
        reading("plain scalar, one line", "comments", "keys", "items in brackets, one line"),
    "block scalars; blank lines; a plain scalar in lines of three bytes; escapes":
        reading("block scalar, lines of four bytes", "blank lines in one collection", "plain scalar, lines of three bytes",
                "double-quoted scalar, escapes"),
    "49,000 anchors of different names, each with an alias": reading("anchors and aliases of other names"),
    "90,000 nodes that aliases stand for, in 35 KB":
        {"Time": Cell(to_libyaml("lint", "90,000 nodes by aliases"), plain, words="{} of libyaml's")},
    "49,000 keys of one mapping; one key 49,000 times":
        growing("growth", "env of 49,000 keys", "env of one key 49,000 times", memory="49,000 keys"),
    "10,000 jobs": growing("growth", "10,000 jobs"),
    "4,000 jobs in a chain of `needs`; in a cycle": growing("growth", "a chain of 4,000 jobs", "a cycle of 4,000 jobs"),
    "200 jobs, each of which needs all others (entries grow fourfold)": growing("growth", "200 jobs that need all"),
    "10,000 steps with ids; a matrix of 10,000 rows, all excluded":
        growing("growth", "10,000 steps with ids", "10,000 rows of a matrix, excluded"),
    "12,000 expressions on the steps before; 10,000 on needed jobs":
        growing("growth", "expressions on 3,000 steps", "expressions on 2,000 jobs"),
    "5,000 inputs, each read; 40 expressions of 21,000 bytes":
        {"Time": Cell(to_libyaml("lint", "5,000 inputs, each read", "40 expressions of 21,000 bytes"), plain, words="{} of libyaml's")},
    "a caller that gives 10,000 inputs to an action; to a workflow":
        growing("growth", "a step that gives 10,000 inputs", "a job that gives 10,000 inputs"),
    "32,000 calls in a megabyte; one `uses` of a megabyte": growing("growth", "a megabyte of 32,000 calls", "a step's uses of a megabyte"),
    "a workflow with 4,000 actions of its own; one that calls 2,000 workflows":
        growing("folder", "actions of one workflow", "workflows called by a.yml"),
    "the same 2,000 actions as a script, callers first, against called files first":
        {"Time": Cell((ratio("folder", "a workflow with 2,000 actions", "called_first", "callers_first"),), times)},
    "200 workflows that share ten actions, callers first":
        {"Time": Cell((ratio("folder", "200 workflows with 10 shared actions", "called_first", "callers_first"),), times)},
    "each other folder of `tests/products.py`: thousands of expressions or jobs on what thousands of others have in common":
        product(*(name for name in FOLDERS if name not in OWN_ROWS)),
    "3,000 expressions by different paths through a tree of mappings": product(TREE),
    "4,000 steps that call an action of their own with 100 outputs each, and 16,000 expressions on all these": product(OWN_ACTIONS),
    "each other folder of `tests/limited_folders.py`: sets of objects, names and hashes that are equal but for little":
        product(*(name for name in LIMITED_FOLDERS if name not in (TREE, OWN_ACTIONS))),
    "30,000 calls of an action with 40,000 optional inputs": product(OWN_ROWS[0]),
    "14,000 calls that each give a different one of 24,900 required inputs": product(OWN_ROWS[1]),
    "2,400 calls that each lack 1,000 required inputs: 196 MB of report": product(OWN_ROWS[2]),
    "33,000 steps that call as many missing actions": big("33,000 steps that call absent actions"),
    "4,096 files in one call cycle": big("4,096 files in one call cycle"),
    "a report on these, against one with as many other faults; on a chain":
        {"Time": Cell(tuple(ratio("session", it, "without") for it in (CYCLE, CHAIN)), times)},
    "a hundred files of 300 KB with 99,900 faults each, which are kept until the report": big("a hundred files of 99,900 faults"),
    "a hundred files of 99,000 numbers each, without a fault": big("a hundred files of 99,000 numbers"),
    "19,000 steps with expressions in one file": {"Memory": Cell((of("memory", "19,000 steps with expressions", "memory"),), mebibytes)},
    "99,000 faults on one line after 740,000 spaces; on lines of their own":
        {"Time": Cell(each("report", ("faults on one line", "faults on lines of their own")), seconds)},

    "an edit of one of 200 workflows of 3.4 KB with a fault each; with 10 faults each":
        asked("an edit of one workflow, 1", "an edit of one workflow, 10"),
    "an edit beside 4,095 small workflows without faults; with a fault each":
        asked("an edit beside 4,095 small workflows", "an edit beside 4,095 with a fault each"),
    "an edit of the interface of an action that all 200 workflows call, 20 times each": asked("an edit of the interface, 1"),
    "completion of keys; of properties; of actions of the folder":
        asked("completion of keys", "completion of properties", "completion of actions"),
    "hovering over a key; a property; the definition of a call": asked("hover of a key", "hover of a property", "definition of a call"),
    "a script of 368 KB in pieces that look like calls: start; an edit":
        {"Median": Cell(tuple(of("clients", "a script of pieces that look like calls", it) for it in ("start", "edit")), seconds)},
    "16,000 calls of missing actions: start; an edit; hovering":
        {"Median": Cell(tuple(of("clients", "calls of actions that aren't there", it) for it in ("start", "edit", "hover")), seconds)},
    "20,000 faults on one line: start; an edit":
        {"Median": Cell(tuple(of("clients", "faults on one line", it) for it in ("start", "edit")), seconds)},
    "600 calls that lack 1,000 inputs each: start; an edit":
        {"Median": Cell((of("clients", "start and memory of 600 calls that lack 1,000 inputs each", "start"),
                         of("clients", "600 calls that lack 1,000 inputs each", "median")), seconds)},
    "2,000 buffers that are opened at once, until all are shown": {"Median": Cell((of("clients", "2,000 buffers opened"),), seconds)},
    "1,000 folders of five workflows and an action with `actionlint-report`, four at a time":
        {"Median": Cell((of("clients", "folders"),), seconds)},
    "500 such clones by the commands for an organisation ([CI](CI.md#many-repositories))":
        {"Median": Cell((of("organisation", "clones"),), seconds)},
}
