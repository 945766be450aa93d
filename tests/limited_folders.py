"""Folders and a script whose lint has limits of its own, of processor time and of memory, and the report on each. Like those of
tests/products.py, each ends with a fault: a program that looks at nothing there reports nothing.

They make sets of objects equal along many paths, names and hashes equal but for a few bytes, and callers that have to be compared.
"""

import random
from itertools import islice, product
from typing import Callable, NamedTuple

from products import AT, STEPS, WORKFLOW, WRONG, matrix_of, position_of, reads, with_wrong_property
from running import CALLED, MISSING_INPUT, REPORT, put

MEGABYTE = 1_000_000


class Limited(NamedTuple):
    """What makes the files of a folder, by path, and the lines of its report, with the seconds and the bytes that its lint may take."""

    make: Callable
    seconds: int
    memory: int


def nested(depth):
    """A mapping this deep, in which each level has one key."""
    return b"{a: " * depth + b"1" + b"}" * depth


def equal_sets_by_many_paths():
    """Expressions by different paths, each of 30 steps by name or by `.*`, to what all values of a row have in common. Paths that follow
    one another differ in their first steps."""
    paths = islice(product((b".a", b".*[0]"), repeat=29), 6_000)
    expressions = [b"matrix.r%s.a" % b"".join(reversed(path)) for path in paths]
    steps = b"".join(b"      - run: ${{%s}}\n" % it for it in expressions)
    return matrix_of(b"r: [%s]" % b",".join([nested(30)] * 1_300), steps + reads(0, expressions[-1], b"a"))


def different_sets_by_many_paths():
    """Expressions by different paths through a tree of mappings; nearly each path ends at other mappings."""
    widths = (3, 3, 2, 2, 2, 2, 2, 3, 1, 2, 1, 3, 2, 1)
    names = b"abc"

    def value(level):
        if level == len(widths):
            return b"1"
        return b"{%s}" % b",".join(b"%c: %s" % (name, value(level + 1)) for name in names[:widths[level]])

    rows = b",".join(b"%c: [%s]" % (name, value(1)) for name in names[:widths[0]])
    chosen = random.Random(4711)
    step = lambda width: b".*[0]" if chosen.random() < 0.6 else b".%c" % chosen.choice(names[:width])
    expressions = [b"matrix" + b"".join(map(step, widths)) for _ in range(3_000)]
    return matrix_of(rows, b"".join(b"      - run: ${{%s}}\n" % it for it in expressions) + reads(0, b"matrix.a.a.a", b"a.a"))


def many_operands():
    """Expressions that read, 50 levels deep, what 800 rows of a matrix have in common."""
    rows = b",".join(b"r%03d: [%s]" % (number, nested(50)) for number in range(800))
    operands = b"||".join(b"matrix.r%03d" % number for number in range(800))
    return matrix_of(rows, reads(78, b"(%s)%s" % (operands, b".a" * 50), b"a"))


def names_that_differ_near_their_ends():
    """Expressions with a name that differs from those of many mappings only in a few bytes before the last. The report has a line for
    each."""
    rows, name = range(27), b"n" * 270
    values = b",".join(b"r%02d: [{%s}]" % (row, b",".join(b"%s%02d%02dz: 1" % (name, row, key) for key in range(63))) for row in rows)
    read = b"(%s).%sqqqqz" % (b"||".join(b"matrix.r%02d" % row for row in rows), name)
    start = b"on: push\njobs:\n  a:\n    strategy: {matrix: {%s}}\n    runs-on: u\n    steps:\n" % values
    lines = range(7, 7 + 900)
    told = b'%%s%%d:%d: property "%sqqqqz" is not defined [expression]\n' % (read.index(b".n") + 18, name)
    return {WORKFLOW: start + b"      - run: ${{%s}}\n" % read * len(lines)}, b"".join(told % (AT, line) for line in lines)


def jobs_that_need_the_same():
    """Jobs that all need the same 300 jobs with many outputs, and share a script with 200 expressions on all these outputs."""
    names = b", ".join(b"c%03d" % number for number in range(300))
    outputs = lambda job: b", ".join(b"o%03d_%02d: x" % (job, number) for number in range(100))
    needed = b"".join(b"  c%03d: {runs-on: u, outputs: {p: x, %s}, steps: [{run: x}]}\n" % (job, outputs(job)) for job in range(300))
    read = b"contains(needs.*.outputs.p, 'x')"
    script = b"      - run: |\n" + b"          ${{ %s }}\n" % read * 200
    first = b"  z00:\n    needs: &n [%s]\n    runs-on: u\n    steps: &s\n" % names + script
    others = b"".join(b"  z%02d: {needs: *n, runs-on: u, steps: *s}\n" % number for number in range(1, 90))
    last = b"  z90:\n    needs: *n\n    runs-on: u\n    steps:\n" + reads(0, read, b"p")
    return with_wrong_property({WORKFLOW: b"on: push\njobs:\n" + needed + first + others + last})


def steps_that_call_actions_with_outputs():
    """Steps each of which calls an action of its own with 100 outputs, and after each some expressions on an output of all steps before
    it."""
    action = b"name: A\ndescription: d\noutputs: {p: {value: x}, %s}\nruns: {using: composite, steps: []}\n"
    outputs = lambda number: b", ".join(b"o%04d_%02d: {value: x}" % (number, output) for output in range(100))
    files = {f"a{number:04}/action.yml": action % outputs(number) for number in range(4_000)}
    read = b"   - run: ${{contains(steps.*.outputs.p,1)}}\n"
    steps = b"".join(b"   - {id: s%04d, uses: ./a%04d}\n" % (number, number) + read * 4 for number in range(4_000))
    workflow = b"on: push\njobs:\n  a:\n   runs-on: u\n   steps:\n" + steps + read.replace(b"outputs.p", b"outputs." + WRONG)
    return with_wrong_property(files | {WORKFLOW: workflow})


# Beginnings of paths of 43 and of 64 bytes. If the library's hash starts with its default seed, it is the last 8 of these bytes when it
# reaches them, and neither they nor the bytes after them count, up to the last 16 of the path.
CALLED_PREFIX = b"smemddgu7iduqm53" + b"+)^Z4sdS"
WORKFLOW_PREFIX = b".github/workflows/rwjfyku1db0epj" + b"I=e-C=6d"


def calls_with_equal_hashes():
    """Calls of actions that aren't there, whose paths have the same hash under the default seed."""
    names = islice(product("0123456789abcdefghijklmnopqrstuvwxyz", repeat=3), 21_000)
    steps = b"".join(b"      - uses: ./%s%sxxxxx\n" % (CALLED_PREFIX, "".join(name).encode()) for name in names)
    return with_wrong_property({WORKFLOW: STEPS + steps + reads(0, b"github.ref", b"ref")})


def workflows_with_equal_hashes():
    """As many workflows as a folder takes, whose paths have the same hash under the default seed. Each calls the ten after it, and the last
    one has a fault."""
    paths = [b"%s%08dxxxxxxxxxxxx.yml" % (WORKFLOW_PREFIX, number) for number in range(4_096)]
    start = b"on: workflow_call\njobs:\n  a: {runs-on: u, steps: [{run: x}]}\n"
    calls = lambda at: b"".join(b"  b%02d: {uses: ./%s}\n" % call for call in enumerate(paths[at + 1:at + 11]))
    files = {path.decode(): start + calls(at) for at, path in enumerate(paths)}
    wrong = start.replace(b"x}", b"'${{ github.%s }}'}" % WRONG)
    told = b'%s:%s: property "%s" is not defined [expression]\n' % (paths[-1], position_of(wrong, WRONG), WRONG)
    return files | {paths[-1].decode(): wrong}, told


LIMITED_FOLDERS = {
    "equal-sets-of-1300-mappings-by-6000-paths": Limited(equal_sets_by_many_paths, 1, 60 * MEGABYTE),
    "sets-of-mappings-of-a-tree-by-3000-paths": Limited(different_sets_by_many_paths, 10, 50 * MEGABYTE),
    "78-times-800-operands-50-levels-deep": Limited(many_operands, 1, 60 * MEGABYTE),
    "900-names-that-differ-near-their-ends": Limited(names_that_differ_near_their_ends, 1, 60 * MEGABYTE),
    "90-jobs-with-200-expressions-that-need-the-same-300": Limited(jobs_that_need_the_same, 1, 60 * MEGABYTE),
    "4000-steps-that-call-an-action-with-100-outputs-each": Limited(steps_that_call_actions_with_outputs, 6, 400 * MEGABYTE),
    "21000-calls-with-equal-hashes": Limited(calls_with_equal_hashes, 2, 120 * MEGABYTE),
    "4096-workflows-with-equal-hashes": Limited(workflows_with_equal_hashes, 2, 120 * MEGABYTE),
}


def edits_beside_many_calls():
    """A script with edits of an action that one step calls, beside 30,000 calls of an action with 40,000 inputs; then the first action
    requires an input. Returns its output too."""
    many = b"name: B\ndescription: d\ninputs: {%s}\nruns: {using: node20, main: m.js}\n" % b",".join(b"i%d:" % it for it in range(40_000))
    workflow = b"on: push\njobs: {a: {runs-on: u, steps: [%s,{uses: ./a}]}}\n" % b",".join([b"{uses: ./b}"] * 30_000)
    action = lambda inputs: put("a/action.yml", b"name: A\ndescription: d\ninputs: {%s}\nruns: {using: node20, main: m.js}\n" % inputs)
    edits = [action(b"i%d: {required: false}" % number) for number in range(10)]
    script = put("b/action.yml", many) + action(b"") + put(WORKFLOW, workflow) + b"".join(edits) + put("a/action.yml", CALLED) + REPORT
    place = position_of(workflow, b"./a")
    told = MISSING_INPUT.replace(b"c.yml:6:15", b"a.yml:" + place)
    return script, b"ok 1\n" * 3 + b"ok 2\n" * len(edits) + b"ok 2\n" + told + b"status 1\n"
