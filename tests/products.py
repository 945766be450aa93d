"""Folders for which a lint could take time or memory in proportion to the product of two counts, and the report on each. tests/hostile.py
compares the reports under a limit of memory, and bench/products.py measures them. Each folder has a fault, mostly in its last expression:
a program that looks at nothing there reports nothing.
"""

from itertools import islice, product

from running import CLEAN, WORKFLOWS

WORKFLOW = f"{WORKFLOWS}/a.yml"
AT = WORKFLOW.encode() + b":"

# an action that asks its callers for a thousand inputs
INPUTS = [b"i%03d" % number for number in range(1_000)]
ACTION = "a/action.yml"
ACTION_FILE = b"name: A\ndescription: d\ninputs:\n%sruns:\n  using: node20\n  main: m.js\n" % b"".join(
    b"  %s:\n    required: true\n" % name for name in INPUTS)
STEPS = CLEAN[: CLEAN.index(b"      - ")]
CALLED_ELSEWHERE = b"uses: o/r/.github/workflows/w.yml@v"


# a name that nothing in these folders has
WRONG = b"nope"


def position_of(data, text):
    """The line and the column of a text that occurs once in a file of ASCII characters, with a colon between them."""
    at = data.index(text)
    assert data.count(text) == 1
    return b"%d:%d" % (data.count(b"\n", 0, at) + 1, at - data.rfind(b"\n", 0, at))


def with_wrong_property(files):
    """The files of a folder whose workflow reads a property that isn't there, and the report about it."""
    place = position_of(files[WORKFLOW], WRONG)
    return files, AT + b'%s: property "%s" is not defined [expression]\n' % (place, WRONG)


def reads(count, expression, name):
    """Steps that read an expression, and a last one that reads a wrong property in place of this name in it."""
    before, _, after = expression.rpartition(name)
    step = b"      - run: ${{ %s }}\n"
    return step % expression * count + step % (before + WRONG + after)


def lacking(position, called, kind):
    """The report about a call at this line and column that gives nothing."""
    return b"".join(b'%s%s: required input "%s" of "%s" is missing [%s]\n' % (AT, position, name, called, kind) for name in INPUTS)


def with_outputs(count, jobs):
    """A workflow whose first job has this many outputs, followed by other jobs."""
    outputs = b", ".join(b"o%04d: x" % number for number in range(count))
    return {WORKFLOW: b"on: push\njobs:\n  a: {runs-on: u, outputs: {%s}, steps: [{run: x}]}\n" % outputs + jobs}


def reading_outputs(steps):
    """A job with 10,000 outputs, and steps of a job that needs it."""
    return with_wrong_property(with_outputs(10_000, b"  b:\n    needs: a\n    runs-on: u\n    steps:\n" + steps))


def last_of_many_outputs():
    """Expressions that read the last of many outputs."""
    return reading_outputs(reads(12_000, b"needs.a.outputs.o9999", b"o9999"))


def branches_with_many_outputs():
    """Expressions that read the last of the outputs that two branches have in common."""
    return reading_outputs(reads(12_000, b"(needs.a.outputs || needs.a.outputs).o9999", b"o9999"))


def operands_with_many_outputs():
    """Expressions with many operands that are objects with many outputs, each of which reads the last output."""
    operands = b" || ".join([b"needs.a.outputs"] * 1_000)
    return reading_outputs(reads(40, b"(%s).o9999" % operands, b"o9999"))


def fields_of_many_outputs(of):
    """Expressions on what all outputs of a job or of two branches have in common."""
    return reading_outputs(reads(12_000, b"contains(%s.*, 'x')" % of, b"*"))


def matrix_of(values, read=b"      - run: ${{ matrix.r.k00000 }} ${{ matrix.r.a.k09999 }} ${{ matrix.r.a.%s }}\n" % WRONG):
    """A workflow with a matrix that has these values in one row, and steps: by default one that reads a field of the first value and one of
    the last."""
    start = b"on: push\njobs:\n  a:\n    strategy: {matrix: {%s}}\n    runs-on: u\n    steps:\n"
    return with_wrong_property({WORKFLOW: start % values + read})


def mappings_of_a_row():
    """A row of a matrix whose values are mappings, each with a key of its own, and a mapping with such a key."""
    values = b", ".join(b"{k%05d: 1, a: {k%05d: 1}}" % (number, number) for number in range(10_000))
    return matrix_of(b"r: [%s]" % values)


def last_of_mappings_of_a_row():
    """Expressions that read the key of the last mapping in a row."""
    values = b", ".join(b"{k%05d: 1}" % number for number in range(10_000))
    return matrix_of(b"r: [%s]" % values, reads(12_000, b"matrix.r.k09999", b"k09999"))


def last_of_mappings_below_a_row():
    """Expressions that read a key of the last of many mappings, each one level below a value of a row."""
    values = b", ".join(b"{a: {k%05d: 1}}" % number for number in range(10_000))
    return matrix_of(b"r: [%s]" % values, reads(12_000, b"matrix.r.a.k09999", b"k09999"))


def all_of_a_mapping(read):
    """Expressions on what all of many mappings inside one mapping have in common."""
    values = b", ".join(b"k%05d: {x: 1}" % number for number in range(16_000))
    return matrix_of(b"a: [{%s}]" % values, reads(10_000, b"contains(%s, '1')" % read, b"x"))


def all_of_two_mappings():
    """Expressions on what all of many mappings have in common, half of them in each of two rows."""
    rows = b", ".join(b"%c: [{%s}]" % (row, b", ".join(b"%c%05d: {x: 1}" % (row, number) for number in range(8_000))) for row in b"ab")
    return matrix_of(rows, reads(10_000, b"contains(matrix.*[0].*.x, '1')", b"x"))


def mappings_of_includes():
    """A row of a matrix to which each of many combinations adds a mapping."""
    combinations = b", ".join(b"{r: {k%05d: 1, a: {k%05d: 1}}}" % (number, number) for number in range(10_000))
    return matrix_of(b"r: [{k: 1}], include: [%s]" % combinations)


def outputs_of_all_steps(count, times):
    """Expressions on the last output of many steps, each of which calls an action with many outputs."""
    steps = b"".join(b"      - {id: s%04d, uses: ./a}\n" % number for number in range(count))
    read = reads(times, b"contains(steps.*.outputs.o9999, 'x')", b"o9999")
    return with_wrong_property({WORKFLOW: STEPS + steps + read, ACTION: action_with_outputs()})


def outputs_of_called_jobs():
    """Expressions on the last output of many needed jobs, each of which calls a workflow with many outputs."""
    call = b"uses: ./%s/b.yml" % WORKFLOWS.encode()
    files, told = needed_jobs(4_000, call, b"contains(needs.*.outputs.o9999, 'x')", b"o9999")
    return files | {f"{WORKFLOWS}/b.yml": workflow_with_outputs()}, told


def scripts_full_of_stars():
    """Jobs that all need the same jobs with many outputs, each with a script that has an expression and stars outside of it."""
    needed = b"".join(b"  n%02d: {runs-on: u, outputs: {%s}, steps: [{run: x}]}\n" % (
        job, b", ".join(b"o%02d-%03d: x" % (job, number) for number in range(400))) for job in range(60))
    names = b", ".join(b"n%02d" % job for job in range(60))
    first = b"  j000: {needs: &n [%s], runs-on: u, steps: [{run: x}]}\n" % names
    script = b"          ${{ github.ref }} %s\n" % (b"*" * 1_700)
    jobs = b"".join(b"  j%03d:\n    needs: *n\n    runs-on: u\n    steps:\n      - run: |\n%s" % (job, script) for job in range(1, 401))
    last = b"      - run: ${{ needs.n59.outputs.%s }}\n" % WRONG
    return with_wrong_property({WORKFLOW: b"on: push\njobs:\n" + needed + first + jobs + last})


def deep_in_common(read, depth=3, width=7, count=40):
    """Expressions on what mappings in many rows of a matrix have in common, this deep inside others with this many entries."""
    def mapping(depth, name):
        if depth == 0:
            return b"{x: 1}"
        return b"{%s}" % b", ".join(b"%s%d: %s" % (name, number, mapping(depth - 1, b"%s%d_" % (name, number))) for number in range(width))
    rows = b", ".join(b"r%02d: [%s]" % (row, mapping(depth, b"k%02d_" % row)) for row in range(count))
    return matrix_of(rows, reads(9_000, b"contains(%s, '1')" % read, b"x"))


def paths_that_differ(value, rest, count=5_000, values=10_000, beside=b""):
    """Expressions on what the values of a mapping have in common, by different paths: each takes 13 steps by name or by `.*`. Each mapping
    on the way has a sibling that contains the same."""
    mapping = b"{%s}" % b", ".join(b"k%04d: %s" % (number, value) for number in range(values))
    for _ in range(13):
        mapping = b"{a: %s, b: {%s}}" % (mapping, beside)
    paths = islice(product((b".a", b".*[0]"), repeat=13), count)
    expressions = [b"contains(matrix.r%s%s, '1')" % (b"".join(path), rest) for path in paths]
    steps = b"".join(b"      - run: ${{ %s }}\n" % it for it in expressions)
    return matrix_of(b"r: [%s]" % mapping, steps + reads(0, expressions[0], b"x"))


def below(depth, value=b"{x: 1}"):
    """A value this deep below keys in mappings with one entry."""
    for _ in range(depth):
        value = b"{n: %s}" % value
    return value


def paths_and_names(depth, values):
    """Expressions by different paths, each followed by several names after what all values have in common."""
    return paths_that_differ(below(depth - 1), b".*" + b".n" * (depth - 1) + b".x", 4_500, values)


def names_after_brackets(depth, values, last):
    """Expressions that read by names, ending with this one, after brackets around what all values of a matrix have in common."""
    mapping = b"{%s}" % b", ".join(b"k%04d: %s" % (number, below(depth)) for number in range(values))
    return matrix_of(b"r: [%s]" % mapping, reads(1_800, b"contains((matrix.r.*)%s%s, '1')" % (b".n" * depth, last), last[1:] or b"n"))


def many_steps(count):
    """Steps, each with an id."""
    return STEPS + b"".join(b"      - {id: s%04d, run: x}\n" % number for number in range(count))


def branches_of_many_steps():
    """Expressions that read an output of the last of many steps, in two branches that are all of them."""
    return with_wrong_property({WORKFLOW: many_steps(6_000) + reads(10_000, b"(steps || steps).s5999.outputs.x", b"outputs.x")})


def steps_between_branches():
    """Steps each of which reads an output of the first one, in two branches that are all steps before it."""
    steps = b"".join(b"      - {id: t%04d, run: '${{ (steps || steps).s0000.outputs.x }}'}\n" % number for number in range(8_000))
    return with_wrong_property({WORKFLOW: many_steps(1) + steps + reads(0, b"(steps || steps).s0000.outputs", b"outputs")})


def needed_jobs(count, job, expression, name, times=None):
    """Jobs of this kind, and another that needs all of them, with this many expressions, by default one for each job, and one that reads a
    wrong property in place of this name."""
    names = [b"j%05d" % number for number in range(count)]
    jobs = b"".join(b"  %s: {%s}\n" % (name, job) for name in names)
    last = b"  z:\n    needs: [%s]\n    runs-on: u\n    steps:\n" % b", ".join(names) + reads(times or count, expression, name)
    return with_wrong_property({WORKFLOW: b"on: push\njobs:\n" + jobs + last})


def output_of_needed_jobs(expression, times, name=b"outputs.a"):
    """Expressions in a job that needs 6,000 jobs, each of which has an output with the same name."""
    return needed_jobs(6_000, b"runs-on: u, outputs: {a: x}, steps: [{run: x}]", expression, name, times)


def outputs_of_needed_jobs(expression, first=b""):
    """Expressions on an output of the last of many needed jobs, each with an output of its own, preceded by a job of this kind."""
    names = [b"j%04d" % number for number in range(5_000)]
    jobs = b"".join(b"  %s: {runs-on: u, outputs: {o%s: x}, steps: [{run: x}]}\n" % (name, name) for name in names)
    steps = reads(9_000, b"contains(%s.outputs.oj4999, 'x')" % expression, b"outputs.oj4999")
    last = b"  z:\n    needs: [a, %s]\n    runs-on: u\n    steps:\n" % b", ".join(names) + steps
    before = b"on: push\njobs:\n  a: {%s}\n" % (first or b"runs-on: u, steps: [{run: x}]")
    return with_wrong_property({WORKFLOW: before + jobs + last})


def outputs_of_many_steps():
    """Expressions on an output of all of many steps."""
    return with_wrong_property({WORKFLOW: many_steps(10_000) + reads(10_000, b"contains(steps.*.outputs.x, 'y')", b"outputs.x")})


def steps_with_all_before(count):
    """Steps each of which reads an output of all steps before it."""
    steps = b"".join(b"      - {id: t%05d, run: \"${{ contains(steps.*.outputs.x, 'y') }}\"}\n" % number for number in range(count))
    return with_wrong_property({WORKFLOW: many_steps(1) + steps + reads(0, b"contains(steps.*.outputs.x, 'y')", b"outputs.x")})


def steps_that_call_an_action_each(count):
    """Steps each of which calls an action of its own, and after each an expression on an output of all steps before it."""
    called = b"name: A\ndescription: d\noutputs: {o%04d: {value: x}, p: {value: x}}\nruns: {using: composite, steps: []}\n"
    files = {f"a{number:04}/action.yml": called % number for number in range(count)}
    step = b"      - {id: s%04d, uses: ./a%04d}\n      - run: ${{ contains(steps.*.outputs.p, 'x') }}\n"
    last = reads(0, b"contains(steps.*.outputs.p, 'x')", b"p")
    return with_wrong_property(files | {WORKFLOW: STEPS + b"".join(step % (number, number) for number in range(count)) + last})


def all_of_many_inputs():
    """Expressions on what all of many inputs have in common."""
    inputs = b", ".join(b"i%05d: {type: string}" % number for number in range(16_000))
    start = b"on: {workflow_call: {inputs: {%s}}}\n" % inputs
    return with_wrong_property({WORKFLOW: start + STEPS[STEPS.index(b"jobs:"):] + reads(10_000, b"contains(inputs.*, 'x')", b"*")})


def jobs_with_an_expression(expression):
    """Jobs that need one with many outputs, each with an expression."""
    job = b"  b%04d: {needs: [a, A], runs-on: u, steps: [{run: '%s'}]}\n"
    jobs = [job % (number, expression) for number in range(4_000)] + [job % (4_000, b"${{ needs.a.outputs.%s }}" % WRONG)]
    return with_wrong_property(with_outputs(4_000, b"".join(jobs)))


def jobs_that_call():
    """Jobs that need one with many outputs and call a workflow of another repository."""
    jobs = b"".join(b"  b%05d: {needs: a, %s}\n" % (number, CALLED_ELSEWHERE) for number in range(13_000))
    last = b"  z: {needs: a, runs-on: u, steps: [{run: '${{ needs.a.outputs.%s }}'}]}\n" % WRONG
    return with_wrong_property(with_outputs(10_000, jobs + last))


def last_key_of_a_mapping():
    """Expressions that read the last key of a mapping of a matrix."""
    keys = b", ".join(b"k%05d: 1" % number for number in range(20_000))
    return matrix_of(b"a: [{%s}]" % keys, reads(12_000, b"matrix.a.k19999", b"k19999"))


def chain_of_needs():
    """Jobs each of which needs the previous one."""
    first = b"on: push\njobs:\n  j00000: {%s}\n" % CALLED_ELSEWHERE
    others = b"".join(b"  j%05d: {needs: j%05d, %s}\n" % (number, number - 1, CALLED_ELSEWHERE) for number in range(1, 16_000))
    last = b"  z: {needs: j15999, runs-on: u, steps: [{run: '${{ needs.j15999.%s }}'}]}\n" % WRONG
    return with_wrong_property({WORKFLOW: first + others + last})


def calls_that_lack():
    """Calls each of which lacks a thousand inputs: the report has a line for each."""
    count = 2_400
    told = b"".join(lacking(b"%d:15" % (6 + number), b"A", b"action") for number in range(count))
    return {WORKFLOW: STEPS + b"      - uses: ./a\n" * count, ACTION: ACTION_FILE}, told


def calls_of_many_optional_inputs(steps):
    """Calls of an action with many optional inputs, in about as many nodes as a file can have; the last one gives another input."""
    inputs = b",".join(b"i%d:" % number for number in range(40_000))
    action = b"name: A\ndescription: d\ninputs: {%s}\nruns: {using: node20, main: m.js}\n" % inputs
    last = b"{uses: ./a, with: {%s: 1}}" % WRONG
    workflow = b"on: push\njobs: {a: {runs-on: u, steps: [%s]}}\n" % b",".join([*steps, last])
    told = b'%s%s: input "%s" is not defined in "A" [action]\n' % (AT, position_of(workflow, WRONG), WRONG)
    return {WORKFLOW: workflow, ACTION: action}, told


def aliases_of_a_call():
    """Aliases of a step that lacks a thousand inputs: the report has a line for each input."""
    steps = STEPS + b"      - &s\n        uses: ./a\n" + b"      - *s\n" * 30_000
    return {WORKFLOW: steps, ACTION: ACTION_FILE}, lacking(b"7:15", b"A", b"action")


def calls_at_one_place():
    """Calls that share the text of their `uses` by an alias, each of which gives another one of many inputs: the report has a line for each
    input, since no call gives all of them."""
    names = [b"i%05d" % number for number in range(24_900)]
    inputs = b", ".join(b"%s: {required: true}" % name for name in names)
    action = b"name: A\ndescription: d\ninputs: {%s}\nruns: {using: node20, main: m.js}\n" % inputs
    steps = b"".join(b"      - {uses: *u, with: {%s: 1}}\n" % name for name in names[:14_000])
    told = b"".join(b'%s6:18: required input "%s" of "A" is missing [action]\n' % (AT, name) for name in names)
    return {WORKFLOW: STEPS + b"      - uses: &u ./a\n" + steps, ACTION: action}, told


def calls_of_a_long_name(first, others, places):
    """Steps, and others after them, that give an input that an action with a long name doesn't have. The report has a line for each place
    of the input, by line and column."""
    name = b"a" * 900_000
    action = b"name: %s\ndescription: d\nruns: {using: node20, main: m.js}\n" % name
    steps = b"".join(b"      - %s\n" % step for step in first + others)
    told = b"".join(b'%s%s: input "x" is not defined in "%s" [action]\n' % (AT, place, name) for place in places)
    return {WORKFLOW: STEPS + steps, ACTION: action}, told


def aliases_of_two_steps():
    """Aliases of two steps with the same `uses` in turn."""
    steps = [b"&s {uses: &u ./a, with: {x: 1}}", b"&t {uses: *u, with: {x: 1}}"]
    return calls_of_a_long_name(steps, [b"*s", b"*t"] * 6_000, [b"6:34", b"7:30"])


def steps_that_give_one_mapping():
    """Steps, each with its own `uses`, that share what they give by an alias."""
    return calls_of_a_long_name([b"{uses: ./a, with: &w {x: 1}}"], [b"{uses: ./a, with: *w}"] * 10_000, [b"6:31"])


def all_of_many_outputs():
    """Expressions that are the object of many outputs."""
    return reading_outputs(b"      - run: ${{ toJSON(needs.a.outputs) }}\n" * 12_000 + reads(0, b"toJSON(needs.a.outputs.x)", b"x"))


def values(count):
    """The outputs of a called file."""
    return b", ".join(b"o%04d: {value: x}" % number for number in range(count))


def workflow_with_outputs():
    """A called workflow with many outputs."""
    return b"on: {workflow_call: {outputs: {%s}}}\njobs: {a: {runs-on: u, steps: [{run: x}]}}\n" % values(10_000)


def action_with_outputs():
    """A composite action with many outputs."""
    return b"name: A\ndescription: d\noutputs: {%s}\nruns: {using: composite, steps: []}\n" % values(10_000)


def jobs_that_call_one_with_many_outputs():
    """Jobs that call a workflow with many outputs, each with an expression."""
    jobs = b"".join(b"  b%04d: {uses: ./%s/b.yml, if: github.ref}\n" % (number, WORKFLOWS.encode()) for number in range(4_000))
    last = b"  z: {needs: b3999, runs-on: u, steps: [{run: '${{ needs.b3999.outputs.%s }}'}]}\n" % WRONG
    return with_wrong_property({WORKFLOW: b"on: push\njobs:\n" + jobs + last, f"{WORKFLOWS}/b.yml": workflow_with_outputs()})


def steps_that_call_one_with_many_outputs():
    """Steps that call a composite action with many outputs, each with an expression."""
    steps = b"".join(b"      - {id: s%04d, uses: ./a, if: github.ref}\n" % number for number in range(4_000))
    last = reads(0, b"steps.s3999.outputs.x", b"x")
    return with_wrong_property({WORKFLOW: STEPS + steps + last, ACTION: action_with_outputs()})


# by name: a function that makes a folder's files, by path, and the lines of its report
FOLDERS = {
    "last-of-10000-outputs-12000-times": last_of_many_outputs,
    "all-of-10000-outputs-12000-times": all_of_many_outputs,
    "12000-branches-with-10000-outputs": branches_with_many_outputs,
    "40000-operands-with-10000-outputs": operands_with_many_outputs,
    "fields-of-10000-outputs-12000-times": lambda: fields_of_many_outputs(b"needs.a.outputs"),
    "fields-of-12000-branches-with-10000-outputs": lambda: fields_of_many_outputs(b"(needs.a.outputs || needs.a.outputs)"),
    "10000-mappings-of-a-matrix-row": mappings_of_a_row,
    "last-of-10000-mappings-of-a-matrix-row-12000-times": last_of_mappings_of_a_row,
    "10000-includes-of-a-mapping": mappings_of_includes,
    "all-of-4000-steps-with-10000-outputs": lambda: outputs_of_all_steps(4_000, 1),
    "outputs-of-500-steps-with-10000-outputs-2000-times": lambda: outputs_of_all_steps(500, 2_000),
    "outputs-of-4000-steps-with-10000-outputs-4000-times": lambda: outputs_of_all_steps(4_000, 4_000),
    "outputs-of-4000-needs-with-10000-outputs-4000-times": outputs_of_called_jobs,
    "400-jobs-with-1700-stars-that-need-the-same-60": scripts_full_of_stars,
    "deep-in-common-9000-times": lambda: deep_in_common(b"matrix.*[0].*[0].*[0].*.x"),
    "deep-below-branches-in-common-9000-times": lambda: deep_in_common(b"(matrix || matrix).*[0].*[0].*[0].*.x"),
    "six-levels-in-common-9000-times": lambda: deep_in_common(b"matrix.*[0].*[0].*[0].*[0].*[0].*.x", 5, 4, 8),
    "in-common-by-5000-paths": lambda: paths_that_differ(b"{x: 1}", b".*.x"),
    "deep-in-common-by-5000-paths": lambda: paths_that_differ(b"{y: {x: 1}}", b".*[0].*.x"),
    "by-4500-paths-and-5-names": lambda: paths_and_names(5, 6_800),
    "by-4500-paths-and-6-names": lambda: paths_and_names(6, 5_800),
    "by-4500-paths-and-8-names": lambda: paths_and_names(8, 4_500),
    "in-common-by-8000-paths-that-meet-others": lambda: paths_that_differ(b"{x: 1}", b".*.x", 8_000, 6_000, b"c: {x: 1}"),
    "14-names-after-brackets": lambda: names_after_brackets(14, 2_900, b""),
    "9-names-after-brackets": lambda: names_after_brackets(8, 4_400, b".x"),
    "output-of-6000-needs-in-brackets": lambda: output_of_needed_jobs(b"contains((needs.*).outputs.a, 'x')", 3_000),
    "output-of-6000-needs-in-brackets-by-index": lambda: output_of_needed_jobs(b"contains((needs[*]).outputs.a, 'x')", 3_000),
    "output-of-6000-needs-in-branches-in-brackets": lambda: output_of_needed_jobs(
        b"contains(((needs || needs).*).outputs.a, 'x')", 3_000),
    "output-of-6000-needs-and-a-small-object-in-turn": lambda: output_of_needed_jobs(
        b"contains(needs.*.outputs.a || needs.*.outputs.a || needs.j00001.*, 'x')", 2_000, b"*"),
    "1300-operands-over-13000-needs": lambda: needed_jobs(
        13_000, CALLED_ELSEWHERE, b"(%s).outputs.a" % b"||".join([b"needs.*[0]"] * 1_300), b"outputs.a", 10),
    "last-of-9000-needs-9000-times": lambda: needed_jobs(9_000, CALLED_ELSEWHERE, b"needs.j08999.result", b"result"),
    "all-of-2000-needs-2000-times": lambda: needed_jobs(
        2_000, b"runs-on: u, steps: [{run: x}]", b"contains(needs.*.result, 'failure')", b"result"),
    "all-of-2000-needs-in-2000-branches": lambda: needed_jobs(
        2_000, b"runs-on: u, steps: [{run: x}]", b"contains((needs || needs).*.result, 'failure')", b"result"),
    "outputs-of-5000-needs-9000-times": lambda: outputs_of_needed_jobs(b"needs.*"),
    "outputs-of-5000-needs-in-9000-branches": lambda: outputs_of_needed_jobs(b"(needs || needs).*"),
    "outputs-of-5000-needs-and-of-a-call": lambda: outputs_of_needed_jobs(b"needs.*", CALLED_ELSEWHERE),
    "outputs-of-10000-steps-10000-times": outputs_of_many_steps,
    "15000-steps-with-all-before": lambda: steps_with_all_before(15_000),
    "4000-steps-that-call-an-action-each": lambda: steps_that_call_an_action_each(4_000),
    "all-of-16000-inputs-10000-times": all_of_many_inputs,
    "all-of-16000-mappings-10000-times": lambda: all_of_a_mapping(b"matrix.a.*.x"),
    "all-of-16000-mappings-of-all-rows-10000-times": lambda: all_of_a_mapping(b"matrix.*[0].*.x"),
    "all-of-16000-mappings-of-two-rows-10000-times": all_of_two_mappings,
    "last-of-10000-mappings-below-a-row-12000-times": last_of_mappings_below_a_row,
    "last-of-6000-needs-in-6000-branches": lambda: needed_jobs(6_000, CALLED_ELSEWHERE, b"(needs || needs).j05999.result", b"result"),
    "last-of-6000-steps-in-10000-branches": branches_of_many_steps,
    "8000-steps-with-branches-of-those-before": steps_between_branches,
    "last-of-20000-keys-12000-times": last_key_of_a_mapping,
    "4000-jobs-that-need-4000-outputs": lambda: jobs_with_an_expression(b"${{ github.ref }}"),
    "4000-jobs-that-read-one-of-4000-outputs": lambda: jobs_with_an_expression(b"${{ needs.a.outputs.o0000 }}"),
    "13000-jobs-that-need-10000-outputs": jobs_that_call,
    "chain-of-16000-needs": chain_of_needs,
    "2400-calls-that-lack-1000-inputs": calls_that_lack,
    "30000-calls-of-40000-optional-inputs": lambda: calls_of_many_optional_inputs([b"{uses: ./a}"] * 30_000),
    "30000-aliases-of-a-call-of-40000-optional-inputs": lambda: calls_of_many_optional_inputs([b"&s {uses: ./a}"] + [b"*s"] * 30_000),
    "4000-jobs-that-call-one-with-10000-outputs": jobs_that_call_one_with_many_outputs,
    "4000-steps-that-call-one-with-10000-outputs": steps_that_call_one_with_many_outputs,
    "30000-aliases-of-a-step-that-lacks-1000-inputs": aliases_of_a_call,
    "14000-calls-at-one-place-of-24900-inputs": calls_at_one_place,
    "6000-aliases-of-two-steps-that-call-a-long-name": aliases_of_two_steps,
    "10000-steps-that-call-a-long-name-and-give-one-mapping": steps_that_give_one_mapping,
}
