"""How the time to check a file grows with its size: bench/growth.py [WORD]..., after ./test or a build of crates/actionlint, otherwise with
the carried program. With WORDs only the shapes are measured whose names contain one of them.

Scripts put each shape at half and at full size, and the same nodes or bytes where nothing checks them: the difference is the time of the
check. Times are the least of several runs that take turns, minus that of a workflow without jobs. If a check is linear, up to a logarithm,
the time about doubles with the size; if each item were compared with all others, it would grow fourfold. Needs may take time in proportion
to their entries, which are the square of the number of jobs if each job needs all: fourfold.
"""

import functools
import re
import sys

from common import EMPTY, WORKFLOW, least_in_turns, put_seconds, tell

RUNS = 5

JOBS = "on: push\njobs:\n"
JOB = f"{JOBS}  a:\n    runs-on: u\n"
STEPS = f"{JOB}    steps:\n"
ANYTHING = f"{JOB}    environment:\n"
ACTION = "name: A\ndescription: d\nruns:\n  using: composite\n  steps: []\n"
CALLER = ".github/workflows/c.yml"

STEP = """      - id: step{n:05}
        name: A step with a name that lets the file grow to its size, {pad}
        run: make ${{{{ github.ref }}}} ${{{{ steps.step{last:05}.outputs.made }}}}
        env: {{A: '${{{{ github.sha }}}}', B: '${{{{ steps.step00000.outcome }}}}', C: x}}
"""

NEEDING_JOB = """  job{n:05}:
    needs: [job{last:05}, job{first:05}]
    runs-on: ubuntu-latest
    name: A job with a name that lets the file grow to its size, {pad}
    outputs: {{a: '${{{{ steps.s.outputs.a }}}}', b: '${{{{ needs.job{last:05}.outputs.a }}}}'}}
    strategy: {{matrix: {{os: [linux, mac], version: [1, 2]}}}}
    steps:
      - {{id: s, run: 'make ${{{{ matrix.os }}}} ${{{{ matrix.version }}}}'}}
      - {{id: t, run: 'make ${{{{ needs.job{first:05}.outputs.b }}}}'}}
"""


def keys(number):
    """A mapping of different keys."""
    return "".join(f"      K{n:05}: v\n" for n in range(number))


def equal_keys(number):
    """A mapping with the same key again and again."""
    return "      K: v\n" * number


def jobs(number):
    """Jobs with one step."""
    return "".join(f"      J{n:05}:\n        runs-on: u\n        steps: [{{run: make}}]\n" for n in range(number))


def job(number, needs):
    """A job that needs others."""
    return f"      J{number:05}: {{needs: [{needs}], runs-on: u}}\n"


def chain(number):
    """Each job needs the previous one."""
    return "".join(job(n, f"J{n - 1:05}" if n else "") for n in range(number))


def cycle(number):
    """Each job needs the previous one, and the first the last."""
    return "".join(job(n, f"J{(n - 1) % number:05}") for n in range(number))


def full(number):
    """Each job needs all."""
    needs = ", ".join(f"J{n:05}" for n in range(number))
    return "".join(job(n, needs) for n in range(number))


def free(number):
    """Jobs that need nothing."""
    return "".join(f"      J{n:05}: {{runs-on: u}}\n" for n in range(number))


def ids(number):
    """Steps with different ids."""
    return "    steps:\n" + "".join(f"      - {{id: S{n:05}, run: make}}\n" for n in range(number))


def rows(number):
    """A matrix with many rows, each of which is excluded."""
    above = "    strategy:\n      matrix:\n"
    row = "".join(f"        R{n:05}: [x]\n" for n in range(number))
    return above + row + "        exclude:\n" + "".join(f"          - R{n:05}: x\n" for n in range(number))


def script(number):
    """A script with a deprecated command on each line."""
    return "    steps:\n      - run: |\n" + '          echo "::set-output name=a::b"\n' * number


def colons(number):
    """A script of colons, at each of which a command could begin."""
    return "    steps:\n      - run: |\n" + f"          {'::' * 30}\n" * number


def seeing_steps(number):
    """One job of steps with ids, each of which refers to the step before it and to the first."""
    body = "".join(STEP.format(n=n, last=max(n - 1, 0), pad="." * 90) for n in range(1, number))
    return f"{STEPS}      - {{id: step00000, run: make}}\n{body}"


def seeing_jobs(number):
    """Jobs that need the previous one and one in the middle."""
    body = "".join(NEEDING_JOB.format(n=n, last=n - 1, first=n // 2, pad="." * 60) for n in range(1, number))
    return f"{JOBS}  job00000: {{runs-on: ubuntu-latest, outputs: {{a: x, b: y}}, steps: [{{run: make}}]}}\n{body}"


def action(number):
    """An action with required inputs."""
    return f"{ACTION}inputs:\n" + "".join(f"  i{n:05}:\n    required: true\n" for n in range(number))


def callable_workflow(number):
    """A callable workflow with required inputs."""
    inputs = "".join(f"      i{n:05}:\n        type: string\n        required: true\n" for n in range(number))
    return f"on:\n  workflow_call:\n    inputs:\n{inputs}jobs: {{}}\n"


def given(number, indent, name="I"):
    """Values for each of these inputs."""
    return "".join(f"{' ' * indent}{name}{n:05}: v\n" for n in range(number))


def step_giving(number, name):
    """An action with inputs, and a step that gives inputs with this name."""
    return [("a/action.yml", action(number)), (CALLER, f"{STEPS}      - uses: ./a\n        with:\n{given(number, 10, name)}")]


def job_giving(number):
    """A workflow with inputs, and a job that gives all of them."""
    caller = f"{JOBS}  a:\n    uses: ./.github/workflows/w.yml\n    with:\n{given(number, 6)}"
    return [(".github/workflows/w.yml", callable_workflow(number)), (CALLER, caller)]


def many_calls(number):
    """Steps that call one action, of 32 bytes each."""
    return [("greetings/hello/action.yml", ACTION), (CALLER, STEPS + "      - uses: ./greetings/hello\n" * number)]


def step_of_ats(number):
    """One `uses` of a step that could be split at many places, none of them right."""
    return [(CALLER, f"{STEPS}      - uses: {'a@' * (number // 2)}\n")]


def job_of_ats(number):
    """The same for a job, with all parts except a file's name before them."""
    return [(CALLER, f"{JOBS}  a:\n    uses: o/r/.github/workflows/{'a@' * (number // 2)}\n")]


def nodes(above, shape):
    """Nodes below the lines above them, and below a key that accepts anything."""
    return lambda number: [(WORKFLOW, above + shape(number))], lambda number: [(WORKFLOW, ANYTHING + deeper(shape(number)))]


def deeper(text):
    """The same nodes, but the key that holds them in a job is inside a mapping of the job."""
    return re.sub("^    (steps|strategy):", r"      \1:", text)


def expressions(shape):
    """A workflow with expressions, and with other texts in their place."""
    return lambda number: [(WORKFLOW, shape(number))], lambda number: [(WORKFLOW, shape(number).replace("${{", "$(("))]


def calls(shape):
    """Files that call one another, and the same with their calls under a key that isn't looked at."""
    return shape, lambda number: [(path, text.replace("uses:", "used:")) for path, text in shape(number)]


# the files that are checked and those that are only read, by their size, and that size
SHAPES = {
    "env of 49,000 keys": (*nodes("on: push\njobs: {}\nenv:\n", keys), 49_000),
    "env of one key 49,000 times": (*nodes("on: push\njobs: {}\nenv:\n", equal_keys), 49_000),
    "a job of 49,000 unknown keys": (*nodes(f"{JOBS}    a:\n      runs-on: u\n", keys), 49_000),
    "10,000 jobs": (*nodes(JOBS, jobs), 10_000),
    "a chain of 4,000 jobs": (*nodes(JOBS, chain), 4_000),
    "a cycle of 4,000 jobs": (*nodes(JOBS, cycle), 4_000),
    "200 jobs that need all": (*nodes(JOBS, full), 200),
    "10,000 jobs without needs": (*nodes(JOBS, free), 10_000),
    "10,000 steps with ids": (*nodes(JOB, ids), 10_000),
    "10,000 rows of a matrix, excluded": (*nodes(JOB, rows), 10_000),
    "20,000 deprecated commands": (*nodes(JOB, script), 20_000),
    "a script of a megabyte of colons": (*nodes(JOB, colons), 14_000),
    "expressions on 3,000 steps": (*expressions(seeing_steps), 3_000),
    "expressions on 2,000 jobs": (*expressions(seeing_jobs), 2_000),
    "a step that gives 10,000 inputs": (*calls(functools.partial(step_giving, name="I")), 10_000),
    "a step that gives 10,000 others": (*calls(functools.partial(step_giving, name="o")), 10_000),
    "a job that gives 10,000 inputs": (*calls(job_giving), 10_000),
    "a megabyte of 32,000 calls": (*calls(many_calls), 32_000),
    "a step's uses of a megabyte": (*calls(step_of_ats), 1_000_000),
    "a job's uses of a megabyte": (*calls(job_of_ats), 1_000_000),
}


def main():
    """Prints a table: the times of each shape at both sizes and their ratio, when checked and when only read."""
    print(f"{'':34} {'checked':>30} {'only read':>30}")
    print(f"{'shape':34}" + f" {'half':>9} {'whole':>9} {'whole/half':>10}" * 2)
    for name, (checked, read, size) in SHAPES.items():
        if any(word in name for word in sys.argv[1:] or [""]):
            folders = [[(WORKFLOW, EMPTY)], *(files(count) for files in (checked, read) for count in (size // 2, size))]
            nothing, *times = least_in_turns(RUNS, [functools.partial(put_seconds, it) for it in folders])
            halves, wholes = ([took - nothing for took in times[at::2]] for at in (0, 1))
            told = "".join(f" {half:8.3f}s {whole:8.3f}s {whole / half:10.2f}" for half, whole in zip(halves, wholes))
            tell(f"{name:34}{told}", name, this=wholes[0], growth=wholes[0] / halves[0])


if __name__ == "__main__":
    sys.exit(main())
