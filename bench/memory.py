"""The memory and the stack that runs take: bench/memory.py, after ./test or a build of crates/actionlint, otherwise with the carried
program. Needs GNU time (Debian's time).

Each file is put into a session that reports. For large files the greatest memory of the run is shown; for deep ones the least stack with
which the run is the same as with an ample stack, in steps of 8 KiB. Folders are linted, and their processor time is shown too.
"""

import resource
import subprocess
import sys
import tempfile

from common import SESSION, WORKFLOW, is_there, measured, program, put_commands, tell, write_files

STEP = 8 << 10
AMPLE = 8 << 20
REPORT = b"report\n"

JOB = "on: push\njobs:\n  a:\n    runs-on: u\n    steps:\n"
LARGE = {
    "a plain scalar of a megabyte": "a: " + "x" * 1_000_000,
    "a comment of a megabyte": "#" + "x" * 1_000_000,
    "250,000 escapes": 'a: "' + "\\x41" * 250_000 + '"',
    "500,000 pairs of quotes": "a: '" + "''" * 500_000 + "'",
    "99,000 items": "a:\n" + "  - x\n" * 99_000,
    "49,000 keys": "".join("k%05d: x\n" % number for number in range(49_000)),
    "19,000 steps with expressions": JOB + "      - run: ${{ github.ref }}\n" * 19_000,
    "49,000 aliases": "a: &a x\nb:\n" + "  - *a\n" * 49_000,
    "40,000 anchors": "a:\n" + "".join("  - &a%05d x\n" % number for number in range(40_000)),
    "48,000 faults": "on: push\njobs:\n  a:\n    runs-on: u\n    needs:\n" + "    - []\n" * 48_000,
    "20,000 steps that call absent actions": JOB + "".join("      - uses: ./a%05d\n" % number for number in range(20_000)),
}
DEEP = {
    "62 collections inside one another": "on: push\njobs: " + "{a: " * 62 + "x" + "}" * 62 + "\n",
    # each bracket opens an operand of all levels of operators
    "50 brackets inside one another": JOB + "      - run: echo ${{ " + "1||1&&1==1<contains(" * 50 + "1" + ",1)" * 50 + " }}\n",
}


def copies(text):
    """A hundred workflows with the same text."""
    return [(f".github/workflows/{number:03}.yml", text) for number in range(100)]


def ring(count):
    """Workflows each of which calls the next, and the last one the first."""
    call = "on: workflow_call\njobs:\n  a:\n    uses: ./.github/workflows/{:04}.yml\n"
    return [(f".github/workflows/{number:04}.yml", call.format((number + 1) % count)) for number in range(count)]


FOLDERS = {
    "33,000 steps that call absent actions": [(WORKFLOW, JOB + "".join(f"      - uses: ./a{number:05}\n" for number in range(33_000)))],
    "4,096 files in one call cycle": ring(4_096),
    "a hundred files of 99,900 faults": copies(JOB.replace("steps:\n", "steps: [" + "{}," * 99_900 + "]\n")),
    "a hundred files of 99,000 numbers": copies(f"{JOB}      - run: x\n    strategy: {{matrix: {{n: [{'1,' * 99_000}]}}}}\n"),
}


def greatest_memory(text):
    """The greatest memory of a run that puts a workflow and reports, in bytes."""
    _, memory = measured([program("actionlint"), *SESSION], put_commands([(WORKFLOW, text)]) + REPORT)
    return memory


def run_on(stack, text):
    """The status and the output of the same run, with a stack of this many bytes."""
    held = lambda: resource.setrlimit(resource.RLIMIT_STACK, (stack, stack))
    run = subprocess.run([program("actionlint"), *SESSION], input=put_commands([(WORKFLOW, text)]) + REPORT, stdout=subprocess.PIPE,
                         stderr=subprocess.DEVNULL, check=False, preexec_fn=held)
    return run.returncode, run.stdout


def least_stack(text):
    """The least stack that suffices, in bytes: if a number of steps suffices, so do more."""
    wanted = run_on(AMPLE, text)
    short, enough = 0, AMPLE // STEP
    while enough - short > 1:
        steps = (short + enough) // 2
        if run_on(steps * STEP, text) == wanted:
            enough = steps
        else:
            short = steps
    return enough * STEP


def main():
    """Prints a line for each file."""
    for name, text in DEEP.items():
        stack = least_stack(text)
        tell(f"{name:40} {stack / (1 << 10):6.0f} KiB of stack", name, stack=stack)
    if not is_there("time", "time", "memory"):
        return
    for name, text in LARGE.items():
        memory = greatest_memory(text)
        tell(f"{name:40} {memory / (1 << 20):6.0f} MiB", name, memory=memory)
    for name, files in FOLDERS.items():
        with tempfile.TemporaryDirectory() as folder:
            write_files(folder, files)
            seconds, memory = measured([program("actionlint"), "--oneline"], folder=folder)
        tell(f"{name:40} {memory / (1 << 20):6.0f} MiB {seconds:6.2f} s", name, memory=memory, this=seconds)


if __name__ == "__main__":
    sys.exit(main())
