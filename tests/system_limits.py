"""Runs the built program under what the system refuses: streams that fail or are non-blocking, little memory, files and stacks of limited
size.

    python3 tests/system_limits.py PROGRAM

Each case compares the status and both streams with what docs/COMMAND-LINE.md says, and prints one line, like tests/program.py.
"""

import os
import pathlib
import re
import resource
import signal
import subprocess
import sys
import threading
import time

from running import CLEAN, EMPTY_REPORT, REPORT, SCRIPT, WORKFLOWS, differences_of, limit, line, put, report, run_parts, show


def streams(place):
    no = b""
    failed = line(b"write failed")
    place.fresh({f"{WORKFLOWS}/a.yml": b""})
    with open("/dev/full", "wb") as full:
        place.case("output-full", 3, no, failed, ["--oneline"], stdout=full)
        place.case("help-output-full", 3, no, failed, ["--help"], stdout=full)
        place.case("script-output-full", 3, no, failed, ["--session"], stdin=b"report\n", stdout=full)
    with open("/dev/null", "rb") as unwritable:
        place.case("output-that-takes-no-writes", 3, no, failed, ["--oneline"], stdout=unwritable)
    closed = {"limits": lambda: os.close(1), "stdout": subprocess.DEVNULL}
    place.case("output-closed", 3, no, failed, ["--oneline"], **closed)
    place.case("script-output-closed", 3, no, failed, ["--session"], stdin=REPORT, **closed)
    reader, writer = os.pipe()
    os.close(reader)
    place.case("output-whose-reader-went", 3, no, failed, ["--oneline"], stdout=writer)
    os.close(writer)
    place.case("errors-closed", 3, no, None, ["x.yml"], limits=lambda: os.close(2), stderr=subprocess.DEVNULL)
    unread = line(b"read failed")
    folder = os.open(place.folder, os.O_RDONLY)
    place.case("input-is-a-folder", 3, no, unread, ["--session"], stdin=folder)
    os.close(folder)
    place.case("input-closed", 3, no, unread, ["--session"], stdin=subprocess.DEVNULL, limits=lambda: os.close(0))
    place.case("input-is-not-read", 1, EMPTY_REPORT, no, ["--oneline"], stdin=subprocess.DEVNULL, limits=lambda: os.close(0))


def full_pipe():
    """A non-blocking pipe that accepts nothing more, with the number of bytes in it."""
    reader, writer = os.pipe()
    os.set_blocking(writer, False)
    filled = 0
    try:
        while True:
            filled += os.write(writer, bytes(1 << 12))
    except BlockingIOError:
        return reader, writer, filled


def run_to_full_pipe(place, words, stdin, then):
    """A run whose output is such a pipe; another thread does something with it after a while."""
    reader, writer, filled = full_pipe()
    answers = []

    def later():
        time.sleep(0.2)
        answers.append(then(reader))
        os.close(reader)

    thread = threading.Thread(target=later)
    thread.start()
    ran = place.run(words, stdin, stdout=writer)
    os.close(writer)
    thread.join()
    return ran, answers[0][filled:]


def read_all(reader):
    """What arrives from a pipe until its end."""
    with open(reader, "rb", closefd=False) as pipe:
        return pipe.read()


def waiting_output(place):
    """The program waits when its output is non-blocking, as from Node, and full: nothing of a report is lost. If the reader goes away
    meanwhile, the write has failed."""
    no = b""
    place.fresh({f"{WORKFLOWS}/a.yml": b"on: push\njobs: {}\n" + b"".join(b"k%05d: 1\n" % number for number in range(5_000))})
    told = b"".join(b'.github/workflows/a.yml:%d:1: unexpected key "k%05d" [syntax-check]\n' % (3 + it, it) for it in range(5_000))
    taught = lambda out: out.startswith(b"Checks the workflows") and out.endswith(b"for editors and logs\n")
    for name, words, stdin, status, out in [
        ("output", ["--oneline"], no, 1, told),
        ("script-output", SCRIPT, REPORT * 10_000, 0, b"status 0\n" * 10_000),
        ("help-output", ["--help"], no, 0, taught),
    ]:
        ran, ran.stdout = run_to_full_pipe(place, words, stdin, read_all)
        report(f"{name}-that-does-not-block", ran.returncode, differences_of(ran, status, out, no))
    ran, _ = run_to_full_pipe(place, ["--oneline"], no, lambda reader: no)
    report("output-that-does-not-block-and-whose-reader-goes", ran.returncode, differences_of(ran, 3, no, line(b"write failed")))


def memory(place):
    """Under each limit of memory the answer is the whole one, or status 3 with a prefix of the output."""
    place.fresh()
    script = b"".join(put(f"{WORKFLOWS}/{number}.yml", CLEAN) for number in range(40))
    script += put(f"{WORKFLOWS}/a.yml", b"{}" * 30_000) + REPORT
    whole = place.run(SCRIPT, script)
    stops = 0
    wholes = 0
    wrong = []
    for size in range(1 << 20, 256 << 20, 192 << 10):
        ran = place.run(SCRIPT, script, limits=limit(resource.RLIMIT_AS, size))
        if ran.returncode == 3:
            stops += 1
            if not (whole.stdout.startswith(ran.stdout) and ran.stderr == line(b"out of memory")):
                wrong.append(f"at {size} bytes: stdout was {show(ran.stdout)}, stderr {show(ran.stderr)}")
        elif (ran.returncode, ran.stdout, ran.stderr) == (whole.returncode, whole.stdout, whole.stderr):
            wholes += 1
            if wholes == 4:
                break
        elif stops or ran.stdout or ran.returncode not in (127, -signal.SIGSEGV, -signal.SIGKILL, -signal.SIGABRT):
            # below some size the system doesn't start the program at all
            wrong.append(f"at {size} bytes: status {ran.returncode}, stdout {show(ran.stdout)}, stderr {show(ran.stderr)}")
    if stops == 0 or wholes == 0:
        wrong.append(f"memory ran out {stops} times, and sufficed {wholes} times")
    report("little-memory", whole.returncode, wrong)


def memory_and_stack(place):
    """Under each limit of memory a deep expression ends with the whole answer, with status 3, or, if the system refuses to grow the stack,
    with its signal; in the last two cases nothing is printed."""
    content = b"run: echo ${{ " + b"1||1&&1==1<contains(" * 50 + b"github.reff" + b",1)" * 50 + b" }}"
    place.fresh({f"{WORKFLOWS}/a.yml": CLEAN.replace(b"run: echo", content)})
    whole = place.run(["--oneline"])
    wrong, answers = differences_of(whole, 1, lambda out: out.count(b"\n") == 1, b""), set()
    for size in range(2 << 20, 8 << 20, 64 << 10):
        ran = place.run(["--oneline"], limits=limit(resource.RLIMIT_AS, size))
        answers.add(answer := (ran.returncode, ran.stdout, ran.stderr))
        ended = ran.returncode in (127, -signal.SIGSEGV, -signal.SIGKILL) and ran.stdout == b""
        if not ended and answer != (3, b"", line(b"out of memory")) and answer != (whole.returncode, whole.stdout, whole.stderr):
            wrong.append(f"at {size} bytes: status {ran.returncode}, stdout {show(ran.stdout)}, stderr {show(ran.stderr)}")
    if (whole.returncode, whole.stdout, whole.stderr) not in answers or len(answers) == 1:
        wrong.append("memory sufficed at no limit, or at each")
    report("little-memory-for-the-stack", whole.returncode, wrong)


def sizes(place):
    """A limit on file size while its signal is ignored, and the deepest files and expressions with a small stack."""
    place.fresh({f"{WORKFLOWS}/a.yml": b""})
    ran, held = place.run_to_file(20, ["--oneline"])
    wrong = differences_of(ran, 3, b"", line(b"write failed"))
    if held != EMPTY_REPORT[:20]:
        wrong.append(f"the file held {show(held)}")
    report("file-size-limit", ran.returncode, wrong)
    deep = b"on: push\njobs: " + b"{a: " * 62 + b"x" + b"}" * 62 + b"\n"
    on_a_small_stack(place, "deep-nesting-on-a-small-stack", deep, sufficient_stack("62 nested YAML collections"), 1)
    stack = sufficient_stack("an expression of 50 nested")
    # each bracket opens an operand of all levels of operators
    nested = lambda inside: b"run: echo ${{ " + b"1||1&&1==1<contains(" * 50 + inside + b",1)" * 50 + b" }}"
    on_a_small_stack(place, "deep-expression-on-a-small-stack", CLEAN.replace(b"run: echo", nested(b"1")), stack, 0)
    # and the innermost operand is of the deepest type
    typed = CLEAN.replace(b"run: echo", nested(b"matrix.v" + b".a" * 56))
    row = b"    strategy:\n      matrix:\n        v: [" + b"{a: " * 56 + b"x" + b"}" * 56 + b"]\n"
    on_a_small_stack(place, "deep-type-on-a-small-stack", typed.replace(b"    steps:", row + b"    steps:"), stack, 0)


def sufficient_stack(what):
    """The stack in KiB that suffices for this, by docs/SPEED.md."""
    page = pathlib.Path(__file__).resolve().parent.parent / "docs/SPEED.md"
    return int(re.search(rf"^\| {what}.*: a stack that suffices \|.* (\d+) KiB \|$", page.read_text(encoding="utf-8"), re.MULTILINE)[1])


def on_a_small_stack(place, name, data, kibibytes, status):
    """A workflow's run with a stack of this many KiB is the same as with an ample one."""
    place.fresh({f"{WORKFLOWS}/a.yml": data})
    plain = place.run(["--oneline"])
    small = place.run(["--oneline"], limits=limit(resource.RLIMIT_STACK, kibibytes * 1024))
    wrong = differences_of(small, plain.returncode, plain.stdout, plain.stderr)
    if plain.returncode != status:
        wrong.append(f"status was {plain.returncode} with an ample stack")
    report(name, small.returncode, wrong)


if __name__ == "__main__":
    sys.exit(run_parts(streams, waiting_output, memory, memory_and_stack, sizes))
