"""Runs the gate and shows what each crate took of it: gate.py TOP COMMAND ..

    python3 bench/gate.py . ./test

The command's output is passed through. A few times a second the processes that the command started are looked up in /proc: those of the
prover, with their crate and their task (a must-fail edit has a folder of its own, a check of tests the flag --test), their processor
seconds and the largest memory of a single process. What a process used between the last look and its end is missing there, so the total is
taken from the kernel, which has it exactly. When the command has ended, a table is printed, from which bench/all.py writes
docs/PROVING.md. TOP is the repository with the crates.txt, sources and edits of the table.
"""

import os
import pathlib
import resource
import signal
import subprocess
import sys
import time

sys.path.insert(0, str(pathlib.Path(__file__).resolve().parent.parent / "tools"))
from crates import crates_of

# The interval between looks, in seconds.
PAUSE = 0.25
STEPS = ("proof", "tests", "edits")
TICKS = os.sysconf("SC_CLK_TCK")


class Step:
    """What a step of a crate took: the seconds of each process, the memory of the largest one in bytes, and when it was first and last
    seen."""

    def __init__(self, now):
        self.seconds, self.memory, self.first, self.last = {}, 0, now, now

    def add(self, process, seconds, memory, now):
        self.seconds[process] = seconds
        self.memory = max(self.memory, memory)
        self.last = now

    def total(self):
        return sum(self.seconds.values())

    def elapsed(self):
        return self.last - self.first


def stats():
    """The parent, start and processor seconds of each process."""
    found = {}
    for name in os.listdir("/proc"):
        if not name.isdigit():
            continue
        try:
            with open(f"/proc/{name}/stat", encoding="utf-8", errors="replace") as file:
                words = file.read().rpartition(")")[2].split()
        except OSError:
            continue
        found[int(name)] = int(words[1]), int(words[19]), (int(words[11]) + int(words[12])) / TICKS
    return found


def below(top, found):
    """The processes that a process started, directly or not."""
    children = {}
    for process, (parent, _, _) in found.items():
        children.setdefault(parent, []).append(process)
    left = [*children.get(top, [])]
    while left:
        one = left.pop()
        yield one
        left += children.get(one, [])


def step_of(process):
    """The crate of a process of the prover, and its task; nothing for other processes."""
    try:
        with open(f"/proc/{process}/cmdline", "rb") as file:
            words = file.read().decode(errors="replace").split("\0")
        folder = os.readlink(f"/proc/{process}/cwd")
    except OSError:
        return None
    if os.path.basename(words[0]) != "rattle" or "--crate-name" not in words[:-1]:
        return None
    step = "edits" if "/rt-edit-" in folder else "tests" if "--test" in words else "proof"
    return words[words.index("--crate-name") + 1], step


def memory_of(process):
    """The greatest memory that a process has had, in bytes."""
    try:
        with open(f"/proc/{process}/status", encoding="utf-8", errors="replace") as file:
            return next((int(line.split()[1]) * 1024 for line in file if line.startswith("VmHWM:")), 0)
    except OSError:
        return 0


def watch(command, folder=None, output=None):
    """Runs a command, perhaps in a folder and with its output in a file, and returns its status, what its steps took, and the elapsed
    seconds."""
    steps, kinds, start = {}, {}, time.monotonic()
    child = subprocess.Popen(command, cwd=folder, stdout=output, stderr=output)
    signal.signal(signal.SIGTERM, lambda *_: child.terminate())
    while child.poll() is None:
        now, found = time.monotonic(), stats()
        for process in below(child.pid, found):
            _, began, seconds = found[process]
            key = process, began
            if kinds.get(key) is None:
                kinds[key] = step_of(process)
            if kinds[key]:
                steps.setdefault(kinds[key], Step(now)).add(key, seconds, memory_of(process), now)
        time.sleep(PAUSE)
    return child.returncode, steps, time.monotonic() - start


def longest_chain(named, steps):
    """The seconds and steps of the longest chain: proofs and tests wait for the crates below, and edits for both of their crate."""

    def seconds(crate, step):
        return steps[crate, step].elapsed() if (crate, step) in steps else 0

    proved, best = {}, (0, [])
    for crate in sorted(named, key=lambda it: depth(named, it)):
        before = max((proved[it] for it in named[crate] if it in named), default=(0, []))
        proved[crate] = before[0] + seconds(crate, "proof"), [*before[1], crate]
        tests = before[0] + seconds(crate, "tests"), [*before[1], f"the tests of {crate}"]
        last = max(proved[crate], tests)
        if seconds(crate, "edits"):
            last = last[0] + seconds(crate, "edits"), [*last[1], f"the edits of {crate}"]
        best = max(best, last)
    return best


def depth(named, crate):
    """The number of layers of crates below a crate."""
    return 1 + max((depth(named, it) for it in named[crate] if it in named), default=0)


def size_of(top, crate):
    """The lines of a crate's code and the number of its edits in the gate."""
    folder = top / "crates" / crate
    lines = sum(it.read_bytes().count(b"\n") for it in (folder / "src").rglob("*.rt"))
    return lines, len([*(folder / "must-fail").glob("*.edit")])


def cell(steps, crate, step):
    """Seconds and memory of a step, if there was one."""
    if (crate, step) not in steps:
        return " | "
    it = steps[crate, step]
    return f"{it.total():.0f} | {it.memory / 1e6:,.0f}"


def print_table(top, steps, elapsed):
    named = crates_of(top)
    print("\n| Crate | Lines | From nothing, s | MB | Tests, s | MB | Edits | Edits, s | MB |")
    print("|---|--:|--:|--:|--:|--:|--:|--:|--:|")
    for crate in named:
        lines, edits = size_of(top, crate)
        proof, tests, tried = (cell(steps, crate, it) for it in STEPS)
        print(f"| `{crate}` | {lines:,} | {proof} | {tests} | {edits or ''} | {tried} |")
    total = [sum(it.total() for (_, step), it in steps.items() if step == kind) / 60 for kind in STEPS]
    used = resource.getrusage(resource.RUSAGE_CHILDREN)
    whole = (used.ru_utime + used.ru_stime) / 60
    seconds, chain = longest_chain(named, steps)
    lanes = f"{len(os.sched_getaffinity(0))} processors, RT_JOBS {os.environ.get('RT_JOBS', 'not set')}"
    rest = whole - sum(total)
    print(f"\nThe whole: {whole:.1f} processor minutes in {elapsed / 60:.1f} minutes ({lanes}). Proofs from nothing {total[0]:.1f}, tests")
    print(f"{total[1]:.1f}, edits {total[2]:.1f}; linking, programs, cases and what the looks missed {rest:.1f}. The longest chain is")
    print(f"{seconds / 60:.1f} minutes: {', '.join(chain)}.")


def main(folder, *command):
    status, steps, elapsed = watch(command)
    print_table(pathlib.Path(folder).resolve(), steps, elapsed)
    sys.exit(status)


if __name__ == "__main__":
    if len(sys.argv) < 3:
        sys.exit(__doc__)
    main(*sys.argv[1:])
