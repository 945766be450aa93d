"""Proves and builds a program, and runs it: build.py NAME CRATE [--build-anew] [ARGUMENT ..].

`./actionlint` calls this if no program fits the sources. With --build-anew and no further argument, nothing is run.
"""

import os
import pathlib
import re
import shutil
import signal
import subprocess
import sys
import tempfile
import time

from crates import crates_of, with_below, write_list
from schedule import schedule

TOP = pathlib.Path(__file__).resolve().parent.parent
NAME, CRATE_NAME = sys.argv[1:3] if len(sys.argv) > 2 else ("actionlint", "actionlint")
CRATE = TOP / "crates" / CRATE_NAME
BUILT = CRATE / "out" / CRATE.name
PARTS = ("src", "specs", "proofs")
BUILD_ANEW = "--build-anew"
# What the kit's gate needs to run a program, besides its sources.
OF_A_RUN = ("args", "data", "status", "stdin", "stdout")
PROVED = re.compile(r"rt: (\w+) proved$")
SIGNALS = (signal.SIGTERM, signal.SIGINT, signal.SIGHUP)


def say(text):
    print(f"{NAME}: {text}", file=sys.stderr, flush=True)


def give_up(text):
    say(text)
    sys.exit(3)


def crates():
    """The program's crate and those of the project below it."""
    return with_below(crates_of(TOP), CRATE.name)


def processors():
    """How many crates are proved at once: RT_JOBS, or else the number of processors."""
    jobs = os.environ.get("RT_JOBS", "")
    return int(jobs) if jobs.isdigit() and int(jobs) else len(os.sched_getaffinity(0))


def run(command, folder, heard):
    """Runs a command of the kit in a folder, and passes each line of its output to `heard`. A signal ends the command first."""
    guard = ["setpriv", "--pdeathsig", "TERM"] if shutil.which("setpriv") else []
    pipes = {"stdin": subprocess.DEVNULL, "stdout": subprocess.PIPE, "stderr": subprocess.STDOUT}
    child = None

    def end(number, _):
        if child:
            child.terminate()
            child.wait()
        sys.exit(128 + number)

    before = [(it, signal.signal(it, end)) for it in SIGNALS]
    child = subprocess.Popen([*guard, *command], cwd=folder, text=True, errors="replace", **pipes)
    for line in child.stdout:
        heard(line)
    status = child.wait()
    for number, how in before:
        signal.signal(number, how)
    return status


class Progress:
    """How much of a build is done, estimated from the schedule of the crates on these processors."""

    def __init__(self):
        self.ends = schedule(TOP, crates(), processors())
        self.total, self.start = max(self.ends.values()), time.monotonic()
        self.done, self.reached = set(), 0.0
        self.log = []

    def heard(self, line):
        """Notes a line of `rt ci`. If a crate is proved, prints how much is done."""
        self.log.append(line)
        proved = PROVED.match(line)
        if not proved or proved[1] not in self.ends or proved[1] in self.done:
            return
        self.done.add(proved[1])
        self.reached = max(self.reached, self.ends[proved[1]])
        passed = time.monotonic() - self.start
        to_go = passed * (self.total - self.reached) / self.reached
        say(f"{proved[1]} is proved: {len(self.done)} of {len(self.ends)} crates, {passed / 60:.0f} minutes so far, about "
            f"{to_go / 60:.0f} to go")


def has_kept_work():
    """Whether `rt check` has kept its work for each crate below the program, so that only what changed has to be proved."""
    return all((TOP / "crates" / it / "out/rlib/stamp").is_file() for it in crates() if it != CRATE.name)


def build_from_nothing(progress):
    """Proves and builds the program's crates in a temporary folder with the kit's gate, which proves crates in parallel."""
    with tempfile.TemporaryDirectory(prefix="actionlint-build-") as folder:
        room = pathlib.Path(folder)
        shutil.copy(TOP / "HANDLES", room)
        write_list(room / "crates.txt", crates_of(TOP), crates())
        for crate in crates():
            for part in (*PARTS, *OF_A_RUN):
                here, there = TOP / "crates" / crate / part, room / "crates" / crate / part
                there.parent.mkdir(parents=True, exist_ok=True)
                if here.is_dir():
                    shutil.copytree(here, there)
                elif here.is_file():
                    shutil.copy(here, there)
        status = run(["rt", "ci"], room, progress.heard)
        made = room / BUILT.relative_to(TOP)
        if status == 0 and made.is_file():
            BUILT.parent.mkdir(exist_ok=True)
            fresh = BUILT.with_name(f"{BUILT.name}.{os.getpid()}")
            shutil.copy(made, fresh)
            fresh.rename(BUILT)
    return status


def build():
    """Proves and builds the program, and sets its time to the start of the build."""
    moment, progress, jobs = time.time_ns(), Progress(), processors()
    if has_kept_work():
        say("the program isn't built from these sources yet: what changed is proved, and then it is built")
        status = run(["rt", "run", "--jobs", str(jobs), "--", "--help"], CRATE, progress.log.append)
    else:
        say(f"the program isn't built from these sources yet: its {len(progress.ends)} crates are proved, and then it is built")
        used = f"{jobs} processors" if jobs > 1 else "one processor"
        say(f"this takes about {progress.total / 60:.0f} minutes of {used}, and on slower machines up to twice as long")
        status = build_from_nothing(progress)
    if status or not os.access(BUILT, os.X_OK):
        sys.stderr.write("".join(progress.log))
        give_up("the program was not built")
    os.utime(BUILT, ns=(moment, moment))


def main(words):
    build()
    if words[:1] == [BUILD_ANEW]:
        words = words[1:]
        if not words:
            return
    os.execv(BUILT, [str(BUILT), *words])


if __name__ == "__main__":
    main(sys.argv[3:])
