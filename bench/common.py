"""What the scripts of bench/ share: the programs that are timed, folders and scripts of files, the least time of runs that take turns, and
how a figure is told.

All times are processor times. Files are pairs of a path and a text.
"""

import functools
import json
import os
import pathlib
import resource
import shutil
import subprocess
import sys
import tempfile

TOP = pathlib.Path(__file__).resolve().parent.parent
SESSION = ["--session", "--oneline"]
WORKFLOW = ".github/workflows/a.yml"
EMPTY = "on: push\njobs: {}\n"
# the names of the carried programs, by their crates
CARRIED = {"actionlint": "actionlint", "al_facts": "actionlint-facts"}
# the variable that names a file for the figures, one JSON object a line; bench/all.py sets it
RESULTS = "BENCH_RESULTS"
# the event parsers with which reading and linting are compared: the program in bench/ for each library
PEERS = {"yaml": "yaml_events.c", "fyaml": "fyaml_events.c"}


@functools.lru_cache(maxsize=None)
def program(crate):
    """The program of a crate that was built from these sources, otherwise the one that was built last or is carried."""
    found = subprocess.run([TOP / CARRIED[crate], "--which"], stdout=subprocess.PIPE, stderr=subprocess.DEVNULL, check=False)
    if found.returncode == 0:
        return pathlib.Path(os.fsdecode(found.stdout.rstrip(b"\n")))
    for path in (TOP / "crates" / crate / "out" / crate, TOP / "prebuilt" / CARRIED[crate]):
        if path.is_file():
            return path
    sys.exit(f"there is no program of {crate}: ./{CARRIED[crate]} --build-anew builds it")


def tell(line, what, **figures):
    """Prints a line about something, and adds its figures to the file of results, if there is one."""
    print(line, flush=True)
    if path := os.environ.get(RESULTS):
        with open(path, "a", encoding="utf-8") as results:
            results.write(json.dumps({"what": what, **figures}) + "\n")


def leave_out(what, why):
    """Says that something isn't measured."""
    print(f"left out: {what}, since {why}", file=sys.stderr, flush=True)


def is_there(command, package, what):
    """Whether a command is installed. If not, what is measured with it is left out."""
    if shutil.which(command):
        return True
    leave_out(what, f"{command} isn't installed (Debian's {package})")
    return False


def peers(folder):
    """The programs around libyaml and then libfyaml, compiled into a folder, by the library's name. A library that isn't installed with its
    headers is left out."""
    if not is_there("cc", "gcc", "libyaml and libfyaml"):
        return {}
    made = {}
    for library, source in PEERS.items():
        path = pathlib.Path(folder) / library
        compiled = subprocess.run(["cc", "-O2", "-o", path, TOP / "bench" / source, f"-l{library}"], capture_output=True, check=False)
        if compiled.returncode:
            leave_out(f"lib{library}", f"cc found no lib{library} or no headers of it (Debian's lib{library}-dev)")
        else:
            made[f"lib{library}"] = path
    return made


def children_seconds():
    """The processor time of all runs so far."""
    used = resource.getrusage(resource.RUSAGE_CHILDREN)
    return used.ru_utime + used.ru_stime


def run_seconds(command, data=b"", folder=None, output=subprocess.PIPE):
    """The processor time of one run, with its status and its output."""
    before = children_seconds()
    run = subprocess.run(command, input=data, cwd=folder, stdout=output, stderr=subprocess.DEVNULL, check=False)
    return children_seconds() - before, run.returncode, run.stdout


def least_in_turns(runs, measures):
    """The least result of each measure over some rounds. The measures take turns, so all of them see the same load of the machine, and each
    round begins with the next one, since what a run finds in caches depends on the run before it."""
    least = [float("inf")] * len(measures)
    for first in range(runs):
        for turn in range(len(measures)):
            which = (first + turn) % len(measures)
            least[which] = min(least[which], measures[which]())
    return least


def measured(command, data=b"", folder=None):
    """The processor seconds of a run whose output nobody reads, and its greatest memory in bytes, by GNU time (Debian's time): a program is
    also charged for the memory of the one that starts it, and time takes little."""
    with tempfile.NamedTemporaryFile("r") as told:
        subprocess.run(["time", "-q", "-f", "%U %S %M", "-o", told.name, *command], input=data, cwd=folder, stdout=subprocess.DEVNULL,
                       stderr=subprocess.DEVNULL, check=False)
        user, system, memory = told.read().split()
    return float(user) + float(system), int(memory) * 1024


def put_commands(files):
    """The commands of a script that put files."""
    return b"".join(b"put %s %d\n%s\n" % (path.encode(), len(data), data) for path, data in ((path, text.encode()) for path, text in files))


def write_files(folder, files):
    """Writes files into a folder."""
    for path, text in files:
        whole = pathlib.Path(folder, path)
        whole.parent.mkdir(parents=True, exist_ok=True)
        whole.write_bytes(text.encode())


def put_seconds(files):
    """What a script takes that puts these files, all of which are accepted."""
    took, _, out = run_seconds([program("actionlint"), *SESSION], put_commands(files))
    if out.count(b"ok ") != len(files):
        sys.exit(f"the files were not taken: {out[:80]}")
    return took
