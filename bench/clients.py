"""What an edit costs in an editor: bench/clients.py [PROGRAM], after ./test or a build of crates/actionlint. Needs the libraries of the
language server.

Measures the time from a change in the editor until the diagnostics of that version arrive, through the language server and the linter: in a
folder of 200 workflows with one fault each and with ten, beside 4,095 files without faults and with one each, and of an action that all 200
workflows call. Then completion, hovering and definitions among 200 workflows; what hostile files cost, each shape at two sizes, the second
twice the first, so the ratio shows whether the work is linear; the memory of the server and its programs over 20,000 edits; and the time of
1,000 folders with a SARIF file each, as on docs/CI.md.
"""

import os
import pathlib
import shutil
import statistics
import subprocess
import sys
import tempfile
import time

from common import TOP, program, tell

sys.path.insert(0, str(TOP / "clients/tests"))
from editor import Editor, children, memory
from repositories import ACTION, FILES, WORKFLOWS, write

REPORT = TOP / "clients/actionlint-report"
JOBS = 20
STEP = """  job{job}:
    runs-on: ubuntu-latest
    steps:
      - uses: actions/checkout@v4
      - uses: ./a
        with:
          who: someone
      - run: echo ${{{{ github.{property} }}}}
"""
EDITS = 1_000
EDITS_OF_THE_ACTION = 100
EDITS_OF_MEMORY = 20_000
EDITS_BETWEEN = 1_000
SMALL = "on: push\njobs: {}\n"
FAULTY = "on: pussh\njobs: {}\n"
HEAD = "on: push\njobs:\n  a:\n    runs-on: ubuntu-latest\n    steps:\n"
EVERYWHERE = {"start": {"line": 0, "character": 0}, "end": {"line": 1_000_000, "character": 0}}
WAIT_SECONDS = 60


def workflow(faults):
    """A workflow of some kilobytes in which this many jobs have a fault."""
    jobs = "".join(STEP.format(job=job, property="reff" if job < faults else "ref") for job in range(JOBS))
    return f"on: push\njobs:\n{jobs}"


def workflows(count, text):
    """Workflows, by path."""
    return {f"{WORKFLOWS}w{number:04}.yml": text for number in range(count)}


class Folder:
    """A folder with an editor, in which one of its workflows is open."""

    def __init__(self, linter, files):
        self.root = tempfile.mkdtemp(prefix="actionlint-bench-")
        os.makedirs(self.root + "/.git")
        write(self.root, {ACTION: FILES[ACTION], **files})
        begun = time.monotonic()
        self.editor = Editor(linter, os.fsencode(self.root))
        self.editor.settle()
        self.start_seconds = time.monotonic() - begun
        self.path, self.text = next(iter(files.items()))
        self.editor.open(self.path, self.text)
        self.editor.settle()
        self.version = 1
        self.server = self.editor.child.pid

    def edit(self):
        """Changes the open workflow; returns the seconds until its diagnostics arrive."""
        self.version += 1
        sent = time.monotonic()
        self.editor.change(self.path, self.text + "#" * (self.version % 40) + "\n")
        while True:
            uri, version, arrived = self.editor.arrivals.get(timeout=WAIT_SECONDS)
            if uri == self.editor.uri(self.path) and version == self.version:
                return arrived - sent

    def edit_action(self, number):
        """Changes the interface of the action; returns the seconds until the diagnostics of all its callers arrive."""
        sent = time.monotonic()
        self.editor.change(ACTION, FILES[ACTION].replace("who", "who" if number % 2 else "whom"))
        self.editor.settle()
        return time.monotonic() - sent

    def processor_seconds(self):
        """What the server, and the programs that it runs, have used so far."""
        return [processor_seconds(self.server), sum(map(processor_seconds, children(self.server)))]

    def memory(self):
        """The memory of the server, and of the programs that it runs, in KiB."""
        return [memory(self.server), sum(map(memory, children(self.server)))]

    def close(self):
        status = self.editor.quit()
        shutil.rmtree(self.root)
        if status != 0:
            sys.exit(f"the server ended with status {status}")


def processor_seconds(process):
    """Seconds of processor time of a process so far."""
    fields = pathlib.Path(f"/proc/{process}/stat").read_text().rsplit(")", 1)[1].split()
    return (int(fields[11]) + int(fields[12])) / os.sysconf("SC_CLK_TCK")


def tell_times(name, what, seconds):
    """Prints a line of times."""
    times = sorted(seconds)
    median, p99 = statistics.median(times), times[int(len(times) * 0.99)]
    tell(f"{name:58} median {1e3 * median:8.2f} ms, p99 {1e3 * p99:8.2f}, most {1e3 * times[-1]:8.2f}", what, median=median, p99=p99)


def tell_processor_time(what, before, folder, count):
    """Prints the processor time of the server and its programs since that before, for each of so many edits."""
    server, programs = ((after - first) / count for first, after in zip(before, folder.processor_seconds()))
    line = f"    of which processor time: server {1e3 * server:.2f} ms, programs {1e3 * programs:.2f} ms"
    tell(line, f"processor time of {what}", this=server + programs)


def tell_edits(linter, count, faults):
    """Times of edits in a folder of workflows."""
    folder = Folder(linter, workflows(count, workflow(faults)))
    print(f"{count} workflows of {len(workflow(faults))} bytes with {faults} faults each: all shown after {folder.start_seconds:.2f} s")
    before = folder.processor_seconds()
    tell_times("  an edit of one workflow", f"an edit of one workflow, {faults}", [folder.edit() for _ in range(EDITS)])
    tell_processor_time(f"an edit of one workflow, {faults}", before, folder, EDITS)
    folder.editor.open(ACTION, FILES[ACTION])
    tell_times("  an edit of the interface of the action that all call", f"an edit of the interface, {faults}",
               [folder.edit_action(number) for number in range(EDITS_OF_THE_ACTION)])
    folder.close()


def tell_requests(linter):
    """Times of requests while typing in a folder of 200 workflows, each after an edit whose diagnostics have arrived."""
    folder = Folder(linter, workflows(200, workflow(1)))
    lines = folder.text.split("\n")
    places = {word: {"line": number, "character": lines[number].index(word) + len(word)}
              for word in ("runs-on", "github.ref", "./a") for number in [next(n for n, line in enumerate(lines) if word in line)]}
    asked = (("keys", "completion", "runs-on"), ("properties", "completion", "github.ref"), ("actions", "completion", "./a"),
             ("a key", "hover", "runs-on"), ("a property", "hover", "github.ref"), ("a call", "definition", "./a"))
    for what, method, word in asked:
        seconds, server = [], 0.0
        for _ in range(EDITS // 10):
            folder.edit()
            server -= folder.processor_seconds()[0]
            begun = time.monotonic()
            document = {"uri": folder.editor.uri(folder.path)}
            folder.editor.request(f"textDocument/{method}", {"textDocument": document, "position": places[word]})
            seconds.append(time.monotonic() - begun)
            server += folder.processor_seconds()[0]
        tell_times(f"  {method} of {what}", f"{method} of {what}", seconds)
        print(f"    of which processor time: server {1000 * server / len(seconds):.2f} ms")
    folder.close()


def tell_full_folder(linter):
    """Times of edits beside as many files as there can be."""
    for name, text in (("4,095 small workflows", SMALL), ("4,095 with a fault each", FAULTY)):
        folder = Folder(linter, workflows(4_096, text))
        before = folder.processor_seconds()
        edits = EDITS // 5
        tell_times(f"an edit beside {name}", f"an edit beside {name}", [folder.edit() for _ in range(edits)])
        tell_processor_time(f"an edit beside {name}", before, folder, edits)
        folder.close()


def looks_like_calls(pieces):
    """A script of pieces of 4 bytes that begin like a call."""
    return HEAD + "      - run: |\n          uses " + "./a," * pieces + "\n"


def calls(steps):
    """Calls of actions that don't exist."""
    return HEAD + "".join(f"      - uses: ./d{step:06}\n" for step in range(steps))


def wrong_keys(count):
    """Faults on one line."""
    return "{" + ",".join(f"k{number:06}: 1" for number in range(count)) + "}\n"


def undefined(count):
    """Faults that are similar to a name."""
    return HEAD + "".join(f"      - run: echo ${{{{ github.acto{number:04} }}}}\n" for number in range(count))


SHAPES = {
    "a script of pieces that look like calls": (looks_like_calls, 46_000),
    "calls of actions that aren't there": (calls, 8_000),
    "faults on one line": (wrong_keys, 10_000),
    "faults with near names": (undefined, 400),
}


def tell_shapes(linter):
    """What a file costs until its first diagnostics, for an edit, for hovering, and for quick fixes of the whole file."""
    for name, (shape, count) in SHAPES.items():
        rows = []
        for size in (count, 2 * count):
            folder = Folder(linter, {f"{WORKFLOWS}a.yml": shape(size)})
            seconds = {"start": folder.start_seconds, "edit": statistics.median(folder.edit() for _ in range(5))}
            for what, ask in (("hover", lambda: folder.editor.hover(folder.path, 0, 1_000)),
                              ("quick fixes", lambda: folder.editor.actions(folder.path, EVERYWHERE))):
                begun = time.monotonic()
                ask()
                seconds[what] = time.monotonic() - begun
            seconds["memory"] = memory(folder.server, "VmHWM")
            rows.append(seconds)
            folder.close()
        told = ", ".join(f"{what} {1000 * row:.0f} ms ({row / first:.1f})" for (what, row), first in zip(rows[1].items(), rows[0].values())
                         if what != "memory")
        line = f"{2 * count} {name}: {told}; server {rows[1]['memory']:,} KiB"
        tell(line, name, **rows[1])


def tell_buffers(linter):
    """How long it takes until all buffers that an editor opens at once are shown."""
    took = []
    for count in (1_000, 2_000):
        files = workflows(count, FAULTY)
        folder = Folder(linter, files)
        begun = time.monotonic()
        for path, text in list(files.items())[1:]:
            folder.editor.open(path, text)
        folder.editor.settle()
        took.append(time.monotonic() - begun)
        folder.close()
    line = f"2,000 buffers opened: {took[1]:.2f} s ({took[1] / took[0]:.1f} times as long as 1,000)"
    tell(line, "2,000 buffers opened", this=took[1])


def tell_missing_inputs(linter):
    """A folder with a caller that has 600,000 faults."""
    inputs = "".join(f"  i{number}: {{required: true}}\n" for number in range(1_000))
    action = f"name: A\ndescription: d\ninputs:\n{inputs}runs: {{using: node20, main: m.js}}\n"
    caller = HEAD + "".join(f"      - uses: ./b\n        with:\n          x{number}: 1\n" for number in range(600))
    folder = Folder(linter, {f"{WORKFLOWS}a.yml": caller, "b/action.yml": action})
    name = "600 calls that lack 1,000 inputs each"
    tell_times(f"{name}: {folder.start_seconds:.1f} s; an edit", name, [folder.edit() for _ in range(5)])
    most = memory(folder.server, "VmHWM")
    tell(f"    server {most:,} KiB", f"start and memory of {name}", start=folder.start_seconds, memory=most)
    folder.close()


def tell_memory(linter):
    """The memory of the server and its programs over many edits."""
    folder = Folder(linter, workflows(20, workflow(1)))
    sizes = []
    for number in range(EDITS_OF_MEMORY + EDITS_BETWEEN):
        folder.edit()
        if number % EDITS_BETWEEN == EDITS_BETWEEN - 1:
            sizes.append(folder.memory())
    for name, first, last in zip(("server", "programs"), sizes[0], sizes[-1]):
        line = f"memory of the {name} after {EDITS_BETWEEN:,} edits {first:,} KiB, after {EDITS_OF_MEMORY:,} more {last:,} KiB"
        tell(line, f"memory of the {name}", first=first, last=last)
    folder.close()


def tell_folders(linter, count=1_000):
    """Many repositories, each with its own SARIF file."""
    top = tempfile.mkdtemp(prefix="actionlint-bench-")
    names = [f"{top}/{number:04}" for number in range(count)]
    for name in names:
        write(name, {**FILES, **workflows(3, workflow(1))})
    processors = os.cpu_count()
    begun = time.monotonic()
    command = f"{sys.executable} {REPORT} --program {linter} --out {{}}/actionlint.sarif --root {{}}"
    subprocess.run(["xargs", "-P", str(processors), "-I", "{}", *command.split()], input="\n".join(names).encode(), check=False)
    took = time.monotonic() - begun
    written = len(list(pathlib.Path(top).glob("*/actionlint.sarif")))
    line = f"{written} of {count} folders of 5 workflows and an action, {processors} at a time, with a file of SARIF each: {took:.1f} s"
    tell(line, "folders", this=took, folders=written, at_a_time=processors)
    shutil.rmtree(top)


def main():
    linter = os.path.abspath(sys.argv[1]) if len(sys.argv) > 1 else str(program("actionlint"))
    tell_edits(linter, 200, 1)
    tell_edits(linter, 200, 10)
    tell_requests(linter)
    tell_full_folder(linter)
    tell_buffers(linter)
    tell_shapes(linter)
    tell_missing_inputs(linter)
    tell_memory(linter)
    tell_folders(linter)


if __name__ == "__main__":
    sys.exit(main())
