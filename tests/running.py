"""What the tests of the built program share: folders on disk, runs, scripts, reports, and the lines printed for a case.

A case prints one line, as `rt try --cases` does: `case=NAME output=expected status=N`, or what differs. If the test runs as root, the
program runs as the user nobody, since root can read every file.
"""

import os
import pathlib
import re
import resource
import shutil
import signal
import subprocess
import sys
import tempfile

WORKFLOWS = ".github/workflows"
CLEAN = b"on: push\njobs:\n  a:\n    runs-on: ubuntu-latest\n    steps:\n      - run: echo\n"
EMPTY_REPORT = b".github/workflows/a.yml:1:1: file is empty [syntax-check]\n"
# a workflow that calls an action, the action, and the fault of the missing input
CALLER = CLEAN.replace(b"run: echo", b"uses: ./a")
CALLED = b"name: A\ndescription: d\ninputs:\n  who:\n    required: true\nruns:\n  using: node20\n  main: m.js\n"
MISSING_INPUT = b'.github/workflows/c.yml:6:15: required input "who" of "A" is missing [action]\n'
REPORT = b"report\n"
SCRIPT = ["--session", "--oneline"]
NOBODY = 65534
SECONDS = 60
FAULT = re.compile(rb"^(.*?):([0-9]+):([0-9]+): (.*) \[([a-z-]+)\]$", re.DOTALL)

results = {"right": 0, "wrong": 0}


def built_program():
    """The linter that was built here, otherwise the carried one."""
    top = pathlib.Path(__file__).resolve().parent.parent
    built = top / "crates/actionlint/out/actionlint"
    return built if built.is_file() else top / "prebuilt/actionlint"


def report(name, status, differences):
    """Prints the line of a case, and what differs."""
    results["wrong" if differences else "right"] += 1
    print(f"case={name} output={'wrong' if differences else 'expected'} status={status}")
    for line in differences:
        print(f"  {line}")
    sys.stdout.flush()


def skip(name, why):
    """Prints the line of a case that can't be run here."""
    print(f"case={name} output=skipped status=- since {why}")


def exit_status():
    """The status of a test: 1 if a case was wrong, or none was run."""
    return 1 if results["wrong"] or not results["right"] else 0


def write_files(folder, files):
    """Writes files below a folder, by path."""
    for path, data in files.items():
        whole = os.path.join(folder, path)
        os.makedirs(os.path.dirname(whole), exist_ok=True)
        with open(whole, "wb") as file:
            file.write(data)


def show(data):
    """The beginning of some output, for a person."""
    return repr(data[:300]) + (f" and {len(data) - 300} bytes more" if len(data) > 300 else "")


def differences_of(ran, status, out, err):
    """What of a run isn't as it should be. `None` isn't compared; a function is called."""
    found = []
    for what, got, wanted in (("status", ran.returncode, status), ("stdout", ran.stdout, out), ("stderr", ran.stderr, err)):
        if wanted is None:
            continue
        if callable(wanted):
            if not wanted(got):
                found.append(f"{what} was {show(got) if isinstance(got, bytes) else got}")
        elif got != wanted:
            shown = (show(got), show(wanted)) if isinstance(got, bytes) else (got, wanted)
            found.append(f"{what} was {shown[0]}, and should be {shown[1]}")
    return found


class Place:
    """A folder on disk with a copy of the program, which runs with the folder as the current one."""

    def __init__(self, program):
        self.room = tempfile.mkdtemp(prefix="actionlint-test-")
        os.chmod(self.room, 0o755)
        self.program = os.path.join(self.room, "actionlint")
        shutil.copyfile(program, self.program)
        os.chmod(self.program, 0o755)
        self.count = 0
        self.folder = None

    def fresh(self, files=None, folders=()):
        """A new folder with these files, by path."""
        self.count += 1
        self.folder = os.path.join(self.room, str(self.count))
        os.makedirs(self.folder)
        for folder in folders:
            os.makedirs(os.path.join(self.folder, folder), exist_ok=True)
        write_files(self.folder, files or {})
        return self.folder

    def write(self, path, data):
        """Writes a file of the folder."""
        write_files(self.folder, {path: data})

    def run(self, words=(), stdin=b"", limits=None, program=None, **streams):
        """Runs the program, or another one, and collects its streams."""
        how = {"cwd": self.folder, "stdout": subprocess.PIPE, "stderr": subprocess.PIPE, "timeout": SECONDS}
        if isinstance(stdin, bytes):
            how["input"] = stdin
        else:
            how["stdin"] = stdin
        if os.geteuid() == 0:
            how.update(user=NOBODY, group=NOBODY, extra_groups=[])
        if limits:
            how["preexec_fn"] = limits
        how.update(streams)
        ran = subprocess.run([program or self.program, *words], check=False, **how)
        ran.stdout = ran.stdout or b""
        return ran

    def run_to_file(self, size, words, stdin=b"", program=None):
        """Runs a program with its output into a file that accepts only some bytes; also returns what the file holds."""
        target = os.path.join(self.room, "output")
        with open(target, "wb") as output:
            # the signal that the system sends here would end the program without an answer
            ran = self.run(words, stdin, small_files(size), program, stdout=output, restore_signals=False)
        with open(target, "rb") as output:
            return ran, output.read()

    def case(self, name, status, out, err, words=(), **how):
        """Runs the program and reports a case."""
        ran = self.run(words, **how)
        report(name, ran.returncode, differences_of(ran, status, out, err))
        return ran

    def remove(self):
        """Removes everything that was made."""
        shutil.rmtree(self.room, ignore_errors=True)


def limit(which, value):
    """Sets a limit of the system."""
    return lambda: resource.setrlimit(which, (value, value))


def small_files(size):
    """Files accept this many bytes, and later writes fail."""

    def limits():
        signal.signal(signal.SIGXFSZ, signal.SIG_IGN)
        resource.setrlimit(resource.RLIMIT_FSIZE, (size, size))

    return limits


def line(text):
    """A line on standard error by the program."""
    return b"actionlint: " + text + b"\n"


def put(path, data):
    """The command that puts a file."""
    return b"put %s %d\n%s\n" % (path.encode(), len(data), data)


def delete(path):
    """The command that deletes a file."""
    return b"delete %s\n" % path.encode()


def edits_and_reports(out):
    """The output of a script of edits, each followed by `report`: for each edit its reply, the report, and its status. None if the output
    has another form."""
    found = re.findall(rb"(ok \d+|refused E\d)\n((?:[^\n]*\]\n)*)status (\d)\n", out)
    whole = b"".join(b"%s\n%sstatus %s\n" % parts for parts in found)
    return [(reply, lines, int(status)) for reply, lines, status in found] if whole == out else None


def line_lengths(data):
    """For each line, counted from 1, the number of its characters, including its break."""
    breaks = [match.end() for match in re.finditer(rb"\r\n|\n|\r", data)]
    starts = [0, *breaks]
    ends = [*breaks, len(data)]
    return [sum(byte & 0xC0 != 0x80 for byte in data[start:end]) for start, end in zip(starts, ends)]


def wrong_line(reported, folder):
    """The first line of a report that breaks what must hold for any folder of files by path, and what it breaks."""
    last_path, last_place, seen = b"", (0, 0), set()
    for text in reported.split(b"\n")[:-1]:
        match = FAULT.match(text)
        if not match:
            return f"no fault's line: {text!r}"
        path, row, column = match[1], int(match[2]), int(match[3])
        if path.decode() not in folder:
            return f"a file that isn't there: {text!r}"
        if path < last_path or path == last_path and (row, column) < last_place:
            return f"out of order: {text!r}"
        if text in seen:
            return f"twice: {text!r}"
        seen.add(text)
        lengths = line_lengths(folder[path.decode()])
        if not (1 <= row <= len(lengths) and 1 <= column <= lengths[row - 1] + 1):
            return f"outside its file: {text!r}"
        last_path, last_place = path, (row, column)
    return None


def each(name, runs):
    """Reports one case of many runs, each a number and what differs in it; the first difference ends it."""
    count = 0
    for number, differences in runs:
        count += 1
        if differences:
            report(name, f"- run={number}", differences)
            return
    report(name, f"- runs={count}", [] if count else ["nothing was run"])


def run_parts(*parts):
    """Runs the parts of a test, each a function of a place, over the program that the arguments name; returns the status."""
    if len(sys.argv) != 2:
        print(f"{os.path.basename(sys.argv[0])} PROGRAM", file=sys.stderr)
        return 2
    place = Place(sys.argv[1])
    try:
        for part in parts:
            part(place)
    finally:
        place.remove()
    return exit_status()


def run_in_room(cases):
    """Runs cases over the program that the arguments name, in an empty folder; returns the status. A case is its name with what is wrong,
    or None if a command that it needs isn't there."""
    if len(sys.argv) != 2:
        print(f"{os.path.basename(sys.argv[0])} PROGRAM", file=sys.stderr)
        return 2
    with tempfile.TemporaryDirectory(prefix="actionlint-test-") as room:
        for name, wrong in cases(pathlib.Path(sys.argv[1]).resolve(), pathlib.Path(room)):
            if wrong is None:
                skip(name, "a command isn't there")
            else:
                report(name, "-", wrong)
    return exit_status()
