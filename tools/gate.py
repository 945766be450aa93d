"""Runs the gate: gate.py [--note] [--guard SECONDS] [--programs FOLDER] [--without PART ..] [PART ..]

Without arguments it proves every crate from scratch, tries the must-fail edits and runs the crates' tests (rt ci); then it runs every case
with the built programs, the tests of the pages, of the built program, of the clients and of ./actionlint, and compares the program in
prebuilt/ with the built one. The PARTs named are run instead, or all but those after --without, with the programs below FOLDER/crates.

A part prints a line for each case. It has failed if a case is wrong, if it ends with another status than its cases say, if it prints fewer
cases than tests/counts.txt notes, or if it hasn't ended after its time: then it is killed with its processes, after SECONDS if given.
--note runs the parts and notes their numbers of cases. If CI is set, missing Debian packages are installed, and a skipped case has failed
too, unless a machine may lack what it needs (MAY_BE_SKIPPED). The last line counts all results, and the one before it the skipped ones.
The status is 0 if nothing has failed, and 3 if rt is needed and isn't there.
"""

from __future__ import annotations

import argparse
import os
import pathlib
import re
import shutil
import signal
import subprocess
import sys
import tempfile
import time
from dataclasses import dataclass, field

TOP = pathlib.Path(__file__).resolve().parent.parent
COUNTS = TOP / "tests/counts.txt"
MINUTES = 60
IN_CI = bool(os.environ.get("CI"))
CASE = re.compile(r"^case=(.*?) output=(\S+)")
CLOSING = re.compile(r"^(\d+) passed, (\d+) failed$")
SIGNALS = (signal.SIGTERM, signal.SIGINT, signal.SIGHUP)
# of commands that a machine may lack: two shells and the formatter of manual pages
MAY_BE_SKIPPED = re.compile(r"completed-by-(fish|zsh)|manual-page-of-.*")
# a file of each package that the tests in Python need beside those of the clients
PACKAGES = {"/usr/bin/flake8": "flake8", "/usr/bin/mypy": "mypy", "/usr/bin/pre-commit": "pre-commit"}
SECONDS_TO_END = 60


@dataclass(frozen=True)
class Part:
    """A command with its time, in minutes. In its words, `{NAME}` is the program of the crate NAME."""

    name: str
    words: tuple[str, ...]
    minutes: int = MINUTES

    @property
    def title(self) -> str:
        """What is printed before it is run."""
        return TITLES.get(self.name, f"tests/{self.name}.py")


@dataclass
class Result:
    """How many cases of a part passed and failed, which ones were skipped, and why else it failed."""

    passed: int = 0
    failed: int = 0
    skipped: list[str] = field(default_factory=list)
    reasons: list[str] = field(default_factory=list)

    @property
    def cases(self) -> int:
        return self.passed + self.failed + len(self.skipped)

    @property
    def failures(self) -> int:
        """The failed cases, or else whether it failed for another reason."""
        return self.failed or bool(self.reasons)


def test(name: str, *words: str, minutes: int = MINUTES) -> Part:
    """A test in tests/."""
    return Part(name, ("python3", f"tests/{name}.py", *words), minutes)


def cases(name: str, program: str, path: str, *words: str) -> Part:
    """The cases at a path of tests/, run by a program."""
    return Part(name, ("python3", "tests/run_cases.py", program, f"tests/{path}", *words))


LINTER = "{actionlint}"
RT, CLIENTS, PREBUILT = "rt", "clients", "prebuilt"
TITLES = {RT: "proofs from scratch, must-fail edits, tests and programs (rt ci)", CLIENTS: "clients", PREBUILT: "prebuilt/actionlint",
          "cases": "tests/cases", **{name: f"tests/{name}.cases" for name in ("expressions", "chunks", "yaml-trees", "faults")}}
PARTS = (
    Part(RT, ("rt", "ci"), 600),
    cases("cases", LINTER, "cases", "--session", "--oneline"),
    cases("expressions", "{al_facts}", "expressions.cases", "expr"),
    cases("chunks", "{al_facts}", "chunks.cases", "chunks"),
    cases("yaml-trees", "{al_facts}", "yaml-trees.cases", "yaml"),
    cases("faults", LINTER, "faults.cases", "--session", "--oneline"),
    test("clean_examples", "."),
    test("pages", "."),
    test("public_docs", "."),
    test("dependent", "."),
    *(test(name, LINTER) for name in ("program", "system_limits", "hostile", "streams", "edits", "pipes", "command_line_page",
                                      "page_commands", "report_picture", "own_repository", "release", "packages")),
    test("facts", LINTER, "{al_facts}"),
    test("growth_sample", LINTER, "{al_tests}"),
    Part(CLIENTS, ("clients/test", "--python", *(["--install"] if IN_CI else []), LINTER), 180),
    test("wrapper", "."),
    test("gate", LINTER),
    test("python_code", "."),
    Part(PREBUILT, ("python3", "tools/prebuilt.py", "--compare")),
)
WITHOUT_CASES = (RT, PREBUILT)


def program_of(folder: pathlib.Path, crate: str) -> str:
    """The program that a crate gives, or for `al_tests` its tests."""
    return str(folder / "crates" / crate / "out" / (f"{crate}_tests" if crate == "al_tests" else crate))


class Runner:
    """Runs commands, one at a time, so that a signal ends them too."""

    def __init__(self) -> None:
        self.child: subprocess.Popen[bytes] | None = None
        for number in SIGNALS:
            # (nohup has one ignored)
            if signal.getsignal(number) != signal.SIG_IGN:
                signal.signal(number, self.end)

    def end(self, number: int, _: object) -> None:
        """Passes a signal on to the command and its processes, waits for it, and ends this program."""
        if self.child:
            self.send(number)
            try:
                self.child.wait(SECONDS_TO_END)
            except subprocess.TimeoutExpired:
                self.send(signal.SIGKILL)
        sys.exit(128 + number)

    def send(self, number: int) -> None:
        """Sends a signal to the command's processes."""
        assert self.child
        try:
            os.killpg(self.child.pid, number)
        except ProcessLookupError:
            pass

    def run(self, words: list[str], seconds: float, is_shown: bool) -> tuple[int | None, str]:
        """The status of a command and what it printed; None if it was killed after its time. What it prints may be shown as it comes."""
        with tempfile.TemporaryDirectory(prefix="actionlint-gate-") as room:
            log = pathlib.Path(room) / "log"
            with open(log, "wb") as written, open(log, encoding="utf-8", errors="replace") as read:
                pipes = {"stdin": subprocess.DEVNULL, "stdout": written, "stderr": subprocess.STDOUT}
                try:
                    self.child = subprocess.Popen(words, cwd=TOP, start_new_session=True, **pipes)  # type: ignore[call-overload]
                except OSError as error:
                    return 127, f"{words[0]}: {error.strerror}\n"
                assert self.child
                text, end, status = "", time.monotonic() + seconds, None
                while status is None and time.monotonic() < end:
                    try:
                        status = self.child.wait(0.2)
                    except subprocess.TimeoutExpired:
                        pass
                    text += print_new(read.read(), is_shown)
                if status is None:
                    self.send(signal.SIGKILL)
                    self.child.wait()
                self.child = None
                return status, text + print_new(read.read(), is_shown)


def print_new(text: str, is_shown: bool) -> str:
    """Prints what has come, if it is shown."""
    if is_shown and text:
        print(text, end="", flush=True)
    return text


def result_of_cases(text: str) -> Result:
    """The result that the lines of cases tell."""
    result = Result()
    for name, output in (found.groups() for found in map(CASE.match, text.splitlines()) if found):
        if output == "expected":
            result.passed += 1
        elif output == "skipped":
            result.skipped.append(name)
        else:
            result.failed += 1
    return result


def result_of_kit(text: str) -> Result:
    """The result that the last line of `rt ci` tells."""
    found = CLOSING.match(text.splitlines()[-1]) if text.strip() else None
    return Result(int(found[1]), int(found[2])) if found else Result(reasons=["its last line doesn't count results"])


def result_of_prebuilt(text: str) -> Result:
    """The comparison of the carried program: passed if it was built from these sources and is the one built here, skipped if it was built
    from others, as in each change before it is merged."""
    if text == "older\n":
        print("prebuilt/actionlint was built from other sources or by another kit, and wasn't compared")
    return Result(passed=int(text == "fits\n"), skipped=[PREBUILT] if text == "older\n" else [])


READERS = {RT: result_of_kit, PREBUILT: result_of_prebuilt}


def counts() -> dict[str, int]:
    """The noted numbers of cases."""
    rows = [line.split() for line in COUNTS.read_text().splitlines() if line and not line.startswith("#")] if COUNTS.is_file() else []
    return {name: int(count) for name, count in rows}


def wrong_count(part: Part, result: Result, noted: dict[str, int]) -> list[str]:
    """Why the number of a part's cases is wrong. Outside of CI, one skipped case may stand for several."""
    if part.name in WITHOUT_CASES or result.skipped and not IN_CI:
        return []
    if part.name not in noted:
        return [f"tests/counts.txt notes no number of cases: ./test --note {part.name} does, after a look at its cases"]
    return [f"{result.cases} cases, and tests/counts.txt notes {noted[part.name]}"] if result.cases < noted[part.name] else []


def wrong_skips(result: Result) -> list[str]:
    """The skipped cases that fail in CI."""
    return [f"{name} was skipped" for name in result.skipped if IN_CI and name != PREBUILT and not MAY_BE_SKIPPED.fullmatch(name)]


def wrong_status(part: Part, result: Result, status: int | None, seconds: float) -> list[str]:
    """Why a part's status isn't that of its cases. `clients/test` also ends with 1 if cases were skipped."""
    if status is None:
        return [f"it hadn't ended after {seconds:.0f} seconds"]
    is_told = result.failed or part.name == CLIENTS and result.skipped
    return [f"it ended with status {status}"] if status and not is_told else []


class Gate:
    """Runs parts, and counts their results."""

    def __init__(self, given: argparse.Namespace) -> None:
        self.runner, self.given, self.noted = Runner(), given, counts()
        self.passed = self.failed = self.skipped = 0

    def run(self, part: Part) -> Result:
        """Runs a part and prints what is wrong."""
        print(f"== {part.title}", flush=True)
        words = [program_of(self.given.programs, word[1:-1]) if word.startswith("{") else word for word in part.words]
        seconds = self.given.guard or part.minutes * 60
        status, text = self.runner.run(words, seconds, part.name == RT)
        result = READERS.get(part.name, result_of_cases)(text)
        result.reasons += wrong_status(part, result, status, seconds) + wrong_skips(result)
        if not self.given.note:
            result.reasons += wrong_count(part, result, self.noted)
        if part.name not in WITHOUT_CASES and not result.passed:
            result.reasons.append("no case passed")
        self.tell(part, result, text)
        return result

    def tell(self, part: Part, result: Result, text: str) -> None:
        """Prints what a part printed if it failed, its skipped cases and why else it failed, and counts its results."""
        for line in text.splitlines() if part.name != RT else []:
            if result.failures or " output=skipped " in line:
                print(line)
        for reason in result.reasons:
            print(f"{part.name}: {reason}")
        self.passed += result.passed
        self.failed += result.failures
        self.skipped += len(result.skipped)

    def note(self, part: Part, result: Result) -> None:
        """Notes the number of a part's cases."""
        if not result.failures and part.name not in WITHOUT_CASES:
            self.noted[part.name] = result.cases
            rows = [f"{it.name} {self.noted[it.name]}\n" for it in PARTS if it.name in self.noted]
            COUNTS.write_text(HEAD_OF_COUNTS + "".join(rows))


HEAD_OF_COUNTS = "# The least number of cases of each part of ./test, skipped ones too; ./test --note PART notes that of this machine.\n"


def install_packages(runner: Runner) -> None:
    """Installs the packages that are missing."""
    missing = [package for file, package in PACKAGES.items() if not os.path.exists(file)]
    install = f"apt-get update && DEBIAN_FRONTEND=noninteractive apt-get install -y --no-install-recommends {' '.join(missing)}"
    status, text = runner.run(["sh", "-c", install], MINUTES * 60, False) if missing else (0, "")
    if status:
        print(f"apt-get can't install {', '.join(missing)}:", *text.splitlines()[-3:], sep="\n")


def arguments() -> argparse.Namespace:
    """What is asked for."""
    parser = argparse.ArgumentParser(prog="test", description="Runs the gate, or some of its parts.")
    names = [part.name for part in PARTS]
    parser.add_argument("parts", nargs="*", metavar="PART", help="the parts to run, by default all: " + " ".join(names))
    parser.add_argument("--without", action="append", default=[], metavar="PART", choices=names, help="leaves a part out")
    parser.add_argument("--note", action="store_true", help="notes the numbers of cases in tests/counts.txt")
    parser.add_argument("--guard", type=float, metavar="SECONDS", help="after which a part is killed, in place of its own time")
    parser.add_argument("--programs", type=pathlib.Path, default=TOP, metavar="FOLDER", help="the repository with the built programs")
    given = parser.parse_args()
    unknown = [name for name in given.parts if name not in names]
    if unknown:
        parser.error(f"there is no part {unknown[0]}; the parts are {' '.join(names)}")
    given.programs = given.programs.resolve()
    return given


def main() -> int:
    given = arguments()
    chosen = [part for part in PARTS if part.name in (given.parts or [it.name for it in PARTS]) and part.name not in given.without]
    if any(part.name == RT for part in chosen) and not shutil.which("rt"):
        print("test: the kit's command rt isn't on the PATH", file=sys.stderr)
        return 3
    gate = Gate(given)
    if IN_CI:
        install_packages(gate.runner)
    for part in chosen:
        result = gate.run(part)
        if given.note:
            gate.note(part, result)
    if gate.skipped:
        print(f"{gate.skipped} skipped")
    print(f"{gate.passed} passed, {gate.failed} failed")
    return 1 if gate.failed or not chosen else 0


if __name__ == "__main__":
    sys.exit(main())
