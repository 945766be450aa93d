"""Tests ./test in copies with parts of a few lines: gate.py PROGRAM.

A part that ends otherwise than its cases say, hangs, prints fewer cases than noted or no case, or skips one in CI has to fail; so has a
linter that hangs from its 41st run on, which is tried with tests/program.py itself, and each case of tests/hostile.py and tests/streams.py
with a linter that does nothing. Each wrong version of tools/gate.py (WRONG_VERSIONS) is refused by the check that is named with it. Prints
a line for each case.
"""

from __future__ import annotations

import concurrent.futures
import contextlib
import os
import pathlib
import shutil
import signal
import subprocess
import sys
import tempfile
import typing

from running import run_in_room

TOP = pathlib.Path(__file__).resolve().parent.parent
SECONDS = 300
GUARD = 60
HOSTILE_CASES = 100
RIGHT = "print('case=a output=expected status=0\\ncase=b output=expected status=0')\n"
ENDS_WRONG = "import sys\n" + RIGHT + "sys.exit(1)\n"
# waits without end, in a process of its own too, both of which it names in a file
HANGS = """
import os, pathlib, subprocess, time
print('case=a output=expected status=0\\ncase=b output=expected status=0', flush=True)
child = subprocess.Popen(['sleep', '1000'])
pathlib.Path('new').write_text(f'{os.getpid()} {child.pid}')
os.rename('new', 'processes')
time.sleep(1000)
"""
# the linter for 40 runs; then it hangs
FAILS_LATE = """#!/bin/sh
echo >> {room}/runs
if [ "$(wc -l < {room}/runs)" -gt 40 ]; then exec sleep 1000; fi
exec {room}/right "$@"
"""
SHELL = "#!/bin/sh\n"
# waits for the file `go`, for at most a minute
WAITS = "echo first\nfor i in $(seq 600); do if [ -e go ]; then echo '5 passed, 0 failed'; exit; fi; sleep 0.1; done\nexit 1\n"
Edit = typing.Tuple[str, str]


class Copy:
    """A folder with ./test, perhaps edited, over parts of a few lines."""

    def __init__(self, room: pathlib.Path, edit: Edit | None):
        self.top = pathlib.Path(tempfile.mkdtemp(dir=room))
        self.top.chmod(0o755)
        for folder in ("tools", "tests", "bin"):
            (self.top / folder).mkdir()
        shutil.copy(TOP / "test", self.top)
        text = (TOP / "tools/gate.py").read_text()
        if edit:
            assert text.count(edit[0]) == 1, edit
            text = text.replace(*edit)
        (self.top / "tools/gate.py").write_text(text)
        for name in ("sh", "seq", "sleep", "bash", "dirname", "wc"):
            (self.top / "bin" / name).symlink_to(shutil.which(name) or name)
        self.executable("bin/python3", f'{SHELL}exec {sys.executable} "$@"\n')
        self.executable("bin/apt-get", SHELL)
        self.write("tests/counts.txt", "# counts\nprogram 2\npackages 2\n")

    def write(self, path: str, text: str) -> None:
        (self.top / path).write_text(text)

    def executable(self, path: str, text: str) -> None:
        self.write(path, text)
        (self.top / path).chmod(0o755)

    def environment(self, ci: bool) -> dict[str, str]:
        kept = {name: value for name, value in os.environ.items() if name not in ("CI", "PATH")}
        return {**kept, "PATH": str(self.top / "bin"), **({"CI": "true"} if ci else {})}

    def started(self, *words: str, ci: bool = False) -> subprocess.Popen[str]:
        pipes: dict[str, typing.Any] = {"stdout": subprocess.PIPE, "stderr": subprocess.PIPE, "text": True}
        return subprocess.Popen([str(self.top / "test"), *words], env=self.environment(ci), **pipes)

    def run(self, *words: str, ci: bool = False) -> tuple[int, str, str]:
        """The status of ./test and what it prints."""
        with self.started(*words, ci=ci) as gate:
            out, errors = gate.communicate(timeout=SECONDS)
            return gate.returncode, out, errors

    def differs(self, what: str, text: str, last: str, *words: str, ci: bool = False, part: str = "program") -> list[str]:
        """How a run of a part with this text differs from one whose last line is this."""
        self.write(f"tests/{part}.py", text)
        status, out, errors = self.run(*words, part, ci=ci)
        wanted = 0 if last.endswith(" 0 failed") else 1
        if (status, out.splitlines()[-1:]) == (wanted, [last]):
            return []
        return [f"{what}: status {status} in place of {wanted}, {last!r} isn't the last line of {out!r}, {errors!r}"]


def statuses(copy: Copy) -> list[str]:
    """A status that cases don't explain fails, and one wrong case is one failure, whatever the status."""
    wrong = "print('case=c output=wrong status=1')\n"
    return [
        *copy.differs("right", RIGHT, "2 passed, 0 failed"),
        *copy.differs("status 1", ENDS_WRONG, "2 passed, 1 failed"),
        *copy.differs("an exception", RIGHT + "raise ValueError\n", "2 passed, 1 failed"),
        *copy.differs("killed", RIGHT + "import os, sys\nsys.stdout.flush()\nos.kill(os.getpid(), 9)\n", "2 passed, 1 failed"),
        *copy.differs("a wrong case with status 0", RIGHT + wrong, "2 passed, 1 failed"),
        *copy.differs("a wrong case with status 1", wrong + ENDS_WRONG, "2 passed, 1 failed"),
        *copy.differs("a case that doesn't end", RIGHT + "print('case=c output=none, no end')\n", "2 passed, 1 failed"),
    ]


def fewer_cases(copy: Copy) -> list[str]:
    """Fewer cases than noted fail, more don't, and none or those without a note do."""
    one = "print('case=a output=expected status=0')\n"
    found = [
        *copy.differs("one of two", one, "1 passed, 1 failed"),
        *copy.differs("three", RIGHT + one, "3 passed, 0 failed"),
        *copy.differs("none", "", "0 passed, 1 failed"),
        *copy.differs("without a note", RIGHT, "2 passed, 1 failed", part="pipes"),
        *copy.differs("to be noted", RIGHT, "2 passed, 0 failed", "--note", part="pipes"),
        *copy.differs("noted", RIGHT, "2 passed, 0 failed", part="pipes"),
        *copy.differs("fewer than noted", one, "1 passed, 1 failed", part="pipes"),
        *copy.differs("noted before", RIGHT, "2 passed, 0 failed"),
    ]
    copy.write("tests/counts.txt", "program 0\n")
    return found + copy.differs("none, and none noted", "", "0 passed, 1 failed")


def skipped_cases(copy: Copy) -> list[str]:
    """A skipped case fails in CI, but for those of commands that a machine may lack."""
    skipped = RIGHT + "print('case=c output=skipped status=- since x')\n"
    shell = RIGHT + "print('case=completed-by-fish output=skipped status=- since x')\n"
    return [
        *copy.differs("skipped", skipped, "2 passed, 0 failed"),
        *copy.differs("skipped in CI", skipped, "2 passed, 1 failed", ci=True),
        *copy.differs("a shell in CI", shell, "2 passed, 0 failed", ci=True, part="packages"),
        *copy.differs("all skipped", "print('case=c output=skipped status=- since x')\n", "0 passed, 1 failed"),
    ]


def is_running(process: int) -> bool:
    """Whether a process runs; one that has ended and that nobody has asked about doesn't."""
    with contextlib.suppress(OSError):
        return pathlib.Path(f"/proc/{process}/stat").read_text().rpartition(")")[2].split()[0] != "Z"
    return False


def left_running(copy: Copy) -> list[str]:
    """Which processes of the part that hangs still run."""
    file = copy.top / "processes"
    if not file.is_file():
        return ["the part didn't begin"]
    left = [int(it) for it in file.read_text().split() if is_running(int(it))]
    for process in left:
        os.kill(process, signal.SIGKILL)
    return [f"{len(left)} processes still run"] if left else []


def a_hang(copy: Copy) -> list[str]:
    """A part that doesn't end fails after its time, and its processes are killed."""
    return copy.differs("a hang", HANGS, "2 passed, 1 failed", "--guard", str(GUARD)) + left_running(copy)


def a_signal(copy: Copy) -> list[str]:
    """A signal ends ./test and what it runs."""
    copy.write("tests/program.py", HANGS)
    with copy.started("program") as gate:
        for _ in range(SECONDS * 10):
            if (copy.top / "processes").is_file():
                break
            with contextlib.suppress(subprocess.TimeoutExpired):
                gate.wait(0.1)
        gate.terminate()
        try:
            gate.communicate(timeout=SECONDS)
        except subprocess.TimeoutExpired:
            gate.kill()
        return ([] if gate.returncode == 143 else [f"a signal: status {gate.returncode}"]) + left_running(copy)


def the_kit(copy: Copy) -> list[str]:
    """Without rt there is one line; the results of `rt ci`, and its status, count."""
    status, out, errors = copy.run()
    found = [] if (status, out, errors.count("\n")) == (3, "", 1) else [f"without rt: {status}, {out!r}, {errors!r}"]
    for text, last in (("echo '5 passed, 0 failed'\n", "5 passed, 0 failed"), ("echo '5 passed, 2 failed'\nexit 1\n", "5 passed, 2 failed"),
                       ("echo '5 passed, 0 failed'\nexit 1\n", "5 passed, 1 failed"), ("echo stopped\n", "0 passed, 1 failed")):
        copy.executable("bin/rt", SHELL + text)
        status, out, errors = copy.run("rt")
        wanted = 0 if last.endswith(" 0 failed") else 1
        found += [] if (status, out.splitlines()[-1:]) == (wanted, [last]) else [f"{text!r}: {status}, {out!r}"]
    return found


def shown_as_it_comes(copy: Copy) -> list[str]:
    """What `rt ci` prints is shown before it ends."""
    copy.executable("bin/rt", SHELL + WAITS)
    with copy.started("rt") as gate:
        assert gate.stdout
        for line in gate.stdout:
            if line == "first\n":
                copy.write("go", "")
        return [] if gate.wait(SECONDS) == 0 else ["the first line of `rt ci` wasn't shown before its end"]


def a_linter_that_hangs(copy: Copy, program: pathlib.Path) -> list[str]:
    """A linter that hangs from its 41st run on, in tests/program.py."""
    for name in ("program.py", "running.py"):
        shutil.copy(TOP / "tests" / name, copy.top / "tests")
    shutil.copy(program, copy.top / "right")
    copy.write("runs", "")
    (copy.top / "runs").chmod(0o666)
    (copy.top / "crates/actionlint/out").mkdir(parents=True)
    copy.executable("crates/actionlint/out/actionlint", FAILS_LATE.format(room=copy.top))
    copy.write("tests/counts.txt", "program 1\n")
    status, out, _ = copy.run("program")
    cases = out.count(" output=expected ")
    return [] if status == 1 and out.endswith(f"{cases} passed, 1 failed\n") and 30 <= cases <= 41 else [f"{status}, {out[-600:]!r}"]


def a_linter_that_does_nothing() -> list[str]:
    """It fails each case of tests/hostile.py and of tests/streams.py."""
    lines = []
    for name in ("hostile", "streams"):
        command = [sys.executable, str(TOP / f"tests/{name}.py"), shutil.which("true") or "true"]
        ran = subprocess.run(command, stdout=subprocess.PIPE, stderr=subprocess.DEVNULL, text=True, check=False)
        lines += [line for line in ran.stdout.splitlines() if line.startswith("case=")]
    passed = [line for line in lines if " output=wrong " not in line]
    return passed if len(lines) >= HOSTILE_CASES else [f"{len(lines)} cases"]


CHECKS = {check.__name__: check for check in (statuses, fewer_cases, skipped_cases, a_hang, a_signal, the_kit, shown_as_it_comes)}
# the check that refuses a wrong version, the right text and the wrong one
WRONG_VERSIONS = {
    "statuses_are_dropped": ("statuses", 'if status and not is_told else []', 'if False else []'),
    "a_killed_part_is_right": ("statuses", "if status and not is_told", "if status and status > 0 and not is_told"),
    "wrong_cases_are_not_counted": ("statuses", "            result.failed += 1", "            pass"),
    "fewer_cases_are_enough": ("fewer_cases", "if result.cases < noted[part.name]", "if result.cases < noted[part.name] - 1"),
    "cases_need_no_note": ("fewer_cases", "    if part.name not in noted:\n", "    if False:\n"),
    "no_case_is_enough": ("fewer_cases", "if part.name not in WITHOUT_CASES and not result.passed:", "if False:"),
    "notes_of_others_are_lost": ("fewer_cases", "            self.noted[part.name] = result.cases",
                                 "            self.noted = {part.name: result.cases}"),
    "skips_pass_in_ci": ("skipped_cases", "if IN_CI and name != PREBUILT", "if False and name != PREBUILT"),
    "shells_have_to_be_there": ("skipped_cases", " and not MAY_BE_SKIPPED.fullmatch(name)", ""),
    "only_the_part_is_killed": ("a_hang", "os.killpg(self.child.pid, number)", "os.kill(self.child.pid, number)"),
    "a_hang_is_right": ("a_hang", '        return [f"it hadn\'t ended after {seconds:.0f} seconds"]', "        return []"),
    "a_signal_is_not_passed_on": ("a_signal", "        if self.child:\n            self.send", "        if False:\n            self.send"),
    "a_signal_is_forgotten": ("a_signal", "        sys.exit(128 + number)", "        return"),
    "the_kit_is_not_needed": ("the_kit", "if any(part.name == RT for part in chosen) and not shutil.which(\"rt\"):", "if False:"),
    "the_last_line_is_enough": ("the_kit", "    is_told = result.failed or", "    is_told = part.name == RT or result.failed or"),
    "nothing_is_shown": ("shown_as_it_comes", "    if is_shown and text:", "    if False:"),
}


def refused(room: pathlib.Path, check: str, right: str, wrong: str) -> list[str]:
    """Whether a check refuses a wrong version."""
    return [] if CHECKS[check](Copy(room, (right, wrong))) else [f"{check} doesn't refuse {wrong!r} in place of {right!r}"]


def cases(program: pathlib.Path, room: pathlib.Path) -> typing.Iterator[tuple[str, list[str]]]:
    """Each case with what is wrong. They mostly wait, so they run side by side."""
    room.chmod(0o755)
    with concurrent.futures.ThreadPoolExecutor(8) as pool:
        runs = {"a-linter-that-hangs": pool.submit(a_linter_that_hangs, Copy(room, None), program),
                "a-linter-that-does-nothing": pool.submit(a_linter_that_does_nothing)}
        slow_first = sorted(WRONG_VERSIONS, key=lambda name: WRONG_VERSIONS[name][0] not in ("a_hang", "a_signal"))
        runs |= {name.replace("_", "-"): pool.submit(CHECKS[name], Copy(room, None)) for name in sorted(CHECKS)}
        runs |= {f"wrong-version-{name}": pool.submit(refused, room, *WRONG_VERSIONS[name]) for name in slow_first}
        for name, run in runs.items():
            yield name, run.result()


if __name__ == "__main__":
    sys.exit(run_in_room(cases))
