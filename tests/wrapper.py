"""Tests ./actionlint and the scripts of tools/ in a copy with crates of a few lines and a fake `rt`.

    python3 tests/wrapper.py TOP

That `rt` logs each call, reports on each crate like the kit's, and "builds" a program that prints its arguments. Prints a line for each
case: `case=NAME output=expected status=N`, or what differs.
"""

import os
import pathlib
import shutil
import signal
import subprocess
import sys
import tempfile
import time

from running import NOBODY, exit_status, report

RT = """#!/usr/bin/env bash
echo "$*" >> "$RT_CALLS"
build() {
  [ -z "${FAILS-}" ] || { echo "the proof of low failed"; exit 1; }
  mkdir -p "$1/out"; printf '#!/bin/sh\necho "built $*"\n' > "$1/out/actionlint"; chmod +x "$1/out/actionlint"
}
case $1 in
  version) echo "kit-${KIT:-1} logic ${LOGIC:-1}" ;;
  ci) for crate in low middle actionlint; do echo "rt: $crate proved"; done; [ -z "${SLOW-}" ] || { echo $$ > "$SLOW"; sleep 60; }
    build crates/actionlint ;;
  run) build . ;;
esac
"""
CARRIED = '#!/bin/sh\necho "carried $*"\n'
COPIED = ("actionlint", "tools/build.py", "tools/crates.py", "tools/find_program.sh", "tools/prebuilt.py", "tools/schedule.py")
# The system's commands that the wrapper uses, besides python3.
NEEDED = ("sh", "bash", "awk", "find", "sort", "xargs", "sha256sum", "readlink", "mkdir", "touch", "mv", "rm", "cat", "chmod")
SECONDS = "low: 100\nmiddle: 200\nactionlint: 700\n"


class Copy:
    """A copy of the wrapper with three crates of the program, and one that isn't part of it."""

    def __init__(self, top):
        self.room = pathlib.Path(tempfile.mkdtemp(prefix="actionlint-wrapper-"))
        self.top = self.room / "top"
        for path in COPIED:
            (self.top / path).parent.mkdir(parents=True, exist_ok=True)
            shutil.copy(top / path, self.top / path)
        (self.top / "crates.txt").write_text("# all\nlow:\nmiddle: low std\nactionlint: middle\nother: low\n")
        for crate in ("low", "middle", "actionlint", "other"):
            (self.top / "crates" / crate / "src").mkdir(parents=True)
            self.source(crate).write_text("// one\n")
        (self.top / "HANDLES").write_text("Handles allowed: none.\n")
        (self.room / "bin").mkdir()
        (self.room / "bin/rt").write_text(RT)
        (self.room / "bin/rt").chmod(0o755)
        self.calls = self.room / "calls"
        self.user = {}
        self.path = f"{self.room / 'bin'}:{os.environ['PATH']}"

    def source(self, crate="low"):
        return self.top / "crates" / crate / "src/lib.rt"

    def environment(self, **more):
        own = {"PATH": self.path, "RT_CALLS": str(self.calls), "TMPDIR": str(self.room), "PYTHONDONTWRITEBYTECODE": "1"}
        return {**os.environ, **own, **more}

    def called(self, *command, **more):
        """Runs a command in the copy's environment."""
        return subprocess.run(command, env=self.environment(**more), capture_output=True, text=True, timeout=60, check=False)

    def run(self, *words, by=None, folder=None, **more):
        """Runs the wrapper; returns its status, its output and the commands of the kit that it called."""
        self.calls.write_text("")
        command = [str(by or self.top / "actionlint"), *words]
        pipes = {"capture_output": True, "text": True, "timeout": 60, "check": False, **self.user}
        ran = subprocess.run(command, cwd=folder or self.room, env=self.environment(**more), **pipes)
        return ran.returncode, ran.stdout, ran.stderr, [line.split()[0] for line in self.calls.read_text().splitlines()]

    def carry(self, **more):
        """Makes the copy carry a program with the hash of the sources."""
        made = self.called("python3", str(self.top / "tools/prebuilt.py"), "--renew", **more)
        (self.top / "prebuilt/actionlint").write_text(CARRIED)
        return made.returncode

    def without(self, *commands):
        """A folder for the PATH with what the wrapper needs, except for some commands."""
        tools = pathlib.Path(tempfile.mkdtemp(dir=self.room))
        tools.chmod(0o755)
        for name in (*NEEDED, "python3"):
            if name not in commands:
                (tools / name).symlink_to(shutil.which(name))
        if "rt" not in commands:
            (tools / "rt").symlink_to(self.room / "bin/rt")
        return str(tools)

    def forget(self):
        """Removes what was built."""
        shutil.rmtree(self.top / "crates/actionlint/out", ignore_errors=True)


def expect(name, got, **wanted):
    """Reports a case: the expected parts of a run, by name."""
    said = dict(zip(("status", "out", "err", "calls"), got))
    wrong = []
    for key, it in wanted.items():
        if not (it(said[key]) if callable(it) else said[key] == it):
            wrong.append(f"{key} was {said[key]!r}, and should be {it!r}")
    report(name, said["status"], wrong)


def compare(copy, name, status, out, err="", **more):
    """Reports a case: what `prebuilt.py --compare` prints."""
    ran = copy.called("python3", str(copy.top / "tools/prebuilt.py"), "--compare", **more)
    expect(f"compare-{name}", (ran.returncode, ran.stdout, ran.stderr), status=status, out=out, err=err)


def has(text):
    return lambda said: text in said


def is_a_line_with(text):
    return lambda said: said.count("\n") == 1 and text in said


BUILDS = ["ci"]


def test_building(copy):
    expect("builds-at-first", copy.run("a", "b c"), status=0, out="built a b c\n", calls=BUILDS, err=has("3 of 3 crates"))
    expect("built-is-run-at-once", copy.run("a"), status=0, out="built a\n", calls=[], err="")
    os.utime(copy.source("other"))
    expect("crate-of-another-program", copy.run(), out="built \n", calls=[])
    os.utime(copy.source())
    expect("newer-source-builds", copy.run(), out="built \n", calls=BUILDS)
    (copy.top / "crates/low/specs").mkdir()
    (copy.top / "crates/low/src/more.rt").write_text("")
    expect("added-source-builds", copy.run(), out="built \n", calls=BUILDS)
    (copy.top / "crates/low/src/more.rt").unlink()
    expect("removed-source-builds", copy.run(), out="built \n", calls=BUILDS)
    expect("and-is-then-run-at-once", copy.run("x"), out="built x\n", calls=[], err="")
    expect("build-anew", copy.run("--build-anew"), status=0, out="", calls=BUILDS)
    expect("build-anew-and-run", copy.run("--build-anew", "x"), status=0, out="built x\n", calls=BUILDS)
    os.utime(copy.source())
    expect("build-that-fails", copy.run(FAILS="1"), status=3, out="", calls=BUILDS, err=has("the proof of low failed"))
    expect("build-that-fails-again", copy.run(FAILS="1"), status=3, out="", calls=BUILDS)
    expect("build-after-it", copy.run(), status=0, out="built \n", calls=BUILDS)
    for crate in ("low", "middle"):
        (copy.top / "crates" / crate / "out/rlib").mkdir(parents=True)
        (copy.top / "crates" / crate / "out/rlib/stamp").write_text("")
    os.utime(copy.source())
    expect("builds-what-changed", copy.run(), status=0, out="built \n", calls=["run"])


def test_places(copy):
    copy.run()
    link = copy.room / "link"
    link.symlink_to(copy.top / "actionlint")
    (copy.room / "links").mkdir()
    (copy.room / "links/second").symlink_to("../link")
    expect("symbolic-link", copy.run("x", by=link), status=0, out="built x\n", calls=[], err="")
    expect("link-to-a-link", copy.run("x", by=copy.room / "links/second"), status=0, out="built x\n", calls=[], err="")
    (copy.room / "elsewhere/top").mkdir(parents=True)
    elsewhere = {"CDPATH": str(copy.room / "elsewhere")}
    expect("CDPATH", copy.run("x", by="top/actionlint", **elsewhere), status=0, out="built x\n", calls=[], err="")
    expect("here", copy.run("x", by="./actionlint", folder=copy.top, **elsewhere), status=0, out="built x\n", calls=[], err="")
    copy.forget()
    expect("CDPATH-builds", copy.run("x", by="top/actionlint", **elsewhere), status=0, out="built x\n", calls=BUILDS)


def runs(process):
    """Whether a process with this number exists and hasn't ended."""
    try:
        return pathlib.Path("/proc", process, "stat").read_text().rpartition(")")[2].split()[0] != "Z"
    except FileNotFoundError:
        return False


def test_signals(copy):
    for number in (signal.SIGTERM, signal.SIGINT, signal.SIGHUP, signal.SIGKILL):
        copy.forget()
        slow = copy.room / "slow"
        slow.unlink(missing_ok=True)
        pipes = {"stdout": subprocess.DEVNULL, "stderr": subprocess.DEVNULL}
        wrapper = subprocess.Popen([str(copy.top / "actionlint")], env=copy.environment(SLOW=str(slow)), **pipes)
        wrong, until = [], time.monotonic() + 20
        while not (slow.exists() and slow.read_text()) and time.monotonic() < until:
            time.sleep(0.02)
        wrapper.send_signal(number)
        status = wrapper.wait(timeout=20)
        time.sleep(0.2)
        if status != (-number if number == signal.SIGKILL else 128 + number):
            wrong.append(f"status was {status}")
        if not slow.exists() or runs(slow.read_text().strip()):
            wrong.append("rt still runs, or never ran")
        report(f"signal-{number.name}", status, wrong)


def test_prebuilt(copy):
    copy.run()
    status = copy.carry()
    report("renew", status, [] if status == 0 else [f"status was {status}"])
    expect("built-goes-before-carried", copy.run("x"), out="built x\n", calls=[], err="")
    copy.forget()
    expect("carried-is-run", copy.run("x"), status=0, out="carried x\n", calls=["version"], err=is_a_line_with("--build-anew"))
    for name, where in (("closed", "2>&-"), ("full", "2> /dev/full")):
        words = ["-c", f'"$0" x {where}', touched(copy)]
        expect(f"carried-is-run-with-errors-{name}", copy.run(*words, by="sh"), status=0, out="carried x\n", calls=["version"], err="")
    expect("carried-is-run-at-once", copy.run("x"), status=0, out="carried x\n", calls=[], err="")
    os.utime(copy.source())
    expect("same-bytes-still-fit", copy.run("x"), out="carried x\n", calls=["version"])
    expect("other-kit-of-the-logic", copy.run("x", KIT="2", by=touched(copy)), out="carried x\n", calls=["version"])
    compare(copy, "with-another-kit", 0, "older\n", KIT="2")
    compare(copy, "nothing-built", 1, "", "crates/actionlint/out/actionlint isn't there: ./actionlint --build-anew builds it\n")
    expect("other-logic-builds", copy.run("x", LOGIC="2", by=touched(copy)), out="built x\n", calls=["version", *BUILDS])
    copy.forget()
    copy.run()
    expect("build-anew-beside-carried", copy.run("--build-anew", "x"), out="built x\n", calls=BUILDS)
    copy.forget()
    copy.run()
    (copy.top / "crates/actionlint/out/actionlint").write_text('#!/bin/sh\necho "built $*"\n')
    (copy.top / "crates/actionlint/out/actionlint").chmod(0o755)
    expect("newly-built-goes-before-carried", copy.run("x"), out="built x\n", calls=[])
    copy.forget()
    copy.source().write_text("// two\n")
    expect("other-sources-build", copy.run("x"), out="built x\n", calls=BUILDS)
    compare(copy, "older", 0, "older\n")
    copy.source().write_text("// one\n")
    compare(copy, "another-program", 1, "", "prebuilt/actionlint isn't the program that these sources give, though its hash is theirs\n")
    (copy.top / "prebuilt/actionlint").write_bytes((copy.top / "crates/actionlint/out/actionlint").read_bytes())
    compare(copy, "the-same", 0, "fits\n")
    (copy.top / "prebuilt/actionlint").write_text(CARRIED)
    copy.forget()
    no_kit = {"PATH": copy.without("rt")}
    expect("carried-without-a-kit", copy.run("x", **no_kit), out="carried x\n", calls=[])
    shutil.rmtree(copy.top / "prebuilt")
    copy.forget()
    expect("nothing-carried-and-no-kit", copy.run(**no_kit), status=3, out="", calls=[], err=is_a_line_with("a release's program runs"))


def test_which(copy):
    expect("which-builds-none", copy.run("--which"), status=3, out="", calls=[], err=is_a_line_with("no program was built"))
    copy.run()
    expect("which-is-built", copy.run("--which"), status=0, out=f"{copy.top}/crates/actionlint/out/actionlint\n", calls=[], err="")
    copy.carry()
    copy.forget()
    expect("which-is-carried", copy.run("--which"), status=0, out=f"{copy.top}/prebuilt/actionlint\n", calls=["version"], err="")
    copy.source().write_text("// two\n")
    expect("which-of-other-sources", copy.run("--which"), status=3, out="", calls=[])


def test_missing_commands(copy):
    """Without python3 or rt, a carried program that fits is run; otherwise one sentence says what is missing."""
    copy.run()
    copy.carry()
    both = copy.without("python3", "rt")
    for name, path in (("python3", copy.without("python3")), ("rt", copy.without("rt")), ("both", both)):
        copy.forget()
        expect(f"carried-without-{name}", copy.run("x", PATH=path), status=0, out="carried x\n", err=is_a_line_with("--build-anew"))
    copy.forget()
    for name in ("awk", "sha256sum"):
        said = is_a_line_with(f"{name} is missing to tell whether")
        expect(f"carried-without-{name}", copy.run("x", PATH=copy.without("rt", name)), status=3, out="", err=said)
    (copy.top / "prebuilt/actionlint").write_text("#!/bin/sh\nexit 1\n")
    expect("carried-that-does-not-run", copy.run("x", PATH=both), status=3, out="", err=is_a_line_with("glibc 2.34"))
    expect("which-of-one-that-does-not-run", copy.run("--which", PATH=both), status=3, out="", err=is_a_line_with("glibc 2.34"))
    (copy.top / "prebuilt/actionlint").write_text(CARRIED)
    (copy.top / "prebuilt/actionlint").chmod(0o644)
    why = "isn't executable, as `chmod +x`"
    expect("carried-that-is-not-executable", copy.run("x", PATH=both), status=3, out="", err=is_a_line_with(why))
    (copy.top / "prebuilt/actionlint").chmod(0o755)
    copy.source().write_text("// two\n")
    for name, path in (("python3", copy.without("python3")), ("rt", copy.without("rt")), ("python3 or rt", both)):
        said = is_a_line_with(f"would prove and build one, but there is no {name} on the PATH; prebuilt/actionlint can be run by its "
                              "path, whatever it was built from, and a release's program runs as it is")
        shown = name.replace(" ", "-")
        expect(f"other-sources-without-{shown}", copy.run(PATH=path), status=3, out="", calls=[], err=said)
        expect(f"build-anew-without-{shown}", copy.run("--build-anew", PATH=path), status=3, out="", calls=[], err=said)


def test_reading_alone(copy):
    """A user who can't write to the clone: what was found is kept in the cache folder."""
    copy.run()
    copy.carry()
    copy.forget()
    cache, without_kit = copy.room / "cache", copy.without("rt")
    cache.mkdir()
    for path in (copy.room, *copy.room.rglob("*")):
        if not path.is_symlink() and path != cache:
            path.chmod(0o555 if path.is_dir() or os.access(path, os.X_OK) else 0o444)
    copy.calls.chmod(0o666)
    if os.geteuid() == 0:
        copy.user = {"user": NOBODY, "group": NOBODY, "extra_groups": []}
        os.chown(cache, NOBODY, NOBODY)
    kept = {"XDG_CACHE_HOME": str(cache)}
    expect("read-alone", copy.run("x", **kept), status=0, out="carried x\n", calls=["version"], err=is_a_line_with("--build-anew"))
    expect("read-alone-at-once", copy.run("x", **kept), status=0, out="carried x\n", calls=[], err="")
    own = {"XDG_CACHE_HOME": "", "HOME": str(copy.room / "home")}
    expect("read-alone-and-no-cache", copy.run("x", **own), status=0, out="carried x\n", calls=["version"], err="")
    relative = copy.run("x", folder=cache, XDG_CACHE_HOME="there")
    expect("cache-by-a-relative-path", relative, status=0, out="carried x\n", calls=["version"], err="")
    found = sorted(str(it.relative_to(cache)) for it in cache.rglob("*") if it.is_file())
    report("only-the-stamp-is-kept", "-", [] if found == [f"actionlint{copy.top.resolve()}/fits"] else [str(found)])
    copy.source().chmod(0o644)
    copy.source().write_text("// two\n")
    copy.source().chmod(0o444)
    said = is_a_line_with("prebuilt/actionlint can be run by its path")
    expect("read-alone-other-sources", copy.run("x", PATH=without_kit, **kept), status=3, out="", err=said)
    copy.user = {}
    for path in (copy.room, *copy.room.rglob("*")):
        if path.is_dir() and not path.is_symlink():
            path.chmod(0o755)


def test_estimate(copy):
    """What a build says about its time: from the noted seconds of each proof and the number of processors."""
    (copy.top / "tools/proof_seconds.txt").write_text(SECONDS)
    expect("time-of-a-build", copy.run(RT_JOBS="1"), status=0, calls=BUILDS, err=has("about 17 minutes of one processor"))
    ask = "import sys; sys.path.insert(0, sys.argv[1]); import build; p = build.Progress(); p.start -= 600\n"
    ask += "for crate in ('low', 'middle', 'actionlint'): p.heard(f'rt: {crate} proved\\n')"
    ran = copy.called("python3", "-c", ask, str(copy.top / "tools"), RT_JOBS="1")
    wanted = [f"actionlint: {crate} is proved: {number} of 3 crates, 10 minutes so far, about {left} to go"
              for number, crate, left in ((1, "low", 90), (2, "middle", 23), (3, "actionlint", 0))]
    report("time-to-go", ran.returncode, [] if ran.stderr.splitlines() == wanted else [ran.stderr])
    (copy.top / "crates.txt").write_text("low:\nmiddle:\nactionlint: low middle\n")
    ask = "import sys, pathlib; sys.path.insert(0, sys.argv[1]); import build; print(build.Progress().ends)"
    for jobs, wanted in (("1", "{'middle': 200, 'low': 300, 'actionlint': 1000}"), ("2", "{'middle': 200, 'low': 100, 'actionlint': 900}")):
        ran = copy.called("python3", "-c", ask, str(copy.top / "tools"), RT_JOBS=jobs)
        report(f"schedule-of-{jobs}", ran.returncode, [] if ran.stdout.strip() == wanted else [ran.stdout + ran.stderr])


def touched(copy):
    """The wrapper after a source's time has changed, so it looks again."""
    os.utime(copy.source())
    return copy.top / "actionlint"


TESTS = (test_building, test_places, test_signals, test_prebuilt, test_which, test_missing_commands, test_reading_alone, test_estimate)


def link(top):
    """The second program's wrapper is a link to the first one's, whose name says which program is run."""
    path = pathlib.Path(top) / "actionlint-facts"
    is_link = path.is_symlink() and os.readlink(path) == "actionlint"
    report("actionlint-facts-is-a-link", "-", [] if is_link else [f"{path} is no link to actionlint"])


def main(top):
    link(top)
    for test in TESTS:
        copy = Copy(pathlib.Path(top).resolve())
        try:
            test(copy)
        finally:
            shutil.rmtree(copy.room)
    return exit_status()


if __name__ == "__main__":
    sys.exit(main(sys.argv[1]))
