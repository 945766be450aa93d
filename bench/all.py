"""Runs the scripts of bench/ and writes their figures into docs/SPEED.md, with the date and the commit: bench/all.py [OPTION]...

    --minutes N       how long all scripts may take together (default: 30); one that takes longer than its share is ended
    --only SCRIPT     run only this script, such as lint; may be repeated
    --anyway          measure the programs that are there, even if none was built from these sources; the page isn't written
    --from RESULTS    run nothing; write the figures of an earlier run
    --gate LOG        run nothing; write docs/PROVING.md and tools/proof_seconds.txt from the output of bench/gate.py
    --check           run nothing; compare the rows of the page with those of figures.py

The figures of a run are kept in out/bench.json. A row that the run didn't measure whole, because a script was ended or a peer isn't
installed, keeps its figures and gets the mark of an earlier run. While each script runs, the processor time of all other programs is
counted; the page says how many processors they used, and this prints which scripts ran while the machine was busy.
"""

import argparse
import datetime
import json
import os
import pathlib
import re
import resource
import signal
import subprocess
import sys
import tempfile
import textwrap
import time
from typing import Iterator

from common import RESULTS, TOP
from figures import ROWS, Found

PAGE = TOP / "docs/SPEED.md"
PROVING = TOP / "docs/PROVING.md"
SECONDS = TOP / "tools/proof_seconds.txt"
KEPT = TOP / "out/bench.json"
# the scripts, each with its share of the time
SHARES = {"lint": 4, "yaml": 3, "scalars": 1, "growth": 2, "folder": 2, "products": 3, "session": 7, "report": 1, "memory": 2, "clients": 8,
          "organisation": 2}
# the programs that the scripts need, with what finds them
PROGRAMS = ("actionlint", "actionlint-facts")
# processors that other programs may use while a script runs
QUIET = 0.2
MARK = " †"
RUN = re.compile(r"(<!-- made by bench/all\.py: run -->\n)(?:.+\n)+")
GATE = re.compile(r"(<!-- made by bench/all\.py: gate -->\n)(?:.+\n)+")
TOTALS = re.compile(r"^The whole: ([\d.]+) processor minutes in ([\d.]+) minutes \((.*?)\)\. Proofs from nothing ([\d.]+), tests\n"
                    r"([\d.]+), edits ([\d.]+);", re.MULTILINE)
# a crate, and the seconds of its proof, tests and edits
CRATE = re.compile(r"^\| `(\w+)` \| [\d,]+ \| *(\d*) *\|[ \d,]*\| *(\d*) *\|[ \d,]*\|[ \d]*\| *(\d*) *\|", re.MULTILINE)
# rows that a test compares with the program, and no script measures
TESTED = ": a stack that suffices"
LONGEST_LINE = 140


def busy_seconds() -> float:
    """The processor seconds of all programs since the machine started, and those that its host took."""
    with open("/proc/stat", encoding="ascii") as file:
        user, nice, system, _, _, irq, softirq, steal, *_ = map(int, file.readline().split()[1:])
    return (user + nice + system + irq + softirq + steal) / os.sysconf("SC_CLK_TCK")


def own_seconds() -> float:
    used = [resource.getrusage(who) for who in (resource.RUSAGE_SELF, resource.RUSAGE_CHILDREN)]
    return sum(it.ru_utime + it.ru_stime for it in used)


def run_script(script: str, limit: float) -> tuple[dict[str, dict[str, float]], float, str]:
    """Runs a script for at most some seconds: its figures, how many processors other programs used, and why it isn't complete."""
    with tempfile.NamedTemporaryFile("r", encoding="utf-8") as told:
        begun, busy, own, why = time.monotonic(), busy_seconds(), own_seconds(), ""
        command = [sys.executable, str(TOP / "bench" / f"{script}.py")]
        child = subprocess.Popen(command, env={**os.environ, RESULTS: told.name}, start_new_session=True)
        try:
            status = child.wait(limit)
            why = f"it ended with status {status}" if status else ""
        except subprocess.TimeoutExpired:
            os.killpg(child.pid, signal.SIGKILL)
            child.wait()
            why = f"it took more than its share of {limit:.0f} s"
        took = time.monotonic() - begun
        others = max(0.0, busy_seconds() - busy - (own_seconds() - own)) / took
        rows = [json.loads(line) for line in told]
    return {row.pop("what"): row for row in rows}, others, why


def machine() -> str:
    """The processors of this machine."""
    with open("/proc/cpuinfo", encoding="utf-8") as file:
        model = re.search(r"^model name\s*: (.*)$", file.read(), re.MULTILINE)
    return f"{os.cpu_count()} processors ({model[1] if model else 'of an unknown kind'})"


def today() -> str:
    return datetime.datetime.now(datetime.timezone.utc).date().isoformat()


def commit() -> str:
    said = subprocess.run(["git", "-C", TOP, "rev-parse", "--short=8", "HEAD"], stdout=subprocess.PIPE, text=True, check=True)
    return said.stdout.strip()


def unfitting() -> list[str]:
    """The programs that aren't built from these sources."""
    return [it for it in PROGRAMS if subprocess.run([TOP / it, "--which"], stdout=subprocess.DEVNULL, check=False).returncode]


def measure(minutes: float, chosen: list[str]) -> dict:
    """Runs the scripts; returns their figures, and where and when they were measured."""
    share = minutes * 60 / sum(SHARES[it] for it in chosen)
    found, others = {}, {}
    for script in chosen:
        print(f"\n== {script}", flush=True)
        found[script], others[script], why = run_script(script, share * SHARES[script])
        if why:
            print(f"all.py: {script} isn't complete: {why}", file=sys.stderr)
        if others[script] > QUIET:
            print(f"all.py: the machine was busy: other programs used {others[script]:.1f} processors beside {script}", file=sys.stderr)
    return {"date": today(), "commit": commit(), "machine": machine(), "others": others, "found": found}


def paragraph(text: str) -> str:
    """A paragraph of a page, in lines of its length."""
    return textwrap.fill(text, LONGEST_LINE, break_long_words=False, break_on_hyphens=False) + "\n"


def said_of(run: dict) -> str:
    """The paragraph about a run."""
    busy = {script: used for script, used in run["others"].items() if used > QUIET}
    beside = ", ".join(f"`{it}`" for it in busy)
    quiet = "the machine was quiet"
    if busy:
        quiet = f"the machine was busy: beside {beside} other programs used up to {max(busy.values()):.1f} processors"
    return paragraph(f"Measured on {run['date']} at commit `{run['commit']}` on {run['machine']}; {quiet}. "
                     f"Rows with{MARK} are of earlier runs.")


def rows_of(text: str) -> Iterator[tuple[re.Match, str, list[str]]]:
    """The rows of the page's tables that have figures: where each is, its first cell without a mark, and its table's heads."""
    heads: list[str] = []
    for line in re.finditer(r"^.*$", text, re.MULTILINE):
        cells = cells_of(line[0])
        if len(cells) < 2:
            heads = []
        elif not heads:
            heads = cells
        elif heads[0] == "What" and not set(line[0]) <= set("|-: "):
            yield line, cells[0].removesuffix(MARK), heads


def cells_of(line: str) -> list[str]:
    """The cells of a row; none of another line."""
    return [it.strip() for it in re.split(r"(?<!\\)\|", line)[1:-1]] if line.startswith("|") else []


def written(line: str, what: str, heads: list[str], found: Found) -> str:
    """A row with the figures of a run, or with a mark if the run has not all of them."""
    old = cells_of(line)
    if what.endswith(TESTED):
        return line
    try:
        new = {head: cell.text(found) for head, cell in ROWS[what].items()}
    except KeyError:
        return row([what + MARK, *old[1:]])
    return row([what, *(new.get(head, cell) for head, cell in list(zip(heads, old))[1:])])


def row(cells: list[str]) -> str:
    """A row of a table."""
    return re.sub(r"\|  (?=\|)", "| ", "| " + " | ".join(cells) + " |")


def with_figures(text: str, run: dict) -> str:
    """The page with the figures of a run."""
    for line, what, heads in reversed(list(rows_of(text))):
        text = text[: line.start()] + written(line[0], what, heads, run["found"]) + text[line.end():]
    return RUN.sub(lambda it: it[1] + said_of(run), text)


def write(run: dict) -> None:
    PAGE.write_text(with_figures(PAGE.read_text(encoding="utf-8"), run), encoding="utf-8")


def crates_of_gate(log: str) -> dict[str, list[int]]:
    """The seconds of each crate's proof, tests and edits, from the output of bench/gate.py."""
    return {name: [int(it or 0) for it in took] for name, *took in CRATE.findall(log)}


def said_of_gate(log: str) -> str:
    """The totals of a run of the gate, and the crates that took longest."""
    totals = TOTALS.search(log)
    if not totals:
        sys.exit("all.py: the log has no totals of bench/gate.py")
    whole, minutes, lanes, proofs, tests, edits = totals.groups()
    longest = sorted(crates_of_gate(log).items(), key=lambda it: -it[1][0])[:5]
    return paragraph(f"Measured on {today()} at commit `{commit()}`: {minutes} minutes on {lanes}, {whole} processor minutes, of which "
                     f"{proofs} for proofs, {tests} for tests and {edits} for edits. The proofs that took longest: "
                     f"{', '.join(f'`{name}` {took[0]} s' for name, took in longest)}.")


def write_gate(log: str) -> None:
    """Writes what a run of the gate took into docs/PROVING.md, and the seconds of each crate."""
    PROVING.write_text(GATE.sub(lambda it: it[1] + said_of_gate(log), PROVING.read_text(encoding="utf-8")), encoding="utf-8")
    head = f"# The processor seconds of each crate's proof, tests and edits, on {today()}. python3 bench/all.py --gate LOG writes them.\n"
    rows = (f"{name}: {' '.join(map(str, took))}\n" for name, took in crates_of_gate(log).items())
    SECONDS.write_text(head + "".join(rows), encoding="utf-8")


def wrong_rows() -> Iterator[str]:
    """The rows of the page that no script gives, the rows of figures.py that the page lacks, and columns that a table lacks."""
    named = set()
    for _, what, heads in rows_of(PAGE.read_text(encoding="utf-8")):
        named.add(what)
        if what not in ROWS and not what.endswith(TESTED):
            yield f"docs/SPEED.md: no script gives the figures of: {what}"
        yield from (f"docs/SPEED.md: no column {head} for: {what}" for head in ROWS.get(what, {}) if head not in heads)
    yield from (f"docs/SPEED.md has no row for: {what}" for what in sorted(ROWS.keys() - named))


def options() -> argparse.Namespace:
    parser = argparse.ArgumentParser(description=__doc__, formatter_class=argparse.RawDescriptionHelpFormatter)
    parser.add_argument("--minutes", type=float, default=30, help=argparse.SUPPRESS)
    parser.add_argument("--only", action="append", choices=SHARES, help=argparse.SUPPRESS)
    parser.add_argument("--from", dest="results", type=pathlib.Path, help=argparse.SUPPRESS)
    parser.add_argument("--gate", type=pathlib.Path, help=argparse.SUPPRESS)
    for flag in ("--anyway", "--check"):
        parser.add_argument(flag, action="store_true", help=argparse.SUPPRESS)
    return parser.parse_args()


def main() -> None:
    given = options()
    if given.check:
        sys.exit("\n".join(wrong_rows()) or 0)
    if given.gate:
        write_gate(given.gate.read_text(encoding="utf-8"))
        return
    if given.results:
        write(json.loads(given.results.read_text(encoding="utf-8")))
        return
    if (missing := unfitting()) and not given.anyway:
        sys.exit(f"all.py: {' and '.join(missing)} isn't built from these sources: build it, or measure --anyway")
    run = measure(given.minutes, given.only or list(SHARES))
    KEPT.parent.mkdir(exist_ok=True)
    KEPT.write_text(json.dumps(run, indent=1), encoding="utf-8")
    if not given.anyway:
        write(run)


if __name__ == "__main__":
    main()
