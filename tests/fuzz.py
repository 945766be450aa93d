"""Feeds the program mutated files and checks what must hold for any input: fuzz.py SECONDS SEED. Runs the program that was built here,
otherwise the carried one.

It needs no second linter. Files that call one another (tests/calling_files.py), those of examples/ and those in the scripts of tests/cases
are mutated (bytes and lines dropped, doubled or exchanged, values shared by anchors and aliases, keywords inserted), put into sessions
among other files, changed again and deleted. It checks for each run:

- the status is 0 if no fault was printed, 1 if one was, 2 after `bad command`;
- each fault is inside its file, by the counts of lines and columns made here from their definitions;
- files are in order of path, the faults of a file in order of place, and no line occurs twice;
- a put of the same bytes is answered with `ok 0` and changes nothing;
- the report after all edits is that of a run in which the folder's files are put once;
- a script that arrives in pieces gives the same output.

The last lines say what was run. The status is 1 if something did not hold; the script is then kept in a file, which is named.
"""

import pathlib
import random
import re
import subprocess
import sys
import tempfile
import time

from calling_files import PATHS, File
from case_files import read_cases
from running import REPORT, SCRIPT, built_program, delete, put, wrong_line

TOP = pathlib.Path(__file__).resolve().parent.parent
PROGRAM = built_program()
SNIPPETS = [
    b"${{ github.ref }}", b"${{ steps.s.outputs.x }}", b"${{ matrix.v }}", b"${{", b"}}", b"'", b'"', b"\\x41", b"[", b"]", b"{", b"}",
    b"\n", b"\r\n", b"\r", b"\t", b"  ", b": ", b"- ", b"# ", b"|", b">-", b"&a ", b"*a", b"&b", b"*b ", b"<<: *a\n", b"!", b"uses: ./a\n",
    b"uses: ./.github/workflows/b.yml\n", b"needs: [a]\n", b"if: true\n", b"on:\n  workflow_call:\n", b"\xc3\xa9", b"\xff",
    b"inputs:\n  x:\n    required: true\n", b"with:\n  x: 1\n", b"id: s\n", b"cron: '*/3 * * * *'\n", b"\x00", b"\xef\xbb\xbf",
]
VALUE = re.compile(rb"( *(?:- )?)([\w.-]+:|-)(?: (.*))?")
PUT = re.compile(rb"put ([^\n]*) ([0-9]+)\n")
CALL_FAULT = re.compile(rb"\[(action|workflow-call)\]\n")


def seeds():
    """Files to begin with: those of examples/, and those that the scripts of tests/cases put."""
    found = {path.read_bytes() for path in (TOP / "examples").rglob("*.y*ml")}
    for script in read_cases(TOP / "tests/cases").values():
        data, at = script.input, 0
        while found_put := PUT.match(data, at):
            size = int(found_put[2])
            found.add(data[found_put.end():found_put.end() + min(size, 4_000)])
            at = found_put.end() + size + 1
    return sorted(found)


def values_in(lines):
    """The places of values: for each, the number of its line, its indentation, the text before it on the line, and its own text on it."""
    for number, line in enumerate(lines):
        found = VALUE.fullmatch(line)
        if found:
            yield number, len(found[1]), found[1] + found[2], found[3] or b""


def shared(chance, data):
    """The file with an anchor at one of its values, and aliases in place of one or two others, mostly after it."""
    lines = data.split(b"\n")
    places = list(values_in(lines))
    if len(places) < 2:
        return data
    name = chance.choice([b"a", b"b", b"a.b"])
    first, *others = sorted(chance.sample(places, min(len(places), chance.choice([2, 2, 3]))), reverse=chance.random() < 0.1)
    number, _, before, value = first
    lines[number] = before + b" &" + name + (b" " + value if value else b"")
    for number, indent, before, _ in sorted(others, reverse=True):
        end = number + 1
        while end < len(lines) and len(lines[end]) - len(lines[end].lstrip(b" ")) > indent:
            end += 1
        lines[number:end] = [before + b" *" + name]
    return b"\n".join(lines)


def mutated(chance, data, others):
    """Bytes mutated from these."""
    out = bytearray(data)
    for _ in range(chance.choice([0, 0, 1, 1, 2, 4])):
        at = chance.randint(0, len(out))
        kind = chance.randrange(7)
        if kind == 0:
            out[at:at] = chance.choice(SNIPPETS)
        elif kind == 1:
            del out[at:at + chance.choice([1, 1, 3, 20])]
        elif kind == 2 and out:
            out[at % len(out)] = chance.randrange(256)
        elif kind == 3:
            lines = bytes(out).split(b"\n")
            chosen = chance.choice(lines)
            lines.insert(chance.randint(0, len(lines)), b" " * chance.choice([0, 0, 2, 4]) + chosen)
            out = bytearray(b"\n".join(lines))
        elif kind == 4:
            lines = bytes(out).split(b"\n")
            chance.shuffle(lines) if chance.random() < 0.1 else lines.pop(chance.randrange(len(lines)))
            out = bytearray(b"\n".join(lines))
        elif kind == 5:
            out = bytearray(shared(chance, bytes(out)))
        else:
            other = chance.choice(others)
            cut = chance.randint(0, len(other))
            out[at:] = other[cut:cut + 400]
    return bytes(out[:20_000])


def run(script):
    """What the program prints for a script, and its status."""
    done = subprocess.run([PROGRAM, *SCRIPT], input=script, stdout=subprocess.PIPE, stderr=subprocess.PIPE, check=False, timeout=60)
    return done.stdout, done.returncode, done.stderr


def run_in_pieces(chance, script):
    """The same, for a script that arrives in pieces."""
    with subprocess.Popen([PROGRAM, *SCRIPT], stdin=subprocess.PIPE, stdout=subprocess.PIPE) as child:
        at = 0
        while at < len(script):
            size = chance.choice([1, 2, 7, 100, 1_000, 10_000])
            child.stdin.write(script[at:at + size])
            child.stdin.flush()
            at += size
        out = child.stdout.read() if child.stdin.close() is None else b""
    return out, child.returncode


def closing(out):
    """The report at the end of an output, and its status line; None if there is no report."""
    match = re.search(rb"status ([01])\n\Z", out)
    return None if match is None else (out[:match.start()], int(match[1]))


class Wrong(Exception):
    """What did not hold, and the script that shows it."""


def check(holds, script, why):
    """What must hold for a run of a script."""
    if not holds:
        raise Wrong(why, script)


def some_edits(chance, files):
    """A script of some edits, how many they are, and the folder after them."""
    folder, script, edits = {}, b"", chance.randint(1, 12)
    for _ in range(edits):
        path = chance.choice(PATHS)
        if path in folder and chance.random() < 0.2:
            del folder[path]
            script += delete(path)
        else:
            again = path in folder and chance.random() < 0.5
            other = chance.choice(files) if chance.random() < 0.25 else File(chance, path).text()
            folder[path] = mutated(chance, folder[path] if again else other, files)
            script += put(path, folder[path])
    return script, edits, folder


def check_session(chance, script, edits, folder):
    """Runs the edits, one of them repeated, and a report; returns the report with its status line."""
    repeated = b""
    if folder:
        path = chance.choice(sorted(folder))
        repeated = put(path, folder[path])
    whole = script + repeated + REPORT
    out, status, said = run(whole)
    lines = out.split(b"\n", edits + bool(repeated))
    for line in lines[:edits]:
        check(re.fullmatch(rb"ok [0-9]+", line), script, f"an edit was answered {line!r} {said!r}")
    check(not repeated or lines[edits] == b"ok 0", whole, f"a repeated put was answered {lines[edits]!r}")
    last = closing(lines[-1])
    is_ended = last is not None and last[1] == status and (status == 1) == bool(last[0])
    check(is_ended, whole, f"status {status}, and the output ends with {out[-80:]!r}")
    why = wrong_line(last[0], folder)
    check(why is None, whole, why)
    if chance.random() < 0.2:
        check(run_in_pieces(chance, whole) == (out, status), whole, "in pieces the script gives another output")
    return lines[-1]


def one_round(chance, files):
    """Checks a session of some edits; returns how many there were, and the report at the end."""
    script, edits, folder = some_edits(chance, files)
    reported = check_session(chance, script, edits, folder)
    afresh = b"".join(put(path, folder[path]) for path in chance.sample(sorted(folder), len(folder))) + REPORT
    fresh, _, _ = run(afresh)
    same = fresh.split(b"\n", len(folder))[-1] == reported
    check(same, script, "the report isn't the one of the folder linted from scratch")
    prefix = script[:chance.randint(0, len(script))]
    out, status, _ = run(prefix)
    ends_right = status in (0, 1, 2) and (status == 2) == out.endswith(b"bad command\n")
    check(ends_right, prefix, f"a truncated script ends with status {status} and {out[-80:]!r}")
    return edits, reported


def main(seconds, seed):
    """Runs sessions for some seconds."""
    chance = random.Random(int(seed))
    files = seeds()
    until = time.monotonic() + float(seconds)
    rounds = edits = calls = 0
    while time.monotonic() < until:
        rounds += 1
        try:
            count, reported = one_round(chance, files)
        except Wrong as wrong:
            why, script = wrong.args
            kept = pathlib.Path(tempfile.gettempdir()) / f"fuzz-{seed}-{rounds}"
            kept.write_bytes(script)
            sys.exit(f"round {rounds} of seed {seed}: {why}\nthe script: {kept}")
        edits += count
        calls += CALL_FAULT.search(reported) is not None
    print(f"fuzz: {rounds} sessions of {edits} edits, of {len(files)} files and of some that call one another, seed {seed}: nothing wrong;")
    print(f"{calls} of the reports name faults of calls")


if __name__ == "__main__":
    if len(sys.argv) != 3:
        sys.exit(__doc__)
    main(*sys.argv[1:])
