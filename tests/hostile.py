"""Runs the built program on hostile files: files that are truncated, deep, long or large, whose calls lack the same inputs again and
again, or that make it compare what is equal along many paths.

    python3 tests/hostile.py PROGRAM

Expected values are the worked examples of the linter's description, never what the program printed before. A report without such an
example is compared, from a session, with that of the folder on disk. Prints a line for each case, like tests/program.py.
"""

import os
import resource
import sys

from limited_folders import LIMITED_FOLDERS, edits_beside_many_calls
from products import ACTION, ACTION_FILE, AT, FOLDERS, INPUTS, STEPS, WORKFLOW, WRONG, lacking, position_of, reads, with_wrong_property
from running import (CALLED, CLEAN, REPORT, SCRIPT, WORKFLOWS, delete, differences_of, each, edits_and_reports, line, put, report,
                     run_parts, show, wrong_line)

NO = b""
LARGEST = 1_048_576
FILES = 4_096
# what a file of aliases may take: bytes of memory, and seconds of a processor
MEMORY = 300_000_000
SECONDS = 10
# after how many seconds a run with a limit of its own has hung, on a machine that is busy
WAITED = 600
# what a report may take in addition to its lines, in bytes of memory
BESIDE_A_REPORT = 200_000_000
# what 120,000 edits of a small folder may take, in bytes of memory
EDIT_MEMORY = 8_000_000

WITH_REF = CLEAN.replace(b"run: echo", b"run: echo ${{ github.ref }}")
WITH_MATRIX = b"""on: push
jobs:
  a:
    strategy:
      matrix:
        v: [3.10, 3.9]
        include:
          - v: 3.10
            os: linux
    runs-on: ${{ matrix.os }}
    steps:
      - run: echo ${{ matrix.vv }}
"""
WITH_A_SHARED_JOB = WITH_REF.replace(b"  a:", b"  a: &j").replace(b"github.ref", b"github.reff") + b"  b: *j\n"
CALLS_ITSELF = b"""on:
  workflow_call:
    inputs:
      x:
        type: string
        required: true
jobs:
  a:
    uses: ./.github/workflows/r.yml
"""


# ---- truncated files


def prefix_differences(place, prefix, told):
    """Where the session's answer for a file differs from the folder with this file, or from what holds for any file."""
    reply, reported, status = told
    place.write(WORKFLOW, prefix)
    wrong = differences_of(place.run(["--oneline", "--root", "."]), status, reported, NO)
    if reply != b"ok 1":
        wrong.append(f"the reply was {reply!r}")
    broken = wrong_line(reported, {WORKFLOW: prefix})
    return wrong + [broken] if broken else wrong


def prefixes(place):
    """Each prefix of four files: accepted, reported as for the folder, and each place inside the file."""
    whole_files = {"clean": WITH_REF, "with-a-matrix": WITH_MATRIX, "that-calls-itself": CALLS_ITSELF,
                   "with-a-shared-job": WITH_A_SHARED_JOB}
    for name, data in whole_files.items():
        place.fresh()
        files = [data[:size] for size in range(len(data) + 1)]
        ran = place.run(SCRIPT, b"".join(put(WORKFLOW, prefix) + REPORT for prefix in files))
        told = edits_and_reports(ran.stdout) or []
        if len(told) != len(files):
            report(f"prefixes-of-a-file-{name}", ran.returncode, [f"stdout was {show(ran.stdout)}"])
            continue
        each(f"prefixes-of-a-file-{name}", ((len(prefix), prefix_differences(place, prefix, it)) for prefix, it in zip(files, told)))


# ---- files at their limits


def reported(place, name, data, fault=NO, **how):
    """A file is put, and this fault is reported at its path."""
    lines = AT + fault + b"\n" if fault else NO
    status = 1 if fault else 0
    place.case(name, status, b"ok 1\n%sstatus %d\n" % (lines, status), NO, SCRIPT, stdin=put(WORKFLOW, data) + REPORT, **how)


def limits(place):
    """Brackets, nodes, expressions and lengths, each at its limit and one past it."""
    place.fresh()
    no_mapping = b'1:1: wrong kind of value for "file" [syntax-check]'
    reported(place, "brackets-64", b"[" * 64 + b"]" * 64, no_mapping)
    reported(place, "brackets-65", b"[" * 65 + b"]" * 65, b"1:65: nesting is too deep [syntax-check]")
    reported(place, "items-99999", b"[" + b"1," * 99_999 + b"]", no_mapping)
    reported(place, "items-100000", b"[" + b"1," * 100_000 + b"]", b"1:200000: too many nodes [syntax-check]")
    runs = lambda content: CLEAN.replace(b"run: echo", b"run: ${{" + content + b"}}")
    reported(place, "open-brackets-21000", runs(b"(" * 21_000), b"6:67: expression is too deep [expression]")
    reported(place, "open-brackets-21001", runs(b"(" * 21_001), b"6:17: expression is too long [expression]")
    reported(place, "properties-10400", runs(b"github.event" + b".a" * 10_400))
    reported(place, "alternatives-6900", runs(b"1" + b"||1" * 6_900))
    reported(place, "comment-of-1048576-bytes", b"#" * LARGEST, b"1:1: file is empty [syntax-check]")


def one_line(place):
    """200 faults on one line, which is printed for each of them, but not with `--oneline`."""
    keys = [b"k%03d" % number for number in range(200)]
    text = b"{on: push, jobs: {a: {runs-on: u, steps: [{run: x}]}}, " + b", ".join(key + b": 1" for key in keys) + b"}"
    columns = [text.index(key + b":") + 1 for key in keys]
    heads = [AT + b'1:%d: unexpected key "%s" [syntax-check]\n' % pair for pair in zip(columns, keys)]
    below = [b"  |\n1 | " + text + b"\n  | " + b" " * (column - 1) + b"^~~~\n" for column in columns]
    place.fresh({WORKFLOW: text})
    place.case("line-of-200-faults", 1, b"".join(map(b"".join, zip(heads, below))), NO)
    place.case("line-of-200-faults-on-lines-of-their-own", 1, b"".join(heads), NO, ["--oneline"])


# ---- anchors and aliases


def held_back():
    """Limits memory and time."""
    held_at(SECONDS, MEMORY)


def held_at(seconds, memory):
    """Limits time, in seconds of a processor, and memory, in bytes."""
    resource.setrlimit(resource.RLIMIT_AS, (memory, memory))
    resource.setrlimit(resource.RLIMIT_CPU, (seconds, seconds))


def shared_nodes(place):
    """Files whose anchors and aliases would stand for more nodes than a file can have, under a limit of memory and of time."""
    place.fresh()
    reported(place, "anchors-64-round-100000-nodes", b"&a [" * 64 + b"1," * 99_936 + b"]" * 64,
             b'1:4: wrong kind of value for "file" [syntax-check]', limits=held_back)
    nested = b"".join(b"&a%d [" % level for level in range(62))
    reported(place, "anchors-62-with-an-alias-of-49000-nodes", nested + b"1," * 49_000 + b"]" * 61 + b", *a1]",
             b'1:5: wrong kind of value for "file" [syntax-check]', limits=held_back)
    deep = b"[&a " + b"[" * 63 + b"]" * 63
    reported(place, "alias-of-63-levels", deep + b", *a]", b'1:1: wrong kind of value for "file" [syntax-check]', limits=held_back)
    reported(place, "alias-of-63-levels-one-too-deep", deep + b", [*a]]", b"1:134: nesting is too deep [syntax-check]", limits=held_back)
    names = b"[" + b"".join(b"&a%05d v, *a%05d, " % (number, number) for number in range(49_000)) + b"]"
    reported(place, "names-49000", names, b'1:1: wrong kind of value for "file" [syntax-check]', limits=held_back)
    text = b"a: &a " + b"x" * 1_000_000 + b"\nb: *a\nc: *a\n"
    reported(place, "text-by-two-aliases", text, b"3:4: too many nodes [syntax-check]", limits=held_back)


# a called workflow that asks its callers for as many inputs
REUSABLE = f"{WORKFLOWS}/r.yml".encode()
REUSABLE_FILE = CLEAN.replace(b"on: push\n", b"on:\n  workflow_call:\n    inputs:\n%s" % b"".join(
    b"      %s:\n        type: string\n        required: true\n" % name for name in INPUTS))


def same_faults(place, name, data, wanted):
    """A workflow whose calls lack the same inputs again and again, under a limit of memory and of time."""
    place.fresh({WORKFLOW: data, ACTION: ACTION_FILE, REUSABLE.decode(): REUSABLE_FILE})
    place.case(name, 1, wanted, NO, ["--oneline"], limits=held_back)


def equal_faults(place):
    """Many calls with few texts, by aliases: each fault is reported once, and takes the memory of few."""
    first = lacking(b"7:15", b"A", b"action")
    one = b"      - &s\n        uses: ./a\n"
    two = one + b"      - &t\n        uses: ./a\n"
    both = first + lacking(b"9:15", b"A", b"action")
    same_faults(place, "aliases-of-two-steps-in-turn", STEPS + two + b"      - *s\n      - *t\n" * 15_000, both)
    # each gives another of the inputs, so no two lack the same ones
    given = b"".join(b"      - {uses: *u, with: {%s: 1}}\n" % name for name in INPUTS[:500])
    same_faults(place, "aliases-of-a-text", STEPS + b"      - uses: &u ./a\n" + given, lacking(b"6:18", b"A", b"action"))
    jobs = b"on: push\njobs:\n  a: &j\n    uses: ./%s\n" % REUSABLE + b"".join(b"  a%d: *j\n" % number for number in range(20_000))
    same_faults(place, "aliases-of-a-job", jobs, lacking(b"4:11", b"./" + REUSABLE, b"workflow-call"))


def folder_of_4096(place):
    """As many files as a folder takes, one more, and all of them deleted."""
    place.fresh()
    paths = [f"{WORKFLOWS}/{number}.yml" for number in range(FILES)]
    script = b"".join(put(path, WITH_REF) for path in paths) + put(f"{WORKFLOWS}/more.yml", WITH_REF)
    script += b"".join(delete(path) for path in paths) + REPORT
    wanted = b"ok 1\n" * FILES + b"refused E4\n" + b"ok 0\n" * FILES + b"status 0\n"
    place.case("folder-of-4096-files", 0, wanted, NO, SCRIPT, stdin=script)


# ---- calls on call cycles


def calling(number):
    """A reusable workflow that calls the workflow with this number."""
    return b"on:\n  workflow_call:\njobs:\n  a:\n    uses: ./%s/%04d.yml\n" % (WORKFLOWS.encode(), number)


def cycle_line(path, row, column, text, kind):
    """The line about a call on a call cycle."""
    return f'{path}:{row}:{column}: call of "{text}" leads back to this file [{kind}]\n'.encode()


def ring_of_4096(place):
    """As many workflows as a folder takes, each of which calls the next, and the last one the first; then one of them is deleted."""
    place.fresh()
    paths = [f"{WORKFLOWS}/{number:04}.yml" for number in range(FILES)]
    following = [*paths[1:], paths[0]]
    script = b"".join(put(path, calling((number + 1) % FILES)) for number, path in reversed(list(enumerate(paths))))
    script += REPORT + delete(paths[1]) + REPORT
    # a file that is put before the one it calls lacks it until then
    replies = b"ok 1\n" * (FILES - 1) + b"ok 2\n"
    lines = b"".join(cycle_line(path, 5, 11, f"./{other}", "workflow-call") for path, other in zip(paths, following))
    absent = f'{paths[0]}:5:11: workflow "./{paths[1]}" is not in the folder [workflow-call]\n'.encode()
    wanted = replies + lines + b"status 1\nok 1\n" + absent + b"status 1\n"
    place.case("ring-of-4096-files", 1, wanted, NO, SCRIPT, stdin=script)


def calls_of_one_file(place):
    """An action with 30,000 steps, each of which calls the action."""
    place.fresh()
    count = 30_000
    data = b"name: A\ndescription: d\nruns:\n  using: composite\n  steps:\n" + b"    - uses: ./x\n" * count
    lines = b"".join(cycle_line("x/action.yml", 6 + number, 13, "./x", "action") for number in range(count))
    place.case("action-that-calls-itself-30000-times", 1, b"ok 1\n" + lines + b"status 1\n", NO, SCRIPT,
               stdin=put("x/action.yml", data) + REPORT)


# ---- one count times another


def held_to(told):
    """Limits a report to 200 MB of memory beside its bytes, and to the time of files with aliases."""
    return lambda: held_at(SECONDS, BESIDE_A_REPORT + len(told))


def reported_property(place, name, data):
    """A file with a wrong property is put, and it is reported."""
    fault = b'%s: property "%s" is not defined [expression]' % (position_of(data, WRONG), WRONG)
    reported(place, name, data, fault, limits=held_back)


def many_of_both(place):
    """Folders for which a lint could take time or memory in proportion to the product of two counts; steps that read all earlier steps,
    many inputs each of which is read, and jobs in a ring, each of which is reported with its need."""
    for name, make in FOLDERS.items():
        files, told = make()
        assert told, f"a program that looks at nothing would pass {name}"
        place.fresh(files)
        place.case(name, 1, told, NO, ["--oneline"], limits=held_to(told))
    place.fresh()
    before = lambda number: b" ".join(b"${{ steps.s%04d.outcome }}" % it for it in range(max(number - 4, 0), number)) or b"x"
    steps = b"".join(b"      - {id: s%04d, run: '%s'}\n" % (number, before(number)) for number in range(3_000))
    reported_property(place, "3000-steps-that-read-the-4-before", STEPS + steps + reads(0, b"steps.s2999.outcome", b"outcome"))
    inputs = b"".join(b"      i%04d: {type: string}\n" % number for number in range(8_000))
    steps = b"".join(b"      - run: ${{ inputs.i%04d }}\n" % number for number in range(8_000))
    called = b"on:\n  workflow_call:\n    inputs:\n" + inputs + b"jobs:\n  a:\n    runs-on: u\n    steps:\n" + steps
    reported_property(place, "8000-inputs-each-read", called + reads(0, b"inputs.i7999", b"i7999"))
    job = b"  j%05d: {needs: j%05d, uses: o/r/.github/workflows/w.yml@v}\n"
    place.fresh({WORKFLOW: b"on: push\njobs:\n" + b"".join(job % (it, (it - 1) % 16_000) for it in range(16_000))})
    fault = b'%s%d:19: "j%05d" needs "j%05d" in a cycle [job-needs]\n'
    told = b"".join(fault % (AT, 3 + it, it, (it - 1) % 16_000) for it in range(16_000))
    place.case("ring-of-16000-needs", 1, told, NO, ["--oneline"], limits=held_back)


def folders_with_limits(place):
    """Folders and a script with limits of their own: sets of objects that are equal along many paths, names and hashes that are equal but
    for a few bytes, and edits beside calls that they can't affect."""
    for name, (make, seconds, memory) in LIMITED_FOLDERS.items():
        files, told = make()
        place.fresh(files)
        place.case(name, 1, told, NO, ["--oneline"], limits=lambda: held_at(seconds, memory), timeout=WAITED)
    script, told = edits_beside_many_calls()
    limits = lambda: held_at(2, 100_000_000)
    place.fresh()
    place.case("edits-beside-30000-calls-of-40000-inputs", 1, told, NO, SCRIPT, stdin=script, limits=limits, timeout=WAITED)


# ---- many edits


def held_for_edits():
    """Limits memory to that of a session of a few files."""
    resource.setrlimit(resource.RLIMIT_AS, (EDIT_MEMORY, EDIT_MEMORY))


def many_edits(place):
    """120,000 edits of a folder with at most one file: a workflow that calls an action of its own is put, then one that calls another
    action, and then it is deleted. What a file looks for is forgotten with the file."""
    rounds = 40_000
    calling = lambda name, number: put(WORKFLOW, CLEAN.replace(b"run: echo", b"uses: ./%s/%05d" % (name, number)))
    edits = b"".join(calling(b"a", it) + calling(b"b", it) + delete(WORKFLOW) for it in range(rounds))
    place.fresh()
    place.case("120000-edits", 0, b"ok 1\nok 1\nok 0\n" * rounds + b"status 0\n", NO, SCRIPT, stdin=edits + REPORT, limits=held_for_edits)


# ---- many called files


def held_in_memory():
    """Limits memory, but not time."""
    resource.setrlimit(resource.RLIMIT_AS, (MEMORY, MEMORY))


def many_called_files(place):
    """Folders on disk with 4,000 actions of one workflow, and with 2,000 workflows called by one whose name sorts before or after theirs;
    the last called file requires an input that no call gives. Each file is read and checked once."""
    count = 4_000
    files = {f"x/{number:04}/action.yml": CALLED.replace(b"    required: true", b"    required: false") for number in range(count - 1)}
    files[f"x/{count - 1:04}/action.yml"] = CALLED
    files[WORKFLOW] = CLEAN.replace(b"      - run: echo\n", b"".join(b"      - uses: ./x/%04d\n" % number for number in range(count)))
    missing = b'%d:15: required input "who" of "A" is missing [action]\n' % (5 + count)
    place.fresh(files)
    place.case("workflow-with-4000-actions", 1, AT + missing, NO, ["--oneline"], limits=held_in_memory)
    count = 2_000
    called = b"on:\n  workflow_call:\njobs: {}\n"
    files = {f"{WORKFLOWS}/w{number:04}.yml": called for number in range(count - 1)}
    requiring = b"on:\n  workflow_call:\n    inputs:\n      x:\n        type: string\n        required: true\njobs: {}\n"
    files[f"{WORKFLOWS}/w{count - 1:04}.yml"] = requiring
    jobs = b"".join(b"  j%04d:\n    uses: ./%s/w%04d.yml\n" % (number, WORKFLOWS.encode(), number) for number in range(count))
    for name in "a.yml", "z.yml":
        path = f"{WORKFLOWS}/{name}"
        missing = f'{path}:{2 + 2 * count}:11: required input "x" of "./{WORKFLOWS}/w{count - 1:04}.yml" is missing [workflow-call]\n'
        place.fresh({**files, path: b"on: push\njobs:\n" + jobs})
        place.case(f"2000-workflows-called-by-{name[0]}", 1, missing.encode(), NO, ["--oneline"], limits=held_in_memory)


# ---- what many files of a folder take


def calls_of_absent_files(place):
    """A file of 759 KB whose steps call 33,000 actions, none of which exists, and then read a wrong property."""
    steps = b"".join(b"      - uses: ./a%05d\n" % number for number in range(33_000))
    files, told = with_wrong_property({WORKFLOW: STEPS + steps + reads(0, b"github.ref", b"ref")})
    place.fresh(files)
    place.case("33000-calls-of-absent-actions", 1, told, NO, ["--oneline"], limits=held_to(told))


def linked(place, text):
    """Puts a file, and a hundred links to it among the workflows."""
    place.fresh({"kept/a.yml": text}, folders=[WORKFLOWS])
    for number in range(100):
        os.symlink("../../kept/a.yml", os.path.join(place.folder, WORKFLOWS, f"{number:03}.yml"))


def folder_of_links(place):
    """Links to one large file. Only the trees of the first two megabytes of files are kept until the report. What a report lists is kept:
    memory runs out if each of a hundred files has 99,900 faults, and then nothing is printed."""
    linked(place, STEPS.replace(b"    steps:\n", b"    steps: [" + b",".join([b"{}"] * 99_900) + b"]\n"))
    few = [f"{WORKFLOWS}/{number:03}.yml" for number in range(4)]
    counted = lambda out: out.count(b"\n") == 4 * 99_900
    place.case("four-links-to-a-file-of-300-kilobytes", 1, counted, NO, ["--oneline", *few], limits=held_to(NO))
    place.case("100-links-to-a-file-of-300-kilobytes", 3, NO, line(b"out of memory"), ["--oneline"], limits=held_to(NO))
    numbers = b"    strategy: {matrix: {n: [" + b",".join([b"1"] * 99_000) + b"]}}\n"
    text = STEPS.replace(b"    steps:\n", numbers + b"    steps:\n" + reads(0, b"matrix.n", b"n"))
    fault = b'%s: property "%s" is not defined [expression]\n' % (position_of(text, WRONG), WRONG)
    told = b"".join(b"%s/%03d.yml:%s" % (WORKFLOWS.encode(), number, fault) for number in range(100))
    linked(place, text)
    place.case("100-links-to-a-file-of-99000-numbers", 1, told, NO, ["--oneline"], limits=held_to(NO))


if __name__ == "__main__":
    sys.exit(run_parts(prefixes, limits, one_line, shared_nodes, equal_faults, folder_of_4096, ring_of_4096, calls_of_one_file,
                       many_of_both, folders_with_limits, many_edits, many_called_files, calls_of_absent_files, folder_of_links))
