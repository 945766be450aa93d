"""Tests the program that answers questions about a folder: facts.py LINTER PROGRAM.

Each block of docs/FACTS.md that is marked `facts` is run as a session: `> ` begins a line of the input, `< ` the next answer, or with
`PATH = VALUE` a part of the same answer. Then commands that are cut in any place, wrong ones among right ones, questions about bytes, and
the tables; and `lint` in many folders, whose lines are compared with the linter's report and with the bytes of the files. Prints a line for
each case.
"""

import bisect
import json
import os
import pathlib
import random
import re
import shutil
import subprocess
import sys

import fault_entries
import lists_page
from running import CALLED, CALLER, CLEAN, FAULT, WORKFLOWS, Place, each, exit_status, report, show

TOP = pathlib.Path(__file__).resolve().parent.parent
BLOCK = re.compile(r"^```facts\n(.*?)^```$", re.DOTALL | re.MULTILINE)
STEP = re.compile(r"\.([\w*-]+)|\[(\d+)\]")
SECONDS = 60
LINE_BREAK = re.compile(rb"\r\n|\n|\r")
CONTROL = re.compile(r"[\x00-\x1f\x7f]")
KEYS = ["path", "code", "kind", "message", "arguments", "start", "end", "line", "column", "end_line", "end_column"]
# Files with other line breaks, a byte order mark, tabs, wide characters, controls, and bytes that aren't UTF-8; and an empty one.
ODD_FILES = [b"on: push\r\nnam: x\r\njobs: {}\r\n", b"on: push\rnam: x\rjobs: {}", b"\xef\xbb\xbfnam: x\n",
             b"on: push\njobs: {}\n\n'\ta': 1",
             "on: push\njobs: {}\n\"表😀é\\x07\u0085\u2028\": ü\n".encode(), b"on: push\nname: a\x1bb\n", b"name: a\xff\xc3b\n", b"", b"\n",
             b"on: push\njobs:\n  a: {runs-on: x, steps: {run: '\xc3\xa9',\r\n name: y}}\n"]
# As many faults as several writes have.
MANY_FAULTS = b"on: push\njobs:\n  a:\n    runs-on: x\n    steps:\n      - run: |\n" + b"          ${{a}} ${{b}}\n" * 10_000
# Expressions, each with an undefined property, and the names before that; none if the expression begins with no context.
WITH_PROPERTIES = """on: {push: , workflow_call: {inputs: {i: {type: string}}}}
nam: x
jobs:
  a: {runs-on: x, steps: []}
  b:
    needs: a
    runs-on: x
    strategy: {matrix: {o: [{p: {q: 1}}], "it's": [{p: 1}], l: [[{p: 1}]]}}
    steps:
      - {id: s, run: y}
      - run: |
"""
PROPERTIES = [("needs.b.result", ["needs"]), ("NEEDS.a.outputs.x", ["NEEDS", "a", "outputs"]), ("needs['b'].outputs.x", ["needs"]),
              ("needs . a\n            .outputs\n            [ 'x' ]", ["needs", "a", "outputs"]), ("steps['s'].output", ["steps", "s"]),
              ("steps.*.output", ["steps", "*"]), ("steps[ * ].output", ["steps", "*"]), ("matrix.o.p.r.s", ["matrix", "o", "p"]),
              ("matrix['it''s'].r", ["matrix", "it's"]), ("matrix[(('o'))].r", ["matrix", "o"]), ("matrix.l[0].r", ["matrix", "l", "*"]),
              ("matrix.l[matrix.r].p", ["matrix"]), ("github[matrix['r']].x", ["matrix"]), ("env[inputs.r][env.s]", ["inputs"]),
              ("!inputs.r && 'x.' == format('{0}', 'a.b')", ["inputs"]), ("fromJSON(github.r).s", ["github"]),
              ("(matrix.r).s", ["matrix"]), ("(matrix.o).r", None)]
LOOP = b"on:\n  workflow_call:\njobs:\n  a:\n    uses: ./.github/workflows/r.yml\n"


def put(path, data):
    """The bytes of a put."""
    return b"put %s %d\n%s\n" % (path.encode(), len(data), data)


def lines_of(program, script, *words):
    """The answers to a script, and what is wrong with them as a whole."""
    ran = subprocess.run([program, *words], input=script, capture_output=True, check=False, timeout=SECONDS)
    wrong = [] if ran.returncode == 0 and not ran.stderr else [f"status {ran.returncode}: {show(ran.stderr)}"]
    if not ran.stdout.isascii() or ran.stdout and not ran.stdout.endswith(b"\n"):
        wrong.append("an answer isn't a line of ASCII")
    return ran.stdout.splitlines(), wrong


def answers(program, script):
    """The answers to a script as values, and what is wrong with them as a whole."""
    lines, wrong = lines_of(program, script)
    return [json.loads(line) for line in lines], wrong


def part_of(answer, path):
    """The value at a path such as `.faults[0].code`."""
    for name, number in STEP.findall(path):
        answer = answer[name] if name else answer[int(number)]
    return answer


def differences(block, given):
    """What of a block's answers isn't as the page says."""
    wrong, left, answer = [], list(given), None
    was_asked = True
    for line in block.splitlines():
        if line.startswith(">"):
            was_asked = True
            continue
        path, is_part, value = line[2:].partition(" = ")
        is_part = bool(is_part) and path.startswith(".")
        if was_asked:
            if not left:
                return wrong + [f"no answer where the page has {line}"]
            answer, was_asked = left.pop(0), False
        elif not is_part:
            wrong.append(f"two answers without a command: {line}")
        try:
            found = part_of(answer, path) if is_part else answer
        except (KeyError, IndexError, TypeError):
            found = "nothing"
        if found != json.loads(value if is_part else line[2:]):
            wrong.append(f"{line[2:]} was {json.dumps(found)[:300]}")
    return wrong + [f"{len(left)} answers more" for _ in left[:1]]


def examples(program):
    """The blocks of the page."""
    blocks = BLOCK.findall((TOP / "docs/FACTS.md").read_text(encoding="utf-8"))
    for number, block in enumerate(blocks, 1):
        script = "".join(line[2:] + "\n" for line in block.splitlines() if line.startswith(">"))
        given, wrong = answers(program, script.encode())
        report(f"page-{number}", 0, wrong + differences(block, given))
    if not blocks:
        report("page", 0, ["it has no examples"])


def cut_anywhere(program):
    """Answers don't depend on how the input is cut, and each command has one, while the program waits for more."""
    script = put(f"{WORKFLOWS}/c.yml", CALLER) + b"lacks\n" + put("a/action.yml", CALLED) + b"wrong\nreport\n"
    whole, wrong = lines_of(program, script)
    wrong += [] if len(whole) == 5 else [f"{len(whole)} answers"]
    cuts = random.Random(1)
    with subprocess.Popen([program], stdin=subprocess.PIPE, stdout=subprocess.PIPE) as running:
        at = 0
        while at < len(script):
            end = min(len(script), at + cuts.randint(1, 30))
            running.stdin.write(script[at:end])
            running.stdin.flush()
            at = end
        # The program is still running: each answer was flushed.
        given = [running.stdout.readline().rstrip(b"\n") for _ in whole]
        running.stdin.close()
        wrong += [] if running.wait(SECONDS) == 0 else ["another status"]
    report("cut-anywhere", 0, wrong + ([] if given == whole else [f"{given}"]))


def wrong_commands(program):
    """Each wrong command has one error, and what comes after it is answered."""
    bad = [b"\n", b"Report\n", b"report \n", b"put\n", b"put a/action.yml\n", b"put a/action.yml 01\n", b"put a/action.yml 12345678\n",
           b"put a/action.yml -1\n", b"faults\n", b"faults \xff\n", b"x" * 2_049 + b"\n", b"x" * 200_000 + b"\n",
           b"put a/action.yml 2\nabc\n", b"put a/action.yml 2\nab report\n", b"tree nowhere\n", b"expressions nowhere\n",
           b"faults nowhere\n", b"calls nowhere\n", b"first nowhere 1\n", b"first a/action.yml\n", b"first a/action.yml 01\n",
           b"bytes tree\n", b"bytes tree a/action.yml\n", b"bytes faults a/action.yml 0\n", b"bytes calls a/action.yml 2\nabc\n",
           b"bytes tree a/action.yml 1048577\n" + b"#" * 1_048_577 + b"\n"]
    for number, command in enumerate(bad, 1):
        given, wrong = answers(program, command + b"lacks\n" + put("a/action.yml", b"") + command + b"report\n")
        kinds = ["error", "lacks", "rechecked", "error", "files"]
        wrong += [] if [next(iter(it)) for it in given] == kinds else [f"{given}"]
        report(f"wrong-{number}", 0, wrong)
    given, wrong = answers(program, put("a/action.yml", b"") + b"put a/action.yml 5\nab")
    wrong += [] if [next(iter(it)) for it in given] == ["rechecked", "error"] else [f"{given}"]
    report("cut-at-the-end", 0, wrong)


def as_the_linter(program, linter):
    """The report's faults are the lines of the linter's report, one for one."""
    files = {f"{WORKFLOWS}/c.yml": CALLER, "a/action.yml": CALLED, f"{WORKFLOWS}/r.yml": LOOP, f"{WORKFLOWS}/clean.yml": CLEAN,
             f"{WORKFLOWS}/y.yml": b"a: 'b\n",
             f"{WORKFLOWS}/o.yml": "on: pusch\r\nnäme: ü\tx\njobs: {a: {steps: [{run: \"${{ é }}\"}]}}\n".encode()}
    script = b"".join(put(path, data) for path, data in files.items())
    given, wrong = answers(program, script + b"report\n")
    found = [(file["path"], it["line"], it["column"], it["message"], it["kind"]) for file in given[-1]["files"] for it in file["faults"]]
    ran = subprocess.run([linter, "--session", "--oneline"], input=script + b"report\n", capture_output=True, check=False, timeout=SECONDS)
    lines = [FAULT.match(line) for line in ran.stdout.splitlines() if not re.match(rb"(ok|status) \d+$", line)]
    wanted = [(it[1].decode(), int(it[2]), int(it[3]), it[4].decode(), it[5].decode()) for it in lines]
    report("as-the-linter", 0, wrong + ([] if found == wanted and len(found) == 7 else [f"{found} where the linter has {wanted}"]))
    for path in files:
        alone, _ = answers(program, script + b"faults " + path.encode() + b"\n")
        listed = next((file["faults"] for file in given[-1]["files"] if file["path"] == path), [])
        report(f"faults-of-{path}", 0, [] if alone[-1] == {"faults": listed} else [f"{alone[-1]}"])
        for most in (0, 1, len(listed), 9_999_999):
            first, _ = answers(program, script + b"first %s %d\n" % (path.encode(), most))
            wanted = {"faults": listed[:most], "more": len(listed[most:])}
            report(f"first-{most}-of-{path}", 0, [] if first[-1] == wanted else [f"{first[-1]}"])


def of_bytes(program):
    """Questions about bytes are answered as if the folder had them, and leave it as it is."""
    path, other = f"{WORKFLOWS}/c.yml", b"on: push\njobs: {a: {runs-on: x, steps: [{uses: ./b, with: {c: \"${{ github.ref }}\"}}]}}\n"
    for question in ("tree", "expressions", "calls"):
        asked = f"{question} {path}\n".encode()
        there = b"bytes %s %s %d\n%s\n" % (question.encode(), path.encode(), len(other), other)
        given, wrong = answers(program, put(path, CALLER) + asked + there + asked + b"lacks\n" + put(path, other) + asked)
        wrong += [] if given[2] == given[6] and given[1] == given[3] and question in given[2] else [f"{given}"]
        wrong += [] if given[4] == {"lacks": ["a/action.yaml", "a/action.yml"]} else [f"the folder lacks {given[4]}"]
        report(f"bytes-{question}", 0, wrong + ([] if given[1] != given[2] else ["the same answer for other bytes"]))
    for question in ("tree", "expressions", "calls"):
        given, wrong = answers(program, b"bytes %s a/action.yml 2\n'a\n" % question.encode())
        wrong += [] if [fault["code"] for fault in given[0]["faults"]] == ["Y5"] else [f"{given}"]
        report(f"no-{question}-without-yaml", 0, wrong)


def all_tables(program):
    """The codes are those of the pages, each once for every caller, and every shape that is named is there."""
    given, wrong = answers(program, b"tables\n")
    tables = given[0]
    codes = {(it["code"], it["message"]) for it in tables["codes"]}
    named = {(it.code, it.message) for it in fault_entries.entries(TOP / "docs")}
    wrong += [] if codes == named else [f"codes differ from those of the pages: {sorted(codes ^ named)}"]
    used = {"Workflow", "Action", *tables["runs_by_using"].values()}
    for shape in tables["shapes"].values():
        used |= {shape.get("items"), shape.get("any_key"), *(key["shape"] for key in shape.get("keys", {}).values())} - {None}
    wrong += [f"there is no shape {it}" for it in sorted(used - set(tables["shapes"]))]
    wrong += [f"nothing uses the shape {it}" for it in sorted(set(tables["shapes"]) - used - {"Event"})]
    report("tables", 0, wrong)
    for name, (fields, others) in lists_page.fixed_contexts(TOP / "crates").items():
        wanted = {"properties": fields, "others": None if others == "none" else others}
        found = tables["types"][name]
        same = found == wanted and list(found["properties"]) == list(fields)
        report(f"type-of-{name}", 0, [] if same else [f"{found} where the definitions have {wanted}"])


class Lint:
    """A folder on disk with copies of both programs, of which one lints it and the other tells what it finds."""

    def __init__(self, linter, program):
        self.place = Place(linter)
        self.program = os.path.join(self.place.room, "actionlint-facts")
        shutil.copyfile(program, self.program)
        os.chmod(self.program, 0o755)
        self.codes = {entry.code: set() for entry in fault_entries.entries(TOP / "docs")}
        for entry in fault_entries.entries(TOP / "docs"):
            self.codes[entry.code].add(entry.message)

    def differences(self, words=(), root=None):
        """What of the lines isn't as the linter reports it with the same arguments, or not as the bytes of the files are."""
        linted, with_source = self.place.run(["--oneline", *words]), self.place.run(list(words))
        ran = self.place.run(["lint", *words], program=self.program)
        short = self.place.run(["lint", "--oneline", *words], program=self.program)
        named = (b"\nUsage: actionlint ", b"\nUsage: actionlint-facts lint ")
        wrong = [f"status {one.returncode} and {show(one.stderr)} in place of {it.returncode} and {show(it.stderr)}"
                 for one, it in ((ran, with_source), (short, linted))
                 if (one.returncode, one.stderr) != (it.returncode, it.stderr.replace(*named))]
        if linted.returncode > 1:
            return wrong + [f"it printed {show(one.stdout)}" for one in (ran, short) if one.stdout]
        *rows, last = map(json.loads, ran.stdout.splitlines())
        *rows_of_short, last_of_short = map(json.loads, short.stdout.splitlines())
        wrong += [] if ran.stdout.isascii() and ran.stdout.endswith(b"}\n") else ["it isn't lines of ASCII"]
        wrong += [f"it ended with {one}" for one in (last, last_of_short) if one != {"status": linted.returncode}]
        printed = "".join(f"{it['path']}:{it['line']}:{it['column']}: {it['message']} [{it['kind']}]\n" for it in rows)
        wrong += [] if printed.encode() == linted.stdout else [f"{show(printed.encode())} where the linter has {show(linted.stdout)}"]
        top = pathlib.Path(self.place.folder, root or ".")
        files = {path: Bytes((top / path).read_bytes()) for path in {row["path"] for row in rows}}
        wrong += [f"{row} isn't a fault of its file" for row in rows if not self.is_of_file(row, files[row["path"]])][:1]
        short_rows = [{key: value for key, value in row.items() if key != "source"} for row in rows]
        return wrong + ([] if rows_of_short == short_rows else ["with --oneline there are other faults or keys"])

    def is_of_file(self, row, file):
        """Whether the source line, the places and the message are those of a file, and of the code's entry."""
        message = lambda entry: re.sub(r"\{([01])\}", lambda found: (row["arguments"] + ["", ""])[int(found[1])], entry)
        return ([key for key in row if key != "of"] == [*KEYS, "source"] and ("of" in row) == (row["code"] == "X13")
                and row["source"] == file.lines[row["line"] - 1].decode("utf-8", "replace")
                and file.place(row["start"]) == (row["line"], row["column"])
                and file.place(row["end"]) == (row["end_line"], row["end_column"])
                and row["message"] in {CONTROL.sub("?", message(entry)) for entry in self.codes[row["code"]]})

    def case(self, name, words=(), root=None):
        report(f"lint-{name}", "-", self.differences(words, root))


class Bytes:
    """The lines of a file, without their breaks."""

    def __init__(self, data):
        self.data, self.lines = data, LINE_BREAK.split(data)
        self.starts = [0, *(found.end() for found in LINE_BREAK.finditer(data))]

    def place(self, offset):
        """The line and the column of a byte, in characters from 1."""
        line = bisect.bisect_right(self.starts, offset)
        return line, 1 + sum(byte & 0xC0 != 0x80 for byte in self.data[self.starts[line - 1]:offset])


def of_properties(lint):
    """Undefined properties say what they are read from, in each answer that has faults and in `lint`; other faults don't."""
    path = f"{WORKFLOWS}/p.yml"
    file = (WITH_PROPERTIES + "".join(f"          ${{{{ {expression} }}}}\n" for expression, _ in PROPERTIES)).encode()
    given, wrong = answers(lint.program, put(path, file) + b"faults %s\nfirst %s 99\nreport\n" % (path.encode(), path.encode()))
    lint.place.fresh({path: file})
    lines = lint.place.run(["lint"], program=lint.program).stdout.splitlines()[:-1]
    wanted = [names for _, names in PROPERTIES]
    for name, faults in {"faults": given[1]["faults"], "first": given[2]["faults"], "report": given[3]["files"][0]["faults"],
                         "lint": map(json.loads, lines)}.items():
        found = [(fault["code"], fault.get("of")) for fault in faults]
        others = [it for it in found if it[0] != "X13"]
        is_right = others and not any(of for _, of in others) and [of for code, of in found if code == "X13"] == wanted
        report(f"of-{name}", 0, wrong + ([] if is_right else [f"{found}"]))


def of_folders(lint):
    """The examples of this repository, and the folder of each case of the pages of faults, whose files are named too."""
    for folder in sorted(it for it in (TOP / "examples").iterdir() if (it / WORKFLOWS).is_dir()):
        shutil.copytree(folder, os.path.join(lint.place.fresh(), folder.name))
        lint.case(f"example-{folder.name}", ["--root", folder.name], folder.name)

    def differences(case):
        files = fault_entries.files_of(case)
        lint.place.fresh(files)
        return lint.differences() + lint.differences(["--", *files])
    each("lint-cases", ((name, differences(case)) for name, case in fault_entries.cases_of_entries(TOP).items()))


def of_odd_files(lint):
    """Lines of all kinds, paths that look like something else, and more faults than one write has."""
    lint.place.fresh({f"{WORKFLOWS}/{number}.yml": data for number, data in enumerate(ODD_FILES)})
    lint.case("odd-lines")
    paths = ["a:1:1: b/action.yml", "--root=x/action.yml", "é ü/action.yml", '"a"/action.yml', "\u202e\U0001f600/action.yml"]
    lint.place.fresh(dict.fromkeys(paths, b"name: x\n"), folders=[WORKFLOWS])
    lint.case("odd-paths", ["--", *paths])
    lint.place.fresh({f"{WORKFLOWS}/a.yml": MANY_FAULTS, f"{WORKFLOWS}/b.yml": MANY_FAULTS})
    lint.case("many-faults")


def of_odd_folders(lint):
    """Links, what is no file, names that aren't UTF-8, and folders without workflows; each FILE that is missing or refused."""
    outside = lint.place.fresh({"action.yml": b"", "f.yml": b"a: 'b\n"})
    files = {f"{WORKFLOWS}/c.yml": CALLER, "kept/action.yml": CALLED, "kept/f.yml": b"", "large/action.yml": b"#" * 1_048_577}
    folder = lint.place.fresh(files, folders=[f"{WORKFLOWS}/d.yml", "other", "x/action.yml"])
    for link, target in {"a": "kept", f"{WORKFLOWS}/l.yml": "../../kept/f.yml", f"{WORKFLOWS}/o.yml": f"{outside}/f.yml",
                         f"{WORKFLOWS}/n.yml": "nowhere", "out": outside}.items():
        os.symlink(target, os.path.join(folder, link))
    os.mkfifo(os.path.join(folder, WORKFLOWS, "p.yml"))
    with open(os.path.join(os.fsencode(folder), WORKFLOWS.encode(), b"\xff.yml"), "wb") as file:
        file.write(b"a: 'b\n")
    lint.case("odd-folder")
    lint.case("root", ["--root", folder])
    lint.case("root-in-one-word", [f"--root={folder}/other/..", f"./{WORKFLOWS}/c.yml"])
    for name, words in {
        "one-file": [f"{WORKFLOWS}/c.yml"], "two-files": [f"{WORKFLOWS}/c.yml", "kept/action.yml"], "file-twice": ["kept/action.yml"] * 2,
        "missing-file": [f"{WORKFLOWS}/none.yml"], "file-outside": ["out/action.yml"], "pipe": [f"{WORKFLOWS}/p.yml"],
        "folder-as-file": ["x/action.yml"], "absolute": [f"{folder}/a/action.yml"], "path-that-goes-up": ["../a/action.yml"],
        "neither": ["README.md"], "large": ["large/action.yml"], "empty-word": [""], "no-root": ["--root", "none"],
        "file-as-root": ["--root", "kept/f.yml"],
        "not-utf-8": [b"\xff/action.yml"], "backslash": ["a\\b/action.yml"], "control": ["\x1b/action.yml"],
    }.items():
        lint.case(name, words)
    lint.place.fresh({"README.md": b""}, folders=[WORKFLOWS])
    lint.case("no-workflow")
    lint.place.fresh()
    lint.case("no-folder-of-workflows")


def of_wrong_words(lint):
    """Arguments that are wrong for the linter are for `lint`, and `--session` is."""
    lint.place.fresh({f"{WORKFLOWS}/a.yml": b""})
    for name, words in {"unknown": ["--bogus"], "no-value": ["--root"], "twice": ["--root", "a", "--root", "b"], "short": ["-h"],
                        "beside-help": ["--help", "--bogus"], "flag-with-a-value": ["--oneline=x"]}.items():
        lint.case(f"wrong-words-{name}", words)
    ran = lint.place.run(["lint", "--help"], program=lint.program)
    is_own = b"\nUsage: actionlint-facts lint [" in ran.stdout and b"--session" not in ran.stdout
    report("lint---help", ran.returncode, [] if is_own and (ran.returncode, ran.stderr) == (0, b"") else [f"{ran}"])
    for words in (["--session"], ["--session", "--oneline"], ["--session", "a.yml"]):
        ran = lint.place.run(["lint", *words], b"report\n", program=lint.program)
        report(f"lint-{'-'.join(words)}", ran.returncode, [] if (ran.returncode, ran.stdout) == (2, b"") and ran.stderr else [f"{ran}"])


def of_output_that_fails(lint):
    """Output that is full, or whose reader goes: what is there is the beginning of the lines, and the status isn't among them."""
    place = lint.place
    place.fresh({f"{WORKFLOWS}/c.yml": CALLER, "a/action.yml": CALLED})
    whole = place.run(["lint"], program=lint.program).stdout

    def held(size):
        ran, found = place.run_to_file(size, ["lint"], program=lint.program)
        wrong = [] if (ran.returncode, ran.stderr) == (3, b"actionlint: write failed\n") else [f"{ran}"]
        return wrong + ([] if found == whole[:size] else [f"the output holds {show(found)}"])
    each("lint-output-that-fails", ((size, held(size)) for size in range(0, len(whole), 7)))
    for name, files in (("one-fault", {f"{WORKFLOWS}/a.yml": b""}), ("many-faults", {f"{WORKFLOWS}/a.yml": MANY_FAULTS}),
                        ("no-fault", {f"{WORKFLOWS}/a.yml": CLEAN})):
        place.fresh(files)
        for where in ("/dev/full", None):
            wanted = (3, b"actionlint: write failed\n")
            found = ended_with(place, lint.program, ["lint"], where)
            linted = ended_with(place, place.program, [], where)
            wrong = [] if found == wanted and (linted == wanted or name == "no-fault") else [f"{found} and {linted}"]
            report(f"lint-{name}-to-{'a-full-device' if where else 'a-reader-that-goes'}", found[0], wrong)


def ended_with(place, program, words, where):
    """The status and the errors of a run into a file, or into a pipe that nobody reads."""
    if where:
        with open(where, "wb") as output:
            ran = place.run(words, program=program, stdout=output)
    else:
        reading, writing = os.pipe()
        os.close(reading)
        ran = place.run(words, program=program, stdout=writing)
        os.close(writing)
    return ran.returncode, ran.stderr


def main(linter, program):
    examples(program)
    cut_anywhere(program)
    wrong_commands(program)
    as_the_linter(program, linter)
    of_bytes(program)
    all_tables(program)
    lint = Lint(linter, program)
    try:
        for part in (of_properties, of_folders, of_odd_files, of_odd_folders, of_wrong_words, of_output_that_fails):
            part(lint)
    finally:
        lint.place.remove()
    return exit_status()


if __name__ == "__main__":
    sys.exit(main(*sys.argv[1:]))
