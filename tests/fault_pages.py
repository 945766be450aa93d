"""Compares the pages of faults with the code, the definitions and the cases of tests/faults.cases: fault_pages.py TOP [--write].

Each fault code of al_base has a comment with its identifier (`/// K2: ..`), that number in specs/Codes.antt, a row in
specs/Wordings.antt of al_text, and one entry on a page docs/FAULTS*.md (tests/fault_entries.py) with the row's message, why it matters,
its repair, and a diff whose lines are those of its cases. docs/FAULTS.md has a table of kinds, which `--write` rewrites, and
reading_page.py names the definitions that decide each fault.
"""

import pathlib
import re
import sys

from fault_entries import cases_of_entries, entries, files_of, report_of
from lists_page import one_line_each

CODE = re.compile(r"/// ([YKGXC][0-9]+): .*\n\s+([A-Za-z0-9]+),")
CODES = re.compile(r"^(\w+)_codes =\n((?: .*\n)+)", re.MULTILINE)  # the codes of a kind, in order
ROW = re.compile(r"^code_row \(C\.(\w+) (\w+)(?: by)?\) = (\w+)(?: by)? (.*)$", re.MULTILINE)
EVERY_KIND = re.compile(r'^(\w+) = row "(.*)"$', re.MULTILINE)  # of all rows that this makes
CALL_KIND = re.compile(r'^call_kind caller\.\w+ = "(.*)"$', re.MULTILINE)
LETTERS = {"Yaml": "Y", "Key": "K", "Rule": "G", "Expression": "X", "Call": "C"}
NO_ROW: tuple[str, str, list[str]] = "", "", []
OF_JOBS = {"C1", "C4", "C5", "C6"}  # faults that only a job's call has
BY_KIND = "| KIND | Page |\n|---|---|\n"
SUBJECTS = {"Y": "YAML (Y)", "K": "keys and values (K)", "G": "rules (G)", "X": "expressions (X)", "C": "calls (C)"}
FILE = re.compile(r"\+\+\+ (\S+\.ya?ml)")


def codes(top):
    """The identifiers and variants of the fault codes, in order."""
    return CODE.findall((top / "crates/al_base/src/codes.rt").read_text())


def tables(top):
    """The row of each variant, by letter and name: the number, the words of its message, and its kinds."""
    lists = CODES.findall((top / "crates/al_base/specs/Codes.antt").read_text())
    numbers = {(kind.capitalize(), variant): str(number)
               for kind, names in lists for number, variant in enumerate(re.findall(r"\w+", names), 1)}
    text = one_line_each((top / "crates/al_text/specs/Wordings.antt").read_text())
    every, of_calls = dict(EVERY_KIND.findall(text)), sorted(CALL_KIND.findall(text))
    rows = {}
    for group, variant, maker, words in ROW.findall(text):
        own = re.match('"([^"]*)" ', words) if maker == "row" else None
        kinds = of_calls if group == "Call" else [own[1] if own else every[maker]]
        rows[LETTERS[group], variant] = numbers.get((group, variant), ""), words[own.end():] if own else words, kinds
    return rows


def shown_in(words, message):
    """Whether the parts of a message occur in a row of the table, in order."""
    at = 0
    for part in re.split(r"\{[01]\}", message):
        escaped = part.replace('"', '\\"')
        at = words.find(escaped, at)
        if at < 0:
            return False
        at += len(escaped)
    return True


def like(parts):
    """A pattern for a text of these parts with any text between them."""
    return re.compile(".*".join(map(re.escape, parts)), re.DOTALL)


def have(shown, data):
    """Whether the lines of a repair occur in a file, in order."""
    at, lines = 0, data.decode(errors="replace").replace("\r", "\n").split("\n")
    for line in shown:
        pattern = like(line.split("…"))
        at = next((number + 1 for number in range(at, len(lines)) if pattern.fullmatch(lines[number])), None)
        if at is None:
            return False
    return True


def wrong_repair(cases, entry):
    """What of an entry's repair is missing from its two cases."""
    before, after = cases.get(entry.code), cases.get(f"{entry.code}-repaired")
    if before is None or after is None:
        yield "has no case in tests/faults.cases, or none that is repaired"
        return
    report = report_of(before)
    messages = {re.sub(r"^.*?:\d+:\d+: (.*) \[[\w-]+\]$", r"\1", line) for line in report}
    if not any(like(re.split(r"\{[01]\}", entry.message)).fullmatch(message) for message in messages) or report_of(after):
        yield "isn't in the report of its case, or the repaired one isn't clean"
    told = {line[3:-3] for line in entry.shown if line.startswith("@@")}
    if told != (messages if len(messages) > 1 else set()):
        yield f"shows the messages {told}, and has {messages}"
    files, path = {}, report[0].split(":")[0] if report else ""
    for line in entry.shown:
        path = FILE.fullmatch(line)[1] if FILE.fullmatch(line) else path
        if not FILE.fullmatch(line) and not line.startswith("@@"):
            files.setdefault(path, []).append(line)
    for path, lines in files.items():
        if not have([line[1:] for line in lines if line[0] != "+"], files_of(before).get(path, b"")):
            yield f"shows other lines of {path} than its case has"
        if not have([line[1:] for line in lines if line[0] != "-"], files_of(after).get(path, b"")):
            yield f"shows other lines of {path} than the repaired case has"


def wrong_of(cases, entry):
    """What an entry lacks, whatever its fault is."""
    if not entry.what or not entry.why or not entry.repair:
        yield "doesn't say what it is, why it matters and its repair"
    yield from wrong_repair(cases, entry)


def by_kind(listed, kinds):
    """The table of kinds: those whose faults have their entries on the same pages are one row."""
    pages = {}
    for entry in sorted(listed, key=lambda it: it.rank):
        for kind in kinds.get(entry.code, []):
            pages.setdefault(kind, {}).setdefault(entry.page, entry.code[0])
    rows = {}
    for kind, found in pages.items():
        link = " or ".join(f"[{SUBJECTS[letter]}]({page})" if page != "FAULTS.md" else f"[{SUBJECTS[letter]}](#keys-and-values)"
                           for page, letter in found.items())
        rows.setdefault(link, []).append(f"`{kind}`")
    return BY_KIND + "".join(f"| {', '.join(names)} | {link} |\n" for link, names in rows.items())


def compare_table(top, head, wanted, write):
    """Compares the table of docs/FAULTS.md, or writes it."""
    path = top / "docs" / "FAULTS.md"
    text = path.read_text()
    index = re.search(re.escape(head) + r"(?:\|.*\n)*", text)
    if write and index:
        path.write_text(text.replace(index[0], wanted))
    elif not index or index[0] != wanted:
        return ["the table of docs/FAULTS.md isn't that of the entries: fault_pages.py TOP --write writes it"]
    return []


def wrong_codes(every, rows, found):
    """Where the codes and the entries differ."""
    if len(every) < 76:
        yield f"only {len(every)} codes name their identifier"
    for name, variant in every:
        number, words, _ = rows.get((name[0], variant), NO_ROW)
        if number != name[1:]:
            yield f"{name}: the table of codes has no row of this number for {variant}"
        elif name not in found:
            yield f"{name} has no entry"
        elif not shown_in(words, found[name].message):
            yield f"{name}: its entry has another message than the table"
    for name in found.keys() - {name for name, _ in every}:
        yield f"{name} is no fault code"


def main(folder, *write):
    top = pathlib.Path(folder)
    listed, cases = entries(top / "docs"), cases_of_entries(top)
    found = {entry.code: entry for entry in listed}
    every = codes(top)
    rows = tables(top)
    wrong = [f"{entry.code} has two entries" for entry in listed if found[entry.code] is not entry]
    wrong += wrong_codes(every, rows, found)
    wrong += [f"{entry.code} {why}" for entry in listed for why in wrong_of(cases, entry)]
    printed = {name: ["workflow-call"] if name in OF_JOBS else rows.get((name[0], variant), NO_ROW)[2] for name, variant in every}
    wrong += compare_table(top, BY_KIND, by_kind(listed, printed), write)
    if wrong:
        sys.exit("\n".join(wrong))


if __name__ == "__main__":
    main(*sys.argv[1:])
