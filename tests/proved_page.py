"""Compares docs/PROVED.md with the crates, and README.md's table with it: proved_page.py TOP.

Each clause in the table of promises belongs to the function that the table names, and README.md's table has exactly the numbered promises.
Each crate of crates.txt that the program depends on, `al_laws` and `toy` have rows in the table of crates; a row is about a public item of
its crate, and the clauses in brackets after it are its own; a definition's file that a row names exists. If a clause is a record, its
fields count as clauses. The table of tests names files and functions that exist. What is trusted is whole: the C functions that
`prebuilt/actionlint` calls, the foreign crates in it, whose licences are in LICENSES, the libraries of crates.txt, and each `unsafe` block
of the crates, none of which has an axiom or a foreign function. If the kit's `rt` is on the PATH, the trusted logic is the one with which
that kit proves. Prints what isn't so.
"""

import pathlib
import re
import shutil
import subprocess
import sys

import elf
from architecture_page import PROGRAM, all_below, crates_in

ROW = re.compile(r"^\| (\d?) ?\| (.*) \| (.*) \|$", re.MULTILINE)
EXTRACT = re.compile(r"^\| (\d) \| (.*) \|$", re.MULTILINE)
OF_CRATE = re.compile(r"^\| (?:`(\w+)`)? ?\| (`.*?) \| (.*) \|$", re.MULTILINE)
ITEM = re.compile(r"^\s*(?:pub )?(?:fn|struct|enum|trait|type) (\w+)", re.MULTILINE)
FUNCTION = re.compile(r"^( *)pub fn (\w+)(.*?)^\1(?:[{}]|$)", re.DOTALL | re.MULTILINE)
LAWS = re.compile(r"^impl Lint for Actions \{(.*?)^\}", re.DOTALL | re.MULTILINE)
CLAUSE = re.compile(r"\b(?:ensures|ghost) (\w+) (?:\{|=)")
RECORD = re.compile(r"^pub record (\w+).*? where\n((?:  [^\n]*\n)+)", re.DOTALL | re.MULTILINE)
FIELD = re.compile(r"^  pub (\w+) :", re.MULTILINE)
CITED = re.compile(r"\bensures (?:\w+ )?\{ (\w+)\b")
NAME = re.compile(r"`(?:\w+::)?([\w ]+)`")
CLAUSES = re.compile(r" \((`\w+`(?:, `\w+`)*)\)")
LOGIC = re.compile(r"\blogic ([0-9a-f]{16})\b")
C_FUNCTIONS = re.compile(r"^ *\| (`\w+`(?:, `\w+`)*) \| [^|]+ \|$", re.MULTILINE)
TESTED = re.compile(r"`(tests/\w+\.py|\w+)`(?: \((`\w+`(?:, `\w+`)*)\))?")
# what no crate may have: in its code, and in its definitions and proofs
BARRED = {"src/**/*.rt": re.compile(r'\bextern "C"|\bAbort\b'), "**/*.antt": re.compile(r"^ *(?:axiom|postulate)\b", re.MULTILINE)}
# the parts of `std`, which is trusted as one
STANDARD = {"core", "std", "std_alloc", "std_collections", "std_heap", "std_io"}


def sources(crate, files="src/**/*.rt"):
    """The sources of a crate, or its other files, as one text."""
    return "\n".join(it.read_text(encoding="utf-8") for it in sorted(crate.glob(files)))


def contracts(source, definitions):
    """The names of the clauses of each function, with the fields of their records; all of them for functions with equal names."""
    fields = {name: set(FIELD.findall(text)) for name, text in RECORD.findall(definitions)}
    found = {}
    for match in FUNCTION.finditer(source):
        cited = (fields.get(it, set()) for it in CITED.findall(match[3]))
        found.setdefault(match[2], []).append(set(CLAUSE.findall(match[3])).union(*cited))
    for match in LAWS.finditer(source):
        found.setdefault("impl Lint for Actions", []).append(set(CLAUSE.findall(match[1])))
    return found


def missing(named, found):
    """What a cell names that doesn't exist. In each of its parts the functions come before a colon, and their clauses after it."""
    for part in named.split(";"):
        functions, _, clauses = part.partition(": ")
        wanted = set(NAME.findall(clauses))
        for function in NAME.findall(functions):
            if not any(wanted <= names for names in found.get(function, [])):
                yield f"no contract has {function}: {', '.join(sorted(wanted)) or 'no such function'}"


def items_of(source):
    """What the sources of a crate declare or re-export."""
    found = set(ITEM.findall(source))
    for names in re.findall(r"^pub use [\w:]+::\{?([\w, \n]+)\}?;", source, re.MULTILINE):
        found.update(re.findall(r"\w+", names))
    return found


def rows_of(page):
    """The rows of each crate: what each is about, and what it says."""
    found, crate = {}, None
    for name, items, text in OF_CRATE.findall(section(page, "Crate by crate")):
        crate = name or crate
        found.setdefault(crate, []).append((items, text))
    return found


def wrong_in(crate, rows, definitions):
    """What a crate's rows say that isn't so, given the definitions of all crates."""
    source = sources(crate)
    there, clauses_of = items_of(source), contracts(source, definitions)
    for items, text in rows:
        clauses = {it for names in CLAUSES.findall(items) for it in re.findall(r"\w+", names)}
        names = [it.split("::")[-1] for it in re.findall(r"`([\w:]+)`", CLAUSES.sub("", items))]
        have = {clause for it in names for one in clauses_of.get(it, []) for clause in one}
        yield from (f"there is no {it}" for it in names if it not in there)
        yield from (f"{', '.join(names)} have no clause {it}" for it in sorted(clauses - have))
        yield from (f"there is no {it}" for it in re.findall(r"`(specs/[\w/]+\.antt)`", text) if not (crate / it).exists())


def section(page, title):
    """What a page says below a title."""
    return page.partition(f"\n## {title}\n")[2].partition("\n## ")[0]


def wrong_tests(top, page):
    """The tests that the page names and that don't exist."""
    for file, functions in TESTED.findall(re.sub(r"^\|.*\|(.*)\|$", r"\1", section(page, "What is only tested"), flags=re.MULTILINE)):
        place = top / file if "/" in file else top / "crates" / file
        if not place.exists():
            yield from [f"there is no test {file}"] if "/" in file or functions else []
            continue
        source = sources(place) if place.is_dir() else place.read_text(encoding="utf-8")
        yield from (f"{file} has no {it}" for it in re.findall(r"\w+", functions) if not re.search(rf"\b(?:fn|def) {it}\(", source))


def untold_libraries(page, program, built):
    """The C functions and the libraries that a program rests on and the page doesn't name, or the other way round."""
    trusted = section(page, "What is trusted")
    listed = {it for names in C_FUNCTIONS.findall(trusted) for it in re.findall(r"\w+", names)}
    called = elf.c_functions(program)
    yield from (f"the program calls {it}, which isn't listed" for it in sorted(called - listed))
    yield from (f"the program doesn't call {it}" for it in sorted(listed - called))
    libraries = {it for below in built.values() for it in below} | elf.crates_in(program)
    named = set(re.findall(r"`(\w+)`", trusted)) | STANDARD
    yield from (f"{it} isn't named as a library" for it in sorted(libraries - set(built) - named))


def untold_licences(top, program, built):
    """The foreign crates whose licence LICENSES/ lacks."""
    libraries = {it for below in built.values() for it in below} | elf.crates_in(program)
    yield from (f"LICENSES has none of {it}" for it in sorted(libraries - set(built) - STANDARD)
                if not (top / "LICENSES" / f"{it}.txt").exists())


def untold_code(top, page):
    """The unsafe blocks that the page doesn't name, or names where there is none, and what no crate may have."""
    unsafe = {f"{it.relative_to(top / 'crates')}" for it in top.glob("crates/*/src/**/*.rt")
              if re.search(r"\bunsafe\b", it.read_text(encoding="utf-8"))}
    named = set(re.findall(r"`(\w+/src/[\w/]+\.rt)`", section(page, "What is trusted")))
    yield from (f"{it} has an unsafe block, which isn't named" for it in sorted(unsafe - named))
    yield from (f"{it} has no unsafe block" for it in sorted(named - unsafe))
    for files, barred in BARRED.items():
        for file in sorted(top.glob(f"crates/*/{files}")):
            if found := barred.search(file.read_text(encoding="utf-8")):
                yield f"{file.relative_to(top)} has {found[0].strip()}"


def differences(top):
    """What the pages say that isn't so."""
    page = (top / "docs/PROVED.md").read_text(encoding="utf-8")
    rows = ROW.findall(page[: page.index("## Crate by crate")])
    crates = sorted((top / "crates").glob("al_*"))
    source, definitions = ("\n".join(sources(it, files) for it in crates) for files in ("src/**/*.rt", "specs/**/*.antt"))
    known = contracts(source, definitions)
    found = [it for _, _, named in rows for it in missing(named, known)]
    numbered = [(number, promise) for number, promise, _ in rows if number]
    readme = (top / "README.md").read_text(encoding="utf-8").partition("## What it promises")[2].partition("\n## ")[0]
    if not numbered or EXTRACT.findall(readme) != numbered:
        found.append("README.md has other promises than those with a number")
    built, listed = crates_in((top / "crates.txt").read_text(encoding="utf-8")), rows_of(page)
    wanted = {it for it in all_below(built, PROGRAM) if it != PROGRAM} | {"al_laws", "toy"}
    found += [f"no row of {it}" for it in sorted(wanted - set(listed))]
    found += [f"no crate {it}" for it in sorted(set(listed) - set(built))]
    program = (top / "prebuilt/actionlint").read_bytes()
    found += [*wrong_tests(top, page), *untold_libraries(page, program, built), *untold_licences(top, program, built)]
    found += untold_code(top, page)
    found += [f"{name}: {it}" for name, of_crate in listed.items() for it in wrong_in(top / "crates" / name, of_crate, definitions)]
    if shutil.which("rt"):
        version = subprocess.run(["rt", "version"], capture_output=True, text=True, check=True).stdout.strip()
        found += [] if LOGIC.findall(page) == LOGIC.findall(version) != [] else [f"what is trusted is {version}"]
    return found


def main(folder):
    if wrong := differences(pathlib.Path(folder)):
        sys.exit("docs/PROVED.md: " + "\n".join(wrong))


if __name__ == "__main__":
    main(*sys.argv[1:])
