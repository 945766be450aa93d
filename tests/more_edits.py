"""Tries the edits that the gate doesn't try: more_edits.py TOP [--must-fail] [CRATE ..].

    python3 tests/more_edits.py . al_expr_names

The file crates/NAME/more.edits has edits in the form of those in must-fail/, each after a line `== NAME`: the prover must refuse the crate
with it. --must-fail tries those of the gate instead, in a fraction of the time that the gate takes for them from scratch. Edits of
different functions go into one check of a copy of the crate, on top of the work that `rt check` keeps in the crates' out/, so the crate has
to be proved there first. An edit is refused if a goal of its function fails, or a proof below the folder of that function's own proofs; not
if only a called function isn't proved, or if a proof names what the edit removed. An edit outside of functions (a table) goes into a check
of its own, which must fail.
Prints a line for each edit; the status is 1 if one isn't refused or can't be tried.
"""

import collections
import pathlib
import re
import shutil
import subprocess
import sys
import tempfile

sys.path.insert(0, str(pathlib.Path(__file__).resolve().parent.parent / "tools"))
from crates import crates_of, with_below, write_list

Edit = collections.namedtuple("Edit", "name pairs function")
Function = collections.namedtuple("Function", "file module owner name cycle")

FUNCTION = re.compile(r"^( *)(?:pub(?:\([a-z]+\))? )?(?:(?:const|unsafe|async) )*fn (\w+)", re.MULTILINE)
OWNER = re.compile(r"^(?:unsafe )?(?:impl|trait)\b(?:<[^>]*>)? *([\w:]+)(?:<[^{]*>)?(?: for ([\w:]+))?", re.MULTILINE)
CYCLE = re.compile(r"#\[cycle\((\w+)\)\]")
# what a check prints about a function with a goal that isn't proved, and about a place in a wrong proof
FAILED = re.compile(r"^fn (\S+): (?:no proof: expected answers in |not proved$)", re.MULTILINE)
WRONG = re.compile(r"^(?:note: )?(?:\./)?proofs/(\S+)/\w+\.antt:\d+:\d+: error(.*)$", re.MULTILINE)
# a proof that names what an edit removed says nothing about the contract
TAKEN = re.compile(r"has no field|is not in scope|has no `|was not admitted")
PARTS = ("src", "specs", "proofs")
BEGINS_AN_EDIT = re.compile(r"^== (\w+)\n", re.MULTILINE)
MORE = "more.edits"


def edits_of_the_gate(crate):
    """The texts of the edits that the gate tries in a crate, by name."""
    return {it.stem: it.read_text() for it in sorted((crate / "must-fail").glob("*.edit"))}


def edits_by_hand(crate):
    """The texts of the edits that it doesn't try, by name."""
    file = crate / MORE
    _, *pieces = BEGINS_AN_EDIT.split(file.read_text() if file.is_file() else "")
    return dict(zip(pieces[::2], pieces[1::2]))


def pairs_of(text):
    """The file, the old and the new text of each change of an edit."""
    path = old = None
    for line in text.splitlines():
        word, _, rest = line.partition(" ")
        if word == "file:":
            path = rest.strip()
        elif word == "old:":
            old = rest
        elif word == "new:":
            yield path, old, rest


def function_at(source, file, at):
    """The function of a file whose text contains an offset; None if the offset is after its end, as in a table."""
    found = None
    for match in FUNCTION.finditer(source, 0, at):
        found = match
    if not found:
        return None
    end = source.find(f"\n{found[1]}}}", found.end())
    if end != -1 and end < at:
        return None
    owner = None
    if found[1]:
        for match in OWNER.finditer(source, 0, found.start()):
            owner = match
    module = pathlib.PurePath(file).relative_to("src").with_suffix("").parts
    module = tuple(it for it in module if it not in ("lib", "main", "mod"))
    # the attributes of a function are between it and the empty line before
    cycle = CYCLE.search(source, source.rfind("\n\n", 0, found.start()) + 1, found.start())
    return Function(file, module, (owner[2] or owner[1]).split("::")[-1] if owner else None, found[2], cycle and cycle[1])


def read_edit(name, text, crate):
    """An edit and the function that all of its changes are in, if there is one; the reason if it can't be applied."""
    pairs, functions = [*pairs_of(text)], set()
    for file, old, _ in pairs:
        if (crate / file).read_text().count(old) != 1 and old not in "".join(new for _, _, new in pairs):
            return f"an old text is not in {file} once"
        source = (crate / file).read_text()
        is_code = file.startswith("src/") and old in source
        functions.add(function_at(source, file, source.index(old)) if is_code else None)
    whole = functions - {None} if len(functions) == 2 and None in functions and len(pairs) > 2 else functions
    return Edit(name, pairs, whole.pop() if len(whole) == 1 else None)


def checks_of(edits):
    """Groups of edits that one check can try: those of different functions; each edit outside of functions alone."""
    groups = []
    for edit in edits:
        free = (it for it in groups if edit.function and all(other.function not in (None, edit.function) for other in it))
        group = next(free, None)
        if group is None:
            groups.append([edit])
        else:
            group.append(edit)
    return groups


def copy_into(top, name, room):
    """Copies a crate and the libraries below it, as built."""
    named = crates_of(top)
    crates = with_below(named, name)
    write_list(room / "crates.txt", named, crates)
    for crate in crates:
        for part in [*PARTS, "out/rlib", *(["out/incremental"] if crate == name else [])]:
            if (top / "crates" / crate / part).is_dir():
                shutil.copytree(top / "crates" / crate / part, room / "crates" / crate / part)


def said_of(crate, edits):
    """What a check of a copy with these edits prints; afterwards its files are as before."""
    texts = {}
    for edit in edits:
        for file, old, new in edit.pairs:
            text = texts.get(file) or (crate / file).read_text()
            texts[file] = text.replace(old, new)
    kept = {file: (crate / file).read_text() for file in texts}
    for file, text in texts.items():
        (crate / file).write_text(text)
    try:
        pipes = {"stdin": subprocess.DEVNULL, "stdout": subprocess.PIPE, "stderr": subprocess.STDOUT}
        ran = subprocess.run(["rt", "check", "--jobs", "1", "--progress"], cwd=crate, text=True, check=False, **pipes)
    finally:
        for file, text in kept.items():
            (crate / file).write_text(text)
    return ran.returncode, ran.stdout


def is_refused(crate, function, said):
    """Whether the lines of a check say that a goal of the function fails, or a proof below the folder of its own proofs."""
    # a method's name has the module of its type, and the proof of a call cycle has the cycle's name; for a
    # function that calls itself alone, that is its own
    way = rf"(?:\w+{{0}})*\S*{function.owner}\S*" if function.owner else "{0}".join(function.module)
    name = rf"(?:{function.name}|\+{function.cycle or function.name})"
    goal = re.compile("::".join(it for it in (crate, way.format("::"), name) if it))
    folder = re.compile("/".join(it for it in (way.format("/"), name) if it))
    if any(goal.fullmatch(it) for it in FAILED.findall(said)):
        return True
    return any(folder.fullmatch(path) and not TAKEN.search(why) for path, why in WRONG.findall(said))


def tried(name, crate, edits):
    """Tries a group and yields each of its edits with whether it is refused; those about which the check says nothing are tried one by
    one."""
    status, said = said_of(crate, edits)
    reached = re.search(r"^logic=not-proved", said, re.MULTILINE)
    for edit in edits:
        if edit.function and is_refused(name, edit.function, said) or not edit.function and reached:
            yield edit, "refused"
        elif len(edits) > 1:
            yield from tried(name, crate, [edit])
        elif status == 0 or reached:
            yield edit, "NOT REFUSED"
        else:
            yield edit, "NOT TRIED: " + (said.strip().splitlines() or ["the check said nothing"])[0]


def try_crate(top, name, edits_of):
    """Tries all edits of a crate that a function gives, and returns how many were not refused."""
    wrong, edits = 0, []
    with tempfile.TemporaryDirectory(prefix="more-edits-") as folder:
        room = pathlib.Path(folder)
        copy_into(top, name, room)
        crate = room / "crates" / name
        for called, text in edits_of(top / "crates" / name).items():
            edit = read_edit(called, text, crate)
            if isinstance(edit, str):
                wrong += 1
                print(f"{name}/{called}: NOT TRIED: {edit}")
            else:
                edits.append(edit)
        for group in checks_of(edits):
            for edit, answer in tried(name, crate, group):
                wrong += answer != "refused"
                print(f"{name}/{edit.name}: {answer}", flush=True)
    return wrong


def main(folder, *words):
    top = pathlib.Path(folder).resolve()
    edits_of = edits_of_the_gate if "--must-fail" in words else edits_by_hand
    names = [it for it in words if it != "--must-fail"]
    there = sorted(it.name for it in (top / "crates").iterdir() if edits_of(it))
    unknown = set(names) - set(there)
    if unknown:
        sys.exit(f"no edits of {', '.join(sorted(unknown))}")
    sys.exit(1 if sum(try_crate(top, it, edits_of) for it in names or there) else 0)


if __name__ == "__main__":
    if len(sys.argv) == 1:
        sys.exit(__doc__)
    if not shutil.which("rt"):
        sys.exit("the kit's command rt isn't on the PATH")
    main(*sys.argv[1:])
