"""Checks what the public crates say of themselves: public_docs.py TOP.

Each public item of the nine crates has a comment, fields and variants too; so do those of types that their signatures name and no public
crate does. Only signatures of what is public for the crates above alone name such types. A function that returns a `Result` says under `#
Errors` when it fails, and one with a `requires` under `# Requires` what it asks. Each item is on the page that tools/api_pages.py makes
of its crate, with all its clauses. docs/LIBRARY.md has a row for each crate, and lists what is public for the crates above alone: items
that exist, among them all that do nothing at run time. al_surface calls each other function, a method in a file that names its type.
Prints a line for each.
"""

import pathlib
import re
import subprocess
import sys
import tempfile

TOOLS = pathlib.Path(__file__).resolve().parent.parent / "tools"
sys.path.insert(0, str(TOOLS))
from api_pages import inner_items
from public_items import Library, PUBLIC, hidden_types, public_items
from running import exit_status, report

RETURNS_RESULT = re.compile(r"-> Result<")
# what stands for nothing at run time
EMPTY = "Does nothing at run time"


def items_of(named):
    """All items of a crate with their names, and what is below them."""
    return [pair for one in named.values() for pair in one.with_parts()]


def lacks(item):
    """What the comment of an item doesn't say."""
    if not item.comment.strip():
        yield "has no comment"
    if item.kind == "fn" and RETURNS_RESULT.search(item.signature) and "# Errors\n" not in item.comment:
        yield "doesn't say when it fails (# Errors)"
    if any(it.startswith("requires") for it in item.clauses) and "# Requires\n" not in item.comment:
        yield "doesn't say what it asks (# Requires)"


def uncommented(top, items):
    """The items whose comments lack something."""
    for name, item in items:
        yield from (f"{item.file.relative_to(top)}:{item.line} {name} {it}" for it in lacks(item))


def unnamed(top, hidden):
    """The types that a caller needs and can't name: those in signatures of what is public for others too."""
    inner = {f"{crate}::{name}" for crate, names in inner_items(top).items() for name in names}
    for item, needed in hidden:
        yield from (f"{it} needs {item.name}, which no public crate names" for it in needed
                    if it not in inner and it.rpartition("::")[0] not in inner)


def missing_on_page(page, items):
    """The items that a page doesn't have, or without their clauses."""
    for name, item in items:
        entry = {"field": rf"(?:^-.*)? `(?:{item.name}|{re.escape(item.signature)})`: ", "variant": rf"^- `{re.escape(item.signature)}`: "}
        if not re.search(entry.get(item.kind, rf"^#+ `{re.escape(name)}`, "), page, re.MULTILINE):
            yield f"{name} isn't on the page"
        yield from (f"{name} lacks a clause on the page: {it}" for it in item.clauses if f"\n{it}\n" not in page)


def wrong_lists(top, named):
    """What docs/LIBRARY.md says of the crates and isn't so."""
    page = (top / "docs/LIBRARY.md").read_text(encoding="utf-8").partition("\n## Which crate for what\n")[2].partition("\n## ")[0]
    inner = inner_items(top)
    yield from (f"the page has no row for {crate}" for crate in PUBLIC if f"\n| `{crate}` | " not in page)
    yield from (f"there is no crate {crate}" for crate in inner if crate not in named)
    for crate, items in named.items():
        names = {name: item for name, item in items_of(items)}
        listed = inner.get(crate, [])
        yield from (f"{crate} has no {it}" for it in listed if it not in names)
        yield from (f"{crate}::{name} isn't listed" for name, it in names.items()
                    if EMPTY in it.comment.replace("\n", " ") and name not in listed)


def functions_of(named):
    """The functions of the crates, with their types: none for what stands by itself or in a module. One that two crates name counts for
    the first."""
    seen = set()
    for crate, items in named.items():
        for name, it in items_of(items):
            if it.kind == "fn" and it.place not in seen:
                seen.add(it.place)
                owner, _, last = name.rpartition("::")
                yield crate, name, "" if owner in items and items[owner].kind == "mod" else owner, last


def is_called(source, crate, owner, name):
    """Whether a source calls a function that it imports from a crate, or a method of a type that it names."""
    if owner:
        return re.search(rf"\b{owner}\b", source) and re.search(rf"(?:\.|\b{owner}::){name}\(", source)
    return re.search(rf"^use {crate}\b[^;]*\b{name}\b", source, re.MULTILINE) and re.search(rf"(?<![.\w]){name}\(", source)


def wrong_calls(top, named):
    """The functions that al_surface doesn't call and docs/LIBRARY.md doesn't list, and those of which both is so."""
    sources = [it.read_text(encoding="utf-8") for it in sorted((top / "crates/al_surface/src").glob("*.rt"))]
    inner = inner_items(top)
    for crate, name, owner, last in functions_of(named):
        is_listed = not {name, owner}.isdisjoint(inner.get(crate, []))
        calls = any(is_called(it, crate, owner, last) for it in sources)
        if calls == is_listed:
            yield f"{crate}::{name} is " + ("listed, and al_surface calls it" if calls else "called nowhere in al_surface, and not listed")


def made_pages(top):
    """The pages that tools/api_pages.py makes, by crate; what it says where it fails."""
    with tempfile.TemporaryDirectory(prefix="actionlint-test-") as room:
        words = [sys.executable, top / "tools/api_pages.py", top, room]
        ran = subprocess.run(words, stdout=subprocess.PIPE, stderr=subprocess.STDOUT, text=True, check=False)
        files = {it.stem: it.read_text(encoding="utf-8") for it in pathlib.Path(room).glob("*.md")}
    return files, ran.stdout.splitlines() if ran.returncode else []


def main(folder):
    top = pathlib.Path(folder).resolve()
    library = Library(top)
    named = public_items(library)
    for crate in PUBLIC:
        items = items_of(named[crate])
        report(f"comments-of-{crate}", "-", list(uncommented(top, items)) if items else ["it has no items"])
    hidden = hidden_types(library, named)
    report("comments-of-types-in-signatures", "-", list(uncommented(top, [pair for item, _ in hidden for pair in item.with_parts()])))
    report("types-that-no-public-crate-names", "-", list(unnamed(top, hidden)))
    pages, wrong = made_pages(top)
    report("api-pages", "-", wrong)
    for crate in PUBLIC:
        report(f"page-of-{crate}", "-", list(missing_on_page(pages.get(crate, ""), items_of(named[crate]))))
    report("library-page", "-", list(wrong_lists(top, named)))
    report("calls-of-al_surface", "-", list(wrong_calls(top, named)))
    return exit_status()


if __name__ == "__main__":
    sys.exit(main(*sys.argv[1:]))
