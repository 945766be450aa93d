"""Compares docs/ARCHITECTURE.md with crates.txt: architecture_page.py TOP [--write].

Each crate of the program is in one row of the table of public crates, and the page names each other crate of crates.txt. docs/layers.dot is
the picture of the program's crates in graphviz's language: each is above those it depends on, and colored by that row. docs/layers.svg,
drawn by graphviz's `dot`, has exactly its nodes and arrows. `--write` rewrites both files, and needs `dot` (Debian's graphviz). Only crates
of crates.txt have noted seconds (tools/proof_seconds.txt).
"""

import html
import pathlib
import re
import subprocess
import sys

PUBLIC = "| Public | With it | Cut by |"
PROGRAM = "actionlint"
COLOURS = ["#dbe9f6", "#dff0d8", "#fde9c9", "#f6dbe2", "#e6e0f3", "#d9f0ef", "#eeeeee", "#f3efc4", "#e3d5c8"]
HEAD = """\
// The crates of the program, each above those it depends on. Made from crates.txt by tests/architecture_page.py.
digraph layers {
  graph [rankdir=TB, nodesep=0.25, ranksep=0.35, bgcolor="white", fontname="Helvetica"]
  node [shape=box, style="rounded,filled", color="#555555", fontname="Helvetica", fontsize=12, height=0.32]
  edge [color="#888888", arrowsize=0.6]
"""


def crates_in(text):
    """The dependencies of each crate, in the order of crates.txt."""
    lines = [it for it in text.splitlines() if it.strip() and not it.startswith("#")]
    return {name.strip(): below.split() for name, _, below in (it.partition(":") for it in lines)}


def groups_of(page):
    """For each crate in the table of public crates, its row."""
    lines = page[page.index(PUBLIC) :].partition("\n\n")[0].splitlines()
    rows = [re.findall(r"`(\w+)`", "".join(line.split("|")[1:3])) for line in lines if line.startswith("| `")]
    return [(name, number) for number, names in enumerate(rows) for name in names]


def all_below(crates, name):
    """The direct and indirect dependencies of a crate."""
    found, waiting = set(), [name]
    while waiting:
        new = [it for it in crates.get(waiting.pop(), []) if it in crates and it not in found]
        found.update(new)
        waiting += new
    return found


def arrows_of(crates, name):
    """The dependencies of a crate that no other dependency implies."""
    below = [it for it in crates[name] if it in crates]
    return [it for it in below if not any(it in all_below(crates, other) for other in below)]


def shown_in(crates):
    """The program's crates."""
    return [it for it in crates if it == PROGRAM or it in all_below(crates, PROGRAM)]


def dot_of(crates, groups):
    """The picture in graphviz's language."""
    shown, of = shown_in(crates), dict(groups)
    lines = [f'  {it} [fillcolor="{COLOURS[of[it]]}"]\n' for it in shown]
    lines += [f"  {it} -> {below}\n" for it in shown for below in arrows_of(crates, it)]
    return HEAD + "".join(lines) + "}\n"


def drawn_in(svg):
    """The nodes and arrows of a drawing by dot."""
    titles = [html.unescape(it) for it in re.findall(r"<g id=\"(?:node|edge)\d+\"[^>]*>\s*<title>(.*?)</title>", svg)]
    return sorted(titles)


def titles_of(dot):
    """The nodes and arrows that a drawing must have."""
    nodes = re.findall(r"^  (\w+) \[fillcolor", dot, re.MULTILINE)
    return sorted(nodes + [f"{above}->{below}" for above, below in re.findall(r"^  (\w+) -> (\w+)$", dot, re.MULTILINE)])


def read(path):
    """A file's text, or nothing if it doesn't exist."""
    return path.read_text(encoding="utf-8") if path.exists() else ""


def differences(top):
    """Where the page and its picture differ from crates.txt."""
    crates, page = crates_in(read(top / "crates.txt")), read(top / "docs/ARCHITECTURE.md")
    groups = groups_of(page)
    grouped = [name for name, _ in groups]
    found = [f"{it} has {grouped.count(it)} rows in the table of public crates" for it in shown_in(crates) if grouped.count(it) != 1]
    found += [f"{it} isn't named" for it in crates if f"`{it}`" not in page]
    noted = re.findall(r"^(\w+): ", read(top / "tools/proof_seconds.txt"), re.MULTILINE)
    found += [f"there is no crate {it}" for it in sorted({*grouped, *noted} - set(crates))]
    if found:
        return found
    dot, svg = read(top / "docs/layers.dot"), read(top / "docs/layers.svg")
    found = [] if dot == dot_of(crates, groups) else ["docs/layers.dot isn't the one of crates.txt"]
    found += [] if drawn_in(svg) == titles_of(dot) and titles_of(dot) else ["docs/layers.svg isn't the drawing of docs/layers.dot"]
    return found


def write(top):
    """Rewrites the picture."""
    crates, dot = crates_in(read(top / "crates.txt")), top / "docs/layers.dot"
    dot.write_text(dot_of(crates, groups_of(read(top / "docs/ARCHITECTURE.md"))), encoding="utf-8")
    subprocess.run(["dot", "-Tsvg", "-o", top / "docs/layers.svg", dot], check=True)


def main(folder, *words):
    top = pathlib.Path(folder)
    if "--write" in words:
        write(top)
    if wrong := differences(top):
        sys.exit("docs/ARCHITECTURE.md: " + "\n".join(wrong))


if __name__ == "__main__":
    main(*sys.argv[1:])
