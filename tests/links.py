"""Checks the links between pages: links.py TOP. Each leads to an existing file, and to a heading of that page. What a page names in code
by its path, `crate/specs/File.antt` or `tests/file.py`, exists too, and docs/README.md links to each page of docs/.
"""

import pathlib
import re
import sys

LINK = re.compile(r"!?\[[^\]]*\]\(([^()\s]+)\)")
PATH = re.compile(r"`([\w.-]+/[\w*.{},/-]+)`")
PLACES = {"specs", "src", "proofs", "must-fail", "more.edits"}
FOLDERS = {"bench", "clients", "crates", "docs", "examples", "tests", "tools"}
CODE = re.compile(r"^```.*?^```$|`[^`\n]*`", re.DOTALL | re.MULTILINE)


def without_code(text):
    """A page's text without its code."""
    return CODE.sub("", text)


def anchors_of(text):
    """The anchors of a page's headings, as GitHub makes them; repeated ones get a number."""
    found = {}
    for heading in re.findall(r"^#+ (.*)$", re.sub(r"^```.*?^```$", "", text, flags=re.DOTALL | re.MULTILINE), re.MULTILINE):
        plain = re.sub(r"\[([^\]]*)\]\([^)]*\)", r"\1", heading).replace("`", "")
        anchor = re.sub(r"[^\w\- ]", "", plain.strip().lower()).replace(" ", "-")
        count = found.get(anchor, 0)
        found[anchor] = count + 1
        if count:
            found[f"{anchor}-{count}"] = 1
    return set(found)


def pages(top):
    """All pages below a folder."""
    return sorted([*top.glob("*.md"), *(top / "docs").glob("**/*.md"), *(top / "clients").glob("**/*.md"), *(top / "tests").glob("*.md")])


def absent_paths(top):
    """Paths that pages name and that don't exist: below a crate, or below a folder at the top."""
    crates = {it.name for it in (top / "crates").iterdir()}
    for page in pages(top):
        for path in sorted(set(PATH.findall(page.read_text(encoding="utf-8")))):
            first, second = path.split("/")[:2]
            within = top / "crates" if first.startswith("al_") and second in PLACES or first in crates else top
            if "**" in path:
                continue
            if (within != top or first in FOLDERS) and not any([*within.glob(path.rstrip("/")), *within.glob(path + ".*")]):
                yield f"{page.relative_to(top)}: there is no {path}"


def unlisted(top):
    """The pages of docs/ to which docs/README.md doesn't link."""
    listed = {link.partition("#")[0] for link in LINK.findall((top / "docs/README.md").read_text(encoding="utf-8"))}
    for page in sorted((top / "docs").glob("*.md")):
        if page.name not in {*listed, "README.md"}:
            yield f"docs/README.md doesn't lead to {page.name}"


def broken_links(top):
    """The links of all pages below a folder that lead nowhere."""
    found = []
    for page in pages(top):
        for link in LINK.findall(without_code(page.read_text(encoding="utf-8"))):
            if re.match(r"[a-z]+:", link):
                continue
            path, _, anchor = link.partition("#")
            target = (page.parent / path).resolve() if path else page
            if not target.exists():
                found.append(f"{page.relative_to(top)}: there is no {path}")
            elif anchor and anchor not in anchors_of(target.read_text(encoding="utf-8")):
                found.append(f"{page.relative_to(top)}: {target.name} has no heading {anchor}")
    return found


def main(folder):
    top = pathlib.Path(folder)
    if wrong := [*broken_links(top), *absent_paths(top), *unlisted(top)]:
        sys.exit("\n".join(wrong))


if __name__ == "__main__":
    main(*sys.argv[1:])
