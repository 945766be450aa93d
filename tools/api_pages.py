"""Writes a page for each public crate, from its comments and contracts: api_pages.py TOP FOLDER.

FOLDER/CRATE.md has the crate's first page and then each item with its signature, its comment, its parts and its clauses. After the clauses
stand the definitions that they name, with what the comments of `specs/` say of them, or else of their file. What docs/LIBRARY.md lists as
there for the crates above alone comes last.
"""

from __future__ import annotations

import pathlib
import re
import sys
from collections.abc import Iterator

sys.path.insert(0, str(pathlib.Path(__file__).resolve().parent.parent / "tests"))
from definitions import Definitions, Module, imports, words_of
from public_items import Item, Library, PUBLIC, module_comment

KINDS = {"mod": "module", "fn": "function", "const": "constant", "type": "type"}
# links between items, which have no place of their own here
LINK = re.compile(r"\[(`[^`\]]+`)\](?:\([^)\s]+\))?")
HEADING = re.compile(r"^# (\w+)$", re.MULTILINE)
LISTED = re.compile(r"^\| `(al_\w+)` \| (.*) \|$", re.MULTILINE)
INNER = "Public for the crates above alone"


def inner_items(top: pathlib.Path) -> dict[str, list[str]]:
    """What docs/LIBRARY.md says is public for the crates above alone, by crate."""
    page = (top / "docs/LIBRARY.md").read_text(encoding="utf-8")
    section = page.partition(f"\n## {INNER}\n")[2].partition("\n## ")[0]
    return {crate: re.findall(r"`(\w+(?:::\w+)*)`", row) for crate, row in LISTED.findall(section)}


def in_markdown(comment: str) -> str:
    """A comment as part of a page: its sections as bold words, and links to items as their names."""
    return HEADING.sub(r"**\1**", LINK.sub(r"\1", comment))


def comment_of(module: Module, name: str) -> str:
    """What the comment right above a definition says."""
    first = module.items[name].lines[0]
    at = module.lines.index(first)
    comment: list[str] = []
    while at and module.lines[at - 1].lstrip().startswith("-- "):
        at -= 1
        comment.insert(0, module.lines[at].lstrip()[3:].strip())
    return " ".join(comment)


class Pages:
    """The pages of a repository's public crates."""

    def __init__(self, top: pathlib.Path):
        self.top, self.library, self.definitions = top, Library(top), Definitions(top)
        self.inner = inner_items(top)

    def named_in(self, item: Item) -> Iterator[tuple[Module, str]]:
        """The definitions that the clauses of an item name."""
        lines = item.file.read_text(encoding="utf-8").splitlines()
        words = set().union(*(words_of(it) for it in item.clauses))
        found = {(module, one): None for module, name in self.definitions.named(words, *imports(lines)) for one in module.items_of(name)}
        yield from sorted(found, key=lambda it: (it[0].name, it[1]))

    def clauses(self, item: Item) -> Iterator[str]:
        """The clauses of an item, and what the definitions in them say."""
        if not item.clauses:
            return
        yield from ("", "```", *item.clauses, "```", "")
        for module, name in self.named_in(item):
            yield f"- `{name}` ({module.name}): {comment_of(module, name) or module.sentence()}"

    def parts(self, item: Item) -> Iterator[str]:
        """The fields or variants of a type, as a list."""
        for name, part in ((it.name, it) for it in item.parts if it.kind in ("field", "variant")):
            inner = "".join(f" `{it.signature}`: {it.comment}" for it in part.parts)
            yield f"- `{part.signature if part.kind == 'variant' else name}`: " + " ".join(in_markdown(part.comment).split()) + inner

    def item(self, name: str, item: Item, depth: int) -> Iterator[str]:
        """An item, and below it its functions."""
        yield from ("", f"{'#' * depth} `{name}`, {KINDS.get(item.kind, item.kind)}", "")
        if item.kind != "mod":
            yield from ("```rust", item.signature, "```", "")
        yield in_markdown(item.comment)
        if listed := list(self.parts(item)):
            yield from ("", *listed)
        yield from self.clauses(item)
        for part in item.parts:
            if part.kind not in ("field", "variant"):
                yield from self.item(f"{name}::{part.name}", part, depth + 1)

    def page(self, crate: str) -> str:
        """The page of a crate."""
        named = self.library.named(crate)
        inner = [it for it in named if it in self.inner.get(crate, ())]
        lines = [f"# `{crate}`", "", in_markdown(module_comment(self.top / "crates" / crate / "src/lib.rt"))]
        for name in sorted(named.keys() - set(inner), key=str.lower):
            lines += self.item(name, named[name], 2)
        lines += ["", f"## {INNER}"] if inner else []
        for name in inner:
            lines += self.item(name, named[name], 3)
        return re.sub(r"\n{3,}", "\n\n", "\n".join(lines)) + "\n"


def main(top: str, folder: str) -> None:
    pages, out = Pages(pathlib.Path(top)), pathlib.Path(folder)
    out.mkdir(parents=True, exist_ok=True)
    for crate in PUBLIC:
        (out / f"{crate}.md").write_text(pages.page(crate), encoding="utf-8")


if __name__ == "__main__":
    main(*sys.argv[1:])
