"""The public items of crates, from their sources: what each `src/lib.rt` names, with comments, signatures and clauses.

The sources are as `rt fmt` lays them out: items of a file start at the margin, members of a type, an `impl` or a trait four columns in.
"""

from __future__ import annotations

import pathlib
import re
from collections.abc import Iterator
from dataclasses import dataclass, field, replace

# the crates that are there for other programs, in the order in which they build on one another
PUBLIC = ("al_text", "al_scalar", "al_yaml", "al_tree", "al_expr", "al_rules", "al_check", "al_session", "al_cli")

ITEM = re.compile(r"(?:pub )?(?:unsafe |const )*(fn|struct|enum|trait|type|const|static|mod) (\w+)")
PUBLIC_ITEM = re.compile(r"pub (?:unsafe |const )*(?:fn|struct|enum|trait|type|const|static|mod) \w")
IMPL = re.compile(r"(?:unsafe )?impl(?:<.*?>)? (\w+)(?:<.*>)? \{$")
FIELD = re.compile(r"pub (\w+): (.*?),?$")
FIELD_OF_VARIANT = re.compile(r"(\w+): (.*?),?$")
VARIANT = re.compile(r"([A-Z]\w*)(\(.*\)| \{ .* \})?( \{)?,?$")
CLAUSE = re.compile(r"(?:requires|ensures)\b")
USE = re.compile(r"^(pub )?use ([\w:]+?)(?:::\{([^}]*)\}|::(\w+))(?: as (\w+))?;", re.MULTILINE)
TYPE_NAME = re.compile(r"\b[A-Z]\w+")


@dataclass(frozen=True)
class Item:
    """A public item, or a field, variant or member of one."""

    kind: str
    name: str
    comment: str
    signature: str
    clauses: tuple[str, ...]
    crate: str
    file: pathlib.Path
    line: int
    parts: tuple[Item, ...] = ()

    @property
    def place(self) -> tuple[pathlib.Path, int]:
        """Where it is declared, whatever it is called elsewhere."""
        return self.file, self.line

    def with_parts(self) -> Iterator[tuple[str, Item]]:
        """This item and all below it, each with its name from here on."""
        yield self.name, self
        for part in self.parts:
            yield from ((f"{self.name}::{name}", it) for name, it in part.with_parts())


@dataclass
class Source:
    """What a file declares: its items by name, the methods of types by the type's name, and where the names come from that it uses."""

    items: dict[str, Item] = field(default_factory=dict)
    methods: dict[str, list[Item]] = field(default_factory=dict)
    uses: dict[str, tuple[str, str]] = field(default_factory=dict)
    passed_on: dict[str, tuple[str, str]] = field(default_factory=dict)


class Reader:
    """Reads the items of one file, line by line."""

    def __init__(self, crate: str, file: pathlib.Path):
        self.crate, self.file = crate, file
        self.lines = file.read_text(encoding="utf-8").splitlines()
        self.at = 0
        self.comment: list[str] = []

    def item(self, kind: str, name: str, signature: str, clauses: tuple[str, ...] = (), line: int | None = None) -> Item:
        """An item with the comment that was read before it."""
        comment, self.comment = "\n".join(self.comment), []
        return Item(kind, name, comment, signature, clauses, self.crate, self.file, self.at if line is None else line)

    def lines_at(self, margin: int, end: str | None) -> Iterator[str]:
        """The lines of items at a margin, without it, up to the line that closes the block around them; takes comments, and skips
        attributes and deeper lines."""
        while self.at < len(self.lines):
            line = self.lines[self.at]
            self.at += 1
            text = line.strip()
            if end is not None and line == " " * (margin - 4) + end:
                return
            if text.startswith("///"):
                self.comment.append(text[3:].removeprefix(" "))
            elif text.startswith("#["):
                self.skip_attribute(text)
            elif not text or text.startswith("//"):
                self.comment = []
            elif len(line) - len(line.lstrip()) == margin:
                yield text

    def skip_attribute(self, text: str) -> None:
        """Goes to the end of an attribute."""
        while text.count("[") > text.count("]"):
            text += self.lines[self.at]
            self.at += 1

    def rest_of(self, text: str, margin: int) -> tuple[str, tuple[str, ...]]:
        """The signature of a function and its clauses, up to its body."""
        head = [text]
        clauses: list[str] = []
        while not self.ends_head(head[-1] if not clauses else clauses[-1]):
            line = self.lines[self.at]
            self.at += 1
            if line in (" " * margin + "{", " " * margin + "{}"):
                break
            if line.strip().startswith("//"):
                continue
            if CLAUSE.match(line.strip()):
                clauses.append(line.strip())
            elif clauses:
                clauses[-1] += " " + line.strip()
            else:
                head.append(line)
        signature = "\n".join(it[margin:] if it.startswith(" ") else it for it in head)
        return re.sub(r"\s*(?:\{\}?|;)$", "", signature), tuple(it.removesuffix(";") for it in clauses)

    @staticmethod
    def ends_head(line: str) -> bool:
        """Whether a line is the last of a signature with its clauses."""
        return line.endswith(";") or line.endswith(" {") or line.endswith(" {}")

    def function(self, name: str, text: str, margin: int) -> Item:
        line = self.at
        signature, clauses = self.rest_of(text, margin)
        return self.item("fn", name, signature, clauses, line)

    def fields(self, margin: int, pattern: re.Pattern[str]) -> Iterator[Item]:
        """The public fields of a struct, or those of a variant."""
        for text in self.lines_at(margin, "}" if pattern is FIELD else "},"):
            if match := pattern.match(text):
                yield self.item("field", match[1], f"{match[1]}: {match[2]}")
            self.comment = []

    def variants(self) -> Iterator[Item]:
        for text in self.lines_at(4, "}"):
            if match := VARIANT.match(text):
                one = self.item("variant", match[1], f"{match[1]}{match[2] or ''}")
                yield replace(one, parts=tuple(self.fields(8, FIELD_OF_VARIANT))) if match[3] else one
            self.comment = []

    def members(self, is_trait: bool) -> Iterator[Item]:
        """The public functions of an `impl`, or all functions and types of a trait."""
        for text in self.lines_at(4, "}"):
            match = ITEM.match(text)
            if match and (is_trait or PUBLIC_ITEM.match(text)):
                yield self.function(match[2], text, 4) if match[1] == "fn" else self.item(match[1], match[2], text.rstrip(";"))
            self.comment = []

    def block(self, kind: str, name: str, text: str) -> Item:
        """A type or a trait, with its parts."""
        line = self.at
        while not text.endswith(("{", ";", "}")):
            text += " " + self.lines[self.at].strip()
            self.at += 1
        one = self.item(kind, name, re.sub(r"\s*(?:\{\}?|;)$", "", text), (), line)
        if not text.endswith("{"):
            return one
        if kind == "struct":
            return replace(one, parts=tuple(self.fields(4, FIELD)))
        return replace(one, parts=tuple(self.variants() if kind == "enum" else self.members(True)))

    def constant(self, kind: str, name: str, text: str) -> Item:
        """A constant with its type; its value where it stands on the same line."""
        return self.item(kind, name, text.rstrip(";") if text.endswith(";") else text.partition(" =")[0])

    def read(self) -> Source:
        """The items of the file."""
        found = Source()
        for text in self.lines_at(0, None):
            impl, match = IMPL.match(text), ITEM.match(text)
            if impl:
                self.comment = []
                found.methods.setdefault(impl[1], []).extend(self.members(False))
            elif match and PUBLIC_ITEM.match(text):
                kind, name = match.groups()
                if kind == "fn":
                    found.items[name] = self.function(name, text, 0)
                elif kind in ("struct", "enum", "trait"):
                    found.items[name] = self.block(kind, name, text)
                else:
                    found.items[name] = self.constant(kind, name, text)
            self.comment = []
        for is_public, path, names, *one in USE.findall("\n".join(self.lines)):
            of_file = found.passed_on if is_public else found.uses
            for said in filter(str.strip, names.split(",")) if names else [" as ".join(filter(None, one))]:
                name, _, other = said.strip().partition(" as ")
                of_file.setdefault(other or name, (path, name))
        return found


class Library:
    """The crates of a repository, as far as other programs can name what is in them."""

    def __init__(self, top: pathlib.Path):
        self.top = top
        self.crates: dict[str, dict[str, Source]] = {}

    def sources(self, crate: str) -> dict[str, Source]:
        """The sources of a crate, by the path of the module."""
        if crate not in self.crates:
            folder = self.top / "crates" / crate / "src"
            self.crates[crate] = {"::".join(it.relative_to(folder).with_suffix("").parts): Reader(crate, it).read()
                                  for it in sorted(folder.rglob("*.rt"))}
        return self.crates[crate]

    def is_crate(self, name: str) -> bool:
        return (self.top / "crates" / name / "src/lib.rt").is_file()

    def find(self, crate: str, path: str, name: str) -> Item | None:
        """The item that a path and a name stand for in a crate."""
        first, _, rest = path.partition("::")
        if first in ("crate", "super", "self"):
            return self.find(crate, rest, name) if rest else None
        if self.is_crate(first):
            return self.find(first, rest or "lib", name)
        source = self.sources(crate).get(path)
        if source is None:
            return None
        if name in source.items:
            return self.whole(crate, source.items[name])
        return self.find(crate, *source.passed_on[name]) if name in source.passed_on else None

    def whole(self, crate: str, item: Item) -> Item:
        """An item with its methods, or with what a public module declares."""
        if item.kind == "mod":
            source = self.sources(crate)[item.name]
            inner = [self.whole(crate, it) for it in source.items.values()]
            inner += filter(None, (self.find(crate, *it) for it in source.passed_on.values()))
            return replace(item, comment=module_comment(self.top / "crates" / crate / "src" / f"{item.name}.rt"), parts=tuple(inner))
        methods = [it for source in self.sources(crate).values() for it in source.methods.get(item.name, ())]
        return replace(item, parts=(*item.parts, *methods)) if item.kind in ("struct", "enum") else item

    def named(self, crate: str) -> dict[str, Item]:
        """What a crate's `src/lib.rt` makes public, by the name there."""
        root = self.sources(crate)["lib"]
        found = {name: self.find(crate, *way) for name, way in root.passed_on.items()}
        missing = sorted(name for name, it in found.items() if it is None)
        if missing:
            raise LookupError(f"{crate} names what isn't declared: {', '.join(missing)}")
        found |= {name: self.whole(crate, it) for name, it in root.items.items()}
        return {name: replace(it, name=name) for name, it in found.items() if it}

    def types_of(self, item: Item) -> Iterator[Item]:
        """The types and traits of the repository that a signature, a field or a variant names."""
        module = "::".join(item.file.relative_to(self.top / "crates" / item.crate / "src").with_suffix("").parts)
        source = self.sources(item.crate)[module]
        for name in TYPE_NAME.findall(item.signature):
            there = self.find(item.crate, *source.uses[name]) if name in source.uses else None
            there = there or (self.whole(item.crate, source.items[name]) if name in source.items else None)
            if there and there.kind in ("struct", "enum", "trait", "type"):
                yield there


def module_comment(file: pathlib.Path) -> str:
    """What a file says of itself, in its `//!` lines."""
    lines = file.read_text(encoding="utf-8").splitlines()
    return "\n".join(it[3:].removeprefix(" ") for it in lines if it.startswith("//!"))


def public_items(library: Library) -> dict[str, dict[str, Item]]:
    """What each public crate names."""
    return {crate: library.named(crate) for crate in PUBLIC}


def hidden_types(library: Library, named: dict[str, dict[str, Item]]) -> list[tuple[Item, list[str]]]:
    """The types in public signatures that no public crate names: each with the items that need it. Their own members don't count, since
    nobody can name these types."""
    seen = {it.place for items in named.values() for one in items.values() for _, it in one.with_parts()}
    found: dict[tuple[pathlib.Path, int], tuple[Item, list[str]]] = {}
    for crate, items in named.items():
        for name, it in (pair for one in items.values() for pair in one.with_parts()):
            for there in library.types_of(it):
                if there.place not in seen:
                    needed = found.setdefault(there.place, (there, []))[1]
                    needed += [f"{crate}::{name}"] if f"{crate}::{name}" not in needed else []
    return list(found.values())
