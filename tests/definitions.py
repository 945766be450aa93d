"""The definitions in `specs/`, with the names from their sources: each with its lines and the other definitions that it uses.

A name refers to what its file defines or imports by `use`, unless a signature, an equation, a `λ` or a `let` has a variable of that name.
"""

import re

from crates import crates_of

USE = re.compile(r"\buse Rattle\.([\w.]+?)(?:\.\{([^}]*)\}| as (\w+))?;?\s*$")
HEAD = re.compile(r"^( {0,4})((?:(?:abbrev|unfoldable|pub|record|data|mutual) )+)?(\S+)(.*)$")
# The constructors of a type may share one line.
CONSTRUCTORS = re.compile(r"^  +([\w' -]+) : ")
WORD = re.compile(r"[^\s(){},;]+")
# What binds variables: `(x y : T)`, `{x : T}`, `λ x y.`, `let x =`, and the left side of an equation after the name.
TYPED = re.compile(r"[({]([^(){}:λ]+) : ")
LAMBDA = re.compile(r"λ ([^.]+)\.")
LET = re.compile(r"\blet (\w+)\b")
GIVEN = re.compile(r"([{;]\s*)\w+ =")
EQUATION = re.compile(r"\s*(?:abbrev pub |abbrev |pub )?\S+((?: [^=]*)?) =(?:\s|$)")


def words_of(text):
    """The words of a text, except for the fields that a record is given."""
    return set(WORD.findall(GIVEN.sub(r"\1", text)))


def imports(lines):
    """The modules that names come from, and the names that are imported under another name."""
    named, aliases = {}, {}
    for line in lines:
        match = USE.search(line)
        if not match:
            continue
        for name in (match[2] or "").split(","):
            named[name.strip()] = match[1]
        if match[3]:
            aliases[match[3]] = match[1]
    return named, aliases


class Item:
    """A definition: its kind, the indentation of its lines, and the lines."""

    def __init__(self, kind, indent):
        self.kind, self.indent, self.lines = kind, indent, []

    def chunks(self):
        """Its signature and each of its equations."""
        chunks = []
        for line in self.lines:
            if not chunks or len(line) - len(line.lstrip()) <= self.indent:
                chunks.append([])
            chunks[-1].append(line.partition(" -- ")[0])
        return ["\n".join(it) for it in chunks]


class Module:
    """A file of definitions."""

    def __init__(self, file, name):
        self.file, self.name = file, name
        self.lines = file.read_text().splitlines()
        self.imports, self.aliases = imports(self.lines)
        self.items, self.parts = {}, {}
        self.read_items()

    def read_items(self):
        item = None
        for line in self.lines:
            if line.endswith("mutual"):
                item = None
            if not line.strip() or line.lstrip().startswith("--") or USE.search(line) or line.endswith("mutual"):
                continue
            head = HEAD.match(line)
            data = item and "data" in self.items[item].kind and self.items[item]
            constructors = data and head and not head[2] and len(head[1]) > data.indent and CONSTRUCTORS.match(line)
            if constructors:
                for name in constructors[1].split():
                    self.parts.setdefault(name, []).append(item)
            elif head and (head[2] or head[4].startswith(" :")) and head[3] not in ("_", "module"):
                is_part = item and head[1] and not (head[2] or "").strip().startswith(("abbrev", "unfoldable"))
                if is_part and self.items[item].indent < len(head[1]):
                    self.parts.setdefault(head[3], []).append(item)
                else:
                    item = head[3]
                    self.items.setdefault(item, Item((head[2] or "").split(), len(head[1])))
            if item:
                self.items[item].lines.append(line)

    def items_of(self, name):
        """The definitions that a name refers to: the one of that name, otherwise those with such a field or constructor."""
        return [name] if name in self.items else self.parts.get(name, [])

    def has_constructor(self, name):
        return any("data" in self.items[it].kind for it in self.parts.get(name, ()))

    def size(self, items):
        """The number of lines of some of its definitions."""
        return sum(len(self.items[it].lines) for it in items)

    def sentence(self):
        """The comment at the top of the file."""
        head = []
        for line in self.lines:
            if not line.startswith("--"):
                break
            head.append(line[2:].strip())
        return " ".join(head)


class Definitions:
    """The modules of definitions of a repository by their path in `use` lines, including those that a crate re-exports."""

    def __init__(self, top):
        self.modules, passed_on = {}, {}
        for crate in crates_of(top):
            for file in sorted((top / "crates" / crate / "specs").rglob("*.antt")):
                way = ".".join((crate, "specs", *file.relative_to(top / "crates" / crate / "specs").with_suffix("").parts))
                if ".specs.Proofs." in way:
                    continue
                if file.stem != "Lib":
                    self.modules[way] = Module(file, way)
                    continue
                for line in file.read_text().splitlines():
                    match = USE.search(line)
                    if match:
                        passed_on[f"{crate}.specs.{match[1].rpartition('.')[2]}"] = match[1]
        for way, other in passed_on.items():
            self.modules[way] = self.modules[other]

    def named(self, words, named, aliases):
        """The definitions of other modules that these words name, each as its module and its name."""
        for name, way in named.items():
            parts = [it for it in name.split("◌") if it]
            if way in self.modules and parts and all(it in words for it in parts):
                yield self.modules[way], name
        for alias, way in aliases.items():
            for word in words if way in self.modules else ():
                if word.startswith(f"{alias}."):
                    yield self.modules[way], word.split(".")[1]

    def words(self, module, item):
        """The words of a definition that aren't variables there."""
        return set().union(*(words_of(it) - self.variables(module, it) for it in module.items[item].chunks()))

    def used_by(self, module, item):
        """The definitions that a definition uses, each as its module and its item."""
        words = self.words(module, item)
        found = [*self.named(words, module.imports, module.aliases)]
        found += [(module, it) for it in (*module.items, *module.parts) if it in words]
        return [(other, it) for other, name in found for it in other.items_of(name) if (other, it) != (module, item)]

    def variables(self, module, chunk):
        """The variables that a signature or an equation binds. A pattern also names constructors, but no functions."""
        found = {it for pattern in (TYPED, LAMBDA) for names in pattern.findall(chunk) for it in names.split()} | set(LET.findall(chunk))
        equation = EQUATION.match(chunk)
        patterns = words_of(equation[1]) if equation else set()
        return found | {it for it in patterns if not self.is_constructor(module, it)}

    def is_constructor(self, module, word):
        if "." in word or "◌" in word:
            return True
        way = module.imports.get(word)
        if way in self.modules:
            return self.modules[way].has_constructor(word)
        return way is not None or module.has_constructor(word)

    def below(self, roots):
        """The definitions that these depend on, directly or not, as a set of modules and items."""
        seen, waiting = set(), [(module, it) for module, name in roots for it in module.items_of(name)]
        while waiting:
            one = waiting.pop()
            if one not in seen:
                seen.add(one)
                waiting += self.used_by(*one)
        return seen
