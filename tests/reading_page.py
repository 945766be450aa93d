"""Makes what docs/READING.md takes from the sources, or compares it: reading_page.py TOP [OPTION].

    --write           writes it
    --modules [LETTER]
                      prints the modules of definitions in reading order, those of one theorem if its letter is given, and the files that
                      declare the types of the code that definitions use
    --fault CODE      prints the definitions that decide a fault

The page is about the definitions that the public theorems depend on. They are found in the sources: the names in a function's contract, by
the `use` lines of its file, and then the names that each of these definitions uses (`definitions.py`). None of them may be in
`specs/Private`, which holds words of private contracts, except those that say how a type stores its value: the contracts of its methods say
what the value is. If an `impl` names proofs of its trait's laws (`specs/Proofs`), the laws count, which the trait states. Modules that use
one another are listed together. No two of these definitions have the same name.

Two tables of the page stand each behind a comment with its name: the theorems, with the promises of README.md that they serve, and the
crates.
The page explains each word of a library and each form of notation in these definitions. Definitions that decide a fault without naming its
code are in deciding.toml; a theorem rests on each, and each fault is decided by some definition.
"""

import pathlib
import re
import sys
import tomllib
from typing import NamedTuple

sys.path.insert(0, str(pathlib.Path(__file__).resolve().parent.parent / "tools"))
from crates import crates_of
from definitions import USE, Definitions, imports, words_of
from fault_pages import codes

PAGE = "docs/READING.md"
DECIDING = "tests/deciding.toml"
MADE = re.compile(r"(<!-- made by tests/reading_page\.py: (\w+) -->\n)(?:\|.*\n)*")
TYPE = re.compile(r"^(?:pub(?:\(crate\))? )?(?:struct|enum|trait|type) (\w+)", re.MULTILINE)
# lines that are read in an hour, beside the standard
SLOW, FAST = 60, 100


class Contracts(NamedTuple):
    """Contracts that make a theorem: the crate, the file, and the openings of the functions or blocks."""

    crate: str
    file: str
    openings: tuple[str, ...]


class Theorem(NamedTuple):
    """What is promised, by which contracts; and the numbers of README.md's promises that rest on it."""

    letter: str
    promises: str
    what: str
    contracts: tuple[Contracts, ...]


THEOREMS = (
    Theorem("W", "2", "what the arguments ask for", (Contracts("al_cli_words", "words.rt", ("pub fn parse_words",)),)),
    Theorem("D", "4", "the files that a run takes", (Contracts("al_cli", "gathering.rt", ("pub fn load",)),)),
    Theorem("A", "2 4 6", "a whole run, from its arguments to how it ends, and its exit status", (
        Contracts("al_cli", "program.rt", ("pub fn run",)),
        Contracts("al_cli", "ending.rt", ("pub fn status",)),
    )),
    Theorem("F", "2 4 6", "the report and status of these files", (
        Contracts("al_session", "builder.rt", ("pub fn put", "pub fn build")),
        Contracts("al_cli", "linted.rt", ("pub fn write_report", "pub fn lint_all")),
    )),
    Theorem("S", "2 4 6", "the output and status of a script", (
        Contracts("al_cli_scripts", "run.rt", ("pub fn run_commands", "pub fn run_session")),
        Contracts("al_cli_scripts", "scripts.rt", ("pub fn script_laws",)),
    )),
    Theorem("L", "2 3", "what the linter finds in any file, and its laws", (
        Contracts("al_check", "lint.rt", ("impl Lint for Actions",)),
        Contracts("al_lint", "lint.rt", ("pub trait Lint",)),
    )),
    Theorem("E", "2 3 4 5 6", "any edits, and then all as from scratch", (
        Contracts("al_session", "session.rt", (
            "pub fn put", "pub fn delete", "pub fn missing", "pub fn faults", "pub fn bytes", "pub fn status", "pub fn report",
            "pub fn sorted_paths", "pub fn edit_laws",
        )),
        Contracts("al_session", "changes.rt", ("pub fn apply_changes",)),
    )),
    Theorem("M", "2", "laws: that definitions mean what they should", (
        Contracts("al_expr_grammar", "law.rt", ("pub fn grammar",)),
        Contracts("al_types", "law.rt", ("pub fn objects_fuse", "pub fn types_fuse")),
        Contracts("al_graph", "laws.rt", ("pub fn walk_laws",)),
    )),
    Theorem("B", "2", "laws: that the bounds of definitions are enough", (
        Contracts("al_laws", "documents.rt", ("pub fn document_bound",)),
        Contracts("al_laws", "expressions.rt", ("pub fn expression_bounds",)),
        Contracts("al_laws", "walks.rt", ("pub fn walk_bound",)),
    )),
    Theorem("R", "", "library: a scalar, and the tree of a file's bytes, or the one fault", (
        Contracts("al_scalar", "reader.rt", ("pub fn read_scalar",)),
        Contracts("al_yaml", "document.rt", ("pub fn read_yaml",)),
    )),
    Theorem("P", "", "library: the chunks of a text, the tokens and the tree of an expression, or their fault", (
        Contracts("al_expr_grammar", "chunk.rt", ("pub fn chunks",)),
        Contracts("al_expr_grammar", "lexer.rt", ("pub fn lex",)),
        Contracts("al_expr_grammar", "expression.rt", ("pub fn parse_expr",)),
    )),
    Theorem("T", "", "library: the type of an expression, and its faults", (Contracts("al_expr", "typing.rt", ("pub fn type_of",)),)),
    Theorem("U", "", "library: the faults by the rules of a tree", (Contracts("al_rules", "files.rt", ("pub fn rules",)),)),
)
# the only name that two of the definitions share: what follows reading, with the remaining lines and with the known anchors
SHARED = {"◌>>=◌"}
# how the tree of an expression is computed needn't be read: a law, of the theorem M, says which tree it is
BY_LAW = "al_expr_grammar.specs.Building"
# what stands between reading and checking a file: whatever it means, the theorems are the same
UNSEEN = re.compile(r"^ *ghost is_unit = \{.*?\};\n", re.MULTILINE | re.DOTALL)
# the numbers and the messages of all codes
NAME_ALL = ("al_base.specs.Codes", "al_text.specs.Wordings")
# words that the language of definitions reserves or has built in, and names that the compiler makes for parts of the code's types
RESERVED = set("data record deriving module where use mod pub package open as unfoldable abbrev axiom unfold unfolding ruleset mutual "
               "infix infixl infixr elim let in do Type coe fcoe tcoe hcom com Unit tt".split())
GENERATED = re.compile(r"[\w']+(?:-[\w']+)+")
VALUE = re.compile(r"\.(?:now|old|new|entry|exit|items)\b")
SYMBOL = re.compile(r"[^\s\w(){}\[\],;.\"']+")
HEADER = re.compile(r"^ *(?:(?:pub )?mutual|module .*|infix[lr]? .*)$")


def contract(source, opening):
    """The text of a contract: from its first words to the line that opens the body, or a whole `impl` or `trait`."""
    match = re.search(rf"^( *){re.escape(opening)}\b", source, re.MULTILINE)
    end = re.compile(rf"^{match[1]}\}}" if opening.startswith(("impl", "pub trait")) else rf"^{match[1]}\{{", re.MULTILINE)
    return UNSEEN.sub("", source[match.start():end.search(source, match.end()).start()])


def roots_of(top, definitions, contracts):
    """The definitions that the contracts name, and the parts of the crate's re-exported types that clauses can see: their values, but not
    their invariants."""
    handed_on = words_of((top / "crates" / contracts.crate / "src" / "lib.rt").read_text())
    source = (top / "crates" / contracts.crate / "src" / contracts.file).read_text()
    words = set().union(*(words_of(contract(source, it)) for it in contracts.openings))
    yield from definitions.named(words, *imports(source.splitlines()))
    for path in sorted((top / "crates" / contracts.crate / "src").rglob("*.rt")):
        text = path.read_text()
        for match in re.finditer(r"^impl.* Model for (\w+).*?^\}", text, re.MULTILINE | re.DOTALL):
            if match[1] not in handed_on:
                continue
            inner, outer = imports(match[0].splitlines()), imports(text.splitlines())
            block = re.sub(r"ghost invariant = \{.*?\};", "", match[0], flags=re.DOTALL)
            words = set().union(*(words_of(line) for line in block.splitlines() if not USE.search(line)))
            found = definitions.named(words, {**outer[0], **inner[0]}, {**outer[1], **inner[1]})
            yield from (it for it in found if ".Private." not in it[0].name)


def in_order(modules, below):
    """Groups of modules, each after those it uses; in a group of several, each uses all others, directly or not."""
    groups, numbers, lows, stack = [], {}, {}, []

    def visit(one):
        numbers[one] = lows[one] = len(numbers)
        stack.append(one)
        for other in below[one]:
            if other not in numbers:
                visit(other)
            if other in stack:
                lows[one] = min(lows[one], lows[other])
        if lows[one] == numbers[one]:
            at = stack.index(one)
            groups.append(stack[at:])
            del stack[at:]

    for one in modules:
        if one not in numbers:
            visit(one)
    return groups


class Page:
    """What the page has from the sources: the theorems, and what they depend on."""

    def __init__(self, top):
        self.top, self.definitions = top, Definitions(top)
        self.found = {it.letter: self.rests_on(it) for it in THEOREMS}
        self.items = {}
        for found in self.found.values():
            for module, item in found:
                self.items.setdefault(module, set()).add(item)
        self.below = {it: self.modules_below(it) for it in self.items}

    def rests_on(self, theorem):
        """The definitions that a theorem rests on, without those that a law stands for."""
        roots = [it for one in theorem.contracts for it in roots_of(self.top, self.definitions, one)]
        found, waiting = set(), [(module, it) for module, name in roots for it in module.items_of(name)]
        while waiting:
            one = waiting.pop()
            if one not in found and one[0].name != BY_LAW:
                found.add(one)
                waiting += self.definitions.used_by(*one)
        if private := sorted({module.name for module, _ in found if ".Private." in module.name}):
            sys.exit(f"the theorem {theorem.letter} rests on words of private contracts: {', '.join(private)}")
        return found

    def modules_below(self, module):
        """The modules that the needed parts of a module use, in the order of its `use` lines."""
        used = {other for item in self.items[module] for other, _ in self.definitions.used_by(module, item)} - {module}
        return sorted((it for it in used if it in self.items), key=lambda it: it.name)

    def theorems(self):
        yield "| | Theorem | Promises | Contracts | Definitions | Their lines | Modules | Hours |"
        yield "|---|---|---|---|--:|--:|--:|--:|"
        for theorem in THEOREMS:
            found = self.found[theorem.letter]
            modules = len({module for module, _ in found})
            places = "; ".join(map(place, theorem.contracts))
            counts = f"{len(found)} | {lines_of(found):,} | {modules} | {hours(found)}"
            promises = theorem.promises.replace(" ", ", ")
            yield f"| {theorem.letter} | {theorem.what} | {promises} | {places} | {counts} |".replace("|  |", "| |")
        every = set().union(*self.found.values())
        yield f"| | all of these | | | {len(every)} | {lines_of(every):,} | {len(self.items)} | {hours(every)} |"

    def naming(self):
        """The definitions of the program's theorems that name fault codes: the module, the definition and the codes."""
        known = {variant: name for name, variant in codes(self.top)}
        needed = set().union(*(self.found[it.letter] for it in THEOREMS if it.promises))
        for module in (it for it in dict.fromkeys(self.definitions.modules.values()) if it.name not in NAME_ALL):
            for item in (it for it in module.items if (module, it) in needed):
                if found := {known[it] for it in self.variants(module, item)}:
                    yield module.name.replace(".", "/"), item, found

    def deciding(self):
        """The definitions that decide faults without naming their codes, in the same form."""
        for module, rows in tomllib.loads((self.top / DECIDING).read_text(encoding="utf-8")).items():
            for named, items in rows.items():
                yield from ((module, item, set(named.replace("every ", "").split(", "))) for item in items)

    def fault(self, code):
        """The lines that say which definitions decide a fault."""
        for title, rows in (("name it", self.naming()), ("decide it without naming it", self.deciding())):
            found = [f"  {module}.antt: {item}" for module, item, named in rows if code in named or code[0] in named]
            if found:
                yield from (f"These definitions {title}:", *found)

    def variants(self, module, item):
        """The variants of fault codes that a definition names."""
        for word in self.definitions.words(module, item):
            alias, _, name = word.rpartition(".")
            way = module.aliases.get(alias) if alias else module.imports.get(name)
            if name and re.search(r"\.declared\.codes\.\w+Code\.TheVariants$", way or ""):
                yield name

    def types(self):
        """The types of the code that the definitions use, by the file that declares them."""
        files = {}
        for module, items in self.items.items():
            words = set().union(*(self.definitions.words(module, it) for it in items))
            ways = [way for name, way in module.imports.items() if name in words]
            ways += [way for alias, way in module.aliases.items() if any(it.startswith(f"{alias}.") for it in words)]
            for crate, below in (way.split(".specs.declared.") for way in ways if ".specs.declared." in way):
                *folders, name = [it for it in below.split(".") if not it.startswith("The")]
                file = self.top / "crates" / crate / "src" / "/".join(folders)
                if (file := file.with_suffix(".rt")).exists() and name in TYPE.findall(file.read_text(encoding="utf-8")):
                    files.setdefault(f"{crate}/src/{'/'.join(folders)}.rt", set()).add(name)
        yield "\nTypes of the code that definitions use:"
        yield from (f"  {file}: {', '.join(sorted(names))}" for file, names in sorted(files.items()))

    def modules_of(self, crate, letter=None):
        """The modules of a crate that a theorem needs, or any theorem, in groups of those that use one another; each after those it uses.
        """
        modules = [it for it in self.items if it.name.startswith(f"{crate}.") and letter in (None, *self.letters(it))]
        modules.sort(key=lambda it: it.name)
        return in_order(modules, {it: [other for other in self.below[it] if other in modules] for it in modules})

    def letters(self, module):
        """The letters of the theorems that need a module."""
        return [letter for letter, found in self.found.items() if any(it == module for it, _ in found)]

    def modules(self, letter):
        """The lines that list the modules that a theorem needs, or any theorem."""
        for crate in crates_of(self.top):
            groups = self.modules_of(crate, letter)
            yield from (f"\n{crate}/specs",) if groups else ()
            for group in groups:
                for module in group:
                    others = ", ".join(short(it) for it in group if it != module)
                    more = f" Uses and is used by {others}." if others else ""
                    lines = f"{module.size(self.items[module])} of {module.size(module.items)} lines"
                    yield f"  {short(module)} ({lines}; {' '.join(self.letters(module))}): {module.sentence()}{more}"

    def crates(self):
        """A row for each crate with definitions that theorems need."""
        yield "| Crate | Modules | Lines | Of | For |"
        yield "|---|--:|--:|--:|---|"
        for crate in crates_of(self.top):
            if modules := [it for group in self.modules_of(crate) for it in group]:
                lines = sum(it.size(self.items[it]) for it in modules)
                letters = " ".join(it for it in self.found if any(it in self.letters(module) for module in modules))
                yield f"| `{crate}` | {len(modules)} | {lines:,} | {sum(it.size(it.items) for it in modules):,} | {letters} |"

    def shared_names(self):
        """The names that two or more of the definitions have."""
        names = [it for items in self.items.values() for it in items]
        return {it for it in names if names.count(it) > 1} - SHARED

    def library_names(self):
        """The names of definitions that a library gives to another one."""
        return {it for items in self.items.values() for it in items} & set(self.library_words())

    def library_words(self):
        """The words of libraries that the definitions use; operators without the places of their arguments."""
        own = {it.partition(".")[0] for it in self.definitions.modules}
        for module, items in self.items.items():
            words = set().union(*(self.definitions.words(module, it) for it in items))
            for name, way in module.imports.items():
                parts = [it for it in name.split("◌") if it]
                if way.partition(".")[0] not in own and ".declared." not in way and parts and all(it in words for it in parts):
                    yield from parts

    def notation(self):
        """The reserved words, the symbols and the names made by the compiler in the definitions, and in the lines that open a group of
        them."""
        for module, items in self.items.items():
            lines = [line for it in items for line in module.items[it].lines] + [it for it in module.lines if HEADER.match(it)]
            for line in lines:
                code = re.sub(r'"(?:\\.|[^"\\])*"', "", line.partition("--")[0])
                yield from RESERVED & set(re.findall(r"\w+", code))
                yield from SYMBOL.findall(code.replace("◌", " "))
                yield from VALUE.findall(code)
            yield from (it for it in module.imports if GENERATED.fullmatch(it) and any(it in line for line in lines))

    def tables(self):
        """The tables that stand behind a comment with their name."""
        return {it.__name__: "".join(f"{row}\n" for row in it()) for it in (self.theorems, self.crates)}


def lines_of(found):
    """The number of lines of some definitions."""
    return sum(module.size([item]) for module, item in found)


def short(module):
    """A module's path below its crate's `specs`."""
    return ".".join(module.name.split(".")[2:])


def place(contracts):
    names = ", ".join(f"`{it.rpartition(' ')[2] if it.startswith('pub') else it}`" for it in contracts.openings)
    return f"{names} (`{contracts.crate}/src/{contracts.file}`)"


def hours(found):
    """How many hours it takes to read some definitions."""
    return f"{-(-lines_of(found) // FAST)} to {-(-lines_of(found) // SLOW)}"


def unexplained(head, found):
    """The words and forms that the page uses and doesn't explain."""
    notation = head.partition("## The notation")[2].partition("## Which modules")[0].replace("\\|", "|")
    explained = set(re.split(r"[\s◌,]+", " ".join(re.findall(r"`([^`]+)`", notation))))
    if missing := sorted(set(found.library_words()) - explained):
        yield f"{PAGE} doesn't say what these words of libraries mean: {' '.join(missing)}"
    if missing := sorted(set(found.notation()) - explained):
        yield f"{PAGE} doesn't say what this notation means: {' '.join(missing)}"


def undecided(found):
    """Definitions that are said to decide a fault and on which no theorem rests, and faults that no definition decides."""
    needed = {(module.name.replace(".", "/"), item) for module, items in found.items.items() for item in items}
    decided = set()
    for module, item, named in (*found.naming(), *found.deciding()):
        decided |= named
        if (module, item) not in needed:
            yield f"{DECIDING} names {item} of {module}, which no theorem needs"
    yield from (f"no definition decides {code}" for code, _ in codes(found.top) if not decided & {code, code[0]})


def main(folder, option=None, word=None):
    top = pathlib.Path(folder)
    page = top / PAGE
    text = page.read_text(encoding="utf-8")
    found = Page(top)
    if option == "--modules":
        print("\n".join((*found.modules(word), *found.types())))
        return
    if option == "--fault":
        print("\n".join(found.fault(word)) or f"no definition decides {word}")
        return
    if shared := sorted(found.shared_names()):
        sys.exit(f"these names stand for two definitions: {' '.join(shared)}")
    if taken := sorted(found.library_names()):
        sys.exit(f"these names stand for a definition and a word of a library: {' '.join(taken)}")
    tables = found.tables()
    if missing := tables.keys() - {it[2] for it in MADE.finditer(text)}:
        sys.exit(f"{PAGE} has no place for these tables: {' '.join(sorted(missing))}")
    made = MADE.sub(lambda it: it[1] + tables[it[2]], text)
    if option == "--write":
        page.write_text(made, encoding="utf-8")
    if wrong := [*unexplained(text, found), *undecided(found)]:
        sys.exit("\n".join(wrong))
    if option != "--write" and made != text:
        sys.exit(f"{PAGE} isn't what the sources give: python3 tests/reading_page.py . --write renews it")


if __name__ == "__main__":
    main(*sys.argv[1:])
