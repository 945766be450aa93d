"""Checks the layout of the crates, and the words of the pages: tidy.py TOP WHAT.. [--write].

WHAT is `src` or `specs` (no line is longer than 100 characters, except attributes, imports, ghost members and lines with a text), `proofs`
(none is longer than 200), `heads` (each module of lemmas says at its top what it is for, and each edit of the gate what a user would meet),
`kinds` (definitions use neither words of private contracts, `specs/Private`, nor worked examples, `specs/Rows`, and none of all these uses
proofs, including those of `specs/Proofs`), `words` (pages, helps, messages and comments of the clients have none of some home-made terms),
`pages` (no line of text on a page is longer than 140 characters, each table has a head and whole rows, and all pages together have at most
so many lines) or `names` (each name that a `use` line imports occurs somewhere else in its file).
`--write` removes the names that don't; then `rt fmt` and `rt check` have to be run in each changed crate.
"""

import pathlib
import re
import sys

LONGEST = {"src": 100, "specs": 100, "proofs": 200}
# lines of sources that aren't broken
WHOLE_LINE = re.compile(r'.*"|\s*#\[|\s*use |\s*ghost \w+')
ENDINGS = {"src": ".rt", "specs": ".antt", "proofs": ".antt"}
# words that no user reads for something that has a name, outside of code
UNUSUAL = {
    "leads out": "points outside", "lead out": "point outside", "link out of": "link that points outside",
    "links out of": "links that point outside", "outside of the folder": "points outside the folder", "passed over": "skipped",
    "current folder": "current directory", "top folder": "root directory", "repository's folder": "root directory of the repository",
    "wrong command line": "invalid arguments", "words of the command line": "arguments", "words of a command line": "arguments",
    "word of the command line": "argument", "carried program": "prebuilt program", "is carried": "is prebuilt",
    "flag": "boolean", "asks again": "retries", "asked again": "retried", "file that answers it": "callee",
    "words are not text": "arguments are not valid UTF-8", "call leads to": "call resolves to", "link leads to": "link points to",
    "link in a clone leads to": "link in a clone points to",
}
# comments of these are read too
COMMENTED = ("clients/actionlint_client/**/*.py", "clients/actionlint-*", "clients/which-actionlint", "clients/pre-commit",
             "clients/github/run")
# what a user reads beside pages: texts of helps and messages
SHOWN = ("action.yml", ".pre-commit-hooks.yaml", "release", "tools/find_program.sh", "tools/build.py", "clients/which-actionlint",
         "clients/actionlint_client/*.py", "clients/actionlint-*", "crates/*/src/**/*.rt")
COMMENT_OF_SCRIPTS = re.compile(r'^ *#.*$|^ *"""(?:.|\n)*?"""$', re.MULTILINE)
# texts in quotes, which in Rattle may take several lines; in YAML those after a key
QUOTED = re.compile(r"\"[^\"\n]*\"|'[^'\n]*'")
LITERAL = re.compile(r"'\"'|\"(?:[^\"\\]|\\.)*\"", re.DOTALL)
VALUE = re.compile(r"(?<=: ).*$", re.MULTILINE)
LONGEST_OF_PAGES, MOST_OF_PAGES = 140, 4_400
# what isn't text: rows, pictures, comments and code
UNBROKEN = re.compile(r" *[|!<]| {4}")
ROW, RULE = re.compile(r" {0,3}\|"), re.compile(r" *\|[-:| ]+\|$")
FENCED = re.compile(r"^```.*?^```$", re.DOTALL | re.MULTILINE)
CODE = re.compile(rf"{FENCED.pattern}|`[^`\n]*`", re.DOTALL | re.MULTILINE)
# the folders of `specs/` that aren't about what the product means; each may use those before it
KINDS = ["Private", "Rows", "Proofs"]
# proofs of the crates
PROOFS = re.compile(r"\bRattle\.((?!std\.)\w+\.proofs\.\w+)")
MODULE = re.compile(r"\bRattle\.\w+\.specs\.(\w+(?:\.\w+)*)")
# `use PATH.{NAMES}`, `use PATH as NAME` or `use PATH`; a list may take several lines
USE = re.compile(r"^ *(?P<passed>pub )?(?:ghost )?use (?P<path>[^{};\n]+?)(?:\{(?P<list>[^}]*)\})?;?\n", re.MULTILINE)
COMMENT = re.compile(r"^ *(?:--|//).*$", re.MULTILINE)
BREAKS = r"\s.,;:(){}\[\]\"⌜⌝"
# words of the definitions, and of the code
WORDS = {".antt": [re.compile(f"[^{BREAKS}]+")], ".rt": [re.compile(f"[^{BREAKS}]+"), re.compile(r"\w+")]}
# these are used without being named: a trait's methods, and lines of `do`
UNSEEN = {"BufRead", "Context", "Error", "FromStr", "Hash", "Iterator", "Lint", "MetadataExt", "Model", "OpenFile", "Read", "Write",
          "WriteFault", "_", "◌>>=◌"}


def files_of(top, folder):
    """The files of such a folder in each crate."""
    return sorted(top.glob(f"crates/*/{folder}/**/*{ENDINGS[folder]}"))


def long_lines(top, folder):
    """The lines of such a folder that are too long."""
    for file in files_of(top, folder):
        text = file.read_text(encoding="utf-8")
        if folder == "src":
            text = LITERAL.sub(lambda it: '"' + "\n" * it[0].count("\n") + '"', text)
        for number, line in enumerate(text.splitlines(), 1):
            if len(line) > LONGEST[folder] and not (folder == "src" and WHOLE_LINE.match(line)):
                yield f"{file.relative_to(top)}:{number} has {len(line)} characters, of at most {LONGEST[folder]}"


def pages_of(top):
    """All pages."""
    return sorted((*top.glob("*.md"), *top.glob("docs/**/*.md"), top / "clients/README.md", top / "tests/README.md"))


def comments_of(text):
    """The comments of a script."""
    return re.sub(r"^ *# ?", "", " ".join(COMMENT_OF_SCRIPTS.findall(text)), flags=re.MULTILINE)


def shown_in(file):
    """The texts of a source from which its messages are made."""
    text = file.read_text(encoding="utf-8")
    if file.suffix == ".rt":
        return LITERAL.findall(COMMENT.sub("", text))
    texts_of = VALUE if file.suffix in (".yml", ".yaml") else QUOTED
    return texts_of.findall(COMMENT_OF_SCRIPTS.sub("", text))


def unusual_words(top):
    """The words on pages, in helps, in messages and in comments of the clients for which there is a usual one."""
    texts = {file: CODE.sub("", file.read_text(encoding="utf-8")) for file in pages_of(top)}
    of_clients = {it for name in COMMENTED for it in top.glob(name)}
    for file in sorted(it for name in SHOWN for it in top.glob(name)):
        texts[file] = re.sub(r"\{[^{}]*\}", "", " ".join(it for it in shown_in(file) if " " in it))
    for file in sorted(of_clients):
        texts[file] = texts.get(file, "") + " " + CODE.sub("", comments_of(file.read_text(encoding="utf-8")))
    for file, text in texts.items():
        text = re.sub(r"\s+", " ", text).lower()
        yield from (f"{file.relative_to(top)} says {it}, which is: {usual}" for it, usual in UNUSUAL.items()
                    if re.search(rf"\b{it}\b", text))


def broken_rows(lines):
    """The numbers of the rows of tables that are cut, or have no head above them."""
    for number, (above, line, below) in enumerate(zip(["", *lines], lines, [*lines[1:], ""]), 1):
        if ROW.match(line) and not (line.endswith("|") and (ROW.match(above) or RULE.match(below))):
            yield number


def wrong_pages(top):
    """Lines of text on pages that are too long, broken tables, and too many lines."""
    count = 0
    for file in pages_of(top):
        text = file.read_text(encoding="utf-8")
        count += text.count("\n")
        lines = FENCED.sub(lambda it: "\n" * it[0].count("\n"), text).splitlines()
        for number, line in enumerate(lines, 1):
            if len(line) > LONGEST_OF_PAGES and not UNBROKEN.match(line):
                yield f"{file.relative_to(top)}:{number} has {len(line)} characters, of at most {LONGEST_OF_PAGES}"
        yield from (f"{file.relative_to(top)}:{number} isn't a row of a table with a head" for number in broken_rows(lines))
    if count > MOST_OF_PAGES:
        yield f"all pages have {count} lines, of at most {MOST_OF_PAGES}"


def headless(top):
    """The modules of lemmas that don't say at their top what they are for, and the edits that don't say what a user would meet."""
    for file in sorted(top.glob("crates/*/must-fail/*.edit")):
        if not file.read_text(encoding="utf-8").startswith("# "):
            yield f"{file.relative_to(top)} doesn't say what a user would meet"
    for file in sorted(it for it in top.glob("crates/*/proofs/*.antt") if it.stem != "Lib"):
        if not file.read_text(encoding="utf-8").startswith("--"):
            yield f"{file.relative_to(top)} doesn't say what it serves"


def kind_of(parts):
    """What a module of `specs/` is for, by its folders there: 0 for what the product means."""
    return KINDS.index(parts[0]) + 1 if parts[0] in KINDS else 0


def later_kinds(top):
    """The definitions that use those of a later kind."""
    for file in files_of(top, "specs"):
        own = kind_of(file.relative_to(top).parts[3:])
        text = file.read_text(encoding="utf-8")
        for module in MODULE.findall(text):
            if kind_of(module.split(".")) > own:
                yield f"{file.relative_to(top)} uses {module}, which isn't what the product means"
        if own <= KINDS.index("Rows") + 1:
            yield from (f"{file.relative_to(top)} uses {proof}, and has definitions alone" for proof in PROOFS.findall(text))


def listed(use):
    """What a `use` line imports, each as written there."""
    if use["list"] is None:
        return [use["path"].strip()]
    return [it for it in (item.strip() for item in re.split(r"[,\n]", use["list"])) if it]


def known_as(item):
    """The name under which an import occurs in the file."""
    name = item.rpartition(" as ")[2] if " as " in item else re.split(r"[.:]", item)[-1]
    return name.strip().strip("«»")


def is_named(item, words, text):
    """Whether a text has the name of an import; of an operator, each part."""
    name = known_as(item)
    parts = [it for it in re.split(r"◌|\s", name) if it]
    return name in UNSEEN or item == "self" or all(it in words if re.fullmatch(r"[\w'-]+", it) else it in text for it in parts)


def unused(text, ending):
    """The names that a file imports and doesn't use, each with its `use` line."""
    rest = COMMENT.sub("", USE.sub("", text))
    words = {word for kind in WORDS[ending] for word in kind.findall(rest)}
    for use in USE.finditer(text):
        names = [it for it in listed(use) if not is_named(it, words, rest)]
        if names and not use["passed"]:
            yield use, names


def without(use, names):
    """A `use` line without some of its imports."""
    kept = [it for it in listed(use) if it not in names]
    return use[0].replace("{" + (use["list"] or "") + "}", "{" + ", ".join(kept) + "}") if kept else ""


def unused_names(top, is_written):
    """The names that files import and don't use; they are removed if that is asked for."""
    for file in [it for folder in ENDINGS for it in files_of(top, folder)]:
        text = file.read_text(encoding="utf-8")
        found = list(unused(text, file.suffix))
        yield from (f"{file.relative_to(top)} imports {known_as(it)} and doesn't use it" for _, names in found for it in names)
        if is_written:
            for use, names in reversed(found):
                text = text[: use.start()] + without(use, names) + text[use.end() :]
            file.write_text(text, encoding="utf-8")


def main(folder, *words):
    top, wrong = pathlib.Path(folder), []
    for what in words:
        if what == "names":
            wrong += unused_names(top, "--write" in words)
        elif what == "heads":
            wrong += headless(top)
        elif what == "words":
            wrong += unusual_words(top)
        elif what == "pages":
            wrong += wrong_pages(top)
        elif what == "kinds":
            wrong += later_kinds(top)
        elif what != "--write":
            wrong += long_lines(top, what)
    if wrong:
        sys.exit("\n".join(wrong))


if __name__ == "__main__":
    main(*sys.argv[1:])
