"""Compares the examples on the first pages of the public crates with the code that is run, or writes them: examples_page.py TOP [--write].

Each public crate's `src/lib.rt` ends its first comment with `# Examples` and a block of code, which is the first part of the module
`example_NAME` of `al_surface`, up to the line `// Tests:`. It has at most 20 lines, blank ones and imports aside. docs/LIBRARY.md shows a
linter of one's own: each paragraph of the block after a comment with the name of a file is one of that file, in its order.
"""

import pathlib
import re
import sys

sys.path.insert(0, str(pathlib.Path(__file__).resolve().parent.parent / "tools"))
from public_items import PUBLIC

MOST_LINES = 20
TITLE = re.compile(r"^//! The example of `(\w+)`: (\w)(.*)\.\n\n")
END = "\n// Tests:\n"
PAGE = "docs/LIBRARY.md"
QUOTED = re.compile(r"<!-- from (\S+) -->\n\n```rust\n(.*?)```\n", re.DOTALL)


def example_of(top, crate):
    """What the example of a crate shows, and its code."""
    file = top / "crates/al_surface/src" / f"example_{crate.removeprefix('al_')}.rt"
    text = file.read_text(encoding="utf-8")
    title = TITLE.match(text)
    if not title or title[1] != crate or END not in text:
        sys.exit(f"{file.relative_to(top)} isn't the example of {crate}")
    return title[2].upper() + title[3], text[title.end():text.index(END)].strip("\n")


def first_page(top, crate):
    """The first comment of a crate, and the rest of its root file."""
    lines = (top / "crates" / crate / "src/lib.rt").read_text(encoding="utf-8").splitlines(keepends=True)
    count = next(at for at, line in enumerate(lines) if not line.startswith("//!"))
    return "".join(lines[:count]), "".join(lines[count:])


def with_example(comment, what, code):
    """A first comment with this example in place of the one that it has."""
    before = comment.partition("//!\n//! # Examples\n")[0]
    block = ["", "# Examples", "", f"{what}:", "", "```rust", *code.split("\n"), "```"]
    return before + "".join(f"//! {line}".rstrip() + "\n" for line in block)


def differences(top, is_written):
    """The examples that aren't those of `al_surface`, or are too long."""
    for crate in PUBLIC:
        what, code = example_of(top, crate)
        if (count := sum(not line.startswith("use ") for line in code.split("\n") if line.strip())) > MOST_LINES:
            yield f"the example of {crate} has {count} lines, of at most {MOST_LINES}"
        comment, rest = first_page(top, crate)
        made = with_example(comment, what, code)
        if is_written:
            (top / "crates" / crate / "src/lib.rt").write_text(made + rest, encoding="utf-8")
        elif comment != made:
            yield f"the first page of {crate} has another example than al_surface"


def unquoted(top):
    """What the page quotes from a file and the file doesn't have."""
    found = QUOTED.findall((top / PAGE).read_text(encoding="utf-8"))
    for path, code in found:
        source = (top / path).read_text(encoding="utf-8")
        at = 0
        for part in filter(str.strip, code.split("\n\n")):
            text = "\n" + part.strip("\n") + "\n"
            if (at := source.find(text, at)) < 0:
                yield f"{path} doesn't have what {PAGE} quotes: {text.strip().splitlines()[0]}"
                break
    if not found:
        yield f"{PAGE} quotes no file"


def main(folder, option=None):
    top = pathlib.Path(folder)
    if wrong := [*differences(top, option == "--write"), *unquoted(top)]:
        sys.exit("\n".join(wrong))


if __name__ == "__main__":
    main(*sys.argv[1:])
