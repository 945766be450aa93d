r"""Reads and writes files of cases, NAME.cases: one for each subject.

    == a-file-that-is-cut
    -- arguments
    --session
    -- input, escaped
    put action.yml 100\r
    a: \
    -- output
    bad command
    -- status 2

A case begins with its name. Its parts are the arguments of its run, one per line (without them it has the default ones), its standard
input, its exact output, and the status of the run: without that part, the number in the output's last line `status N`, or else 0. A part
holds the bytes of its lines, each with its line feed. In an escaped part a backslash begins one of these:

    \\            a backslash
    \n, \r        a line feed, a carriage return
    \xHH          the byte with this hexadecimal number
    \{N:TEXT}     TEXT, escaped itself, N times
    \ at the end  the part ends without a line feed

`write_cases` escapes a part that holds something that can't be seen (a carriage return, a blank at the end of a line, bytes that aren't
UTF-8), a line like those that begin a case or a part, or a text repeated many times, and one that doesn't end with a line feed.
"""

from __future__ import annotations

import pathlib
import re
from dataclasses import dataclass

SUFFIX = ".cases"
HEAD = re.compile(rb"^== ([^\n]+)\n", re.MULTILINE)
PART = re.compile(rb"^-- ([^\n]+)\n", re.MULTILINE)
LOOKS_LIKE_A_HEAD = re.compile(rb"^(?:== |-- )", re.MULTILINE)
TOLD_STATUS = re.compile(rb"(?:\A|\n)status ([0-9]+)\n\Z")
UNIT = rb"(?:[^\\}]|\\[\\nr]|\\x[0-9a-f]{2})*"
ESCAPE = re.compile(rb"\\(?:(?P<sign>[\\nr])|x(?P<byte>[0-9a-f]{2})|\{(?P<count>[0-9]+):(?P<text>" + UNIT + rb")\}|\n\Z|)")
SIGNS = {b"\\": b"\\", b"n": b"\n", b"r": b"\r"}
# a text that is repeated, and the size of the parts in which it is looked for
REPEATED = re.compile(rb"([^\n]{1,60}?|[^\n]{0,60}\n)\1{39,}", re.DOTALL)
LARGE = 2_000


class WrongCases(Exception):
    """A file of cases that isn't in their form."""


@dataclass
class Case:
    """A run: its standard input, its own arguments if it has some, and the output and the status that are expected."""

    input: bytes
    output: bytes
    status: int
    words: list[str] | None = None

    @classmethod
    def of_parts(cls, parts: dict[str, bytes]) -> Case:
        words = parts.pop("arguments", None)
        given, output, status = parts.pop("input"), parts.pop("output"), parts.pop("status", None)
        if parts:
            raise KeyError(*parts)
        own = None if words is None else words.decode().splitlines()
        return cls(given, output, told_status(output) if status is None else int(status), own)


def told_status(output: bytes) -> int:
    """The status that the last line of an output tells, or 0."""
    found = TOLD_STATUS.search(output)
    return int(found[1]) if found else 0


def meaning_of(escape: re.Match[bytes]) -> bytes:
    """The bytes that an escape stands for."""
    if escape["sign"]:
        return SIGNS[escape["sign"]]
    if escape["byte"]:
        return bytes.fromhex(escape["byte"].decode())
    if escape["count"]:
        return unescaped(escape["text"]) * int(escape["count"])
    if escape[0] == b"\\":
        raise ValueError(f"an unknown escape before {escape.string[escape.end():][:20]!r}")
    return b""


def unescaped(data: bytes) -> bytes:
    """The bytes that an escaped text stands for."""
    return ESCAPE.sub(meaning_of, data)


def parts_in(data: bytes) -> dict[str, bytes]:
    """The parts of a case by their names."""
    before, *pieces = PART.split(data)
    if before:
        raise ValueError(f"{before[:20]!r} is in no part")
    found: dict[str, bytes] = {}
    for head, body in zip(pieces[::2], pieces[1::2]):
        name, _, how = head.decode().partition(", ")
        if name.startswith("status ") and not body:
            name, body = "status", name[7:].encode()
        if name in found or how not in ("", "escaped"):
            raise ValueError(f"the part {head.decode()!r} is wrong")
        found[name] = unescaped(body) if how else body
    return found


def read_file(file: pathlib.Path) -> dict[str, Case]:
    """The cases of a file by their names, in its order."""
    before, *pieces = HEAD.split(file.read_bytes())
    if before:
        raise WrongCases(f"{file} doesn't begin with a case")
    found: dict[str, Case] = {}
    for head, body in zip(pieces[::2], pieces[1::2]):
        name = head.decode()
        try:
            case = Case.of_parts(parts_in(body))
        except (KeyError, ValueError) as error:
            raise WrongCases(f"{file}: the case {name} isn't in the form of cases: {error!r}") from error
        if name in found:
            raise WrongCases(f"{file}: two cases are called {name}")
        found[name] = case
    return found


def files_in(path: pathlib.Path) -> dict[str, pathlib.Path]:
    """The files of cases at a path: the file itself, with no prefix for its cases' names, or those below a folder, each with the path from
    there as prefix. There are no other files in the folder."""
    if path.is_file():
        return {"": path}
    other = next((it for it in path.rglob("*") if it.is_file() and it.suffix != SUFFIX), None)
    if other:
        raise WrongCases(f"{other} isn't a file of cases")
    below = [(it.relative_to(path).with_suffix("").as_posix(), it) for it in sorted(path.rglob("*" + SUFFIX))]
    return {f"{name}/": file for name, file in below}


def read_cases(path: str | pathlib.Path) -> dict[str, Case]:
    """The cases of a file, or of all files below a folder, by name, sorted."""
    named = {prefix + name: case for prefix, file in files_in(pathlib.Path(path)).items() for name, case in read_file(file).items()}
    return dict(sorted(named.items(), key=lambda it: it[0].split("/")))


def shown(character: str) -> str:
    """A character as an escaped part shows it."""
    if character == "\\":
        return "\\\\"
    if character == "\r":
        return "\\r"
    if character in "\n\t" or character.isprintable():
        return character
    return "".join(f"\\x{byte:02x}" for byte in character.encode("utf-8", "surrogateescape"))


def escaped_text(data: bytes) -> bytes:
    """An escaped text without repetitions."""
    return "".join(map(shown, data.decode("utf-8", "surrogateescape"))).encode()


def escaped(data: bytes) -> bytes:
    """An escaped text that stands for these bytes; longer than they are if they don't end with a line feed."""
    made, at = [], 0
    for match in REPEATED.finditer(data) if len(data) >= LARGE else ():
        unit = escaped_text(match[1]).replace(b"\n", b"\\n").replace(b"}", b"\\x7d")
        made += [escaped_text(data[at : match.start()]), b"\\{%d:%s}" % (len(match[0]) // len(match[1]), unit)]
        at = match.end()
    text = b"".join([*made, escaped_text(data[at:])])
    text = re.sub(rb"[ \t]$", lambda it: b"\\x%02x" % it[0][0], text, flags=re.MULTILINE)
    text = LOOKS_LIKE_A_HEAD.sub(lambda it: b"\\x%02x" % it[0][0] + it[0][1:], text)
    return text if text.endswith(b"\n") else text + b"\\\n"


def part(name: str, data: bytes) -> bytes:
    """A part with its head, escaped if it has to be."""
    text = escaped(data) if data else b""
    return b"-- %s\n%s" % (name.encode(), data) if text.replace(b"\\\\", b"\\") == data else b"-- %s, escaped\n%s" % (name.encode(), text)


def written(name: str, case: Case) -> bytes:
    """A case as its file has it."""
    words = b"" if case.words is None else part("arguments", "".join(f"{it}\n" for it in case.words).encode())
    status = b"" if case.status == told_status(case.output) else b"-- status %d\n" % case.status
    return b"== %s\n" % name.encode() + words + part("input", case.input) + part("output", case.output) + status


def write_cases(file: pathlib.Path, cases: dict[str, Case]) -> None:
    """Writes a file of cases."""
    file.write_bytes(b"".join(written(name, case) for name, case in cases.items()))
