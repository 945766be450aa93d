"""Makes a command's manual page and shell completions from its help.

help_pages.py COMMAND VERSION DATE FOLDER < HELP writes man/man1/COMMAND.1, bash-completion/completions/COMMAND, zsh/site-functions/_COMMAND
and fish/vendor_completions.d/COMMAND.fish below FOLDER, which is laid out as share. HELP is as clap or argparse print it, with lines of any
length: paragraphs, a usage, and sections with indented lines.
"""

import pathlib
import re
import sys
from dataclasses import dataclass, field

USAGE = re.compile(r"usage: *(.*)", re.IGNORECASE)
ITEM = re.compile(r"  +(\S.*?)(?:  +(.*))?$")
NAME = re.compile(r"(--?[\w-]+)(?:[ =](.+))?")
DASH = {ord("-"): r"\-"}
FOLDERS, PATHS = ("DIR",), ("FILE", "PROGRAM", "LOG", "OUT")


@dataclass
class Option:
    """The names of an option, the placeholder of its value, and its description."""

    names: list[str]
    value: str
    text: str

    def choices(self):
        """The values that it takes, if the help lists them."""
        return self.value[1:-1].split(",") if self.value.startswith("{") else []


@dataclass
class Help:
    """The parts of a help: usage, paragraphs, options, and the lines of other sections by title."""

    usage: str = ""
    paragraphs: list[str] = field(default_factory=list)
    options: list[Option] = field(default_factory=list)
    sections: dict[str, list[str]] = field(default_factory=dict)


def items(lines):
    """The items of a section, each with its description. Continuation lines are indented further."""
    found = []
    first = min((len(it) - len(it.lstrip()) for it in lines if it.strip()), default=0)
    for line in filter(str.strip, lines):
        deep = len(line) - len(line.lstrip())
        # (clap leaves room for a short name before a long one)
        if deep <= first + 4 and (line.lstrip().startswith("-") or deep == first):
            name, text = ITEM.match(line).groups()
            found.append([name, text or ""])
        else:
            found[-1][1] = f"{found[-1][1]} {line.strip()}".strip()
    return found


def option(name, text):
    """An option as the help has it: `--root <DIR>`, `--form {a,b}` or `-h, --help`."""
    parts = [NAME.fullmatch(it.strip()) for it in name.split(", ")]
    return Option([it[1] for it in parts], next((it[2].strip("<>") for it in parts if it[2]), ""), text)


def read_help(text):
    """The parts of a help."""
    found, lines, gap = Help(), None, True
    for line in text.splitlines():
        if usage := USAGE.fullmatch(line):
            found.usage, lines = usage[1], None
        elif line and not line.startswith(" ") and line.endswith(":"):
            lines = found.sections.setdefault(line[:-1].capitalize(), [])
        elif line.startswith(" ") or not line:
            if lines is not None:
                lines.append(line)
        elif lines is None and found.paragraphs and not gap:
            found.paragraphs[-1] += " " + line
        else:
            found.paragraphs.append(line)
            lines = None
        gap = not line
    found.options = [option(*it) for it in items(found.sections.pop("Options", []))]
    return found


def roff(text):
    """A line of text in roff."""
    escaped = text.replace("\\", r"\e").translate(DASH)
    return rf"\&{escaped}" if escaped.startswith((".", "'")) else escaped


def manual(command, version, date, said):
    """The manual page."""
    about = said.paragraphs[0].partition(". ")[0].rstrip(".").removeprefix(f"{command}: ")
    page = [rf'.TH {command.upper().translate(DASH)} 1 {date} "{command} {version}" "User Commands"', ".SH NAME",
            rf"{roff(command)} \- {roff(about[0].lower() + about[1:])}", ".SH SYNOPSIS", roff(said.usage), ".SH DESCRIPTION"]
    for number, paragraph in enumerate(said.paragraphs):
        page += [".PP"] * (number > 0) + [roff(paragraph)]
    page.append(".SH OPTIONS")
    for it in said.options:
        value = f" {it.value}" if it.value else ""
        page += [".TP", rf"\fB{roff(', '.join(it.names))}\fR{roff(value)}", roff(it.text)]
    for title, lines in said.sections.items():
        page.append(f".SH {title.upper()}")
        if title in ("Arguments", "Positional arguments", "Exit status"):
            for name, text in items(lines):
                page += [".TP", rf"\fB{roff(name)}\fR", roff(text)]
        else:
            page += [".nf", *map(roff, "\n".join(lines).strip("\n").split("\n")), ".fi"]
    return "\n".join(page + [".SH VERSION", roff(version)]) + "\n"


def bash(command, said):
    """The completion for bash."""
    rows = []
    for it in filter(lambda it: it.value, said.options):
        made = "-d" if it.value in FOLDERS else "-f" if it.value in PATHS else f"-W '{' '.join(it.choices())}'"
        rows.append(f'    {"|".join(it.names)}) mapfile -t COMPREPLY < <(compgen {made} -- "$word"); return ;;')
    names = " ".join(name for it in said.options for name in it.names)
    function = "_" + command.replace("-", "_")
    return "\n".join([
        f"{function}() {{", '  local word=${COMP_WORDS[COMP_CWORD]} before=${COMP_WORDS[COMP_CWORD - 1]}',
        "  case $before in", *rows, "  esac",
        "  if [[ $word == -* ]]; then", f'    mapfile -t COMPREPLY < <(compgen -W "{names}" -- "$word")', "  else",
        '    mapfile -t COMPREPLY < <(compgen -f -- "$word")', "  fi", "}", f"complete -o filenames -F {function} {command}", ""])


def quoted(text):
    """A text in single quotes for a shell."""
    return "'" + text.replace("'", "'\\''") + "'"


def zsh(command, said):
    """The completion for zsh."""
    rows = []
    for it in said.options:
        text, value = (re.sub(r"([\[\]:\\])", r"\\\1", of) for of in (it.text, "value" if it.choices() else it.value))
        listed = f"({' '.join(it.choices())})" if it.choices() else ""
        values = "_files -/" if it.value in FOLDERS else "_files" if it.value in PATHS else listed
        for name in it.names:
            rows.append("  " + quoted(f"{name}=[{text}]:{value}:{values}" if it.value else f"{name}[{text}]"))
    return "\n".join([f"#compdef {command}", "_arguments -s \\", *(f"{it} \\" for it in rows), "  '*:FILE:_files'", ""])


def fish(command, said):
    """The completion for fish."""
    rows = []
    for it in said.options:
        words = [f"-l {name[2:]}" if name.startswith("--") else f"-s {name[1:]}" for name in it.names]
        listed = f" -xa {quoted(' '.join(it.choices()))}" if it.choices() else " -x" if it.value else ""
        takes = " -r" if it.value in FOLDERS + PATHS else listed
        rows.append(f"complete -c {command} {' '.join(words)}{takes} -d {quoted(it.text)}")
    return "\n".join([*rows, ""])


def main(command, version, date, folder):
    said = read_help(sys.stdin.read())
    for path, text in ((f"man/man1/{command}.1", manual(command, version, date, said)),
                       (f"bash-completion/completions/{command}", bash(command, said)),
                       (f"zsh/site-functions/_{command}", zsh(command, said)),
                       (f"fish/vendor_completions.d/{command}.fish", fish(command, said))):
        whole = pathlib.Path(folder, path)
        whole.parent.mkdir(parents=True, exist_ok=True)
        whole.write_text(text, encoding="utf-8")


if __name__ == "__main__":
    if len(sys.argv) != 5:
        sys.exit(__doc__)
    main(*sys.argv[1:])
