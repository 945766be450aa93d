"""Repairs of scripts: untrusted text by way of variables, commands that are deprecated, and what expressions can't compute."""
from __future__ import annotations

import re
from typing import Callable, Iterable, NamedTuple

from .repair import Case, Edit, Found, Repair, first_entry, in_quotes, next_entry, quoted, without_quotes
from .repairs_expressions import BRACES
from .text import Point, Span

# `msys2 {0}` is bash too.
POSIX = ("bash", "sh", "msys2")
POWERSHELLS = ("pwsh", "powershell")
WORD = re.compile(r"[A-Za-z_]\w*")
# Variables that systems and shells use.
SYSTEM_VARIABLES = {"PATH", "HOME", "USER", "SHELL", "PWD", "IFS", "TEMP", "TMP", "TMPDIR", "LANG", "CI", "HOSTNAME", "USERNAME", "EDITOR"}
DELAYED = re.compile(r"^\s*setlocal\s.*\bEnableDelayedExpansion\b", re.I | re.M)
# Commands that run their arguments as another script.
RUNS_ARGUMENTS = re.compile(r"(?:^|[\s;&|(])(?:eval|ssh|xargs|Invoke-Expression|iex)\s|\s-(?:c|e|-eval|Command)\s", re.I)
COMMAND = re.compile(r"""(?P<head>(?:echo|printf|Write-Output|Write-Host)\s+(?:-[en]+\s+)?|(?P<call>print\(f?))?(?P<quote>["']?)"""
                     r"""::(?P<command>set-output|save-state|set-env) name=(?P<name>[^:\n]+?)::(?P<value>[^\n]*?)(?P=quote)"""
                     r"""(?(call)\))(?=\s{0,9}(?:$|[;&]|\|\||\n)|\s{1,9}#)""", re.M)
ADD_PATH = re.compile(r"""(?P<head>(?:echo|Write-Output|Write-Host)\s+)?(?P<quote>["']?)::add-path::(?P<value>[^\n]*?)(?P=quote)"""
                      r"""(?=\s{0,9}(?:$|[;&]|\|\||\n)|\s{1,9}#)""", re.M)
PRINTED = re.compile(r"""printf\s+(?P<quote>["'])::(?P<command>set-output|save-state|set-env) name=(?P<name>[^:\n'"]+?)::"""
                     r"""(?P<value>[^\n'"]*)\\n(?P=quote)(?P<arguments>\s[^\n]+)$""", re.M)
FILES = {"set-output": "GITHUB_OUTPUT", "save-state": "GITHUB_STATE", "set-env": "GITHUB_ENV", "add-path": "GITHUB_PATH"}
# What a shell reads in a text without quotes, beside substitutions and variables.
SUBSTITUTION = re.compile(r"\$\([^()]*\)|`[^`]*`|\$\{\{[^{}]*\}\}")
READ_WITHOUT_QUOTES = re.compile(r"[|<>\\]|\s\s")
# What these commands decode, and files don't.
ENCODED = re.compile(r"%(?:0A|0D|25)", re.I)
MAX_SUM_CHARACTERS = 200
OPERAND = r"[A-Za-z_][\w.-]*|\d+(?:\.\d+)?"
SUM_OF_NUMBERS = re.compile(rf"({OPERAND})\s*([-+*/%])\s*({OPERAND})")
NUMBERS_OF_GITHUB = ("run_number", "run_attempt", "run_id", "retention_days")
CALL_OF_TEXT = re.compile(r"(\w+)\(\s*([\w.-]+)\s*(?:,\s*'([^']*)'\s*,\s*'([^']*)'\s*)?\)")
# For functions of other languages, the shell's equivalents.
SHELL_COMMANDS = {"replace": "sed 's|{0}|{1}|g'", "tolower": "tr '[:upper:]' '[:lower:]'", "lower": "tr '[:upper:]' '[:lower:]'",
                  "tolowercase": "tr '[:upper:]' '[:lower:]'", "touppercase": "tr '[:lower:]' '[:upper:]'",
                  "toupper": "tr '[:lower:]' '[:upper:]'", "upper": "tr '[:lower:]' '[:upper:]'", "trim": "xargs"}
HEREDOC = re.compile(r"<<-?[ \t]*(\\?)(['\"]?)([A-Za-z_]\w*)\2")
EXPRESSION = re.compile(r"\$\{\{(?:[^$}]|\$(?!\{\{)|\}(?!\}))*\}\}")
# Commands that only print or store what they read.
READERS = re.compile(r"(?:^|[;&|(]|\$\()\s*(?:cat|tee)\b[^;&|]*$")


class Place(NamedTuple):
    """An expression in a script, the script before it, and the shell."""

    script: Found
    braces: re.Match[str]
    span: Span
    before: str
    shell: str


def place_of(case: Case) -> Place | None:
    """The expression in a script around the fault."""
    here, column = case.scalar, case.span.start.column
    match = next((match for match in BRACES.finditer(case.line) if match.start() <= column < match.end()), None)
    if here is None or match is None or here.path[-1:] != ("run",):
        return None
    span = Span.on_line(case.span.start.line, match.start(), match.end())
    start = here.value.span.start
    start = Point(start.line + 1, 0) if here.value.style in ("|", ">") else Point(start.line, start.column + bool(here.value.style))
    before = without_quotes(case.slice(Span(start, span.start)), here.value.style)
    return Place(here, match, span, before, case.shell_of(here))


def by_variable(case: Case) -> Iterable[Repair]:
    """A text that anybody can write, by way of a variable of the step, which the shell doesn't read as commands."""
    place = place_of(case)
    if place is None or RUNS_ARGUMENTS.search(place.before[place.before.rfind("\n") + 1:]):
        return
    step, value = place.script.parent, place.braces[0]
    env = step.get("env")
    known = next((key.value for key, node in env.entries if node.value == value), None) if env else None
    name = known or _free_name(case, place)
    edits = _uses(case, place, name)
    if not edits:
        return
    title = f'pass it in the variable "{name}"'
    entry = f"{name}: {value}"
    if known:
        yield case.of(title, *edits)
    elif env and env.entries and env.alias is None:
        yield case.of(title, first_entry(env, f"{name}: {quoted(value)}" if env.is_flow else entry), *edits)
    elif env is None:
        text = f"env: {{{name}: {quoted(value)}}}" if step.is_flow else f"env:\n  {entry}"
        yield case.of(title, next_entry(case, step, "run", text), *edits)


def _free_name(case: Case, place: Place) -> str:
    """A name of a variable, by the last names of the expression, that nothing in the file has."""
    words = [re.sub(r"\W", "_", name).strip("_").upper() for name in case.chain.names]
    words = [word for word in words if word] or ["TEXT"]
    taken = set(WORD.findall(EXPRESSION.sub(" ", case.text))) | SYSTEM_VARIABLES
    if place.shell not in (*POSIX, "python"):
        taken = {word.upper() for word in taken}
    names = ["_".join(words[-count:]) for count in range(1, len(words) + 1)]
    numbered = (f"{names[-1]}_{number}" for number in range(2, len(taken) + 3))
    return next(name for name in (*names, *numbered) if name not in taken)


def _uses(case: Case, place: Place, name: str) -> list[Edit]:
    """The edits that put a variable in place of the expression, or none if that isn't the same there."""
    after = case.line[place.span.end.column:]
    if place.shell == "python":
        return _in_python(case, place, name, after)
    if place.shell in POWERSHELLS:
        used = _in_powershell(place, name, after)
    elif place.shell == "cmd":
        return _in_cmd(case, place, name)
    else:
        used = _in_bash(place, name, after) if place.shell in POSIX else None
    if used is None:
        return []
    span = place.span
    if used in (f"'\"${name}\"'", f"'$env:{name}'"):
        if not (place.before.endswith("'") and after.startswith("'")) or place.script.value.style == "'":
            return [Edit(span, in_quotes(used, place.script.value.style))] if place.shell in POSIX else []
        used, span = used[1:-1], Span.on_line(span.start.line, span.start.column - 1, span.end.column + 1)
    return [Edit(span, in_quotes(used, place.script.value.style))]


def _in_bash(place: Place, name: str, after: str) -> str | None:
    found = open_in_bash(place.before)
    bare = "${" + name + "}" if re.match(r"\w", after) else "$" + name
    if found.in_document:
        return bare if found.is_read and not found.is_quoted else None
    if found.quote == "'":
        if place.before.endswith("'") and after.startswith("'"):
            return f"'\"${name}\"'"
        command = re.split(r"[;&|]|\$\(", place.before[place.before.rfind("\n") + 1:])[-1].split()
        return f"'\"${name}\"'" if command[:1] in (["echo"], ["printf"]) else None
    return bare if found.quote == '"' else f'"${name}"'


def _in_powershell(place: Place, name: str, after: str) -> str | None:
    """Not in single quotes, where nothing is replaced, unless all of them is."""
    line = place.before[place.before.rfind("\n") + 1:]
    if place.before.count("@'\n") > place.before.count("\n'@"):
        return None
    if quote_in_line(line) == "'":
        return f"'$env:{name}'"
    return f"${{env:{name}}}" if re.match(r"[\w:]", after) else f"$env:{name}"


def _in_cmd(case: Case, place: Place, name: str) -> list[Edit]:
    """With delayed expansion, since `%NAME%` would be read as commands. It isn't there by itself, and gives each `!` another meaning."""
    script, begin = place.script.value, "setlocal EnableDelayedExpansion\n"
    if DELAYED.search(place.before):
        return [Edit(place.span, f"!{name}!")]
    if script.style not in ("|", "") or "!" in EXPRESSION.sub("", script.value):
        return []
    if script.style == "" and script.span.start.line == script.span.end.line:
        indent = " " * (place.script.parent.span.start.column + 2)
        line = script.value.replace(place.braces[0], f"!{name}!", 1)
        return [Edit(script.span, f"|\n{indent}{begin}{indent}{line}")]
    number = next(number for number in range(script.span.start.line + 1, place.span.start.line + 1) if case.lines[number].strip())
    column = len(case.lines[number]) - len(case.lines[number].lstrip(" "))
    return [Edit(Span.at(Point(number, column)), begin + " " * column), Edit(place.span, f"!{name}!")]


def _in_python(case: Case, place: Place, name: str, after: str) -> list[Edit]:
    """Only in place of a whole string, and with the module that it takes."""
    before = case.line[:place.span.start.column]
    if place.script.value.style not in ("|", "") or not re.search(r"(?:^|[^\w'\"])(['\"])$", before) or after[:1] != before[-1:]:
        return []
    line, start, end = place.span.start.line, place.span.start.column - 1, place.span.end.column + 1
    edits = [Edit(Span.on_line(line, start, end), f'os.environ["{name}"]')]
    if re.search(r"^\s*import\s+(?:\w+,\s*)*os\b", place.script.value.value, re.M):
        return edits
    first = place.script.value.span.start
    if place.script.value.style == "|":
        number = next(number for number in range(first.line + 1, line + 1) if case.lines[number].strip())
        column = len(case.lines[number]) - len(case.lines[number].lstrip(" "))
        return [Edit(Span.at(Point(number, column)), "import os\n" + " " * column), *edits]
    return [Edit(Span.at(first), "import os; "), *edits]


def written_to_file(case: Case) -> Iterable[Repair]:
    """The command as a line that is appended to a file, by the step's shell. Not where it decodes its text."""
    here = case.scalar
    if here is None or here.value.style in ("'", '"') or ENCODED.search(here.value.value):
        return
    shell = case.shell_of(here)
    if shell in (*POSIX, "") and _is_in_document(case, here):
        return
    for match in (*COMMAND.finditer(case.line), *ADD_PATH.finditer(case.line)):
        if not match.start() <= case.span.start.column <= match.end():
            continue
        command = match["command"] if "command" in match.groupdict() else "add-path"
        text = _appended(match, command, shell) if _is_whole(match, case.line) else None
        if text:
            title = f"append to {FILES[command]}" + ("" if shell else ", as bash does")
            is_safe = shell in (*POSIX, *POWERSHELLS) and bool(re.fullmatch(r"(?:echo|Write-Output|Write-Host)\s+", match["head"] or ""))
            yield case.replace(title, text, Span.on_line(case.span.start.line, match.start(), match.end()), is_safe)


def printed_to_file(case: Case) -> Iterable[Repair]:
    """The command that `printf` makes of its arguments, as a line that is appended to a file."""
    here = case.scalar
    match = next((match for match in PRINTED.finditer(case.line) if match.start() <= case.span.start.column <= match.end()), None)
    if here is None or match is None or here.value.style in ("'", '"') or case.shell_of(here) not in POSIX or _is_in_document(case, here):
        return
    rest = match["arguments"]
    while SUBSTITUTION.search(rest):
        rest = SUBSTITUTION.sub("", rest)
    if not re.search(r"[;&|<>#()`]", rest):
        text = f"printf {match['quote']}{match['name']}={match['value']}\\n{match['quote']}{match['arguments']}"
        file = FILES[match["command"]]
        yield case.replace(f"append to {file}", f'{text.rstrip()} >> "${file}"',
                           Span.on_line(case.span.start.line, match.start(), match.end()))


def _is_in_document(case: Case, script: Found) -> bool:
    """Whether the fault is in a here-document of a script, whose lines aren't commands."""
    before = case.slice(Span(Point(script.value.span.start.line + 1, 0), case.span.start))
    return script.value.style in ("|", ">") and bool(open_in_bash(before).in_document)


def _is_whole(match: re.Match[str], line: str) -> bool:
    """Whether a command is all that stands there: it begins a line or has its head, and all brackets and quotes of its value are closed."""
    value = match["value"]
    before = line[:match.start()].rstrip()
    begins = bool(match["head"]) or not before or before.endswith((";", "&&", "||", "run:"))
    if not match["quote"] and READ_WITHOUT_QUOTES.search(SUBSTITUTION.sub("", value)):
        return False
    if (match["head"] or "").startswith("printf") and not value.endswith("\\n"):
        return False
    return begins and value.count("(") == value.count(")") and value.count('"') % 2 == 0 and value.count("'") % 2 == 0


def _appended(match: re.Match[str], command: str, shell: str) -> str | None:
    file = FILES[command]
    named = f"{match['name']}=" if command != "add-path" else ""
    has_quotes = not match["quote"] and ('"' in match["value"] or "'" in match["value"])
    # what a shell splits at line ends without quotes stays one line
    is_split = shell in (*POSIX, "") and not match["quote"] and ("$" in match["value"] or "`" in match["value"])
    quote = "" if has_quotes or is_split else match["quote"] or '"'
    text = f"{named}{match['value']}"
    if shell == "pwsh":
        return f"echo {quote}{text}{quote} >> $env:{file}"
    if shell == "powershell":
        return f"echo {quote}{text}{quote} | Out-File -FilePath $env:{file} -Encoding utf8 -Append"
    if shell == "cmd":
        # a digit before `>>` would be the number of a stream
        return f"(echo {text})>>%{file}%" if text[-1:].isdigit() else f"echo {text}>>%{file}%"
    if shell == "python":
        head = match["head"] or ""
        return f"import os; {head}{quote}{text}{quote}, file=open(os.environ['{file}'], 'a'))" if head.startswith("print(") else None
    head = re.sub(r"\s+-n\s", " ", match["head"] or "echo ")
    return f'{head}{quote}{text}{quote} >> "${file}"' if shell in (*POSIX, "") else None


def computed_by_shell(case: Case) -> Iterable[Repair]:
    """What expressions can't compute, in the language of the script's shell: a sum, or another text."""
    place = place_of(case)
    if place is None or place.shell not in POSIX or place.script.value.style in ("'", '"'):
        return
    found = open_in_bash(place.before)
    if found.quote == "'" or found.is_quoted:
        return
    inner = place.braces[1].strip()
    sum_of = SUM_OF_NUMBERS.fullmatch(inner) if len(inner) <= MAX_SUM_CHARACTERS else None
    if sum_of and all(_can_be_number(sum_of[group]) for group in (1, 3)):
        left, right = (one if one[0].isdigit() else f"${{{{ {one} }}}}" for one in (sum_of[1], sum_of[3]))
        yield case.replace("let the shell compute it", f"$(( {left} {sum_of[2]} {right} ))", place.span)
    call = CALL_OF_TEXT.fullmatch(inner)
    command = SHELL_COMMANDS.get(call[1].lower().replace("_", "")) if call else None
    if call and command and (call[3] is not None) == ("{0}" in command):
        wanted, new = (re.sub(signs, r"\\\g<0>", text or "") for signs, text in ((r"[][\\.*^$|]", call[3]), (r"[\\&|]", call[4])))
        if "#" not in wanted + new and ": " not in wanted + new and wanted or call[3] is None:
            yield case.replace("let the shell compute it", f'$(echo "${{{{ {call[2]} }}}}" | {command.format(wanted, new)})', place.span)


def _can_be_number(operand: str) -> bool:
    """Whether an operand isn't a property of `github` that is a text."""
    context, _, name = operand.lower().partition(".")
    return context != "github" or name in NUMBERS_OF_GITHUB


REPAIRS: dict[str, tuple[Callable[[Case], Iterable[Repair]], ...]] = {
    "G17": (written_to_file, printed_to_file),
    "X1": (computed_by_shell,),
    "X3": (computed_by_shell,),
    "X9": (computed_by_shell,),
    "X19": (by_variable,),
}


class Open(NamedTuple):
    """The quote that is open, and for a here-document, whether it is quoted and whether a command like `cat` reads it."""

    quote: str = ""
    in_document: bool = False
    is_quoted: bool = False
    is_read: bool = True


class _Document(NamedTuple):
    word: str
    is_quoted: bool
    is_read: bool


def open_in_bash(script: str) -> Open:
    """What is open at the end of the beginning of a script of a POSIX shell."""
    script = EXPRESSION.sub(lambda match: "x" * len(match[0]), script)
    stack: list[str] = []
    waiting: list[_Document] = []
    at = 0
    while at < len(script):
        sign, top = script[at], stack[-1] if stack else ""
        if top == "'":
            if sign == "'":
                stack.pop()
        elif sign == "\\":
            at += 1
        elif script.startswith("$(", at):
            stack.append(")")
            at += 1
        elif sign == top and top:
            stack.pop()
        elif top != '"' and sign in "'\"":
            stack.append(sign)
        elif top != '"' and sign == "(":
            stack.append(")")
        elif top != '"' and sign == "#" and script[at - 1:at] in ("", " ", "\t", "\n", ";"):
            at = _end_of_line(script, at) - 1
        elif top != '"' and script.startswith("<<", at) and not script.startswith("<<<", at):
            at += _note_document(script, at, waiting)
        elif sign == "\n" and waiting:
            at = _after_documents(script, at + 1, waiting) - 1
            if waiting:
                return Open("", True, waiting[0].is_quoted, waiting[0].is_read)
        at += 1
    return Open(next((sign for sign in reversed(stack) if sign != ")"), "") if stack and stack[-1] != ")" else "")


def _end_of_line(script: str, at: int) -> int:
    end = script.find("\n", at)
    return len(script) if end < 0 else end


def _note_document(script: str, at: int, waiting: list[_Document]) -> int:
    """Adds the here-document that is announced at an offset, and returns how many more characters that takes."""
    match = HEREDOC.match(script, at)
    if match is None:
        return 1
    before = script[script.rfind("\n", 0, at) + 1:at]
    waiting.append(_Document(match[3], bool(match[1] or match[2]), READERS.search(before) is not None))
    return len(match[0]) - 1


def _after_documents(script: str, at: int, waiting: list[_Document]) -> int:
    """The offset after the here-documents that end in the script, which are taken out."""
    while waiting and at < len(script):
        end = _end_of_line(script, at)
        if script[at:end].strip() == waiting[0].word and end < len(script):
            waiting.pop(0)
        at = end + 1
    return min(at, len(script))


def quote_in_line(line: str) -> str:
    """The quote that is open at the end of the beginning of a line, for shells whose strings end with their line."""
    quote = ""
    for sign in EXPRESSION.sub("x", line):
        if quote in ("", sign) and sign in "'\"":
            quote = "" if quote else sign
    return quote
