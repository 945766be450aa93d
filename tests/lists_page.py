"""Compares the tables of docs/LISTS.md with the definitions, or writes them: lists_page.py TOP [--write].

Each list is a table of the page, found by its header. Numbers that other pages say in words are those of the definitions too.
"""

import pathlib
import re
import sys

# The files of the definitions, below crates/.
SHAPES = "al_tree/specs/Table.antt"
EVENTS = "al_tree/specs/Names.antt"
ACTIVITIES = "al_rules/specs/Names.antt"
SETTINGS = "al_rules_settings/specs/Names.antt"
USINGS = "al_tree/specs/Faults.antt"
FIXED = "al_check_objects/specs/Fixed.antt"
AVAILABILITY = "al_check_places/specs/Availability.antt"
SCOPES = "al_expr_names/specs/Scopes.antt"
FUNCTION_NAMES = "al_expr_names/specs/Names.antt"
SIGNATURES = "al_expr_names/specs/Signatures.antt"
UNTRUSTED = "al_expr_typing/specs/Untrusted.antt"
LIMITS = "al_base/specs/Limits.antt"

NAME = re.compile(r'codes "([^"]+)"')
# Of the table of shapes: an equation, the forms of its right side, and a field.
EQUATION = re.compile(r"^rule (\w+) = (.*?)(?=^rule |^-- |\Z)", re.DOTALL | re.MULTILINE)
FORMS = (
    re.compile(r"list_of (?P<items>\w+)"),
    re.compile(r"map_of (?P<free>\w+)"),
    re.compile(r"section \((?P<fields>.*)\)", re.DOTALL),
    re.compile(r"takes (?P<scalars>\w+) None \(free (?P<free>\w+)\)"),
    re.compile(r"takes (?P<scalars>\w+) (?:None|\(Some (?P<items>\w+)\)) no_keys"),
    re.compile(r"takes (?P<scalars>\w+) (?:None|\(Some (?P<items>\w+)\)) \(keys (?P<others>\w+|\(.*?\)\)) \((?P<fields>.*)\)\)", re.DOTALL),
)
FIELD = re.compile(r'(may|must|not_beside|either|field (?:optional|\(unless [^)]*\)\)) \((?:after|beside) [^)]*\)\))((?: "[^"]+")+) (\w+)')
SCALARS = {"AnyScalar": "text", "NotNull": "text that is not null", "Bools": "boolean", "Numbers": "number", "Chunks": "expression",
           "NoScalar": None}
OTHER_KEYS = {"wrong": [], "events": [("any other", "an *event* if it is the name of one, else anything", "")],
              "unchecked": [("any other", "anything, and repeated keys too", "")]}
# Of the table of places: the rows of some paths, and a list that rows name.
PLACES = re.compile(r"(?:^| \+\+ )rows ")
LIST = re.compile(r"^(of_\w+|status) = (.+)$", re.MULTILINE)
TYPES = {"Any": "any", "Bool'": "bool", "Number": "number", "String": "string"}
WANTED = {
    "Any": "any",
    "NotObject": "any but object",
    "NotCollection": "any but object and array",
    "String": "string",
    "ArrayOrString": "array or string",
}
FUNCTION = re.compile(r'\(codes "(\w+)", function\.(\w+)\)')
SIGNATURE = re.compile(r"^signature function\.(\w+) = giving \(?(\w+)((?: wants\.\w+)*)\)? returns\.(\w+)$", re.MULTILINE)
PARAMETERS = {"Zero": "", "One": "{0}", "Two": "{0}, {1}", "OneOrTwo": "{0}, optional {1}", "OneOrMore": "{0}, {1}.."}
# Numbers in words, and where pages say one: the page, the words around it and what it counts.
NUMBERS = ("zero one two three four five six seven eight nine ten eleven twelve thirteen fourteen fifteen sixteen seventeen eighteen "
           "nineteen twenty").split()
COUNTED = (
    ("README.md", r"activity types of only (\w+)\s+events", "events"),
    ("README.md", r"a function outside \[its (\w+)\]", "functions"),
    ("docs/FAULTS-EXPRESSIONS.md", r"beyond these (\w+) are reported", "functions"),
)
# What each limit counts, and the code of the fault or refusal beyond it.
LIMITED = {
    "largest_file": ("bytes of a file", "E3"),
    "most_files": ("files of a folder", "E4"),
    "longest_path": ("bytes of a path", "E1"),
    "most_nodes": ("nodes of a file, including those that aliases stand for, counted at each alias", "Y15"),
    "most_alias_text": ("bytes of text in the nodes that aliases stand for, including keys", "Y15"),
    "deepest_collection": ("nested collections, including the root", "Y14"),
    "longest_key": ("characters of a key as written", "Y17"),
    "longest_text": ("bytes of a text that may have expressions", "no file gives more"),
    "longest_expression": ("bytes of an expression", "X5"),
    "deepest_expression": ("nested brackets and `!` in an expression", "X6"),
    "longest_line": ("bytes of a command's line in a script", "`bad command`"),
    "most_reads": ("reads of a script", "S4"),
    "largest_read": ("bytes that a read of a script asks for", ""),
}


def quoted(names):
    """Names in backquotes."""
    return ", ".join(f"`{name}`" for name in names)


def table_of(head, rows):
    """A Markdown table."""
    lines = [" | ".join(head), "|".join(["---"] * len(head)), *(" | ".join(row) for row in rows)]
    shown = (f"|{line}|\n" if line.startswith("---") else f"| {line} |\n" for line in lines)
    return "".join(re.sub(r"\|  (?=\|)", "| ", line) for line in shown)


def one_line_each(text):
    """The text with each definition on a line of its own."""
    return re.sub(r"\n +", " ", text)


def names_of(text, name):
    """The names in a list of a file of definitions."""
    found = re.search(rf"^{name} =((?:\n? .+)+)", text, re.MULTILINE)
    return NAME.findall(found[1]) if found else sys.exit(f"the list {name} isn't read")


def shape_table(crates):
    """The table of shapes, in which each section of `on` has its own name."""
    text = one_line_each((crates / SHAPES).read_text(encoding="utf-8")).replace("(On Events)", "On")
    return re.sub(r"\(On (\w+)\)", r"\1", text)


def name_of(shape):
    """The words of a shape's name."""
    return " ".join(re.findall(r"[A-Z][a-z]*", shape)).lower()


def parts_of(text):
    """The parts of an equation's right side: which scalars, items and mappings are accepted."""
    found = [by.fullmatch(text) for by in FORMS if by.fullmatch(text)]
    if not found:
        sys.exit(f"an equation of the table isn't read: {text}")
    parts = {"scalars": "NoScalar", "items": None, "free": None, "others": "wrong", "fields": None}
    return parts | found[0].groupdict()


def value_of(shape, rules):
    """What a shape accepts, in words."""
    if rules[shape] is None:
        return "anything"
    parts, kinds = rules[shape], []
    if SCALARS[parts["scalars"]]:
        kinds.append(SCALARS[parts["scalars"]])
    if parts["items"]:
        kinds.append("a list of " + value_of(parts["items"], rules))
    if parts["free"]:
        kinds.append("a mapping with any keys of " + value_of(parts["free"], rules))
    if parts["fields"]:
        kinds.append(f"*{name_of(shape)}*")
    return ", or ".join(kinds)


def fields_of(text):
    """The fields of a section: the key, the shape of its value, whether it is required or which key it replaces, and which keys it can't be
    combined with or come after."""
    if not re.fullmatch(r"[∷+\[\]\s]*", FIELD.sub("", text)):
        sys.exit(f"a field of the table isn't read: {text}")
    found = []
    for form, names, shape in FIELD.findall(text):
        *others, key = re.findall(r'"([^"]+)"', names)
        if form == "either":
            found += [(others[0], shape, None, "after", key), (key, shape, None, "after", others[0])]
            continue
        other = (NAME.findall(form) or others or [None])[-1]
        need = True if form == "must" else other if "unless" in form else None
        found.append((key, shape, need, "after" if "(after" in form else "beside", other))
    return found


def row_of(key, shape, need, where, other, rules):
    """A key's row: the key, with a mark if it is required, what it accepts, and where it is allowed."""
    shown = f"**`{key}`**" if need else f"`{key}`"
    needed = f" unless there is `{need}`" if isinstance(need, str) else ""
    return shown + needed, value_of(shape, rules), f"not {where} `{other}`" if other else ""


def sections_of(text):
    """The rows of each section (a shape that is a mapping with keys of its own), by its name."""
    rules = {name: None if right.strip() == "None" else parts_of(right.strip()) for name, right in EQUATION.findall(text)}
    sections = {}
    for shape, parts in rules.items():
        if not parts or not parts["fields"]:
            continue
        rows = [row_of(*field, rules) for field in fields_of(parts["fields"])]
        beside = NAME.findall(parts["others"])
        sections[name_of(shape)] = rows + ([("any other", "none", f"not beside `{beside[0]}`")] if beside else OTHER_KEYS[parts["others"]])
    return sections


def section_keys(crates):
    """The keys of each section, in lines of those that accept the same and are allowed at the same places."""
    rows = []
    for name, found in sections_of(shape_table(crates)).items():
        same: dict = {}
        for key, *rest in found:
            same.setdefault(tuple(rest), []).append(key)
        lines = (f"{', '.join(keys)}: {value}" + (f" ({where})" if where else "") for (value, where), keys in same.items())
        rows.append((f"*{name}*", "<br>".join(lines)))
    return table_of(("Section", "Keys, and what they take"), rows)


def activity_types(crates):
    """Each event with its activity types, sorted by name."""
    names = names_of((crates / EVENTS).read_text(), "event_names")
    text = (crates / ACTIVITIES).read_text()
    table = text[text.index("activities ="):text.index("abbrev pub activities_of")]
    types = {}
    for left, right in re.findall(r'((?:codes "\w+"\s*∷\s*)+)\[\],\s*((?:codes "\w+"\s*∷\s*)+)\[\]', table):
        types |= dict.fromkeys(NAME.findall(left), NAME.findall(right))
    if sum(map(len, types.values())) < 100 or set(types) - set(names):
        sys.exit("a row of activity types isn't read")
    return {name: types.get(name, []) for name in sorted(names)}


def events(crates):
    """The events with activity types, grouped by equal types, and all others last."""
    found = {}
    for name, types in activity_types(crates).items():
        found.setdefault(tuple(types), []).append(name)
    rows = [(quoted(names), quoted(types)) for types, names in sorted(found.items(), key=lambda it: (not it[0], it[1]))]
    return table_of(("Events", "Activity types"), rows)


def input_types(crates):
    """The types of inputs."""
    text = (crates / ACTIVITIES).read_text()
    lists = (("workflow_call", "call_types"), ("workflow_dispatch", "dispatch_types"))
    rows = [(f"`{event}`", quoted(names_of(text, name))) for event, name in lists]
    return table_of(("Inputs of", "Types"), rows)


def settings(crates):
    """Permissions with their values, shells, and kinds of actions."""
    text = (crates / SETTINGS).read_text()
    usings = names_of((crates / USINGS).read_text(), "runs_of using")
    lists = {"`permissions`, its scopes": "permissions", "`permissions`, a scope": "scope_values",
             "`permissions` as a whole": "whole_values", "`shell`": "shells"}
    rows = [(key, quoted(names_of(text, name))) for key, name in lists.items()]
    return table_of(("Key", "Names"), [*rows, ("`using`", quoted(usings))])


def fixed_contexts(crates):
    """The contexts that are the same in every file: the properties with their types, and the type of all others."""
    text = (crates / FIXED).read_text()
    lists = dict(re.findall(r"^(\w+_names) =\n((?:    .*\n)+)", text, re.MULTILINE))
    found = {}
    for context, right in re.findall(r"^(\w+)_type =((?:\n? .+)+)", text, re.MULTILINE):
        right = " ".join(right.split())
        fields = {name: TYPES[of] for name, of in re.findall(r'\(codes "([^"]+)", ([\w\']+)\)', right)}
        for body in re.findall(r"strings (\w+|\([^)]*\))", right):
            fields |= dict.fromkeys(NAME.findall(lists.get(body, body)), "string")
        found[context] = fields, TYPES[others[1]] if (others := re.search(r"\(Present (\w+)\)$", right)) else "none"
    if len(found) != len(re.findall(r"^abbrev pub \w+_type", text, re.MULTILINE)):
        sys.exit("a type isn't read")
    return found


def contexts(crates):
    """The same as a table, with properties grouped by type."""
    rows = []
    for context, (fields, others) in fixed_contexts(crates).items():
        by_type = {}
        for name, of in fields.items():
            by_type.setdefault(of, []).append(name)
        rows.append((f"`{context}`", "; ".join(f"{of}: {quoted(names)}" for of, names in sorted(by_type.items())), others))
    return table_of(("Context", "Properties, by their types", "Others"), rows)


def arguments_of(text):
    """The parts of a call's arguments: words, and what is in brackets."""
    parts, depth, word = [], 0, ""
    for sign in text + " ":
        depth += sign in "([" and 1 or (sign in ")]" and -1 or 0)
        if sign == " " and depth == 0:
            if word:
                parts.append(word)
            word = ""
        else:
            word += sign
    return parts


def names_in(text, lists):
    """The names in a list, including those of the lists it begins with."""
    found = []
    for word in re.findall(r"[\w]+", text):
        found += lists.get(word, [word] if word[0].isupper() else [])
    return found


def availability_rows(crates):
    """The paths of the table of places, grouped by equal contexts and special functions, with these."""
    text, lists = (crates / AVAILABILITY).read_text(), {}
    for name, right in LIST.findall((crates / SCOPES).read_text() + text):
        lists[name] = names_in(right, lists)
    start = text.index("\ntable =\n") + len("\ntable =\n")
    # The rows of some paths can take several lines.
    before, *found = PLACES.split(" ".join(text[start : text.index("\n\n", start)].split()))
    rows = []
    for group in found:
        parts = arguments_of(group)
        if len(parts) != 3:
            sys.exit(f"rows of the table aren't read: {group}")
        paths, shown, special = parts
        functions_of = [{"HashFiles": "hashFiles"}.get(name, name.lower()) for name in names_in(special, lists)]
        rows.append((re.findall(r'"([^"]+)"', paths), [name.lower() for name in names_in(shown, lists)], functions_of))
    if before or not rows:
        sys.exit("a row of the table isn't read")
    return rows


def places(crates):
    """The paths with their contexts and special functions."""
    rows = [(quoted(paths), ", ".join(shown), ", ".join(special)) for paths, shown, special in availability_rows(crates)]
    return table_of(("Places", "Contexts", "Special functions"), rows)


def functions(crates):
    """What each function accepts and returns."""
    names = {variant: name for name, variant in FUNCTION.findall((crates / FUNCTION_NAMES).read_text())}
    found = {}
    for variant, form, arguments, gives in SIGNATURE.findall((crates / SIGNATURES).read_text()):
        wanted = [WANTED[it] for it in re.findall(r"wants\.(\w+)", arguments)]
        found[names[variant]] = PARAMETERS[form].format(*wanted), gives.lower()
    if len(found) != len(names):
        sys.exit("a signature isn't read")
    return found


def untrusted(crates):
    """The texts that anybody can write."""
    return table_of(("Untrusted texts",), [(quoted(names_of((crates / UNTRUSTED).read_text(), "untrusted_chains")),)])


def limits(crates):
    """The limits of the product."""
    found = dict(re.findall(r"^(\w+) = ([0-9]+)$", (crates / LIMITS).read_text(), re.MULTILINE))
    if found.keys() != LIMITED.keys():
        sys.exit(f"limits without words, or words without a limit: {', '.join(found.keys() ^ LIMITED.keys())}")
    rows = [(LIMITED[name][0], f"{int(number):,}", LIMITED[name][1]) for name, number in found.items()]
    return table_of(("What", "At most", "More is"), rows)


def lists(crates):
    """All tables of the page."""
    takes = table_of(("Function", "Takes", "Gives"), [(f"`{name}`", *row) for name, row in functions(crates).items()])
    first = [it(crates) for it in (section_keys, events, input_types, settings, contexts, places)]
    return [*first, takes, untrusted(crates), limits(crates)]


def wrong_numbers(top):
    """Where a page says another number in words than the definitions have."""
    counts = {"events": sum(map(bool, activity_types(top / "crates").values())), "functions": len(functions(top / "crates"))}
    for page, words, what in COUNTED:
        found = re.search(words.replace(" ", r"\s+"), (top / page).read_text())
        if not found or NUMBERS[counts[what]] != found[1]:
            said = f"says {found[1]!r}" if found else f"doesn't say {words!r}"
            yield f"{page} {said}, and the definitions have {counts[what]} {what}"


def main(folder, *write):
    wrong = [*wrong_numbers(pathlib.Path(folder))]
    if wrong:
        sys.exit("\n".join(wrong))
    path = pathlib.Path(folder) / "docs" / "LISTS.md"
    text = path.read_text()
    for table in lists(pathlib.Path(folder) / "crates"):
        head = "".join(table.splitlines(True)[:2])
        found = re.search(re.escape(head) + r"(?:\|.*\n)*", text)
        if not found:
            sys.exit(f"{path}: no table with the header\n\n{head}")
        if write:
            text = text.replace(found[0], table)
        elif found[0] != table:
            sys.exit(f"{path}: a table isn't the one of the definitions, which is\n\n{table}\n`lists_page.py TOP --write` writes it")
    if write:
        path.write_text(text)


if __name__ == "__main__":
    main(*sys.argv[1:])
