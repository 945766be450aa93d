"""Checks that GitHub refuses none of the examples that are called clean: clean_examples.py TOP.

Reads the files of each case of tests/faults.cases whose report is clean, the files shown on pages (`file=`), the folders of examples/
without faults, and the workflow of clients/github. The linter reports nothing of what this test looks for (docs/DIFFERENCES.md), so an
example could be free of faults and still be refused. Needs python3-yaml; without it the case is skipped.
"""

import importlib.util
import pathlib
import re
import sys

sys.path.append(str(pathlib.Path(__file__).resolve().parent.parent / "clients"))
from actionlint_client.syntax import takes_access, takes_filter
from fault_entries import cases_of_entries, files_of, report_of
from running import exit_status, report, skip

DEBIAN_PACKAGES = "/usr/lib/python3/dist-packages"
BLOCK = re.compile(r"^```yaml file=(\S+)\n(.*?)^```$", re.DOTALL | re.MULTILINE)
OWN_KEYS = {"schedule", "workflow_dispatch", "workflow_call"}
NEEDS_A_VALUE = {"env", "with", "run", "runs-on", "on", "jobs", "steps", "uses", "shell", "outputs", "inputs", "secrets", "needs"}
OF_A_RUN = {"shell", "working-directory"}
GONE = re.compile(r"(ubuntu-(16|18|20)\.04|macos-1[0-3](\.15)?|windows-201[69])$")
OUTDATED = re.compile(r"actions/((upload|download)-artifact@v[123]|cache@v[12])$")
CLEAN_FOLDERS = ("release", "shared")
FEWEST = 130


class Yaml:
    """Reads files by PyYAML, with keys and texts as written."""

    def __init__(self, yaml):
        self.yaml = yaml

    def value(self, node):
        """Lists, texts, None for empty values, and mappings as lists of pairs."""
        if isinstance(node, self.yaml.ScalarNode):
            return None if node.tag.endswith(":null") else node.value
        if isinstance(node, self.yaml.SequenceNode):
            return [self.value(it) for it in node.value]
        return Mapping((key.value, self.value(value)) for key, value in node.value)

    def read(self, data):
        return self.value(self.yaml.compose(data.decode(), Loader=self.yaml.SafeLoader))


class Mapping:
    """A mapping with its pairs in order, including equal keys."""

    def __init__(self, pairs):
        self.pairs = list(pairs)

    def __bool__(self):
        return bool(self.pairs)

    def get(self, key):
        return next((value for name, value in self.pairs if name == key), None)

    def keys(self):
        return [key for key, _ in self.pairs]


def everywhere(value, key=None):
    """All values of a tree, each with the key above it."""
    yield key, value
    if isinstance(value, Mapping):
        for name, inner in value.pairs:
            yield from everywhere(inner, name)
    elif isinstance(value, list):
        for inner in value:
            yield from everywhere(inner, key)


def general(tree):
    """What GitHub refuses in any mapping or text."""
    for key, value in everywhere(tree):
        if isinstance(value, Mapping):
            lower = [it.lower() for it in value.keys()]
            if len(set(lower)) != len(lower):
                yield "two keys of a mapping are equal but for case"
            for name, inner in value.pairs:
                if name in NEEDS_A_VALUE and not inner:
                    yield f"{name} is empty"
                if key == "permissions" and not takes_access(name, inner):
                    yield f"{name} takes no {inner}"
        elif key == "if" and isinstance(value, str) and "${{" in value and not re.fullmatch(r"\$\{\{[^}]*\}\}", value):
            yield f"the condition {value!r} is always true"
        elif isinstance(value, str) and re.search(r"\bcase\(", value):
            yield "the linter doesn't know case()"


def events(on):
    """What GitHub refuses under `on`."""
    for event, settings in on.pairs if isinstance(on, Mapping) else []:
        for name, value in settings.pairs if isinstance(settings, Mapping) and event not in OWN_KEYS else []:
            if not takes_filter(event, name):
                yield f"{event} takes no {name}"
            if isinstance(value, list) and value and all(isinstance(it, str) and it.startswith("!") for it in value):
                yield f"{name} leaves out all"
        for _, inner in everywhere(settings):
            if isinstance(inner, Mapping) and inner.get("type") == "choice" and not inner.get("options"):
                yield "a choice has no options"


def steps(found, is_composite):
    """What GitHub refuses in steps."""
    if not isinstance(found, list) or not found:
        yield "there are no steps"
        return
    for step in found:
        keys = set(step.keys())
        if len(keys & {"run", "uses"}) != 1:
            yield "a step has not one of run and uses"
        if "uses" in keys and keys & OF_A_RUN or "run" in keys and "with" in keys:
            yield "a step has a key that belongs to another kind of step"
        if is_composite and "timeout-minutes" in keys:
            yield "a step of an action has a timeout"
        if OUTDATED.match(step.get("uses") or ""):
            yield f"{step.get('uses')} is outdated"


def jobs(found):
    """What GitHub refuses in jobs."""
    if not isinstance(found, Mapping) or not found:
        yield "there are no jobs"
        return
    for _, job in found.pairs:
        needs = job.get("needs")
        if isinstance(needs, list) and len({it.lower() for it in needs}) != len(needs):
            yield "needs names a job twice"
        if job.get("secrets") is not None and job.get("secrets") != "inherit" and not isinstance(job.get("secrets"), Mapping):
            yield "secrets is neither a mapping nor inherit"
        if "uses" not in job.keys():
            for label in [it for _, it in everywhere(job.get("runs-on")) if isinstance(it, str) and GONE.match(it)]:
                yield f"{label} is gone"
            yield from steps(job.get("steps"), False)


def refusals(path, tree):
    """Why GitHub would refuse a file."""
    if not isinstance(tree, Mapping):
        yield "it is no mapping"
        return
    yield from general(tree)
    if pathlib.PurePath(path).name in ("action.yml", "action.yaml"):
        runs = tree.get("runs")
        if runs.get("using") == "composite":
            yield from steps(runs.get("steps"), True)
        return
    yield from events(tree.get("on"))
    yield from jobs(tree.get("jobs"))


def files(top):
    """Each file that is called clean: where it is from, its path, its bytes."""
    for name, case in cases_of_entries(top).items():
        if not report_of(case):
            yield from ((f"tests/faults: {name}", path, data) for path, data in files_of(case).items())
    for page in [*top.glob("*.md"), *(top / "docs").glob("*.md")]:
        for path, text in BLOCK.findall(page.read_text()):
            yield page.name, path, text.encode()
    clean = [folder for name in CLEAN_FOLDERS for folder in (top / "examples" / name).rglob("*.yml")]
    for path in [*clean, top / "clients/github/example.yml"]:
        yield str(path.relative_to(top)), path.name, path.read_bytes()


def main(folder):
    if importlib.util.find_spec("yaml") is None:
        sys.path.append(DEBIAN_PACKAGES)
    if importlib.util.find_spec("yaml") is None:
        skip("clean_examples", "python3-yaml isn't there")
        return 0
    import yaml  # type: ignore[import]  # pylint: disable=import-outside-toplevel

    reader, count, wrong = Yaml(yaml), 0, []
    for where, path, data in files(pathlib.Path(folder)):
        count += 1
        try:
            wrong += [f"{where}: {path}: {why}" for why in refusals(path, reader.read(data))]
        except yaml.YAMLError as error:
            wrong.append(f"{where}: {path}: {error}")
    if count < FEWEST:
        wrong.append(f"only {count} files were found")
    report("clean_examples", f"- files={count}", wrong)
    return exit_status()


if __name__ == "__main__":
    sys.exit(main(*sys.argv[1:]))
