"""Random files that call one another (workflows, reusable workflows and actions), for tests of sessions."""

import copy

from running import WORKFLOWS

NAMES = ["p", "q"]
CALLERS = [f"{WORKFLOWS}/a.yml", f"{WORKFLOWS}/b.yaml"]
REUSABLE = [f"{WORKFLOWS}/d.yml", f"{WORKFLOWS}/e.yml"]
# the second file of x is a candidate after the first
ACTIONS = ["x/action.yml", "x/action.yaml", "y/z/action.yml", "action.yml"]
PATHS = CALLERS + REUSABLE + ACTIONS
FOLDERS = ["./x", "./y/z", "./"]


def candidates_of(uses):
    """The paths that may resolve a call with this text, the first one first."""
    if uses not in FOLDERS:
        return [uses[2:]]
    folder = uses[2:] + "/" if uses != "./" else ""
    return [f"{folder}action.yml", f"{folder}action.yaml"]


class File:
    """A file: what a caller sees of it, and its calls."""

    def __init__(self, chance, path):
        self.path = path
        self.broken = chance.random() < 0.05
        self.note = chance.choice("de")
        self.callable = path in REUSABLE and chance.random() < 0.9
        self.composite = path in ACTIONS and chance.random() < 0.5
        self.inputs = [(name, chance.random() < 0.5) for name in NAMES if chance.random() < 0.5]
        self.outputs = [name for name in NAMES if chance.random() < 0.5]
        self.given = [name for name in NAMES if chance.random() < 0.5]
        self.used = chance.choice(NAMES)
        self.choose_calls(chance)

    def choose_calls(self, chance):
        """Chooses what it calls."""
        has_steps = self.composite or self.path not in ACTIONS
        self.steps = [chance.choice(FOLDERS) for _ in range(chance.randint(0, 2))] if has_steps else []
        self.jobs = [chance.choice(CALLERS + REUSABLE) for _ in range(chance.randint(0, 2))] if self.path not in ACTIONS else []

    def with_other_calls(self, chance):
        """The same file with other calls, which no caller sees."""
        other = copy.copy(self)
        other.choose_calls(chance)
        return other

    def interface(self):
        """What a call of this file resolves to."""
        if self.broken:
            return "unreadable"
        if self.path in ACTIONS:
            return ("composite" if self.composite else "action", self.inputs, self.outputs)
        return ("callable", self.inputs, self.outputs) if self.callable else "workflow"

    def targets(self):
        """The calls, each with its candidates."""
        if self.broken:
            return []
        return [candidates_of(it) for it in self.steps] + [[path] for path in self.jobs]

    def text(self):
        """The bytes."""
        if self.broken:
            return b"jobs: [\n"
        lines = self.action() if self.path in ACTIONS else self.workflow()
        return "".join(f"{it}\n" for it in lines).encode()

    def with_lines(self, indent):
        """What is passed to a call."""
        return [indent + "with:", *(f"{indent}  {name}: 1" for name in self.given)] if self.given else []

    def step_lines(self, indent, shell):
        """The steps: calls, each with a use of one of its outputs."""
        for number, folder in enumerate(self.steps):
            yield from (f"{indent}- id: s{number}", f"{indent}  uses: {folder}", *self.with_lines(indent + "  "))
            yield from (f"{indent}- run: echo ${{{{ steps.s{number}.outputs.{self.used} }}}}", *shell)

    def workflow(self):
        """The lines of a workflow."""
        yield f"# {self.note}"
        yield from self.called() if self.callable else ["on: push"]
        yield "jobs:"
        for number, path in enumerate(self.jobs):
            yield from (f"  c{number}:", f"    uses: ./{path}", *self.with_lines("    "))
            yield from (f"  n{number}:", f"    needs: c{number}", f"    runs-on: ${{{{ needs.c{number}.outputs.{self.used} }}}}")
            yield from ("    steps:", "      - run: x")
        yield from ("  s:", "    runs-on: u", "    steps:", "      - run: x", *self.step_lines("      ", []))

    def called(self):
        """The lines of what a reusable workflow declares."""
        yield from ("on:", "  workflow_call:")
        yield from ["    inputs:"] * bool(self.inputs)
        for name, required in self.inputs:
            yield from (f"      {name}:", "        type: string", f"        required: {str(required).lower()}")
        yield from ["    outputs:"] * bool(self.outputs)
        for name in self.outputs:
            yield from (f"      {name}:", "        value: v")

    def action(self):
        """The lines of an action."""
        yield from ("name: A", f"description: {self.note}")
        yield from ["inputs:"] * bool(self.inputs)
        for name, required in self.inputs:
            yield from (f"  {name}:", f"    required: {str(required).lower()}")
        yield from ["outputs:"] * bool(self.outputs)
        for name in self.outputs:
            yield from (f"  {name}:", "    description: d", *["    value: v"] * self.composite)
        if self.composite:
            yield from ("runs:", "  using: composite", "  steps:", "    - run: x", "      shell: bash")
            yield from self.step_lines("    ", ["      shell: bash"])
        else:
            yield from ("runs:", "  using: node20", "  main: m.js")
