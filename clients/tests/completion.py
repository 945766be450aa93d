#!/usr/bin/env python3
"""What completion offers by place, and what an offer replaces and inserts.

    completion.py PROGRAM [NAME...]
"""
from __future__ import annotations

import os
import random
import sys
from unittest import mock

from cases import Cases
from completion_folder import FOLDER, end_of, offered, offers_between, project_of, put
from completion_places import JOB, NOT_YAML, NOWHERE, PLACES, TAKEN, TREE_PLACES, Places
from promises import end, start
from readers import reader
from repositories import FILE, WORKFLOWS

from actionlint_client import completion, place_in_tree
from actionlint_client.completion import used_in
from actionlint_client.place import Outline, Role
from actionlint_client.syntax import available, can_stand
from actionlint_client.tree import walk

CASES = Cases("completion")


def check_places(places: Places, line_break: str = "\n") -> None:
    for what, (text, wanted, unwanted) in places.items():
        labels = [offer.label for offer in offered(text, line_break=line_break)]
        assert wanted <= set(labels), (what, wanted - set(labels), labels)
        assert not unwanted & set(labels), (what, unwanted & set(labels))


@CASES.case
def by_place(program: str) -> None:
    """A text's lines are read only if it isn't YAML, whatever word is put in there. The line breaks and a byte order mark don't matter."""
    read_by_lines = []
    outline_of = place_in_tree.outline_of

    def outline_of_no_yaml(text: str) -> Outline:
        assert reader().tree(FILE, text.encode()) is None, f"a text that is YAML is read line by line:\n{text}"
        read_by_lines.append(text)
        return outline_of(text)

    with mock.patch.object(place_in_tree, "outline_of", outline_of_no_yaml):
        for line_break in ("\n", "\r\n", "\r"):
            check_places({**PLACES, **TREE_PLACES}, line_break)
        assert {*read_by_lines} == {PLACES[what][0].replace("|", "") for what in NOT_YAML}
        check_places({what: ("\ufeff" + text, wanted, unwanted) for what, (text, wanted, unwanted) in PLACES.items()})


@CASES.case
def by_lines(program: str) -> None:
    """While a text isn't YAML, its lines tell the same."""
    with mock.patch.object(completion, "place_at", place_in_tree.place_in_lines):
        check_places(PLACES)


@CASES.case
def nowhere(program: str) -> None:
    """Nothing is offered where nothing can begin."""
    for what, text in NOWHERE.items():
        before, _, after = text.rpartition("|")
        assert reader().tree(FILE, (before + after).encode()), what
        assert not offered(text), (what, offered(text)[:3])


@CASES.case
def what_is_replaced(program: str) -> None:
    """An offer replaces what is typed of its word, and the rest of it, and nothing else."""
    for text, label, expected in TAKEN:
        before, _, after = text.rpartition("|")
        span, found = offers_between(before, after)
        offer = next((offer for offer in found if offer.label == label), None)
        assert offer, (text, label)
        assert put(before + after, span, offer.text)[0] == expected, (text, put(before + after, span, offer.text)[0])


@CASES.case
def each_scalar(program: str) -> None:
    """The place in a key or a value is that which it has in the tree of the text as it is."""
    chance = random.Random(int(os.environ.get("SEED", "1")))
    project, count = project_of(FOLDER), 0
    for file in FOLDER:
        tree = project.tree(file)
        assert tree
        for path, key, value in walk(tree):
            for scalar, expected in ((key, path[:-1]), (value, path)):
                if scalar is None or not scalar.pieces:
                    continue
                # At the start of one of its lines, or behind the first character there.
                offset = chance.choice(scalar.pieces)[1] + chance.randrange(2)
                place = place_in_tree.place_at(project, file, scalar.places.point(offset))
                assert place and place.path == expected and (place.role is Role.KEY) == (scalar is key), (file, expected, offset, place)
                nodes = [tree.get(*path[:depth]) for depth in range(len(path))]
                names = [set(node.names()) for node in nodes if node]
                assert [set(keys) for keys in place.around] == names[:len(expected)], place
                assert set(place.siblings) == (names[-1] - {path[-1]} if scalar is key else set()), place
                count += 1
    assert count > 200, count


@CASES.case
def readings(program: str) -> None:
    """At most three texts are read for a place: those with a key, with a word and with an entry."""
    most = 0
    for text in [*NOWHERE.values(), *(text for text, _, _ in (*PLACES.values(), *TREE_PLACES.values()))]:
        before, _, after = text.rpartition("|")
        project = project_of({FILE: before + after})
        with mock.patch.object(project, "answered_tree", wraps=project.answered_tree) as read:
            place_in_tree.place_at(project, FILE, end_of(before))
        most = max(most, read.call_count)
    assert most == 3, most


@CASES.case
def each_once(program: str) -> None:
    """No name is offered twice at a place, even if it could be both a key and a value."""
    for what, text in {"events below their key": "on:\n  |\njobs: {}\n", **{what: text for what, (text, _, _) in PLACES.items()}}.items():
        labels = [offer.label for offer in offered(text)]
        assert len(set(labels)) == len(labels), (what, labels)


@CASES.case
def in_actions(program: str) -> None:
    """Keys by `using`, contexts without secrets, and the outputs of all steps for the action's own."""
    head = "name: x\ndescription: y\n"
    places = {
        head + "runs:\n  using: |": {"composite", "node20"},
        head + "runs:\n  using: node20\n  |": {"main", "post-if"},
        head + "runs:\n  using: composite\n  |": {"steps"},
        head + "runs:\n  using: composite\n  steps:\n    - run: x\n      |": {"shell", "id"},
        head + "inputs:\n  a:\n    |": {"description", "required", "default"},
        head + "branding:\n  color: |": {"gray-dark", "blue"},
        head + "branding:\n  icon: ar|": {"arrow-up-right", "zoom-out"},
        head + "outputs:\n  a:\n    value: ${{ steps.| }}\nruns:\n  using: composite\n  steps:\n    - id: s\n": {"s"},
    }
    for text, wanted in places.items():
        labels = {offer.label for offer in offered(text, "x/action.yml")}
        assert wanted <= labels, (text, labels)
    labels = {offer.label for offer in offered(head + "runs:\n  using: composite\n  steps:\n    - if: |", "x/action.yml")}
    assert {"github", "always", "hashFiles"} <= labels and not {"secrets", "needs", "jobs", "vars"} & labels, labels
    assert not offered(head + "runs:\n  using: composite\n  steps:\n    - uses: ./x/${{ |", "x/action.yml")
    contexts, _ = available("x/action.yml", ("runs", "steps", 0, "run"))
    assert {"vars", "needs", "jobs"} <= set(contexts) and "secrets" not in contexts, "what the linter accepts"


@CASES.case
def texts_and_order(program: str) -> None:
    """What is required comes first, and an offer says what it is."""
    found = {offer.label: offer for offer in offered("|")}
    assert found["on"].rank < found["name"].rank and "required" in found["on"].detail
    assert found["permissions"].documentation and found["name"].text == "name: "
    who = next(offer for offer in offered(JOB + "    steps:\n      - uses: ./greet\n        with:\n          |") if offer.label == "who")
    assert who.documentation == "Whom to greet." and "required" in who.detail and who.text == "who: "
    texts = {offer.label: offer.text for offer in offered(JOB + "    uses: ./.github/workflows/called.yml\n    with:\n      |")}
    assert texts == {"name": "name: ", "fast": "fast: true"}, texts
    (cron, *_) = [offer for offer in offered("on:\n  schedule:\n    - cron: |") if offer.label == "*/15 * * * *"]
    assert cron.text == "'*/15 * * * *'" and cron.documentation
    call = next(offer for offer in offered(JOB + "    if: |") if offer.label == "contains")
    assert call.text == "contains('', '')" and call.detail.endswith("bool")


@CASES.case
def values_on_lines_of_their_own(program: str) -> None:
    """What can only be a mapping or a list begins on the next line, further to the right, and a list with a dash."""
    for text, label, inserted in (
            ("|", "env", "env:\n  "), ("jobs:\n  a:\n    |", "steps", "steps:\n      - "),
            ("jobs:\n  a:\n    |", "strategy", "strategy:\n      "),
            (JOB + "    steps:\n      - |", "env", "env:\n          "), (JOB + "    steps:\n      -|", "env", " env:\n          "),
            (JOB + "    steps:\n      |", "name", "- name: "), (JOB + "    steps:\n      |", "env", "- env:\n          "),
            (JOB + "    steps: [{|}]\n", "env", "env: "), ("jobs:\n  a:\n    |: x", "steps", "steps"),
            ("jobs:\n  a:\n    |", "permissions", "permissions: ")):
        found = {offer.label: offer.text for offer in offered(text)}
        assert found[label] == inserted, (text, label, found[label])


@CASES.case
def indentation(program: str) -> None:
    """An editor that would indent further lines itself is told not to."""
    for takes in (False, True):
        item = {"insertTextModeSupport": {"valueSet": [1, 2]}} if takes else {}
        editor = start(program, {}, capabilities={"textDocument": {"completion": {"completionItem": item}}})
        editor.open(FILE, "on: push\n")
        found = editor.request("textDocument/completion", {"textDocument": {"uri": editor.uri(FILE)},
                                                           "position": {"line": 1, "character": 0}})
        modes = {one["label"]: one.get("insertTextMode") for one in found["result"]["items"]}
        assert modes["env"] == (1 if takes else None) and modes["name"] is None, modes
        end(editor)


@CASES.case
def in_a_large_folder(program: str) -> None:
    """What other files use is read once, and only as long as there is time for it."""
    texts = {f"{WORKFLOWS}w{number}.yml": f"name: W{number}\non: workflow_call\njobs:\n  a: {{runs-on: l{number}, steps: []}}\n"
             for number in range(30)}
    project, read = project_of(texts), []
    good_tree = project.good_tree
    project.good_tree = lambda file: (read.append(file), good_tree(file))[1]
    for _ in range(3):
        assert dict(used_in(project, list(texts))).keys() == texts.keys()
    assert sorted(read) == sorted(texts)
    before, completion.READING_SECONDS = completion.READING_SECONDS, -1.0
    try:
        assert dict(used_in(project, list(texts))).keys() == texts.keys(), "they are known"
        assert not dict(used_in(project_of(texts), list(texts)))
    finally:
        completion.READING_SECONDS = before


@CASES.case
def excluded_keys(program: str) -> None:
    """No key can stand beside one that excludes it, whichever comes first, nor twice; others can."""
    assert not can_stand("step", "run", {"uses"}) and not can_stand("step", "uses", {"shell"}) and not can_stand("step", "with", {"run"})
    assert not can_stand("job", "secrets", {"name", "steps"}) and not can_stand("job", "services", {"with"})
    assert not can_stand("event", "tags", {"tags-ignore"}) and not can_stand("step", "env", {"env"})
    assert can_stand("step", "env", {"run"}) and can_stand("step", "with", {"uses"}) and can_stand("job", "concurrency", {"uses"})
    assert can_stand("event", "tags", {"branches-ignore"}) and can_stand("no section", "run", {"uses"})


if __name__ == "__main__":
    sys.exit(CASES.run(sys.argv[1:]))
