"""Makes 200 edits in a session of the built program, of files that call one another, and compares each reply.

    python3 tests/edits.py PROGRAM

The files are workflows, reusable workflows and actions; one of them is a later candidate of the same calls as another. An edit puts a file
with other inputs and outputs, with only other calls, with the same bytes, or with invalid bytes, or it deletes a file. After each edit the
report is compared with that of a fresh run over the folder on disk, and the number in the reply with the number of affected files, counted
here by the definition: files that are new or differ, or that have a call with another answer. The report's lines about call cycles are
compared with the cycles found here by walking along the calls. Some edits have to move such lines in files that they don't affect. Prints a
line for each case, like tests/program.py.
"""

import random
import sys

from calling_files import FOLDERS, PATHS, File, candidates_of
from running import REPORT, SCRIPT, WORKFLOWS, delete, differences_of, each, edits_and_reports, put, report, run_parts, show

EDITS = 200
SEED = 3
ON_A_CYCLE = b" leads back to this file ["


def called(folder, candidates):
    """The file that a call leads to: the first of its candidates that exists."""
    return next((path for path in candidates if path in folder), None)


def is_on_cycle(folder, path, candidates):
    """Whether a call of this file is on a call cycle: it leads to the file again, directly or along further calls."""
    ahead, seen = [called(folder, candidates)], {None}
    while ahead:
        here = ahead.pop()
        if here == path:
            return True
        if here not in seen:
            seen.add(here)
            ahead += [called(folder, it) for it in folder[here].targets()]
    return False


def cycle_lines(folder):
    """The lines about call cycles that the report should have: one for each call on a call cycle."""
    for path in sorted(folder):
        for row, text in enumerate(folder[path].text().decode().split("\n"), 1):
            before, uses, name = text.partition("uses: ")
            if uses and is_on_cycle(folder, path, candidates_of(name)):
                kind = "action" if name in FOLDERS else "workflow-call"
                column = len(before + uses) + 1
                yield f'{path}:{row}:{column}: call of "{name}" leads back to this file [{kind}]\n'.encode()


def reported_cycle_lines(reported):
    """The lines of a report about call cycles."""
    return [it for it in reported.splitlines(True) if ON_A_CYCLE in it]


def moved_cycle_lines(old, new):
    """Whether an edit changes the lines about call cycles in files that it doesn't affect."""
    unaffected = [path.encode() + b":" for path in set(old) & set(new) - set(affected(old, new))]
    of_those = lambda folder: [it for it in cycle_lines(folder) if it.startswith(tuple(unaffected))]
    return of_those(old) != of_those(new)


def answer(folder, candidates):
    """The answer to a call: the interface of the file that it leads to."""
    path = called(folder, candidates)
    return path and folder[path].interface()


def affected(old, new):
    """The files that an edit affects."""
    differs = lambda path: path not in old or old[path].text() != new[path].text()
    moved = lambda path: any(answer(old, it) != answer(new, it) for it in new[path].targets())
    return [path for path in new if differs(path) or moved(path)]


def edit(chance, folder):
    """A random edit: its command, and the folder after it."""
    path = chance.choice(PATHS)
    kind = chance.random()
    if kind < 0.25:
        return delete(path), {other: file for other, file in folder.items() if other != path}
    file = folder[path] if path in folder and kind < 0.5 else File(chance, path)
    if kind > 0.35:
        file = file.with_other_calls(chance)
    return put(path, file.text()), {**folder, path: file}


def differences(place, command, old, new, told):
    """Where the reply to an edit differs from the definition or from a fresh run over the folder."""
    reply, reported, status = told
    if command.startswith(b"delete ") and old == new:
        wanted = b"refused E5"
    else:
        wanted = b"ok %d" % len(affected(old, new))
    place.fresh({path: file.text() for path, file in new.items()}, [WORKFLOWS])
    wrong = differences_of(place.run(["--oneline", "--root", ".", *new]), status, reported, b"")
    if reported_cycle_lines(reported) != list(cycle_lines(new)):
        wrong.append(f"lines on call cycles were {reported_cycle_lines(reported)}, and should be {list(cycle_lines(new))}")
    return wrong if reply == wanted else wrong + [f"the reply was {reply!r}, and should be {wanted!r}"]


def edits(place):
    """Random edits, each compared."""
    chance = random.Random(SEED)
    folders, commands = [{}], []
    while len(commands) < EDITS:
        command, folder = edit(chance, folders[-1])
        commands.append(command)
        folders.append(folder)
    place.fresh()
    ran = place.run(SCRIPT, b"".join(command + REPORT for command in commands))
    told = edits_and_reports(ran.stdout) or []
    if len(told) != EDITS:
        report("edits", ran.returncode, [f"stdout was {show(ran.stdout)}, stderr {show(ran.stderr)}"])
        return
    each("edits", enumerate((differences(place, *it) for it in zip(commands, folders, folders[1:], told)), 1))
    moving = sum(moved_cycle_lines(*it) for it in zip(folders, folders[1:]))
    report("edits-that-change-cycles-of-other-files", moving, [] if moving else ["no edit does"])


if __name__ == "__main__":
    sys.exit(run_parts(edits))
