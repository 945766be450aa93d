"""Runs the built program as a person does: arguments, folders on disk, statuses.

    python3 tests/program.py PROGRAM

Each case compares the status and both streams with what docs/COMMAND-LINE.md says, and prints one line, as `rt try --cases` does:
`case=NAME output=expected status=N`, or what differs.
"""

import os
import shutil
import socket
import stat
import sys

from running import CALLED, CALLER, CLEAN, EMPTY_REPORT, MISSING_INPUT, REPORT, SCRIPT, WORKFLOWS, delete, line, put, run_parts

EMPTY_SNIPPET = EMPTY_REPORT + b"  |\n1 | \n  | ^\n"


def cannot_read(path):
    return line(b"cannot read " + path.encode())


def refused(path, number):
    return line(path.encode() + b": refused E" + str(number).encode())


def passed_over(*paths):
    return b"".join(line(b"skipped " + path.encode() + b": symbolic link points outside the folder") for path in paths)


# ---- arguments


def words(place):
    place.fresh({f"{WORKFLOWS}/a.yml": b""})
    no = b""
    beside = line(b"--session takes no files")
    place.case("session-beside-a-file", 2, no, beside, ["--session", "a/action.yml"])
    place.case("session-beside-root", 2, no, beside, ["--session", "--root", "."])
    place.case("root-beside-session", 2, no, beside, ["--root", ".", "--session"])
    said = lambda err: err != b""
    for name, given in {
        "unknown-option": ["--bogus"],
        "root-without-folder": ["--root"],
        "short-help": ["-h"],
        "version": ["--version"],
        "root-twice": ["--root", "a", "--root", "b"],
        "help-before-an-unknown-option": ["--help", "--bogus"],
        "help-after-an-unknown-option": ["--bogus", "--help"],
        "help-twice": ["--help", "--help"],
    }.items():
        place.case(name, 2, no, said, given)
    place.case("help-beside-a-script-with-a-file", 2, no, beside, ["--help", "--session", "x"])
    hints = lambda err: err.endswith(b"\n\nUsage: actionlint [OPTIONS] [FILE]...\n\nFor more information, try '--help'.\n")
    place.case("unknown-option-and-how-to-get-help", 2, no, hints, ["--bogus"])
    facts = [b"--oneline", b"--root", b"[default: .]", b"--session", b"put PATH LENGTH", b"delete PATH", b"report", b"Exit status"]
    facts += [b"Examples", b"\n  cannot read PATH\n", b'\n      actionlint --root "$(git rev-parse --show-toplevel)"\n']
    facts += [b"\n  PATH: refused E%d\n" % number for number in range(1, 5)]
    taught = lambda out: all(it in out for it in facts) and all(b"\n  %d  " % it in out for it in range(4))
    place.case("help", 0, taught, no, ["--help"])
    place.case("help-beside-others", 0, taught, no, ["--oneline", "--help", "x"])


# ---- folders


def folders(place):
    no = b""
    place.fresh()
    place.case("no-folder-of-workflows", 3, no, cannot_read(WORKFLOWS))
    place.case("no-folder-of-this-name", 3, no, cannot_read(WORKFLOWS), ["--root", "nowhere"])
    place.fresh({".github/workflows": b""})
    place.case("folder-of-workflows-is-a-file", 3, no, cannot_read(WORKFLOWS))
    place.fresh(folders=[WORKFLOWS])
    place.case("empty-folder-of-workflows", 0, no, no)
    place.fresh({f"{WORKFLOWS}/a.yml": b""})
    place.case("an-empty-workflow", 1, EMPTY_SNIPPET, no)
    place.case("an-empty-workflow-on-one-line", 1, EMPTY_REPORT, no, ["--oneline"])
    place.case("root-of-the-words", 1, EMPTY_REPORT, no, ["--oneline", "--root", f"../{place.count}"])
    place.case("root-with-a-slash", 1, EMPTY_REPORT, no, ["--oneline", "--root", f"../{place.count}/"])
    place.case("file-of-the-words", 1, EMPTY_REPORT, no, ["--oneline", f"{WORKFLOWS}/a.yml"])
    place.case("file-with-a-dot-and-slash", 1, EMPTY_REPORT, no, ["--oneline", f"./{WORKFLOWS}/a.yml"])
    place.case("file-twice", 1, EMPTY_REPORT, no, ["--oneline", f"{WORKFLOWS}/a.yml", f"{WORKFLOWS}/a.yml"])
    place.fresh({f"{WORKFLOWS}/b.yml": b"", f"{WORKFLOWS}/a.yaml": b"", f"{WORKFLOWS}/c.yml": CLEAN, f"{WORKFLOWS}/notes.txt": b""})
    two = EMPTY_REPORT.replace(b"a.yml", b"a.yaml") + EMPTY_REPORT.replace(b"a.yml", b"b.yml")
    place.case("workflows-in-order-of-path", 1, two, no, ["--oneline"])
    place.case("one-of-the-workflows", 0, no, no, [f"{WORKFLOWS}/c.yml"])
    place.fresh({f"{WORKFLOWS}/a.yml": b"", "a/action.yml": b"", "action.yaml": b""})
    place.case("actions-are-not-listed", 1, EMPTY_REPORT, no, ["--oneline"])
    other = b"a/action.yml:1:1: file is empty [syntax-check]\naction.yaml:1:1: file is empty [syntax-check]\n"
    place.case("actions-of-the-words", 1, other, no, ["--oneline", "action.yaml", "a/action.yml"])
    place.fresh({f"{WORKFLOWS}/b.yml": b"", f"{WORKFLOWS}/a.yml/x": b""})
    place.case("folder-named-as-a-workflow", 1, EMPTY_REPORT.replace(b"a.yml", b"b.yml"), no, ["--oneline"])
    place.case("folder-named-in-the-words", 3, no, cannot_read(f"{WORKFLOWS}/a.yml"), [f"{WORKFLOWS}/a.yml"])
    place.fresh({f"{WORKFLOWS}/a.yml": CLEAN, f"{WORKFLOWS}/b.yml": CLEAN})
    os.chmod(os.path.join(place.folder, WORKFLOWS, "b.yml"), 0)
    place.case("unreadable-file", 3, no, cannot_read(f"{WORKFLOWS}/b.yml"))
    place.fresh({f"{WORKFLOWS}/a.yml": CLEAN})
    os.chmod(os.path.join(place.folder, WORKFLOWS), 0)
    place.case("unreadable-folder", 3, no, cannot_read(WORKFLOWS))
    os.chmod(os.path.join(place.folder, WORKFLOWS), stat.S_IRWXU)


def refusals(place):
    """Files of the folder, and FILEs, that are refused."""
    no = b""
    place.fresh({f"{WORKFLOWS}/a.yml": b"", f"{WORKFLOWS}/b.yml": CLEAN + b"#" * (1_048_577 - len(CLEAN))})
    place.case("file-of-1048577-bytes", 3, no, refused(f"{WORKFLOWS}/b.yml", 3))
    place.fresh({f"{WORKFLOWS}/b.yml": CLEAN + b"#" * (1_048_576 - len(CLEAN))})
    place.case("file-of-1048576-bytes", 0, no, no)
    place.fresh({f"{WORKFLOWS}/a\\b.yml": b""})
    place.case("path-with-a-backslash", 3, no, refused(f"{WORKFLOWS}/a\\b.yml", 1))
    place.fresh({"x.yml": b"", f"{WORKFLOWS}/a.yml": b"", f"{WORKFLOWS}/sub/b.yml": b""})
    for name, path, number in [
        ("path-outside", "../x.yml", 1),
        ("path-from-the-root", "/etc/action.yml", 1),
        ("path-with-dots-inside", f"{WORKFLOWS}/./a.yml", 1),
        ("path-of-no-workflow", "x.yml", 2),
        ("path-below-the-workflows", f"{WORKFLOWS}/sub/b.yml", 2),
    ]:
        place.case(name, 3, no, refused(path, number), [path])
    place.case("first-fault-ends-the-run", 3, no, refused("x.yml", 2), [f"{WORKFLOWS}/a.yml", "x.yml", "../y"])
    place.case("file-that-is-not-there", 3, no, cannot_read("no/action.yml"), ["no/action.yml"])
    place.fresh(folders=[WORKFLOWS])
    with open(os.path.join(os.fsencode(place.folder), WORKFLOWS.encode(), b"\xff.yml"), "wb"):
        pass
    place.case("name-that-is-no-text", 0, no, no)


def control_characters(place):
    """Each control character in a path is printed as a `?`."""
    no = b""
    controls = "".join(map(chr, range(1, 32))) + "\x7f"
    place.fresh({f"{WORKFLOWS}/a\x1b]0;b\x7f.yml": b""})
    place.case("control-characters-of-a-listed-file", 3, no, refused(f"{WORKFLOWS}/a?]0;b?.yml", 1))
    given = f"a{controls}\u00e9/action.yml"
    place.case("control-characters-of-the-words", 3, no, refused(f"a{'?' * 32}\u00e9/action.yml", 1), [given])
    others = controls.replace("\n", "")
    shown = lambda err: b"'--a" + b"?" * 31 + b"\xc3\xa9'" in err and not any(it.encode() in err for it in others)
    place.case("control-characters-of-an-unknown-option", 2, no, shown, [f"--a{others}\u00e9"])
    place.case("control-characters-of-a-value", 2, no, shown, [f"--oneline=--a{others}\u00e9"])


def bind_socket(path):
    """A socket at a path, which may be longer than the system accepts at once."""
    folder, name = os.path.split(path)
    before = os.open(".", os.O_RDONLY)
    os.chdir(folder)
    with socket.socket(socket.AF_UNIX) as made:
        made.bind(name)
    os.fchdir(before)
    os.close(before)


# how a name can lead to something that isn't a regular file; and whether its links lead to anything
KINDS = {
    "link-to-nothing": (lambda path: os.symlink("someone@host.1234:5678", path), False),
    "link-to-itself": (lambda path: os.symlink(os.path.basename(path), path), False),
    "link-below-a-file": (lambda path: os.symlink("/dev/null/x", path), False),
    "link-to-a-folder": (lambda path: os.symlink(".", path), True),
    "link-to-a-device": (lambda path: os.symlink("/dev/zero", path), True),
    "pipe": (os.mkfifo, True),
    "socket": (bind_socket, True),
}


def kinds(place):
    """Of what is listed only regular files are linted, after following links; a FILE or a called file that isn't regular can't be read."""
    no = b""
    path = f"{WORKFLOWS}/.#a.yml"
    for name, (make, there) in KINDS.items():
        place.fresh({f"{WORKFLOWS}/a.yml": b"", f"{WORKFLOWS}/b.yml": CALLER}, folders=["a"])
        make(os.path.join(place.folder, path))
        place.case(f"{name}-is-passed-over", 1, EMPTY_REPORT, no, ["--oneline"])
        place.case(f"{name}-in-the-words", 3, no, cannot_read(path), [path])
        make(os.path.join(place.folder, "a/action.yml"))
        answer = (3, no, cannot_read("a/action.yml")) if there else (1, EMPTY_REPORT, no)
        place.case(f"{name}-that-is-called", *answer, ["--oneline"])
    place.fresh({"kept/a.txt": b""}, folders=[WORKFLOWS])
    os.symlink("../../kept/a.txt", os.path.join(place.folder, WORKFLOWS, "a.yml"))
    place.case("link-to-a-file", 1, EMPTY_REPORT, no, ["--oneline"])
    place.case("link-to-a-file-in-the-words", 1, EMPTY_REPORT, no, ["--oneline", f"{WORKFLOWS}/a.yml"])


SECRET = b"a-secret-of-another-folder"


def links_out(place):
    """A listed or called file that links lead out of the folder is skipped with a message; one named as an argument can't be read. Nothing
    outside is printed."""
    no = b""
    outside = place.fresh({"f.yml": SECRET, "action.yml": SECRET, "workflows/secret.yml": SECRET, "workflows/sub/secret.yml": SECRET})
    path = f"{WORKFLOWS}/a.yml"
    for name, target in {
        "to-a-file-outside": os.path.join(outside, "f.yml"),
        "that-goes-up": f"../../../{os.path.basename(outside)}/f.yml",
        "to-the-environment": "/proc/self/environ",
        "to-the-kernel's-log": "/proc/kmsg",
        "over-a-link-inside": "../../kept",
    }.items():
        place.fresh({f"{WORKFLOWS}/c.yml": CLEAN.replace(b"run: echo", b"uses: ./a/b")}, folders=["a/b"])
        os.symlink(os.path.join(outside, "f.yml"), os.path.join(place.folder, "kept"))
        os.symlink(target, os.path.join(place.folder, path))
        how = {"env": {"SECRET": SECRET.decode()}}
        place.case(f"link-{name}-is-passed-over", 0, no, passed_over(path), **how)
        place.case(f"link-{name}-in-the-words", 3, no, cannot_read(path), [path], **how)
        os.symlink(target, os.path.join(place.folder, "a/b/action.yml"))
        place.case(f"link-{name}-that-is-called", 0, no, passed_over(path, "a/b/action.yml"), **how)
    folders_out(place, outside)


def folders_out(place, outside):
    """The same for links to folders, for a link that is called too, and for siblings of the folder."""
    no = b""
    path = f"{WORKFLOWS}/a.yml"
    place.fresh({f"{WORKFLOWS}/c.yml": CALLER})
    os.symlink(outside, os.path.join(place.folder, "a"))
    place.case("folder-outside-that-is-called", 0, no, passed_over("a/action.yml"))
    place.case("folder-outside-in-the-words", 3, no, cannot_read("a/action.yml"), ["a/action.yml"])
    place.fresh(folders=[".github"])
    os.symlink(os.path.join(outside, "workflows"), os.path.join(place.folder, WORKFLOWS))
    place.case("workflows-outside", 3, no, cannot_read(WORKFLOWS))
    place.case("workflow-of-a-folder-outside", 3, no, cannot_read(f"{WORKFLOWS}/secret.yml"), [f"{WORKFLOWS}/secret.yml"])
    calling = CLEAN.replace(b"    runs-on: ubuntu-latest\n    steps:\n      - run: echo\n", f"    uses: ./{WORKFLOWS}/b.yml\n".encode())
    place.fresh({path: calling})
    os.symlink(os.path.join(outside, "f.yml"), os.path.join(place.folder, WORKFLOWS, "b.yml"))
    absent = f'{path}:4:11: workflow "./{WORKFLOWS}/b.yml" is not in the folder [workflow-call]\n'
    place.case("listed-link-that-is-called-too", 1, absent.encode(), passed_over(f"{WORKFLOWS}/b.yml"), ["--oneline"])
    # a sibling of this folder whose name begins with this one's
    folder = place.fresh({path: CLEAN})
    beside = f"{folder}-beside"
    os.mkdir(beside)
    shutil.copyfile(os.path.join(outside, "f.yml"), os.path.join(beside, "f.yml"))
    os.symlink(os.path.join(beside, "f.yml"), os.path.join(folder, WORKFLOWS, "b.yml"))
    place.case("link-to-a-folder-of-a-longer-name", 0, no, passed_over(f"{WORKFLOWS}/b.yml"))
    place.fresh({path: CLEAN})
    os.symlink("/etc/passwd", os.path.join(place.folder, WORKFLOWS, "b\n.yml"))
    place.case("path-that-is-refused-is-not-looked-at", 3, no, refused(f"{WORKFLOWS}/b?.yml", 1))


def links_inside(place):
    """Links that stay in the folder are followed, however the folder is named."""
    no = b""
    files = {f"{WORKFLOWS}/b.yml": CALLER, "kept/action.yml": CALLED, "kept/a.txt": b""}
    both = EMPTY_REPORT + MISSING_INPUT.replace(b"c.yml", b"b.yml")

    def linked(folder):
        os.symlink(os.path.join(folder, "kept"), os.path.join(folder, "a"))
        os.symlink("over", os.path.join(folder, WORKFLOWS, "a.yml"))
        os.symlink("../../a/a.txt", os.path.join(folder, WORKFLOWS, "over"))

    folder = place.fresh(files)
    linked(folder)
    number = os.path.basename(folder)
    roots = {"here": ".", "by-no-name": "", "from-the-root": folder, "from-beside": f"../{number}/", "twice": f"../{number}/./."}
    for name, root in roots.items():
        place.case(f"links-inside-{name}", 1, both, no, ["--oneline", "--root", root])
    place.fresh()
    os.symlink(folder, os.path.join(place.folder, "link"))
    place.case("links-inside-over-a-link", 1, both, no, ["--oneline", "--root", "link"])
    place.case("links-inside-over-a-link-with-a-slash", 1, both, no, ["--oneline", "--root", "link/"])
    # a folder whose own path isn't text: its files are linted unless they are links, whose targets aren't known
    place.fresh({"\udcff/" + path: data for path, data in files.items()})
    where = os.path.join(place.folder, "\udcff")
    place.case("folder-whose-path-is-no-text", 0, no, no, ["--oneline"], cwd=where)
    linked(where)
    told = passed_over(f"{WORKFLOWS}/a.yml", "a/action.yml")
    place.case("links-in-a-folder-whose-path-is-no-text", 0, no, told, ["--oneline"], cwd=where)


def long_names(place):
    """A name that the system doesn't accept names no file."""
    no = b""
    name = "x" * 300
    calling = lambda path: CLEAN.replace(b"run: echo", b"uses: ./" + path.encode())
    place.fresh({f"{WORKFLOWS}/a.yml": calling(name)})
    place.case("called-action-of-a-name-of-300-bytes", 0, no, no)
    place.case("name-of-300-bytes-in-the-words", 3, no, cannot_read(f"{name}/action.yml"), [f"{name}/action.yml"])
    place.fresh({f"{WORKFLOWS}/a.yml": CLEAN.replace(b"    runs-on: ubuntu-latest\n    steps:\n      - run: echo\n",
                                                     f"    uses: ./{WORKFLOWS}/{name}.yml\n".encode())})
    absent = f'{WORKFLOWS}/a.yml:4:11: workflow "./{WORKFLOWS}/{name}.yml" is not in the folder [workflow-call]\n'
    place.case("called-workflow-of-a-name-of-300-bytes", 1, absent.encode(), no, ["--oneline"])
    # the longest path that a call can name, below a folder whose path is nearly as long as the system accepts
    longest = "/".join(["y" * 200] * 5)
    place.fresh({f"{WORKFLOWS}/a.yml": calling(longest)})
    root = "./" * 2_000
    place.case("called-action-of-a-path-that-is-too-long", 0, no, no, ["--root", root])
    place.case("folder-of-a-path-that-is-too-long", 3, no, cannot_read(WORKFLOWS), ["--root", root * 2])


# ---- calls between the files of a folder


def calls(place):
    no = b""
    workflow = f"{WORKFLOWS}/c.yml"
    place.fresh({workflow: CALLER, "a/action.yml": CALLED})
    place.case("called-action-is-found", 1, MISSING_INPUT, no, ["--oneline"])
    place.case("called-action-of-a-file", 1, MISSING_INPUT, no, ["--oneline", workflow])
    place.case("action-by-itself", 0, no, no, ["--oneline", "a/action.yml"])
    place.fresh({workflow: CALLER})
    place.case("called-action-not-there", 0, no, no, ["--oneline"])
    place.fresh({workflow: CALLER, "a/action.yaml": CALLED})
    place.case("called-action-by-its-second-name", 1, MISSING_INPUT, no, ["--oneline"])
    place.fresh({workflow: CALLER, "a/action.yml": CALLED, "a/action.yaml": b""})
    empty = b"a/action.yaml:1:1: file is empty [syntax-check]\n"
    place.case("second-candidate-is-linted-and-answers-nothing", 1, MISSING_INPUT + empty, no, ["--oneline"])
    # the called action calls the next one, which has the fault
    composite = b"name: B\ndescription: d\nruns:\n  using: composite\n  steps:\n    - uses: ./a\n"
    place.fresh({workflow: CLEAN.replace(b"run: echo", b"uses: ./b"), "b/action.yml": composite, "a/action.yml": CALLED})
    place.case("action-called-by-an-action", 1, b'b/action.yml:6:13: required input "who" of "A" is missing [action]\n', no, ["--oneline"])
    place.fresh({workflow: CALLER, "a/action.yml": b"#" * 1_048_577})
    place.case("called-action-too-large", 3, no, refused("a/action.yml", 3), ["--oneline"])
    place.fresh({workflow: CALLER}, folders=["a/action.yml"])
    place.case("called-action-is-a-folder", 3, no, cannot_read("a/action.yml"), ["--oneline"])


def order_of_calls(place):
    """Of the paths that calls still wait for, the first one is tried each time, even if the file read last asked for it; the first fault
    ends the run, and a called file is read before it is counted, a listed one after that."""
    no = b""
    workflow, large = f"{WORKFLOWS}/m.yml", b"#" * 1_048_577
    calling = lambda *names: CLEAN.replace(b"      - run: echo\n", b"".join(b"      - uses: ./%s\n" % name.encode() for name in names))
    composite = b"name: C\ndescription: d\nruns:\n  using: composite\n  steps:\n    - uses: ./a\n"
    place.fresh({workflow: calling("d", "b"), "d/action.yml": large}, folders=["b/action.yml"])
    place.case("first-path-is-tried-first", 3, no, cannot_read("b/action.yml"))
    place.fresh({workflow: calling("d", "c"), "d/action.yml": large, "c/action.yml": composite}, folders=["a/action.yml"])
    place.case("path-of-a-called-file-is-tried-before-later-ones", 3, no, cannot_read("a/action.yml"))
    place.fresh({workflow: calling("c", "b"), "b/action.yml": large, "c/action.yml": composite}, folders=["a/action.yml"])
    place.case("path-of-a-file-that-is-not-taken-yet-comes-later", 3, no, refused("b/action.yml", 3))
    place.fresh({workflow: calling("b"), "b/action.yml": CALLED}, folders=["b/action.yaml"])
    place.case("second-candidate-is-tried-by-its-path", 3, no, cannot_read("b/action.yaml"))
    place.fresh({workflow: calling("b"), "b/action.yml": large, f"{WORKFLOWS}/z.yml": large})
    place.case("listed-files-are-taken-before-called-ones", 3, no, refused(f"{WORKFLOWS}/z.yml", 3))
    place.fresh({f"{WORKFLOWS}/{number:04}.yml": CLEAN for number in range(4_095)})
    place.write(workflow, calling("x"))
    place.case("folder-of-4096-files-without-the-called-one", 0, no, no)
    place.write("x/action.yml", CALLED)
    place.case("called-file-is-the-4097th", 3, no, refused("x/action.yml", 4))
    place.write("x/action.yml", large)
    place.case("called-file-too-large-is-the-4097th", 3, no, refused("x/action.yml", 3))
    place.write(f"{WORKFLOWS}/0000.yml", large)
    place.case("large-file-among-4096-listed-ones", 3, no, refused(f"{WORKFLOWS}/0000.yml", 3))
    place.write(f"{WORKFLOWS}/z.yml", CLEAN)
    place.case("4097-listed-files-are-refused-before-one-is-read", 3, no, refused(f"{WORKFLOWS}/z.yml", 4))


# ---- the folders of examples


def examples(place):
    no = b""
    top = os.path.join(os.path.dirname(os.path.abspath(__file__)), os.pardir, "examples")
    place.fresh()
    for name in ("release", "shared", "slips", "nightly", "calls", "loop", "shared-slips"):
        shutil.copytree(os.path.join(top, name), os.path.join(place.folder, name))
    place.case("example-without-a-fault", 0, no, no, ["--root", "release"])
    place.case("example-with-shared-parts", 0, no, no, ["--root", "shared"])
    for ending, given in (("report", []), ("oneline", ["--oneline"])):
        with open(os.path.join(top, f"slips.{ending}"), "rb") as file:
            place.case(f"example-with-slips-{ending}", 1, file.read(), no, [*given, "--root", "slips"])
    for name, shows in (("nightly", "rules-broken"), ("calls", "calls-that-disagree"), ("loop", "calls-that-lead-back"),
                        ("shared-slips", "faults-in-shared-parts")):
        with open(os.path.join(top, f"{name}.oneline"), "rb") as file:
            place.case(f"example-with-{shows}", 1, file.read(), no, ["--oneline", "--root", name])


# ---- scripts


def scripts(place):
    no = b""
    place.fresh()
    place.case("script-that-is-empty", 0, no, no, ["--session"])
    place.case("script-of-a-report", 0, b"status 0\n", no, ["--session"], stdin=b"report\n")
    empty = put(f"{WORKFLOWS}/a.yml", b"") + REPORT
    place.case("script-on-one-line", 1, b"ok 1\n" + EMPTY_REPORT + b"status 1\n", no, SCRIPT, stdin=empty)
    place.case("script-with-snippets", 1, b"ok 1\n" + EMPTY_SNIPPET + b"status 1\n", no, ["--session"], stdin=empty)
    place.case("bad-command", 2, b"status 0\nbad command\n", no, ["--session"], stdin=b"report\nreports\nreport\n")
    place.case("cut-command", 2, b"bad command\n", no, ["--session"], stdin=b"report")
    refused_edits = put("../x", b"") + put("x.yml", b"") + delete("action.yml")
    place.case("refused-edits", 0, b"refused E1\nrefused E2\nrefused E5\n", no, ["--session"], stdin=refused_edits)


if __name__ == "__main__":
    sys.exit(run_parts(words, folders, refusals, control_characters, kinds, links_out, links_inside, long_names, calls,
                       order_of_calls, examples, scripts))
