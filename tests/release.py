"""Tests ./release on a commit of this tree: release.py PROGRAM.

The archive has the same bytes when made in two folders and in a git hook, sorted names and no owner, and its checksum is right. It contains
the program, the pages, whose links work, and the clients. The executable starts in an empty root with only the libraries that it loads
(without root this takes `unshare`). `--install` puts the same files there, also over older ones, which it lists, and changes nothing if
something else is in the way. For another user's clone git's own message is shown, and a read-only clone gives the program that it carries.
The steps that docs/CI.md shows for an archive run, and wrong arguments are refused. Prints a line for each case.
"""

import os
import re
import shutil
import subprocess
import sys
import tarfile
import textwrap

from copying import AS, TOP, carry, commit, copy_files, facts_beside
from links import broken_links
from running import CLEAN, NOBODY, WORKFLOWS, run_in_room, show


def run(words, **how):
    """Runs a command and collects its streams."""
    return subprocess.run([str(it) for it in words], capture_output=True, check=False, timeout=120, **how)


def failed(ran, status=0):
    """What of a run isn't as it should be."""
    return [] if ran.returncode == status else [f"status {ran.returncode}: {show(ran.stdout + ran.stderr)}"]


def clone(folder, program=None):
    """A repository with the files of this tree in one commit, which is always the same; with the sources too if it carries a program."""
    copy_files(folder, re.compile(rf"(docs|clients|LICENSES|tools{'|crates|prebuilt' * bool(program)})/|[^/]*$").match)
    if program:
        carry(folder, program)
    commit(folder)
    return folder


def both(program):
    """The arguments that name a linter and the other program."""
    return ["--program", program, "--facts", facts_beside(program)]


def made(folder, program, to):
    """The archive that a repository makes, and what went wrong."""
    ran = run([folder / "release", *both(program), "--to", to])
    found = sorted(to.glob("*.tar.gz")) if to.exists() else []
    return (found[0] if found else None), failed(ran) + ([] if len(found) == 1 else [f"{len(found)} archives"])


def contents(archive):
    """Sorted names, no owner, one time, and no file that others may write."""
    wrong = []
    with tarfile.open(archive) as tar:
        members = tar.getmembers()
    names = [it.name for it in members]
    for it in members:
        if (it.uid, it.gid, it.mode & 0o022) != (0, 0, 0) and not it.issym():
            wrong.append(f"{it.name}: owner {it.uid}:{it.gid}, mode {it.mode:o}")
    wrong += [] if len({it.mtime for it in members}) == 1 else ["times differ"]
    wrong += [] if [it.split("/") for it in names] == sorted(it.split("/") for it in names) else ["names are not in order"]
    base = names[0] if names else ""
    needed = ["bin/actionlint", "share/actionlint/LICENSE", "share/actionlint/LICENSES/clap.txt", "share/actionlint/README.md",
              "share/actionlint/docs/FAULTS.md"]
    needed += ["share/actionlint/clients/actionlint-lsp"] if (TOP / "clients/actionlint-lsp").exists() else []
    return wrong + [f"{it} is missing" for it in needed if f"{base}/{it}" not in names]


def with_facts(folder, program, room):
    """The other program is the one that is given, or that is beside the first; without it there is no release."""
    wrong = []
    (room / "both").mkdir()
    for name, bytes_of in (("actionlint", program), ("actionlint-facts", "/bin/true")):
        shutil.copy(bytes_of, room / "both" / name)
    for number, words in enumerate((["--program", room / "both/actionlint"], ["--program", program, "--facts", "/bin/true"])):
        prefix = room / f"facts-{number}"
        wrong += failed(run([folder / "release", *words, "--install", prefix]))
        there = prefix / "bin/actionlint-facts"
        wrong += [] if there.is_file() and there.stat().st_mode & 0o777 == 0o755 else [f"{there} isn't there"]
    (room / "alone").mkdir()
    shutil.copy(program, room / "alone/actionlint")
    for words in (["--program", program, "--facts", room / "none"], ["--program", room / "alone/actionlint"]):
        wrong += failed(run([folder / "release", *words, "--install", room / "facts-2"]), 1)
    return wrong + (["something was made without the other program"] if (room / "facts-2").exists() else [])


def under_another_name(folder, program, room):
    """Installed as `juzbrost`, beside another `actionlint`: that one stays, the clients run the renamed program, and the manual page and
    the completions are those of its name."""
    prefix, both = room / "renamed", room / "both"
    (prefix / "bin").mkdir(parents=True)
    (prefix / "bin/actionlint").write_text("another's")
    ran = run([folder / "release", "--program", both / "actionlint", "--name", "juzbrost", "--install", prefix])
    wrong = failed(ran) + ([] if b"overwrote" not in ran.stdout else [show(ran.stdout)])
    found = files_of(prefix)
    wrong += [] if found["bin/actionlint"][0] == b"another's" else ["another's program changed"]
    wrong += [f"{it} is missing" for it in ("bin/juzbrost", "bin/juzbrost-facts", "bin/actionlint-report", "share/man/man1/juzbrost.1",
                                            "share/fish/vendor_completions.d/juzbrost.fish") if it not in found]
    wrong += [f"{it} is there" for it in ("bin/actionlint-facts", "share/man/man1/actionlint.1") if it in found]
    page = found.get("share/man/man1/juzbrost.1", (b"",))[0].decode()
    for shown in (r"juzbrost [OPTIONS] [FILE]...", r"  juzbrost .github/workflows/release.yml    one of them"):
        wrong += [] if shown in page.splitlines() else [f"its manual page doesn't have {shown}"]
    for name, leads_to in (("actionlint", "juzbrost"), ("actionlint-facts", "juzbrost-facts")):
        link = prefix / "share/actionlint" / name
        wrong += [] if os.path.realpath(link) == str(prefix / "bin" / leads_to) else [f"no link to {leads_to}"]
    ran = run([prefix / "share/actionlint/clients/which-actionlint"], env={"PATH": "/usr/bin:/bin"})
    return wrong + ([] if ran.stdout.decode() == f"{prefix}/bin/juzbrost\n" else [f"the clients run {ran.stdout}: {show(ran.stderr)}"])


def unpacked(archive, room):
    """The archive's folder, unpacked as the steps of docs/CI.md do."""
    run(["tar", "-xzf", archive], cwd=room).check_returncode()
    return next(it for it in room.iterdir() if it.is_dir())


def files_of(folder):
    """Each file below a folder with its bytes, or the target of a link."""
    found = {}
    for path in sorted(folder.rglob("*")):
        if path.is_symlink():
            found[str(path.relative_to(folder))] = os.readlink(path)
        elif path.is_file():
            found[str(path.relative_to(folder))] = (path.read_bytes(), path.stat().st_mode & 0o777)
    return found


def alone(program, room):
    """Starts the executable in an empty root with only the libraries that it loads."""
    root = room / "root"
    for line in run(["ldd", program]).stdout.decode().splitlines():
        for path in re.findall(r"(/\S+)", line):
            (root / path[1:]).parent.mkdir(parents=True, exist_ok=True)
            shutil.copyfile(path, root / path[1:])
            (root / path[1:]).chmod(0o755)
    (root / WORKFLOWS).mkdir(parents=True)
    (root / WORKFLOWS / "a.yml").write_bytes(CLEAN)
    shutil.copy2(program, root / "actionlint")
    given = ["chroot", root, "/actionlint"] if os.geteuid() == 0 else ["unshare", "-r", "chroot", root, "/actionlint"]
    return failed(run(given, env={"PATH": "/usr/sbin:/usr/bin:/sbin:/bin"}))


def steps_of_the_page(archive, room):
    """The steps that docs/CI.md shows for an archive, in a repository that has it."""
    text = (TOP / "docs/CI.md").read_text(encoding="utf-8")
    block = re.search(r"^<!-- run: archive -->\n```yaml\n(.*?)^```", text, re.DOTALL | re.MULTILINE)[1]
    steps = [textwrap.dedent(lines) or line
             for line, lines in re.findall(r"^ +- run: (?:([^|\n]+)|\|\n((?: {10}.*\n)+))", block, re.MULTILINE)]
    folder = room / "used"
    (folder / "tools").mkdir(parents=True)
    shutil.copy2(archive, folder / "tools")
    (folder / WORKFLOWS).mkdir(parents=True)
    (folder / WORKFLOWS / "actionlint.yml").write_text(block, encoding="utf-8")
    wrong = [] if steps else ["docs/CI.md shows no steps"]
    for step in steps:
        wrong += failed(run(["bash", "-e", "-c", step], cwd=folder, env=os.environ | {"status": "7"}))
    (folder / WORKFLOWS / "faulty.yml").write_bytes(CLEAN.replace(b"on:", b"an:"))
    ran = run(["bash", "-e", "-c", steps[-1]], cwd=folder)
    matcher, stop, *report, resume = ran.stdout.decode().splitlines()
    matcher = folder / matcher.removeprefix("::add-matcher::")
    token = stop.removeprefix("::stop-commands::")
    wrong += failed(ran, 1) + ([] if matcher.is_file() else [f"there is no {matcher}"])
    wrong += [] if report and len(token) > 30 and resume == f"::{token}::" else [f"it prints {show(ran.stdout)}"]
    return wrong


def installed(folder, program, prefix, archived):
    """Installs over an older release with another file beside it: the result has the archive's files, and the replaced ones are listed."""
    (prefix / "bin").mkdir(parents=True)
    (prefix / "bin/actionlint").write_text("an older one")
    (prefix / "bin/other").write_text("another's")
    (prefix / "share/actionlint").mkdir(parents=True)
    for name in ("NEEDS", "gone"):
        (prefix / "share/actionlint" / name).write_text("an older one")
    ran = run([folder / "release", *both(program), "--install", prefix])
    said = [f"release: overwrote {prefix}/bin/actionlint", f"release: overwrote {prefix}/share/actionlint, a whole folder"]
    lines = ran.stdout.decode().splitlines()
    found = files_of(prefix)
    kept = found.pop("bin/other", None)
    return failed(ran) + ([] if kept and found == files_of(archived) else ["other files than in the archive"]) + (
        [] if lines[:-1] == said else [f"it said {lines}"])


def cloned_with_crlf(folder, room):
    """A clone has the committed bytes even if git would end each line with CRLF."""
    wrong = failed(run(["git", "clone", "-q", "-c", "core.autocrlf=true", folder, room / "cloned"]))
    here, there = ({name: it for name, it in files_of(it).items() if not name.startswith(".git/")} for it in (folder, room / "cloned"))
    return wrong + ([] if here == there else [f"differing: {sorted(name for name in here if here[name] != there.get(name))[:5]}"])


def from_a_link(folder, program, archive, room):
    """Started by a link from another folder: the same archive."""
    (room / "link").symlink_to(folder / "release")
    ran = run([room / "link", *both(program), "--to", room / "by-link"], cwd=room)
    return failed(ran) or ([] if (room / "by-link" / archive.name).read_bytes() == archive.read_bytes() else ["the bytes differ"])


def from_a_hook(folder, program, archive):
    """By relative paths although CDPATH leads elsewhere, in a hook of another repository: the same archive."""
    room = folder.parent
    other = room / "other"
    for name in (folder.name, "out-c"):
        (other / name).mkdir(parents=True)
    (other / "another's").write_text("")
    commit(other)
    hook = {"CDPATH": str(other), "GIT_DIR": str(other / ".git"), "GIT_INDEX_FILE": str(other / ".git/index")}
    ran = run([f"{folder.name}/release", *both(program), "--to", "out-c"], cwd=room, env=os.environ | hook)
    return failed(ran) or failed(run(["cmp", archive, room / "out-c" / archive.name]))


def in_the_way(folder, program, room):
    """If something that isn't from a release is in the way, nothing changes."""
    wrong = []
    for name, file in (("bin/actionlint", "bin/actionlint/a"), ("share/actionlint", "share/actionlint/a")):
        prefix = room / name.replace("/", "-")
        (prefix / file).parent.mkdir(parents=True)
        (prefix / file).write_text("another's")
        before = files_of(prefix)
        ran = run([folder / "release", *both(program), "--install", prefix])
        wrong += failed(ran, 1) + ([] if files_of(prefix) == before else [f"{name}: files changed"])
        wrong += [] if f"{prefix}/{name}".encode() in ran.stderr else [f"{name}: it said {show(ran.stderr)}"]
    return wrong


def of_another(folder, room):
    """Another user's clone: git's own message, which says what to do."""
    pretended = {"GIT_TEST_ASSUME_DIFFERENT_OWNER": "1", "GIT_CONFIG_COUNT": "0"}
    ran = run([folder / "release", "--install", room / "never"], env=os.environ | pretended)
    return failed(ran, 1) + ([] if b"safe.directory" in ran.stderr and b"has none" not in ran.stderr else [show(ran.stderr)])


def reading_alone(folder, room):
    """A read-only clone, as another user if this is root: the program that it carries is installed into a folder."""
    room.chmod(0o755)
    run(["chmod", "-R", "a=rX", folder]).check_returncode()
    (room / "home").mkdir()
    user = {}
    if os.geteuid() == 0:
        os.chown(room / "home", NOBODY, NOBODY)
        user = {"user": NOBODY, "group": NOBODY, "extra_groups": []}
    trusted = {"GIT_CONFIG_COUNT": "1", "GIT_CONFIG_KEY_0": "safe.directory", "GIT_CONFIG_VALUE_0": str(folder)}
    env = {"PATH": "/usr/bin:/bin", "HOME": str(room / "home"), **trusted}
    ran = run([folder / "release", "--install", room / "home/put"], env=env, cwd=room, **user)
    wrong = failed(ran) or failed(run([room / "home/put/bin/actionlint", "--help"]))
    ran = run([folder / "release"], env=env, cwd=room, **user)
    wrong += failed(ran, 1) + ([] if b"--to names another folder" in ran.stderr else [show(ran.stderr)])
    run(["chmod", "-R", "u+w", folder]).check_returncode()
    return wrong


def undated(folder, program):
    """What differs if ./release should refuse a version whose heading in CHANGELOG.md has no date."""
    log = folder / "CHANGELOG.md"
    version = (folder / "VERSION").read_text(encoding="utf-8").strip()
    log.write_text(re.sub(r"(?m)^(## [0-9.]+), .*$", r"\1", log.read_text(encoding="utf-8")), encoding="utf-8")
    run(["git", "-C", folder, *AS, "commit", "-qam", "no date"]).check_returncode()
    ran = run([folder / "release", *both(program), "--to", folder / "made"])
    wrong = failed(ran, 1) + (["something was made"] if (folder / "made").exists() else [])
    said = f"release: CHANGELOG.md has no heading with {version} and its date\n"
    return wrong + ([] if ran.stderr.decode() == said else [show(ran.stderr)])


def refused(folder, arguments, said):
    """What differs if ./release should refuse these arguments with status 2 and a line that says this before the usage."""
    ran = run([folder / "release", *arguments])
    line = f"release: {said}usage: release [--program PROGRAM] [--facts FACTS] [--name NAME] [[--deb] [--to DIR] | --install PREFIX]\n"
    return failed(ran, 2) + ([] if ran.stderr.decode() == line else [show(ran.stderr)])


def words(folder, program, room):
    """Arguments that are refused, and `--help`, which isn't."""
    return (
        refused(folder, ["bogus"], "unknown argument bogus; ")
        + refused(folder, ["--bogus", "x"], "unknown argument --bogus; ")
        + refused(folder, ["--to"], "--to needs a value; ")
        + refused(folder, ["--program", program, "--install", ""], "--install needs a value; ")
        + refused(folder, ["--name", "a/b"], "a/b can't be the name of a command; ")
        + refused(folder, ["--name", "-x"], "-x can't be the name of a command; ")
        + refused(folder, ["--name", "actionlint-report"], "actionlint-report is the name of another command of a release; ")
        + refused(folder, ["--deb", "--name", "J"], "J can't be the name of a package; ")
        + failed(run([folder / "release", "--help"]))
        + failed(run([folder / "release", "--install", room / "none", "--deb"]), 2)
        + failed(run([folder / "release", "--install", room / "none", "--to", room / "none"]), 2)
        + failed(run([folder / "release", "--program", room / "nowhere", "--to", room / "none"]), 1)
        + ([] if not (room / "none").exists() else ["something was made without a program"])
    )


def cases(program, room):
    """Each case with what differs."""
    first, second = clone(room / "a"), clone(room / "b" / "deeper")
    archive, wrong = made(first, program, room / "out-a")
    yield "archive", wrong
    if wrong:
        return
    other, wrong = made(second, program, room / "out-b")
    same = not wrong and archive.read_bytes() == other.read_bytes()
    yield "same-bytes-from-another-folder", wrong + ([] if same else ["the bytes differ"])
    yield "clone-with-crlf", cloned_with_crlf(first, room)
    yield "from-a-hook", from_a_hook(first, program, archive)
    yield "from-a-link", from_a_link(first, program, archive, room)
    yield "checksum", failed(run(["sha256sum", "-c", f"{archive.name}.sha256"], cwd=archive.parent))
    yield "what-is-in-it", contents(archive)
    (room / "here").mkdir()
    folder = unpacked(archive, room / "here")
    yield "links-of-its-pages", broken_links(folder / "share/actionlint")
    yield "started-with-what-it-needs", alone(folder / "bin/actionlint", room)
    yield "install", installed(first, program, room / "prefix", folder)
    yield "install-where-something-is", in_the_way(first, program, room)
    yield "clone-of-another-user", of_another(first, room)
    yield "clone-that-is-read-alone", reading_alone(clone(room / "c", program), room)
    yield "steps-of-the-page", steps_of_the_page(archive, room)
    yield "version-without-a-date", undated(clone(room / "d"), program)
    yield "with-facts", with_facts(first, program, room)
    yield "under-another-name", under_another_name(first, program, room)
    yield "wrong-words", words(first, program, room)


if __name__ == "__main__":
    sys.exit(run_in_room(cases))
