"""Tests the Debian package that `./release --deb` makes, the manual page, and shell completion: packages.py PROGRAM.

The package has the same bytes when made in two folders; dpkg installs it below a root of its own if the C library is new enough, and
otherwise refuses it; its programs run from there, the clients find theirs, and removing it leaves nothing. The manual page has the words of
the program's help and its version, and bash, zsh and fish are asked what they complete. A case whose command is missing on this machine
(dpkg, mandoc, fish, zsh) is skipped. Prints a line for each case.
"""

import gzip
import pathlib
import re
import shutil
import sys
import tempfile

from copying import TOP
from release import both, clone, failed, run
from running import CALLED, CALLER, MISSING_INPUT, WORKFLOWS, run_in_room, write_files

WORDS = ["--oneline", "--root", "--session", "--help"]
# Some of the words on the manual pages, by command.
PAGES = {
    "actionlint": [*WORDS, "Takes commands from standard input", "actionlint --root \"$(git rev-parse --show-toplevel)\""],
    "actionlint-report": ["--form", "--ignore CODE[:PATH]", "--shellcheck", "--version"],
    "actionlint-lsp": ["--no-earlier-faults", "--timeout SECONDS", "--version"],
}
INSTALLED = "Package: libc6\nStatus: install ok installed\nArchitecture: amd64\nMaintainer: x\nVersion: {}\nDescription: x\n\n"
LOG = re.compile(r"juzbrost-actionlint \([\d.]+\) unstable; urgency=medium\n\n  \* .+\n\n"
                 r" -- .+ <.+>  \w{3}, \d\d \w{3} \d{4} \d\d:\d\d:\d\d \+0000\n")
CLIENTS = ["README.md", "actionlint-lsp", "actionlint-report", "actionlint_client", "emacs", "github", "neovim", "vim",
           "which-actionlint"]
ENVIRONMENT = {"PATH": "/usr/sbin:/usr/bin:/sbin:/bin", "LC_ALL": "C.UTF-8"}


def made(folder, program, to):
    """The package that a repository makes, and what went wrong."""
    wrong = failed(run([folder / "release", *both(program), "--deb", "--to", to]))
    found = sorted(to.glob("*.deb")) if to.exists() else []
    return (found[0] if found else None), wrong + ([] if len(found) == 1 else [f"{len(found)} packages"])


def dpkg(root, *words):
    """Runs dpkg on a root of its own, as any user."""
    given = ["--force-not-root", "--force-script-chrootless", f"--root={root}", f"--log={root}/log", *words]
    return run(["dpkg", *given], env=ENVIRONMENT)


def scratch_root(room, glibc):
    """A root in which only the C library is installed."""
    root = pathlib.Path(tempfile.mkdtemp(dir=room))
    for name in ("info", "updates"):
        (root / "var/lib/dpkg" / name).mkdir(parents=True)
    (root / "var/lib/dpkg/status").write_text(INSTALLED.format(glibc))
    return root


def repository(room):
    """A folder with a workflow that doesn't give an input of an action."""
    folder = pathlib.Path(tempfile.mkdtemp(dir=room))
    write_files(folder, {f"{WORKFLOWS}/c.yml": CALLER, "a/action.yml": CALLED})
    return folder


def installed(package, root, room, version):
    """Installs the package, runs its programs, and removes it."""
    wrong = failed(dpkg(root, "-i", package))
    lint = run([root / "usr/bin/actionlint", "--oneline"], cwd=repository(room), env=ENVIRONMENT)
    wrong += failed(lint, 1) + ([] if lint.stdout == MISSING_INPUT else [f"it reports {lint.stdout}"])
    ran = run([root / "usr/bin/actionlint-report", "--form", "jsonl"], cwd=repository(room), env=ENVIRONMENT)
    wrong += failed(ran, 1) + ([] if b'"C3"' in ran.stdout else [f"the report is {ran.stdout}"])
    ran = run([root / "usr/bin/actionlint-report", "--version"], env=ENVIRONMENT)
    wrong += [] if ran.stdout.decode() == f"actionlint-report {version}\n" else [f"its version is {ran.stdout}"]
    wrong += failed(dpkg(root, "--verify", "juzbrost-actionlint"))
    wrong += failed(dpkg(root, "-r", "juzbrost-actionlint"))
    left = [str(it.relative_to(root)) for it in (root / "usr").rglob("*")] if (root / "usr").exists() else []
    return wrong + [f"{it} is left" for it in left]


def refused(package, room):
    """With an older C library dpkg doesn't configure it."""
    ran = dpkg(scratch_root(room, "2.33-1"), "-i", package)
    return [] if ran.returncode and b"depends on libc6 (>= 2.34)" in ran.stderr else [f"status {ran.returncode}: {ran.stderr}"]


def control(package, version):
    """What the package says about itself."""
    said = run(["dpkg-deb", "-f", package]).stdout.decode()
    wanted = ["Package: juzbrost-actionlint", f"Version: {version}", "Architecture: amd64", "Depends: libc6 (>= 2.34)",
              "Recommends: python3, python3-pylsp-jsonrpc"]
    return [f"{it} is missing" for it in wanted if it not in said.splitlines()]


def contents(package, version, room):
    """The changelog has Debian's form and the version; and there are only the clients that work without the repository."""
    root = room / "unpacked"
    wrong = failed(run(["dpkg-deb", "-x", package, root]))
    log = gzip.decompress((root / "usr/share/doc/juzbrost-actionlint/changelog.gz").read_bytes()).decode()
    wrong += [] if LOG.fullmatch(log) and f"({version})" in log else [f"the log is {log!r}"]
    notices = (root / "usr/share/doc/juzbrost-actionlint/copyright").read_text(encoding="utf-8")
    licences = {it.stem: it.read_text(encoding="utf-8") for it in sorted((TOP / "LICENSES").glob("*.txt"))}
    wrong += [f"no licence of {name}" for name, licence in licences.items() if licence not in notices]
    clients = sorted(it.name for it in (root / "usr/share/actionlint/clients").iterdir())
    return wrong + ([] if clients == CLIENTS else [f"the clients are {clients}"])


def renamed(folder, program, room, version):
    """With `--name` the package and its program have that name, and only a package of the same files is in its way."""
    wrong = failed(run([folder / "release", *both(program), "--deb", "--name", "juzbrost", "--to", room / "out-renamed"]))
    package = room / f"out-renamed/juzbrost_{version}_amd64.deb"
    if wrong or not package.exists():
        return wrong + [f"there is no {package}"]
    said = run(["dpkg-deb", "-f", package]).stdout.decode().splitlines()
    wanted = ["Package: juzbrost", "Provides: juzbrost-actionlint", "Conflicts: juzbrost-actionlint", "Replaces: juzbrost-actionlint"]
    wrong = [f"{it} is missing" for it in wanted if it not in said] + ["it conflicts with another's"] * ("Conflicts: actionlint" in said)
    root = scratch_root(room, "2.36-9")
    (root / "usr/bin").mkdir(parents=True)
    (root / "usr/bin/actionlint").write_text("another's")
    wrong += failed(dpkg(root, "-i", package))
    lint = run([root / "usr/bin/juzbrost", "--oneline"], cwd=repository(room), env=ENVIRONMENT)
    wrong += failed(lint, 1) + ([] if lint.stdout == MISSING_INPUT else [f"it reports {lint.stdout}"])
    ran = run([root / "usr/bin/actionlint-report", "--form", "oneline"], cwd=repository(room), env=ENVIRONMENT)
    wrong += failed(ran, 1) + ([] if ran.stdout == MISSING_INPUT else [f"the report is {ran.stdout}"])
    return wrong + ([] if (root / "usr/bin/actionlint").read_text() == "another's" else ["another's program changed"])


def manual_page(prefix, command, needed, version):
    """A command's page, as mandoc shows it: no warning, words of the command's help, and the version."""
    page = prefix / f"share/man/man1/{command}.1"
    lint = run(["mandoc", "-T", "lint", "-W", "warning", page])
    shown = run(["mandoc", "-T", "ascii", "-O", "width=300", page]).stdout.decode()
    text = re.sub(".\x08", "", shown)
    help_text = run([prefix / "bin" / command, "--help"]).stdout.decode()
    wrong = failed(lint) + [f"{it} is missing" for it in (*needed, f"{command} {version}") if it not in text]
    return wrong + [f"{it} is missing in the help" for it in needed if it not in help_text]


def bash_completes(file, typed, folder):
    """What bash completes for the last of the words typed."""
    command = typed.split(" ")[0]
    script = 'source "$1"; COMP_WORDS=($2); [[ $2 == *" " ]] && COMP_WORDS+=(""); COMP_CWORD=$((${#COMP_WORDS[@]} - 1)); '
    script += f'_{command.replace("-", "_")}; printf "%s\\n" "${{COMPREPLY[@]}}"'
    return sorted(run(["bash", "-c", script, "bash", file, typed], cwd=folder).stdout.decode().split())


def fish_completes(file, typed, folder):
    """What fish completes for a line."""
    given = ["fish", "--no-config", "-c", "source $argv[1]; complete -C $argv[2]", file, typed]
    ran = run(given, cwd=folder, env=ENVIRONMENT | {"HOME": str(folder)})
    return sorted(it.split("\t")[0] for it in ran.stdout.decode().splitlines())


def zsh_words(file):
    """What the file passes to zsh's `_arguments`: each word with its text and its values."""
    script = '_arguments() { print -rl -- "$@" }; source $1'
    return run(["zsh", "-fc", script, "zsh", file], env=ENVIRONMENT).stdout.decode().splitlines()


def shells(share, room):
    """What each shell completes: words, values, folders and files."""
    folder = repository(room)
    (folder / "sub").mkdir()
    asked = (("actionlint --", WORDS), ("actionlint --r", ["--root"]), ("actionlint --root s", ["sub"]),
             ("actionlint a/ac", ["a/action.yml"]), ("actionlint-report --form c", ["codequality"]),
             ("actionlint-report --color a", ["always", "auto"]))
    wrong = []
    for typed, wanted in asked:
        found = bash_completes(share / "bash-completion/completions" / typed.split(" ")[0], typed, folder)
        wrong += [] if found == sorted(wanted) else [f"{typed!r} gives {found}"]
    yield "bash", wrong
    if shutil.which("fish"):
        wrong = []
        for typed, wanted in asked:
            found = fish_completes(share / f"fish/vendor_completions.d/{typed.split(' ')[0]}.fish", typed, folder)
            wrong += [] if [it.rstrip("/") for it in found] == sorted(wanted) else [f"{typed!r} gives {found}"]
        yield "fish", wrong
    else:
        yield "fish", None
    if shutil.which("zsh"):
        found = zsh_words(share / "zsh/site-functions/_actionlint") + zsh_words(share / "zsh/site-functions/_actionlint-report")
        wanted = ["--oneline[Prints each fault as one line, without the line of the file below it]",
                  r"--root=[The root directory of the repository \[default\: .\]]:DIR:_files -/", "*:FILE:_files"]
        wrong = [f"{it!r} is missing of {found}" for it in wanted if it not in found]
        colors = [it for it in found if it.startswith("--color=[") and it.endswith(":value:(auto always never)")]
        yield "zsh", wrong + ([] if colors else [f"no colors are in {found}"])
    else:
        yield "zsh", None


def cases(program, room):
    """Each case with what differs, or None if it can't be run."""
    if not shutil.which("dpkg-deb"):
        yield "package", None
        return
    first, second = clone(room / "a"), clone(room / "b" / "deeper")
    version = (first / "VERSION").read_text().strip()
    package, wrong = made(first, program, room / "out-a")
    yield "package", wrong or control(package, version)
    if wrong:
        return
    other, wrong = made(second, program, room / "out-b")
    yield "package-of-the-same-bytes", wrong + ([] if package.read_bytes() == other.read_bytes() else ["the bytes differ"])
    yield "package-checksum", failed(run(["sha256sum", "-c", f"{package.name}.sha256"], cwd=package.parent))
    yield "package-contents", contents(package, version, room)
    yield "package-installed", installed(package, scratch_root(room, "2.36-9"), room, version)
    yield "package-refused", refused(package, room)
    yield "package-of-another-name", renamed(first, program, room, version)
    prefix = room / "put"
    run([first / "release", *both(program), "--install", prefix]).check_returncode()
    for command, needed in PAGES.items():
        yield f"manual-page-of-{command}", manual_page(prefix, command, needed, version) if shutil.which("mandoc") else None
    for name, wrong in shells(prefix / "share", room):
        yield f"completed-by-{name}", wrong


if __name__ == "__main__":
    sys.exit(run_in_room(cases))
