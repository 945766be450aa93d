"""Which files are linted, by their paths relative to the repository's root directory; and the editor's URIs and the repository of a file,
whose paths are bytes, since folders' names need not be UTF-8."""
from __future__ import annotations

import os
import re
from urllib.parse import quote_from_bytes, unquote_to_bytes, urlsplit

from .linter_limits import MAX_PATH_BYTES

WORKFLOWS = ".github/workflows"
WORKFLOW_ENDINGS = (".yml", ".yaml")
ACTION_NAMES = ("action.yml", "action.yaml")
# A control character, a backslash, or a part between slashes that is empty or dots.
NO_PATH = re.compile(r"[\x00-\x1f\x7f\\]|(?:^|/)\.{0,2}(?:/|\Z)")


def is_workflow(path: str) -> bool:
    folder, _, name = path.rpartition("/")
    return folder == WORKFLOWS and name.endswith(WORKFLOW_ENDINGS) and name not in WORKFLOW_ENDINGS


def is_action(path: str) -> bool:
    return path.rpartition("/")[2] in ACTION_NAMES


def is_linted(path: str) -> bool:
    """Whether a file is a workflow or an action. The linter itself refuses paths that are wrong in other ways."""
    return is_workflow(path) or is_action(path)


def is_path(path: str) -> bool:
    """Whether a path can be used in a command of the session."""
    return NO_PATH.search(path) is None and len(path.encode("utf-8", "surrogatepass")) <= MAX_PATH_BYTES


def path_of_word(word: str) -> str:
    """An argument as the linter reads it, which is UTF-8 in each locale."""
    return os.fsencode(word).decode("utf-8", "replace")


def is_below(path: bytes, folder: bytes) -> bool:
    """Whether an absolute path is a directory or in it."""
    return path == folder or path.startswith(folder.rstrip(b"/") + b"/")


def path_of(uri: str) -> bytes | None:
    """The path of a `file` URI of this machine, the same for all spellings of the URI. None if there can be no such file."""
    try:
        parts = urlsplit(uri)
        path = unquote_to_bytes(parts.path)
    except ValueError:
        return None
    if parts.scheme != "file" or parts.netloc not in ("", "localhost") or not path.startswith(b"/") or b"\0" in path:
        return None
    return os.path.normpath(b"/" + path.lstrip(b"/"))


def uri_of(root: bytes, path: str) -> str:
    return "file://" + quote_from_bytes(os.path.join(root, path.encode("utf-8")))


def root_of_folder(folder: bytes, workspace: list[bytes]) -> bytes:
    """The nearest folder, from this one upwards, with a `.git` or workflows; else the innermost of the workspace around it, or itself."""
    above = folder
    while True:
        if os.path.exists(os.path.join(above, b".git")) or os.path.isdir(os.path.join(above, WORKFLOWS.encode())):
            return above
        if above == os.path.dirname(above):
            break
        above = os.path.dirname(above)
    return max((root for root in workspace if is_below(folder, root)), key=len, default=folder)


def root_of_file(file: bytes, workspace: list[bytes]) -> bytes:
    """The folder above `.github/workflows` for a file there, else that of its folder."""
    folder = os.path.dirname(file)
    if folder.endswith(b"/" + WORKFLOWS.encode()):
        return folder[: -len(WORKFLOWS) - 1] or b"/"
    return root_of_folder(folder, workspace)
