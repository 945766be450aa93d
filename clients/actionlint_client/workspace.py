"""The linted repositories: those of the workspace's folders, and those in which a workflow or an action is open."""
from __future__ import annotations

import os
from typing import Callable

from .diagnostics import Diagnostics
from .editor import Editor
from .paths import is_below, is_linted, path_of, root_of_file, root_of_folder
from .repository import Document, Repository
from .script_checks import ScriptChecks

RESCAN_SECONDS = 2.0
LEAST_WAIT_SECONDS = 0.1


class Workspace:
    """The next `refresh` shows what an edit changed."""

    def __init__(self, new_repository: Callable[[bytes], Repository], editor: Editor, diagnostics: Diagnostics):
        self.is_stale = False
        self._new_repository, self._editor, self._diagnostics = new_repository, editor, diagnostics
        self._repositories: dict[bytes, Repository] = {}
        self._documents: dict[bytes, Document] = {}
        # The workspace's folders, each with the root of its repository.
        self._folders: dict[bytes, bytes] = {}

    def document(self, uri: str) -> Document | None:
        """The open workflow or action with a URI."""
        return self._documents.get(path_of(uri) or b"")

    def repositories(self) -> list[Repository]:
        return list(self._repositories.values())

    def add_folders(self, paths: list[bytes]) -> None:
        for path in paths:
            root = self._folders[path] = root_of_folder(path, [])
            self._repository(root)

    def remove_folders(self, paths: set[bytes]) -> None:
        self._folders = {path: root for path, root in self._folders.items() if path not in paths}
        self._let_go()

    def open(self, uri: str, version: int | None, data: bytes) -> None:
        """Files other than workflows and actions are ignored. One that is open already stays in its repository."""
        file = path_of(uri)
        document = self.document(uri) or file and self._new_document(file)
        if document:
            document.versions[uri] = version
            self.change(uri, version, data)

    def change(self, uri: str, version: int | None, data: bytes) -> None:
        document = self.document(uri)
        if document is not None:
            document.versions[document.opened_as(uri)] = version
            document.repository.edit(document.path, data)
            self.is_stale = True

    def close(self, uri: str) -> None:
        """A file that was opened under several URIs stays open until it is closed as often."""
        document = self.document(uri)
        if document is None:
            return
        del document.versions[document.opened_as(uri)]
        if not document.versions:
            del self._documents[path_of(uri) or b""]
            del document.repository.documents[document.path]
            document.repository.edit(document.path, None)
            self._let_go()
        self.is_stale = True

    def rescan(self) -> None:
        """Looks at the disk again."""
        for repository in self._repositories.values():
            repository.folder.rescan()
        self.is_stale = True

    def take_changed_files(self, uris: list[str]) -> None:
        """Reads these files again, and looks for others on disk."""
        paths = [path for path in map(path_of, uris) if path]
        for repository in self._repositories.values():
            below = {os.path.relpath(path, repository.root) for path in paths if is_below(path, repository.root)}
            repository.folder.rescan({path.decode("utf-8", "replace") for path in below})
        self.is_stale = True

    def refresh(self) -> None:
        """Shows the faults of all repositories as they are now."""
        self.is_stale = False
        for repository in self._repositories.values():
            repository.refresh(self._editor, self._diagnostics)
        ignored, repositories = self._diagnostics.ignored, self.repositories()
        if ignored.has_untold_rules() and repositories and all(repository.is_linted() for repository in repositories):
            ignored.tell_unused(set().union(*(repository.files_with_unknown_faults() for repository in repositories)))

    def take_notes(self, checks: ScriptChecks) -> None:
        """Takes new notes, or says why there are none."""
        for root, path in checks.take_news():
            if root in self._repositories:
                self._repositories[root].show_again(path)
                self.is_stale = True
        if why := checks.take_failure():
            self._editor.say(why)

    def renew_notes(self, checks: ScriptChecks) -> None:
        """Has the notes on open files made again, since they depend on other files, which changed on disk."""
        for repository in self._repositories.values() if checks.is_on else ():
            for path in repository.documents:
                checks.forget((repository.root, path))
                repository.show_again(path)
            self.is_stale = True

    def wait_seconds(self) -> float | None:
        """How long to wait for a message before looking at a disk that the editor doesn't watch, or starting one that ended too often."""
        delays = [delay for repository in self._repositories.values() if (delay := repository.folder.delay())]
        if delays:
            return max(min(delays), LEAST_WAIT_SECONDS)
        # An editor watches the folders of its workspace.
        watched = set(self._folders.values()) if self._editor.watches() else set()
        return None if all(root in watched for root in self._repositories) else RESCAN_SECONDS

    def end(self) -> None:
        for repository in self._repositories.values():
            repository.folder.close()

    def _new_document(self, file: bytes) -> Document | None:
        root = root_of_file(file, list(self._folders))
        try:
            path = os.path.relpath(file, root).decode("utf-8")
        except UnicodeDecodeError:
            self._editor.say(f"not linted, since its name is not UTF-8: {os.fsdecode(file)!r}")
            return None
        if not is_linted(path):
            return None
        self._documents[file] = self._repository(root).open(path)
        return self._documents[file]

    def _repository(self, root: bytes) -> Repository:
        repository = self._repositories.get(root)
        if repository is None:
            repository = self._repositories[root] = self._new_repository(root)
            self.is_stale = True
        return repository

    def _let_go(self) -> None:
        """Stops the linters of folders that are no longer linted."""
        kept = set(self._folders.values())
        for root, repository in list(self._repositories.items()):
            if root not in kept and not repository.documents:
                del self._repositories[root]
                repository.close(self._editor)
