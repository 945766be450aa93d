"""Versions of actions: those that the folder uses, or ones that are known to exist."""
from __future__ import annotations

import re
from collections import Counter

from .project import Project

# A version of each of these actions that exists.
VERSIONS = {
    "actions/cache": "v4", "actions/checkout": "v4", "actions/configure-pages": "v5", "actions/deploy-pages": "v4",
    "actions/download-artifact": "v4", "actions/github-script": "v7", "actions/labeler": "v5", "actions/setup-dotnet": "v4",
    "actions/setup-go": "v5", "actions/setup-java": "v4", "actions/setup-node": "v4", "actions/setup-python": "v5", "actions/stale": "v9",
    "actions/upload-artifact": "v4", "actions/upload-pages-artifact": "v3", "docker/build-push-action": "v6", "docker/login-action": "v3",
    "docker/metadata-action": "v5", "docker/setup-buildx-action": "v3", "docker/setup-qemu-action": "v3",
    "codecov/codecov-action": "v5", "golangci/golangci-lint-action": "v6", "ruby/setup-ruby": "v1", "softprops/action-gh-release": "v2",
}


def owners_of(project: Project, name: str) -> list[str]:
    """The actions with a name that the folder uses or that are known to exist, with their owners."""
    used = re.compile(rf"uses['\"]?\s*:\s*['\"]?([\w-]+/{re.escape(name)})@")
    found = [action for path in project.paths() for action in used.findall(project.text(path))]
    return list(dict.fromkeys((*found, *(action for action in VERSIONS if action.partition("/")[2] == name))))


def versions(project: Project, name: str) -> list[str]:
    """The versions of an action that the folder uses, the most frequent first, or else one that is known to exist."""
    used = re.compile(rf"uses['\"]?\s*:\s*['\"]?{re.escape(name)}@([\w./-]+)", re.I)
    found = Counter(version for path in project.paths() for version in used.findall(project.text(path)))
    return [version for version, _ in found.most_common()] or [VERSIONS[name] for name in [name.lower()] if name in VERSIONS]
