"""The keys and activity types that are meant by words that other services have, or that aren't similar enough to be found."""
from __future__ import annotations

import re

# For each key the words that are written for it. A word that stands for several keys means the first one that its section has.
WORDS = {
    "run": "command commands script cmd exec bash pwsh powershell", "uses": "action task plugin use-action orb",
    "with": "args arguments params parameters inputs input settings config options",
    "env": "environment environment-variables variables vars environ",
    "name": "title display-name description label", "description": "desc help doc docs summary label title", "id": "step-id identifier",
    "if": "condition when only-if run-if only rules fi",
    "working-directory": "dir cwd workdir directory",
    "continue-on-error": "allow-failure allow-failures allow-error allow-errors continue-on-failure ignore-error ignore-errors "
                         "ignore-failure ignore-failures soft-fail",
    "timeout-minutes": "timeout max-minutes time-limit max-time max-duration",
    "runs-on": "os runner pool executor agent platform machine vm-image host",
    "needs": "depends-on requires dependencies after wait-for", "strategy": "matrix", "container": "image docker docker-image",
    "outputs": "exports", "secrets": "secret", "environment": "environments deployment", "jobs": "job stages",
    "on": "triggers trigger true",
    "steps": "tasks", "permissions": "scopes", "concurrency": "mutex lock resource-group concurrency-group",
    "inputs": "parameters params arguments args variables",
    "branches": "branch", "branches-ignore": "ignore-branches exclude-branches", "tags": "tag", "paths": "path files file directories",
    "paths-ignore": "ignore-paths exclude-paths ignore-files exclude-files",
    "types": "type actions activities event-type event-types events on", "type": "kind",
    "required": "mandatory obligatory", "default": "default-value value", "labels": "tags",
    "options": "choices values enum allowed-values", "value": "from", "group": "name key",
    "cancel-in-progress": "cancel cancel-running cancel-previous",
    "image": "name dockerfile img", "ports": "expose", "volumes": "mounts", "credentials": "auth login", "url": "link href",
    "timezone": "tz time-zone zone",
    "fail-fast": "stop-on-fail stop-on-failure", "shell": "interpreter",
    "max-parallel": "parallel parallelism max-concurrency", "using": "runtime type", "main": "entrypoint entry script file",
    "pre": "before setup", "post": "after cleanup teardown", "args": "command arguments cmd"}
# What other services need and GitHub doesn't.
MEANINGLESS = ("stage", "stages", "version", "language", "sudo", "dist")
# Activity types of other events with the same meaning, the first that the event has.
OTHER_TYPES = {"opened": "created submitted", "open": "opened created", "new": "opened created", "added": "created labeled",
               "created": "opened submitted", "create": "created opened", "removed": "deleted", "updated": "synchronize edited",
               "update": "synchronize edited", "changed": "edited synchronize", "modified": "edited", "finished": "completed",
               "success": "completed", "failure": "completed", "done": "completed", "merged": "closed", "push": "synchronize",
               "started": "in_progress requested", "synced": "synchronize"}
SIGNS = re.compile(r"[-_ ]")


def _bare(word: str) -> str:
    return SIGNS.sub("", word).lower()


_KEYS: dict[str, list[str]] = {}
for _key, _words in WORDS.items():
    for _word in _words.split():
        _KEYS.setdefault(_bare(_word), []).append(_key)


def other_keys(word: str) -> list[str]:
    """The keys that a word may be meant for, the most likely first."""
    return _KEYS.get(_bare(word), [])
