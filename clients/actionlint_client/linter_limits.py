"""What the linter accepts at most, as limits.json has it."""
from __future__ import annotations

import json
from pathlib import Path

_LIMITS: dict[str, int] = json.loads((Path(__file__).parent / "limits.json").read_text(encoding="utf-8"))

MAX_FILE_BYTES = _LIMITS["bytes_of_file"]
MAX_FILES = _LIMITS["files"]
MAX_PATH_BYTES = _LIMITS["bytes_of_path"]
MAX_EXPRESSION_BYTES = _LIMITS["bytes_of_expression"]
