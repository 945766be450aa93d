#!/usr/bin/python3
"""Every key of the SARIF of the examples is one of the SARIF 2.1.0 object model (python3-sarif-python-om), and no required one is missing.
The schema itself is in no package.

    sarif_model.py PROGRAM [NAME...]
"""
from __future__ import annotations

import json
import sys

import attr
import sarif_om

from cases import Cases
from reports import EXAMPLES, run

CASES = Cases("sarif-model")
# By key, what an object there is.
OBJECTS = {"runs": "Run", "tool": "Tool", "driver": "ToolComponent", "rules": "ReportingDescriptor", "results": "Result",
           "message": "Message", "locations": "Location", "physicalLocation": "PhysicalLocation", "artifactLocation": "ArtifactLocation",
           "region": "Region", "invocations": "Invocation", "toolExecutionNotifications": "Notification",
           "shortDescription": "MultiformatMessageString", "fullDescription": "MultiformatMessageString",
           "help": "MultiformatMessageString", "defaultConfiguration": "ReportingConfiguration"}


def check(value: dict, name: str) -> None:
    fields = attr.fields_dict(getattr(sarif_om, name))
    known = {field.metadata.get("schema_property_name", key): field for key, field in fields.items()}
    for key, inner in value.items():
        assert key in known, f"{key} is no key of {name}"
        for item in inner if isinstance(inner, list) else [inner]:
            if isinstance(item, dict):
                check(item, OBJECTS[key])
    for key, field in known.items():
        assert key in value or field.default is not attr.NOTHING, f"{name} lacks {key}"


@CASES.case
def keys(program: str) -> None:
    assert EXAMPLES
    for folder in [*EXAMPLES, "/nonexistent"]:
        check(json.loads(run(program, "sarif", "--root", folder)[1]), "SarifLog")


if __name__ == "__main__":
    sys.exit(CASES.run(sys.argv[1:]))
