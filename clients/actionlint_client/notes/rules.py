"""All rules, and the notes of a file."""
from __future__ import annotations

from typing import Callable, Iterator

from . import actions, conditions, folder, keys, matrices, outputs, patterns, properties, runners, strangers, values
from .file import File, Finding

RULES: tuple[Callable[[File], Iterator[Finding]], ...] = (
    keys.empty_values, keys.jobs_without_steps, keys.missing_keys, keys.unknown_keys, keys.keys_beside, keys.keys_by_case,
    values.fixed_values, values.filters, values.activity_types, values.inputs, values.constant_json, values.expression_types,
    runners.ended_labels, runners.slips_of_labels, actions.versions, conditions.constant_conditions, conditions.blanks_outside,
    conditions.compared_kinds, matrices.compared_values, matrices.excluded_values, matrices.repeated_values, patterns.patterns,
    outputs.unwritten_outputs, folder.unused_anchors, folder.deprecated_inputs, folder.missing_files, folder.slips_of_secrets,
    properties.unknown_properties, runners.labels_of_two_runners, runners.missing_shells, strangers.untrusted_texts,
    patterns.regular_expressions, actions.inputs_of_actions)


def findings(file: File) -> list[Finding]:
    """The notes of a file in the order of their places, each once, though a node behind an alias is looked at for each."""
    return sorted({found for rule in RULES for found in rule(file)})
