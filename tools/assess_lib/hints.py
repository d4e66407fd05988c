"""Which hints are tried at which refusal, the surest first."""

from __future__ import annotations

from typing import Callable, Optional

from assess_lib import hints_bytes as on_bytes
from assess_lib import hints_forms as on_forms
from assess_lib import hints_names as on_names
from assess_lib import hints_order as on_order
from assess_lib.case import Case

Rule = Callable[[Case], Optional[str]]

RULES: dict[str, list[Rule]] = {
    "E01": [on_bytes.large_text],
    "E02": [on_bytes.foreign_letter],
    "E03": [on_bytes.long_name, on_bytes.nested_comment, on_bytes.other_comment, on_bytes.sign],
    "E04": [on_bytes.large_number],
    "E05": [
        on_forms.call_form,
        on_forms.foreign_word,
        on_forms.missing_semicolon,
        on_forms.small_letters,
        on_forms.several_names,
        on_forms.relation_sign,
        on_forms.assignment_sign,
        on_forms.name_of_declaration,
        on_forms.exit_form,
        on_forms.condition_missing,
        on_forms.chained,
        on_forms.inner_sign,
        on_forms.named_type,
        on_forms.alone,
        on_forms.parentheses,
        on_forms.comment_inside,
        on_forms.never_closed,
    ],
    "E06": [on_order.out_of_order],
    "E07": [on_order.unmatched_block, on_order.unmatched_label],
    "E08": [on_names.declared_before],
    "E09": [on_names.unknown_name],
    "E10": [
        on_names.number_to_bool,
        on_names.equal_conditions,
        on_names.kind_of_name,
        on_names.sides_of_enumerations,
        on_names.number_as_condition,
    ],
    "E11": [on_names.wrong_mode],
    "E12": [on_names.empty_range],
    "E13": [on_names.too_wide],
    "E14": [on_names.too_many],
    "E16": [on_names.call_does_not_fit],
}
MOST = 2


def hints_of(case: Case) -> list[str]:
    """At most two hints on the fault; none where it is no usual slip."""
    found = (rule(case) for rule in RULES.get(case.refusal.code, []))
    return list(dict.fromkeys(hint for hint in found if hint))[:MOST]
