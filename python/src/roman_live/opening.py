"""The messages at the start of a home about the composition."""

from __future__ import annotations

from roman_client import Explanation


def first_step(explanation: Explanation) -> str:
    """The first step of an explanation, in words."""
    now = explanation.present
    where = f"the target is in {now.target}, and the environment in {now.environment}"
    if now.request is None:
        return f"{where}: the target may be left, and a service is in no final state"
    cannot = [each.service for each in now.answers if each.outcome is None]
    may = [f"{each.service} may answer {' '.join(each.outcome)}" for each in now.answers if each.outcome is not None]
    told = [*([f"{', '.join(cannot)} can't do it"] if cannot else []), *may] or ["there is no service"]
    return f"{where}; if {now.request} is requested, {', and '.join(told)}"


def without_composition(explanation: Explanation, document: str) -> str:
    """The message that there is no composition, with the first step of the explanation, and the way to see the rest."""
    rest = f"roman-draw {document} --why --text shows the rest"
    return f"there is no composition from the present states: {first_step(explanation)}; {rest}"
