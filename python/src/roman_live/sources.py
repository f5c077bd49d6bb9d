"""The source of a request, and the reason for a choice, for events."""

from __future__ import annotations

from contextvars import ContextVar

from roman_client.policies import Choice

from .config import PolicyName

LONGEST_NAME = 64
"""The most characters of a source's name."""

SOURCE: ContextVar[str | None] = ContextVar("source", default=None)
"""The source of the request that the present task serves."""

REASONS = {
    PolicyName.FIRST: "the first of {}",
    PolicyName.ROUND_ROBIN: "its turn among {}",
    PolicyName.LEAST_COST: "it costs least of {}",
    PolicyName.LEAST_WORST: "with it the next requests cost least at worst, of {}",
}


def source_of(given: object, channel: str) -> str:
    """The name of the source of a request: the given one, or its channel."""
    return given[:LONGEST_NAME] if isinstance(given, str) and given.strip() else channel


def reason(choice: Choice, policy: PolicyName) -> str:
    """The reason why a service was chosen."""
    return "no other may" if len(choice.offered) == 1 else REASONS[policy].format(", ".join(choice.offered))
