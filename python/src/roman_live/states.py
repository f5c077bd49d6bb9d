"""Parts of the state of a home as JSON."""

from __future__ import annotations

from collections.abc import Sequence
from typing import Any

from roman_client import Document, Done, Explanation, Failure, Report, Service

STUCK = "the target can go no further here, and isn't final"


def is_stuck(document: Document, report: Report) -> bool:
    """Whether the target allows nothing in a state that isn't final."""
    return not report.final and not document.allowed(report.target, report.environment)


def target_to_json(document: Document, report: Report) -> dict[str, Any]:
    """The target's state, and the states of all targets."""
    parts = zip(document.targets, document.target_states(report.target))
    return {
        "state": report.target,
        "final": report.final,
        "stuck": is_stuck(document, report),
        "targets": [{"name": each.name, "state": state} for each, state in parts],
    }


def actions_to_json(document: Document, report: Report) -> list[dict[str, Any]]:
    """The actions that may be requested, each with the services that may serve it, or the reason why it isn't
    allowed."""
    allowed = document.allowed(report.target, report.environment)
    actions = []
    for action in document.actions:
        why = "not allowed" if action not in allowed else "no composition"
        offered = list(report.offers.get(action, ()))
        after = document.target_after(report.target, report.environment, action) if offered else None
        actions.append(
            {
                "action": action,
                "allowed": action in allowed,
                "offered": offered,
                "why": None if offered else why,
                "target": None if after is None else list(document.target_states(after)),
                "outcomes": {
                    each.name: states_after(document, report, each, action)
                    for each in report.services
                    if each.name in offered
                },
            }
        )
    return actions


def states_after(document: Document, report: Report, service: Service, action: str) -> list[str]:
    """The states in which a service may be after an action."""
    outcomes = document.outcomes(service.behaviour, service.state, report.environment, action)
    return list(dict.fromkeys(state for state, _ in outcomes))


def explanation_to_json(explanation: Explanation) -> dict[str, Any]:
    """The explanation why there is no composition. Each entry is lost because of earlier entries, and the last entry is
    the present pair."""
    return {
        "text": str(explanation),
        "entries": [
            {
                "target": entry.target,
                "environment": entry.environment,
                "states": list(entry.states),
                "request": entry.request,
                "answers": [
                    {"service": each.service, "outcome": each.outcome and list(each.outcome)} for each in entry.answers
                ],
            }
            for entry in explanation.entries
        ],
    }


def failures_to_json(failures: Sequence[Failure]) -> list[dict[str, str]]:
    """The failures at a request."""
    return [{"service": each.service, "error": each.text} for each in failures]


def done_to_json(done: Done, number: int | None) -> dict[str, Any]:
    """A request that was served."""
    return {
        "id": number,
        "action": done.action,
        "served_by": done.service,
        "state": done.state,
        "environment": done.environment,
        "target": done.target,
        "failures": failures_to_json(done.failures),
    }
