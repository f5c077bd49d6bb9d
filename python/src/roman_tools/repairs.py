"""Makes documents without the cause of a finding. Findings that they don't have are consequences of that cause."""

from __future__ import annotations

from collections.abc import Callable, Collection
from typing import Any

from roman_client import Document

from .placed import PlacedList, replaced, span_of

Part = tuple[str, int]
"""The kind of a machine, `behaviour` or `target`, and its number."""


def with_moves(document: Document, action: str, states: Collection[str], to: Collection[str] = ()) -> Document:
    """The document in which the environment has steps on an action also from these states: to each of `to`, or back to
    the same state."""
    environment = document.environment
    missing = set(states) - environment.before(action)
    before = [state for state in environment.states if state in missing]
    span = span_of(environment.start)
    moves = [PlacedList([one, action, other], span, [span] * 3) for one in before for other in (to or (one,))]
    value = document.value["environment"]
    return Document(replaced(document.value, environment=replaced(value, steps=[*value["steps"], *moves])))


def with_machine(document: Document, part: Part, change: Callable[[Any], dict[str, Any]]) -> Document:
    """The document in which some members of a behaviour or a target have other values."""
    kind, number = part
    if kind == "target" and document.version != 3:
        target = document.value["target"]
        return Document(replaced(document.value, target=replaced(target, **change(target))))
    machines = list(document.value[f"{kind}s"])
    machines[number] = replaced(machines[number], **change(machines[number]))
    return Document(replaced(document.value, **{f"{kind}s": machines}))


def with_guards(document: Document, part: Part, numbers: Collection[int]) -> Document:
    """The document in which the guards of these steps always hold."""

    def opened(step: Any) -> PlacedList:
        return PlacedList([step[0], True, *step[2:]], step.span, step.spans)

    def steps(machine: Any) -> dict[str, Any]:
        return {"steps": [opened(step) if at in numbers else step for at, step in enumerate(machine["steps"])]}

    return with_machine(document, part, steps)


def with_requests(document: Document, action: str) -> Document:
    """The document in which the targets' requests for an action have no guards, and the environment takes it."""
    to = places_of(document, action)
    for seat, target in enumerate(document.targets):
        numbers = [at for at, step in enumerate(target.steps) if step.action == action]
        document = with_guards(document, ("target", seat), numbers)
    return with_moves(document, action, document.environment.states, to)


def with_way_on(document: Document, seat: int, state: str, action: str, states: Collection[str]) -> Document:
    """The document in which a target can continue from a state: the guards of its steps always hold, and the
    environment has a step on the action in these states."""
    numbers = [at for at, step in enumerate(document.targets[seat].steps) if step.state == state]
    opened = with_guards(document, ("target", seat), numbers)
    return with_moves(opened, action, states, places_of(document, action))


def with_final(document: Document, seat: int, state: str) -> Document:
    """The document in which a state of a target is final."""
    return with_machine(document, ("target", seat), lambda target: {"final": [*target["final"], state]})


def places_of(document: Document, action: str) -> list[str]:
    """The states of the environment to which an action leads."""
    return list(dict.fromkeys(step.to for step in document.environment.steps if step.action == action))
