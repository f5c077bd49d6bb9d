"""The picture of what can happen from the start if offered services are used."""

from __future__ import annotations

from dataclasses import dataclass
from typing import Any

from roman_client import Document

from .pictures import CHOICE, FADED, PLAIN, WRONG, Wrong, coloured, folded, graph, html, marked

MOST = 40
"""The maximum number of pairs in a picture."""


@dataclass(frozen=True)
class Pair:
    """A state of the target, of the environment, and of each service."""

    target: str
    environment: str
    services: tuple[str, ...]


class Arena:
    """The pairs of a document, and those of them that are lost."""

    def __init__(self, document: Document, lost: set[int]) -> None:
        self.document = document
        self.lost = lost
        states = tuple(service.state for service in document.services)
        self.start = Pair(document.start, document.environment.start, states)

    @classmethod
    def of_certificate(cls, document: Document, certificate: str) -> Arena:
        """The pairs of a document. The certificate lists the lost ones."""
        return cls(document, {int(line.split()[0]) for line in certificate.splitlines()[2:-1]})

    def number(self, pair: Pair) -> int:
        """A pair's number in certificates. The target's state changes slowest, and the last service's state fastest."""
        document = self.document
        targets = zip(document.targets, document.target_states(pair.target))
        places = [(each.states, state) for each, state in targets]
        places.append((document.environment.states, pair.environment))
        for service, state in zip(document.services, pair.services):
            places.append((document.behaviours[service.behaviour].states, state))
        number = 0
        for states, state in places:
            number = number * len(states) + states.index(state)
        return number

    def is_related(self, pair: Pair) -> bool:
        return self.number(pair) not in self.lost

    def outcomes(self, pair: Pair, request: str, seat: int) -> list[Pair]:
        """The pairs to which a service may lead by an allowed request. There are none if it can't take the request."""
        service = self.document.services[seat]
        target = self.document.target_after(pair.target, pair.environment, request)
        if service.frozen or target is None:
            return []
        before, after = pair.services[:seat], pair.services[seat + 1 :]
        outcomes = self.document.outcomes(service.behaviour, pair.services[seat], pair.environment, request)
        return [Pair(target, environment, (*before, state, *after)) for state, environment in outcomes]

    # Names.

    def where(self, pair: Pair) -> str:
        return f"<B>{html(pair.target)}</B> · {html(pair.environment)}"

    def changes(self, pair: Pair) -> list[str]:
        """The services whose states differ from those at the start."""
        return [
            f"{service.name}: {state}"
            for service, state, start in zip(self.document.services, pair.services, self.start.services)
            if state != start
        ]


def picture(document: Document, certificate: str) -> Any:
    """The related pairs that are reached from the start if offered services are used. Pairs to which a service that
    isn't offered may lead are red."""
    arena = Arena.of_certificate(document, certificate)
    if not arena.is_related(arena.start):
        raise Wrong("there is no composition from the start, so nothing is offered there")
    drawn = graph("LR")
    names: dict[Pair, str] = {arena.start: "p0"}
    waiting = [arena.start]
    cut: set[str] = set()
    while waiting:
        pair = waiting.pop(0)
        options = {"penwidth": "2.4"} if pair == arena.start else {}
        lines = [arena.where(pair), *(coloured(each, PLAIN, True) for each in arena.changes(pair))]
        drawn.node(names[pair], label=marked(lines), shape="box", style="rounded", **options)
        arrows: dict[Pair, list[str]] = {}
        lost: list[str] = []
        for request in document.allowed(pair.target, pair.environment):
            for seat, service in enumerate(document.services):
                found = arena.outcomes(pair, request, seat)
                if all(arena.is_related(each) for each in found):
                    for each in found:
                        answer = label_of(arena, pair, each, request, seat, len(found) > 1)
                        arrows.setdefault(each, []).append(answer)
                else:
                    lost.append(f"{request} by {service.name}")
        for to, labels in arrows.items():
            if to not in names:
                if len(names) == MOST:
                    cut.add(names[pair])
                    continue
                names[to] = f"p{len(names)}"
                waiting.append(to)
            drawn.edge(names[pair], names[to], label=marked(labels[:4]))
        if lost:
            drawn.node(f"l{names[pair]}", label="lost", shape="box", style="rounded", color=WRONG, fontcolor=WRONG)
            drawn.edge(
                names[pair], f"l{names[pair]}", label=folded(lost, 4), color=WRONG, fontcolor=WRONG, style="dashed"
            )
    for name in sorted(cut):
        drawn.node(f"m{name}", label="and more", shape="plaintext", fontcolor=FADED)
        drawn.edge(name, f"m{name}", style="dotted", color=FADED)
    return drawn


def label_of(arena: Arena, before: Pair, after: Pair, request: str, seat: int, is_choice: bool) -> str:
    """An arrow's label: the request, the service that serves it, and the changes."""
    name = arena.document.services[seat].name
    one, other = before.services[seat], after.services[seat]
    change = f": {one} → {other}" if one != other else ""
    colour = CHOICE if is_choice else PLAIN
    return coloured(f"{request} by {name}{change}", colour)
