"""The states that a target reaches together with its environment, and those from which it can't continue."""

from __future__ import annotations

from collections import deque
from dataclasses import dataclass
from typing import NamedTuple

from roman_client.documents import Document, Step


class Pair(NamedTuple):
    """A state of each target, and one of the environment."""

    targets: tuple[str, ...]
    environment: str


@dataclass(frozen=True)
class Stuck:
    """A pair that isn't final and allows no request. `target` is the index of a target that isn't final. `way` has the
    requests that lead to the pair."""

    target: int
    pair: Pair
    way: tuple[str, ...]


class Walk:
    """All pairs that requests reach from the start. Each request is assumed to be served, and every step of the
    environment on its action may follow."""

    def __init__(self, document: Document) -> None:
        self.document = document
        environment = document.environment
        self.after: dict[tuple[str, str], list[str]] = {}
        for move in environment.steps:
            self.after.setdefault((move.state, move.action), []).append(move.to)
        self.steps: list[dict[str, list[tuple[Step, frozenset[str]]]]] = [{} for _ in document.targets]
        """The steps of each target by their states, with the environment's states in which their guards hold."""
        for found, target in zip(self.steps, document.targets):
            for step in target.steps:
                found.setdefault(step.state, []).append((step, environment.states_in(step.guard)))
        start = Pair(tuple(target.start for target in document.targets), environment.start)
        self.came_by: dict[Pair, tuple[Pair, str] | None] = {start: None}
        self.next: dict[Pair, set[Pair]] = {}
        self.requested: set[str] = set()
        """The actions that are allowed in some pair."""
        self._explore(start)

    def is_of(self, document: Document) -> bool:
        """Whether a document has the same environment and targets."""
        return (self.document.environment, self.document.targets) == (document.environment, document.targets)

    def _explore(self, start: Pair) -> None:
        waiting = deque([start])
        while waiting:
            pair = waiting.popleft()
            self.next[pair] = set()
            for seat, step in self.allowed(pair):
                self.requested.add(step.action)
                for environment in self.after[pair.environment, step.action]:
                    to = Pair((*pair.targets[:seat], step.to, *pair.targets[seat + 1 :]), environment)
                    self.next[pair].add(to)
                    if to not in self.came_by:
                        self.came_by[to] = (pair, self.title(seat, step))
                        waiting.append(to)

    @property
    def size(self) -> int:
        """The number of steps between pairs."""
        return sum(len(each) for each in self.next.values())

    def allowed(self, pair: Pair) -> list[tuple[int, Step]]:
        """The steps that the targets allow in a pair, each with the number of its target."""
        return [
            (seat, step)
            for seat, state in enumerate(pair.targets)
            for step, states in self.steps[seat].get(state, ())
            if pair.environment in states and (pair.environment, step.action) in self.after
        ]

    def title(self, seat: int, step: Step) -> str:
        """The name of a request in a session."""
        name = self.document.targets[seat].name
        return f"{step.action}-{name}" if name else step.action

    def reached(self, seat: int) -> set[str]:
        """The states that a target reaches."""
        return {pair.targets[seat] for pair in self.came_by}

    def way(self, pair: Pair) -> tuple[str, ...]:
        """The requests of a shortest way from the start."""
        requests: list[str] = []
        came = self.came_by[pair]
        while came is not None:
            requests.append(came[1])
            came = self.came_by[came[0]]
        return tuple(reversed(requests))

    def stuck(self) -> list[Stuck]:
        """The pairs that aren't final and allow nothing, the nearest first."""
        found = []
        for pair in self.came_by:
            if self.next[pair]:
                continue
            for seat, (state, target) in enumerate(zip(pair.targets, self.document.targets)):
                if state not in target.final:
                    found.append(Stuck(seat, pair, self.way(pair)))
        return found

    def without_final(self, seat: int) -> list[Pair]:
        """The pairs from which a target reaches neither a final state nor a pair that allows nothing."""
        target = self.document.targets[seat]
        ends = {pair for pair in self.came_by if pair.targets[seat] in target.final or not self.next[pair]}
        before: dict[Pair, list[Pair]] = {}
        for pair, following in self.next.items():
            for each in following:
                before.setdefault(each, []).append(pair)
        waiting = list(ends)
        while waiting:
            for each in before.get(waiting.pop(), ()):
                if each not in ends:
                    ends.add(each)
                    waiting.append(each)
        return [pair for pair in self.came_by if pair not in ends]
