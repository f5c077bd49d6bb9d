"""Targets by plans: sequences, choices and loops of actions, which become machines without choices."""

from __future__ import annotations

import itertools
from collections.abc import Sequence
from dataclasses import dataclass, field

from .reader import Span, Value

Place = int
"""The number of an action's place in a plan. -1 is before all places."""

BEGIN: Place = -1

MOST = 512
"""The maximum number of actions in a plan, and of states of its machine before equivalent states are merged."""


class TooLarge(Exception):
    """A plan has too many actions, or its machine too many states."""


@dataclass(frozen=True)
class Request:
    """A place of a plan: the actions that may be requested there, the environment states in which they may be, and the
    name of the state that follows."""

    actions: tuple[str, ...]
    guard: int
    name: str | None
    span: Span
    written: Value | None = None
    """The guard in its written form."""


@dataclass
class Shape:
    """A piece of a plan: whether it may be left out, and the places with which it begins and ends."""

    empty: bool
    first: frozenset[Place]
    last: frozenset[Place]


@dataclass
class Plan:
    """The places of a plan, with the places that may follow each."""

    requests: list[Request] = field(default_factory=list)
    after: dict[Place, set[Place]] = field(default_factory=dict)

    # Pieces.

    def one(self, request: Request) -> Shape:
        place = len(self.requests)
        if place == MOST:
            raise TooLarge(f"the plan names more than {MOST} actions")
        self.requests.append(request)
        return Shape(False, frozenset({place}), frozenset({place}))

    def sequence(self, pieces: Sequence[Shape]) -> Shape:
        whole = Shape(True, frozenset(), frozenset())
        for piece in pieces:
            self.join(whole.last, piece.first)
            whole = Shape(
                whole.empty and piece.empty,
                whole.first | piece.first if whole.empty else whole.first,
                whole.last | piece.last if piece.empty else piece.last,
            )
        return whole

    def choice(self, pieces: Sequence[Shape]) -> Shape:
        return Shape(
            any(piece.empty for piece in pieces),
            frozenset().union(*(piece.first for piece in pieces)),
            frozenset().union(*(piece.last for piece in pieces)),
        )

    def loop(self, piece: Shape) -> Shape:
        self.join(piece.last, piece.first)
        return Shape(True, piece.first, piece.last)

    def join(self, ends: frozenset[Place], starts: frozenset[Place]) -> None:
        for end in ends:
            self.after.setdefault(end, set()).update(starts)


State = frozenset[Place]
"""The places, one of which was the last."""


@dataclass(frozen=True)
class Way:
    """A step of a plan's machine."""

    state: str
    guard: int
    action: str
    to: str
    request: Request
    """The first of the requests from which it comes."""

    @property
    def span(self) -> Span:
        return self.request.span


@dataclass
class Made:
    """A plan's machine: the names of its states with their origins, the final states, and the steps."""

    states: dict[str, Span | None]
    finals: list[str]
    ways: list[Way]


class Maker:
    """Makes the machine of a plan. Its states are sets of places, and equivalent sets are merged."""

    def __init__(self, plan: Plan, whole: Shape, start: str, size: int, finals: set[str] | None) -> None:
        self.plan = plan
        self.plan.after.setdefault(BEGIN, set()).update(whole.first)
        self.ends = whole.last | ({BEGIN} if whole.empty else frozenset())
        self.start = start
        self.size = size
        self.given_finals = finals
        self.ways: dict[State, list[tuple[str, int, State, Request]]] = {}
        self.explore()

    def explore(self) -> None:
        """Finds all states to which the plan leads, with their ways."""
        waiting: list[State] = [frozenset({BEGIN})]
        while waiting:
            state = waiting.pop(0)
            if state in self.ways:
                continue
            if len(self.ways) == MOST:
                raise TooLarge(f"the plan has more than {MOST} states")
            self.ways[state] = self.ways_of(state)
            waiting += [to for _, _, to, _ in self.ways[state]]

    def ways_of(self, state: State) -> list[tuple[str, int, State, Request]]:
        """The sets of places to which each action leads, with the environment states in which it does."""
        places = sorted(set().union(*(self.plan.after.get(place, set()) for place in state)))
        requests = [(place, self.plan.requests[place]) for place in places]
        found = []
        for action in dict.fromkeys(each for _, request in requests for each in request.actions):
            able = [(place, request.guard) for place, request in requests if action in request.actions]
            guards: dict[State, int] = {}
            for part in parts((1 << self.size) - 1, {guard for _, guard in able}):
                to = frozenset(place for place, guard in able if guard & part)
                if to:
                    guards[to] = guards.get(to, 0) | part
            for to, guard in guards.items():
                found.append((action, guard, to, self.plan.requests[min(to)]))
        return found

    def name(self, state: State) -> str | None:
        """The name that the plan gives a state."""
        if state == frozenset({BEGIN}):
            return self.start
        names = [self.plan.requests[place].name for place in sorted(state) if place != BEGIN]
        return next((name for name in names if name), None)

    def is_final(self, state: State) -> bool:
        if self.given_finals is None:
            return bool(state & self.ends)
        return self.name(state) in self.given_finals

    def blocks(self) -> dict[State, int]:
        """The number of each state's block. The states of a block are equivalent."""
        blocks = {state: int(self.is_final(state)) for state in self.ways}
        count = 0
        while count != len(set(blocks.values())):
            count = len(set(blocks.values()))
            numbers: dict[object, int] = {}
            finer = {}
            for state, ways in self.ways.items():
                seen = {
                    (action, number, blocks[to])
                    for action, guard, to, _ in ways
                    for number in range(self.size)
                    if guard >> number & 1
                }
                key = (blocks[state], frozenset(seen))
                finer[state] = numbers.setdefault(key, len(numbers))
            blocks = finer
        return blocks

    def clashes(self) -> list[tuple[str, Span]]:
        """The names that the plan gives to states that aren't equivalent."""
        blocks = self.blocks()
        owners: dict[str, int] = {}
        found = []
        for state in self.ways:
            name = self.name(state)
            if name is not None and owners.setdefault(name, blocks[state]) != blocks[state]:
                found.append((name, self.plan.requests[max(state)].span))
        return found

    def made(self) -> Made:
        blocks = self.blocks()
        names: dict[int, list[str]] = {}
        for state in self.ways:
            name = self.name(state)
            if name is not None and name not in names.setdefault(blocks[state], []):
                names[blocks[state]].append(name)
        titles: dict[State, str] = {}
        taken = {name for each in names.values() for name in each}
        fresh: dict[int, str] = {}
        for state in self.ways:
            name, block = self.name(state), blocks[state]
            if name is None and names.get(block):
                name = names[block][0]
            if name is None:
                name = fresh.get(block) or free_name(self.action_of(state), taken)
                fresh[block] = name
                taken.add(name)
            titles[state] = name
        made = Made({}, [], [])
        for state, title in titles.items():
            if title in made.states:
                continue
            made.states[title] = self.plan.requests[min(state)].span if min(state) >= 0 else None
            if self.is_final(state):
                made.finals.append(title)
            made.ways += [
                Way(title, guard, action, titles[to], request) for action, guard, to, request in self.ways[state]
            ]
        return made

    def action_of(self, state: State) -> str:
        return self.plan.requests[min(place for place in state if place != BEGIN)].actions[0]


def parts(everything: int, guards: set[int]) -> list[int]:
    """The largest sets of environment states that no guard distinguishes, in the order of their first states."""
    found = [everything]
    for guard in guards:
        found = [piece for each in found for piece in (each & guard, each & ~guard) if piece]
    return sorted(found, key=lambda each: each & -each)


def free_name(action: str, taken: set[str]) -> str:
    """The name `after-ACTION`, with a number if that is taken."""
    base = f"after-{action}"[:29]
    names = itertools.chain([base], (f"{base}-{number}" for number in itertools.count(2)))
    return next(name for name in names if name not in taken)
