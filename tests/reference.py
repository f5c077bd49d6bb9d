"""A reference implementation of `roman`, by other algorithms.

It was written from docs/GUIDE.md and the definitions alone, and shares no code with the program. It reads documents
into sets of steps, finds the greatest simulation by plain rounds over all pairs, and computes each system afresh. It is
slow, and meant for systems of some hundred pairs.
"""

from __future__ import annotations

import itertools
import json
import math
import re
from collections.abc import Callable, Iterable, Iterator, Mapping, Sequence
from dataclasses import dataclass, replace
from typing import Any, NoReturn

DONE, NO, USAGE, REFUSED, LIMIT, SHELF_FAULT = 0, 1, 2, 3, 4, 5
USAGE_LINE = (
    "usage: roman synth SYSTEM | run SYSTEM [SESSION] | certify SYSTEM | check SYSTEM CERT | make N"
    " | resilience SYSTEM | shortest SYSTEM | advise SYSTEM COSTS H\n"
)
TEXT_BYTES, DEEPEST, MOST_STATES, MOST_ITEMS, MOST_STEPS = 1_048_576, 127, 64, 32, 16_384
DEFAULT_LIMIT, GREATEST_LIMIT, MOST_VALUES, MOST_COSTS, GREATEST_COST = 262_144, 16_777_216, 1_048_576, 1_024, 1_000_000
NAME = re.compile(r"[A-Za-z0-9_-]{1,32}")

Pair = tuple[int, ...]
"""The states of the target, of the environment, and of each service."""
Shelf = Mapping[str, bytes]
"""The texts of the files, by their names."""


class Refused(Exception):
    """A document or a table of costs breaks a rule. The text of the error is the program's line."""


class OverLimit(Exception):
    """A system has more cells than its document's limit."""


class Absent(Exception):
    """A file doesn't exist."""


# Texts of JSON.


class Members(list[tuple[str, Any]]):
    """The members of an object in the order of the text, with repeated ones."""


def number_of(text: str) -> Any:
    """A number. It is an int if it is below 2^64 without a sign, a point and an exponent, and otherwise a finite
    float."""
    if text.isdigit() and len(text) <= 20 and int(text) < 1 << 64:
        return int(text)
    value = float(text)
    if not math.isfinite(value):
        raise ValueError("a number that is too large")
    return value


def no_constant(_: str) -> NoReturn:
    raise ValueError("NaN and Infinity are no JSON")


def plain(value: Any, depth: int = 0) -> Any:
    """A value with its objects as dicts. Raises ValueError if it has single surrogates, or is nested too deeply."""
    if isinstance(value, str):
        value.encode()
    if not isinstance(value, list):
        return value
    if depth == DEEPEST:
        raise ValueError("nested too deep")
    if isinstance(value, Members):
        return {plain(name): plain(each, depth + 1) for name, each in value}
    return [plain(each, depth + 1) for each in value]


def parsed(text: bytes) -> Any:
    """The value of a text. Raises ValueError or RecursionError if it isn't valid."""
    return plain(
        json.loads(
            text.decode(),
            parse_int=number_of,
            parse_float=number_of,
            parse_constant=no_constant,
            object_pairs_hook=Members,
        )
    )


# Documents.


@dataclass(frozen=True)
class World:
    """The environment, with the states to which an action may lead from a state."""

    states: list[str]
    start: int
    actions: list[str]
    moves: frozenset[tuple[int, int, int]]


@dataclass(frozen=True)
class Machine:
    """A behaviour or a target. A step is (state, environment state, action, state)."""

    name: str
    states: list[str]
    start: int
    final: frozenset[int]
    steps: frozenset[tuple[int, int, int, int]]


@dataclass(frozen=True)
class Service:
    name: str
    machine: Machine
    state: int
    frozen: bool
    rests: bool


@dataclass(frozen=True)
class Library:
    limit: int
    world: World
    catalogue: list[Machine]
    services: list[Service]
    target: Machine


@dataclass(frozen=True)
class Reader:
    """Reads a part, and knows its place for refusals."""

    shelf: Shelf
    file: str
    part: str
    number: int = 0

    def refuse(self, kind: str, member: str, index: int = 0, more: str = "") -> NoReturn:
        raise Refused(f"refused {self.file} {kind} {self.part} {self.number} {member} {index}{more}\n")

    def check(self, holds: bool, kind: str, member: str, index: int = 0) -> None:
        if not holds:
            self.refuse(kind, member, index)

    def load(self) -> Any:
        if self.file not in self.shelf:
            raise Absent(self.file)
        text = self.shelf[self.file]
        self.check(len(text) <= TEXT_BYTES, "toolong", "whole")
        try:
            return parsed(text)
        except (ValueError, RecursionError):
            self.refuse("notjson", "whole")

    def part_of(self, value: Any) -> tuple[Reader, Any]:
        """A part, which is read if it names a file."""
        if isinstance(value, dict) and "file" in value:
            name = value["file"]
            self.check(isinstance(name, str), "form", "file")
            self.check(1 <= len(name.encode()) <= 255, "badname", "file")
            inside = replace(self, file=name)
            return inside.whole(inside.load())
        return self.whole(value)

    def whole(self, value: Any) -> tuple[Reader, Any]:
        self.check(isinstance(value, dict), "form", "whole")
        return self, value

    def member(self, value: Any, member: str) -> Any:
        self.check(member in value, "missing", member)
        return value[member]

    def items(self, value: Any, member: str, least: int, most: float) -> list[Any]:
        items = self.member(value, member)
        self.check(isinstance(items, list), "form", member)
        self.check(least <= len(items) <= most, "count", member)
        return list(items)

    def name(self, value: Any, earlier: Iterable[str]) -> str:
        name = self.member(value, "name")
        self.name_at(name, earlier, "name", 0)
        return str(name)

    def name_at(self, name: Any, earlier: Iterable[str], member: str, index: int) -> None:
        self.check(isinstance(name, str), "form", member, index)
        self.check(NAME.fullmatch(name) is not None, "badname", member, index)
        self.check(name not in earlier, "repeated", member, index)

    def names(self, value: Any, member: str, most: int) -> list[str]:
        names = self.items(value, member, 1, most)
        for index, name in enumerate(names):
            self.name_at(name, names[:index], member, index)
        return names

    def known(self, name: Any, names: Sequence[str], member: str, index: int = 0) -> int:
        self.check(isinstance(name, str), "form", member, index)
        self.check(name in names, "unknown", member, index)
        return names.index(name)

    def guard(self, value: Any, states: list[str], index: int) -> frozenset[int]:
        """The states of the environment that a guard means."""
        every = frozenset(range(len(states)))
        if isinstance(value, bool):
            return every if value else frozenset()
        if isinstance(value, list):
            return frozenset(self.known(name, states, "steps", index) for name in value)
        self.check(isinstance(value, dict) and len(value) == 1, "form", "steps", index)
        ((word, inner),) = value.items()
        if word == "not":
            return every - self.guard(inner, states, index)
        self.check(word in ("all", "any") and isinstance(inner, list), "form", "steps", index)
        sets = [self.guard(each, states, index) for each in inner]
        return every.intersection(*sets) if word == "all" else frozenset().union(*sets)

    def world(self, value: Any) -> World:
        states, start = self.names(value, "states", MOST_STATES), self.member(value, "start")
        first = self.known(start, states, "start")
        actions = self.names(value, "actions", MOST_ITEMS)
        moves = set()
        for index, step in enumerate(self.items(value, "steps", 0, MOST_STEPS)):
            self.check(isinstance(step, list) and len(step) == 3, "form", "steps", index)
            moves.add(
                tuple(self.known(each, names, "steps", index) for each, names in zip(step, (states, actions, states)))
            )
        return World(states, first, actions, frozenset(moves))  # type: ignore[arg-type]

    def machine(self, value: Any, name: str, world: World, deterministic: bool) -> Machine:
        states, start = self.names(value, "states", MOST_STATES), self.member(value, "start")
        first = self.known(start, states, "start")
        final = frozenset(
            self.known(each, states, "final", index)
            for index, each in enumerate(self.items(value, "final", 0, math.inf))
        )
        read: list[tuple[int, frozenset[int], int, int]] = []
        for index, step in enumerate(self.items(value, "steps", 0, MOST_STEPS)):
            self.check(isinstance(step, list) and len(step) == 4, "form", "steps", index)
            read.append(
                (
                    self.known(step[0], states, "steps", index),
                    self.guard(step[1], world.states, index),
                    self.known(step[2], world.actions, "steps", index),
                    self.known(step[3], states, "steps", index),
                )
            )
        if deterministic:
            self.choice(read, world)
        return Machine(name, states, first, final, frozenset((b, e, a, c) for b, met, a, c in read for e in met))

    def choice(self, steps: list[tuple[int, frozenset[int], int, int]], world: World) -> None:
        """Refuses a target that has a choice."""
        for later, (b, met, a, c) in enumerate(steps):
            for earlier, (b2, met2, a2, c2) in enumerate(steps[:later]):
                if (b, a) == (b2, a2) and c != c2 and met & met2:
                    self.refuse("choice", "steps", later, f" {earlier} {world.states[min(met & met2)]}")


def read_library(shelf: Shelf, file: str) -> Library:
    """Reads a document with the parts that it names."""
    top = Reader(shelf, file, "system")
    _, system = top.whole(top.load())
    version = top.member(system, "roman")
    top.check(is_count(version), "form", "roman")
    top.check(1 <= version <= 3, "version", "roman")
    limit = system.get("limit", DEFAULT_LIMIT)
    top.check(is_count(limit), "form", "limit")
    top.check(1 <= limit <= GREATEST_LIMIT, "count", "limit")
    place = replace(top, part="environment")
    place.check("environment" in system, "missing", "whole")
    inside, value = place.part_of(system["environment"])
    world = inside.world(value)
    catalogue: list[Machine] = []
    for number, value in enumerate(top.items(system, "behaviours", 0, MOST_ITEMS)):
        inside, value = Reader(shelf, file, "behaviour", number).part_of(value)
        name = inside.name(value, [each.name for each in catalogue])
        catalogue.append(inside.machine(value, name, world, False))
    services: list[Service] = []
    for number, value in enumerate(top.items(system, "services", 0, MOST_ITEMS)):
        inside, value = Reader(shelf, file, "service", number).whole(value)
        services.append(read_service(inside, value, services, catalogue, version))
    if version < 3:
        place = replace(top, part="target")
        place.check("target" in system, "missing", "whole")
        inside, value = place.part_of(system["target"])
        return Library(limit, world, catalogue, services, inside.machine(value, "", world, True))
    targets: list[Machine] = []
    for number, value in enumerate(top.items(system, "targets", 2, 4)):
        inside, value = Reader(shelf, file, "target", number).part_of(value)
        name = inside.name(value, [each.name for each in targets])
        targets.append(inside.machine(value, name, world, True))
    return combined(top, Library(limit, world, catalogue, services, targets[0]), targets)


def is_count(value: Any) -> bool:
    return isinstance(value, int) and not isinstance(value, bool)


def read_service(place: Reader, value: Any, earlier: list[Service], catalogue: list[Machine], version: int) -> Service:
    name = place.name(value, [each.name for each in earlier])
    kind = place.member(value, "behaviour")
    machine = catalogue[place.known(kind, [each.name for each in catalogue], "behaviour")]
    state = place.known(value["state"], machine.states, "state") if "state" in value else machine.start
    flags = {"frozen": False, "rests": True}
    for flag in ["frozen"] if version == 1 else ["frozen", "rests"]:
        flags[flag] = value.get(flag, flags[flag])
        place.check(isinstance(flags[flag], bool), "form", flag)
    return Service(name, machine, state, flags["frozen"], flags["rests"])


def combined(top: Reader, library: Library, targets: list[Machine]) -> Library:
    """Several targets as one target. A request moves its own target, and the others keep their states."""
    world = library.world
    asked = [
        (number, action)
        for number, target in enumerate(targets)
        for action in range(len(world.actions))
        if any(step[2] == action for step in target.steps)
    ]
    count = math.prod(len(target.states) for target in targets)
    top.check(count <= MOST_STATES, "count", "targets", 1)
    top.check(1 <= len(asked) <= MOST_ITEMS, "count", "targets", 2)
    places = list(itertools.product(*(range(len(target.states)) for target in targets)))
    states = ["-".join(target.states[each] for target, each in zip(targets, place)) for place in places]
    actions = [f"{world.actions[action]}-{targets[number].name}" for number, action in asked]
    top.check(all(len(name) <= 32 for name in states + actions), "badname", "targets", 3)
    top.check(all(len(set(names)) == len(names) for names in (states, actions)), "repeated", "targets", 4)
    numbers = {place: number for number, place in enumerate(places)}

    def renamed(machine: Machine) -> Machine:
        return replace(
            machine,
            steps=frozenset(
                (b, e, new, c) for b, e, a, c in machine.steps for new, (_, action) in enumerate(asked) if a == action
            ),
        )

    steps = frozenset(
        (numbers[place], e, new, numbers[(*place[:number], c, *place[number + 1 :])])
        for place in places
        for new, (number, action) in enumerate(asked)
        for b, e, a, c in targets[number].steps
        if (b, a) == (place[number], action)
    )
    final = frozenset(numbers[place] for place in places if all(b in target.final for target, b in zip(targets, place)))
    start = numbers[tuple(target.start for target in targets)]
    moves = frozenset((e, new, to) for e, a, to in world.moves for new, (_, action) in enumerate(asked) if a == action)
    kinds = {machine.name: renamed(machine) for machine in library.catalogue}
    return replace(
        library,
        world=World(world.states, world.start, actions, moves),
        catalogue=list(kinds.values()),
        services=[replace(each, machine=kinds[each.machine.name]) for each in library.services],
        target=Machine("", states, start, final, steps),
    )


# Pairs, and their properties.


class System:
    """A library with the present services: its pairs, and which of them are related."""

    def __init__(self, library: Library, services: Sequence[Service]) -> None:
        self.library = library
        self.services = list(services)
        self.actions = range(len(library.world.actions))
        self.sizes = [
            len(library.target.states),
            len(library.world.states),
            *(len(each.machine.states) for each in services),
        ]
        self.count = math.prod(self.sizes)
        if self.count * len(self.actions) > library.limit:
            raise OverLimit
        self.pairs: list[Pair] = list(itertools.product(*map(range, self.sizes)))
        self._target = steps_from(library.target)
        self._seats = [steps_from(each.machine) for each in services]
        self._moves: dict[tuple[int, int], list[int]] = {}
        for e, a, to in sorted(library.world.moves):
            self._moves.setdefault((e, a), []).append(to)
        self._allowed = {
            (t, e): [a for a in self.actions if (t, e, a) in self._target and (e, a) in self._moves]
            for t in range(self.sizes[0])
            for e in range(self.sizes[1])
        }
        self._turns: dict[Pair, dict[int, list[list[Pair]]]] = {}
        self.related = self._greatest()

    def number(self, pair: Pair) -> int:
        result = 0
        for size, state in zip(self.sizes, pair):
            result = result * size + state
        return result

    def allowed(self, pair: Pair) -> list[int]:
        """The actions that the target allows at a pair."""
        return self._allowed[pair[:2]]

    def turns(self, pair: Pair) -> dict[int, list[list[Pair]]]:
        """The outcomes of each request that is allowed at a pair, for each service that takes it."""
        if pair not in self._turns:
            self._turns[pair] = {
                a: [self._outcomes(pair, a, seat) for seat in range(len(self.services))] for a in self.allowed(pair)
            }
        return self._turns[pair]

    def _outcomes(self, pair: Pair, action: int, seat: int) -> list[Pair]:
        """The outcomes of a request that a service takes, ordered by the environment's state and then by its own."""
        t, e, *states = pair
        turns = [] if self.services[seat].frozen else self._seats[seat].get((states[seat], e, action), [])
        return [
            (t2, e2, *states[:seat], b2, *states[seat + 1 :])
            for e2 in self._moves[e, action]
            for b2 in turns
            for t2 in self._target[t, e, action]
        ]

    def outcomes(self, pair: Pair, action: int, seat: int) -> list[Pair]:
        return self.turns(pair)[action][seat]

    def may_rest(self, pair: Pair) -> bool:
        """Whether the target isn't in a final state, or each service that has to rest is in one."""
        return pair[0] not in self.library.target.final or all(
            not each.rests or b in each.machine.final for each, b in zip(self.services, pair[2:])
        )

    def servers(self, pair: Pair, action: int, good: Callable[[Pair], bool]) -> list[int]:
        """The services that can take a request and whose outcomes are all good."""
        return [seat for seat, to in enumerate(self.turns(pair)[action]) if to and all(map(good, to))]

    def fails(self, pair: Pair, good: Callable[[Pair], bool]) -> Iterator[int | None]:
        """The reasons why a pair can't be related if only those pairs are good: None if services don't rest, or an
        action."""
        if not self.may_rest(pair):
            yield None
        for action in self.allowed(pair):
            if not self.servers(pair, action, good):
                yield action

    def _greatest(self) -> set[Pair]:
        left = set(self.pairs)
        while True:
            lost = {pair for pair in left if next((True for _ in self.fails(pair, left.__contains__)), False)}
            if not lost:
                return left
            left -= lost

    def offers(self, pair: Pair, action: int) -> list[int]:
        return self.servers(pair, action, self.related.__contains__) if action in self.allowed(pair) else []

    def choices(self) -> int:
        return sum(len(self.offers(pair, action)) for pair in self.pairs for action in self.actions)

    def depths(self) -> list[set[Pair]]:
        """The pairs that are lost within exactly 0, 1, 2 .. requests."""
        levels = [{pair for pair in self.pairs if not self.may_rest(pair)}]
        while True:
            lost = set().union(*levels)
            level = {
                pair
                for pair in self.pairs
                if pair not in lost
                and any(not self.servers(pair, a, lambda to: to not in lost) for a in self.allowed(pair))
            }
            if not level:
                return levels
            levels.append(level)


def steps_from(machine: Machine) -> dict[tuple[int, int, int], list[int]]:
    """The next states of a machine, by its state, the environment's state and the action."""
    found: dict[tuple[int, int, int], list[int]] = {}
    for b, e, a, c in sorted(machine.steps):
        found.setdefault((b, e, a), []).append(c)
    return found


def answer(is_related: bool) -> str:
    return "answer composition\n" if is_related else "answer none\n"


def report(system: System, pair: Pair) -> str:
    """The text of `report`, and of `synth`."""
    library = system.library
    state = "final" if pair[0] in library.target.final else "running"
    lines = [
        f"pairs {system.count}\n",
        f"related {len(system.related)}\n",
        f"environment {library.world.states[pair[1]]}\n",
        f"target {library.target.states[pair[0]]} {state}\n",
    ]
    for each, b in zip(system.services, pair[2:]):
        lines.append(
            f"service {each.name} {each.machine.name} {each.machine.states[b]}"
            f" {'frozen' if each.frozen else 'ready'}{'' if each.rests else ' loose'}\n"
        )
    lines.append(answer(pair in system.related))
    if pair in system.related:
        for a in system.allowed(pair):
            lines.append(f"offer {library.world.actions[a]}:{names_of(system, system.offers(pair, a))}\n")
    return "".join([*lines, "end\n"])


def names_of(system: System, seats: Sequence[int]) -> str:
    return "".join(f" {system.services[seat].name}" for seat in seats)


def shortest(system: System, start: Pair) -> str:
    levels = system.depths()
    lines = [f"pairs {system.count}\n", f"related {len(system.related)}\n"]
    if len(system.related) < system.count:
        lines += [f"depth {depth}: {len(level)}\n" for depth, level in enumerate(levels)]
    depth = next((f"depth {depth}" for depth, level in enumerate(levels) if start in level), "related")
    return "".join([*lines, f"start {depth}\n", "end\n"])


def resilience(library: Library, start: Pair) -> str:
    services = library.services

    def outlook(frozen: Sequence[int], dead: Sequence[int]) -> str:
        left = [
            replace(each, frozen=True) if seat in frozen else each
            for seat, each in enumerate(services)
            if seat not in dead
        ]
        system = System(library, left)
        pair = (*start[:2], *(b for seat, b in enumerate(start[2:]) if seat not in dead))
        word = "composition" if pair in system.related else "none"
        return f"{word} related {len(system.related)} choices {system.choices()}\n"

    lines = [f"services {len(services)}\n", f"start {outlook([], [])}"]
    for lost in [*itertools.combinations(range(len(services)), 1), *itertools.combinations(range(len(services)), 2)]:
        without = "without " + " ".join(services[seat].name for seat in lost)
        lines += [f"{without} freeze {outlook(lost, [])}", f"{without} die {outlook([], lost)}"]
    return "".join([*lines, "end\n"])


def read_costs(shelf: Shelf, file: str, library: Library) -> dict[tuple[str, int], int]:
    """The costs of a file, by behaviour and action."""
    place = Reader(shelf, file, "costs")
    items = place.load()
    place.check(isinstance(items, list), "form", "whole")
    place.check(len(items) <= MOST_COSTS, "count", "whole")
    costs: dict[tuple[str, int], int] = {}
    for index, item in enumerate(items):
        place.check(isinstance(item, list) and len(item) == 3, "form", "steps", index)
        place.known(item[0], [each.name for each in library.catalogue], "steps", index)
        key = (item[0], place.known(item[1], library.world.actions, "steps", index))
        place.check(is_count(item[2]), "form", "steps", index)
        place.check(item[2] <= GREATEST_COST, "count", "steps", index)
        place.check(key not in costs, "repeated", "steps", index)
        costs[key] = item[2]
    return costs


def advise(system: System, start: Pair, costs: Mapping[tuple[str, int], int], most: int) -> tuple[int, str]:
    if start not in system.related:
        return NO, "answer none\n"
    if len(system.related) * most > MOST_VALUES:
        return LIMIT, f"limit {MOST_VALUES}\n"
    values = dict.fromkeys(system.related, 0)

    def best(pair: Pair, a: int) -> tuple[int, int]:
        """The least cost of a request, and the first service that has it."""
        return min(
            (
                costs.get((system.services[seat].machine.name, a), 0)
                + max(values[to] for to in system.outcomes(pair, a, seat)),
                seat,
            )
            for seat in system.offers(pair, a)
        )

    lines: list[str] = []
    first: list[str] = []
    for count in range(1, most + 1):
        first = [
            f"for {system.library.world.actions[a]}:{names_of(system, [seat])} {cost}\n"
            for a in system.allowed(start)
            for cost, seat in [best(start, a)]
        ]
        values = {pair: max((best(pair, a)[0] for a in system.allowed(pair)), default=0) for pair in values}
        lines += [f"value {count} {system.number(pair)} {values[pair]}\n" for pair in sorted(values)]
    return DONE, "".join([f"worst {values[start]}\n", *first, *lines, "end\n"])


# Certificates.


def check(system: System, start: Pair, text: bytes) -> tuple[int, str]:
    """The verdict on a certificate."""
    lines = text.split(b"\n")
    if lines[-1] == b"":
        lines.pop()
    listed: set[Pair] = set()
    wanted = [b"roman-order 1", b"pairs %d" % system.count]
    for place, line in enumerate(lines, 1):
        if place <= 2:
            if line != wanted[place - 1]:
                return NO, f"rejected {place} form\n"
            continue
        if line == b"end":
            for pair in system.pairs:
                if pair not in listed and any(True for _ in system.fails(pair, lambda to: to not in listed)):
                    return NO, f"rejected {place} unlisted {system.number(pair)}\n"
            if place < len(lines):
                return NO, f"rejected {place + 1} form\n"
            return DONE, f"greatest {system.count - len(listed)}\n{answer(start not in listed)}"
        entry = re.fullmatch(rb"(0|[1-9][0-9]*) (f|0|[1-9][0-9]*)", line)
        if (
            not entry
            or int(entry[1][:20]) >= system.count
            or entry[2] != b"f"
            and int(entry[2][:20]) >= len(system.actions)
        ):
            return NO, f"rejected {place} form\n"
        pair, reason = system.pairs[int(entry[1])], None if entry[2] == b"f" else int(entry[2])
        if pair in listed:
            return NO, f"rejected {place} repeated\n"
        if reason not in system.fails(pair, lambda to: to not in listed):
            return NO, f"rejected {place} unjustified\n"
        listed.add(pair)
    return NO, f"rejected {len(lines) + 1} form\n"


def certificate(system: System, draw: Callable[[list[Any]], Any]) -> bytes:
    """A certificate whose entries are drawn from those that the earlier entries justify."""
    listed: set[Pair] = set()
    lines = ["roman-order 1\n", f"pairs {system.count}\n"]
    while len(listed) < system.count - len(system.related):
        ready = [
            (pair, list(system.fails(pair, lambda to: to not in listed))) for pair in system.pairs if pair not in listed
        ]
        for pair, reasons in [each for each in ready if each[1]]:
            if len(lines) == 2 or draw([True, True, False]):
                reason = draw(reasons)
                lines.append(f"{system.number(pair)} {'f' if reason is None else reason}\n")
                listed.add(pair)
    return "".join([*lines, "end\n"]).encode()


# Sessions.

SHAPES = {
    "do": 1,
    "use": 1,
    "saw": 2,
    "abort": 0,
    "freeze": 1,
    "thaw": 1,
    "die": 1,
    "join": 3,
    "jump": 2,
    "jumpenv": 1,
    "report": 0,
    "explain": 0,
    "quit": 0,
}
CHANGES = ("freeze", "thaw", "die", "join", "jump", "jumpenv")


@dataclass(frozen=True)
class Tally:
    """The reply to a change: the number of pairs that aren't related after it, and the number of those that follow from
    before, if this doesn't depend on the program's list."""

    total: int
    kept: int | None


@dataclass(frozen=True)
class Explained:
    """The reply to `explain` at a pair: any right explanation."""

    system: System
    pair: Pair


class Session:
    """A session. `tell` answers a line."""

    def __init__(self, library: Library) -> None:
        self.library = library
        self.system = System(library, library.services)
        self.pair: Pair = start_of(library)
        self.action: int | None = None
        self.delegate: int | None = None
        self.is_over = False

    def tell(self, line: bytes) -> Any:
        """The reply to a line: a text, a Tally or an Explained."""
        if len(line) > 256:
            return "error line\n"
        line = line[:-1] if line.endswith(b"\r") else line
        words = [word.decode("latin-1") for word in re.split(rb"[ \t]+", line) if word]
        if not words or words[0].startswith("#"):
            return ""
        event, rest = words[0], words[1:]
        loose = event == "join" and rest[3:] == ["loose"]
        if event not in SHAPES or len(rest) - loose != SHAPES[event]:
            return "error line\n"
        names = [each.name for each in self.system.services]
        if event in ("use", "freeze", "thaw", "die", "jump") and rest[0] not in names:
            return "error name\n"
        if event in CHANGES:
            return self._change(event, rest, loose, names)
        method = getattr(self, f"_{event}")
        return method(*rest)

    def _do(self, word: str) -> str:
        actions = self.library.world.actions
        if word not in actions:
            return "error name\n"
        if self.action is not None:
            return "error busy\n"
        if self.pair not in self.system.related:
            return "no composition\n"
        action = actions.index(word)
        if action not in self.system.allowed(self.pair):
            return "not allowed\n"
        self.action = action
        return f"offer{names_of(self.system, self.system.offers(self.pair, action))}\n"

    def _use(self, word: str) -> str:
        if self.action is None or self.delegate is not None:
            return "error idle\n"
        seat = [each.name for each in self.system.services].index(word)
        if seat not in self.system.offers(self.pair, self.action):
            return "not offered\n"
        self.delegate = seat
        return f"using {word}\n"

    def _saw(self, state: str, environment: str) -> str:
        if self.action is None or self.delegate is None:
            return "error idle\n"
        world, machine = self.library.world, self.system.services[self.delegate].machine
        if state not in machine.states or environment not in world.states:
            return "error name\n"
        seen = (world.states.index(environment), machine.states.index(state))
        for to in self.system.outcomes(self.pair, self.action, self.delegate):
            if (to[1], to[2 + self.delegate]) == seen:
                self.pair, self.action, self.delegate = to, None, None
                return f"now {self.library.target.states[to[0]]} {environment}\n"
        return "impossible\n"

    def _abort(self) -> str:
        if self.action is None:
            return "error idle\n"
        self.action = self.delegate = None
        return "aborted\n"

    def _report(self) -> str:
        return report(self.system, self.pair)

    def _explain(self) -> Any:
        return "error related\n" if self.pair in self.system.related else Explained(self.system, self.pair)

    def _quit(self) -> str:
        self.is_over = True
        return "bye\n"

    def _change(self, event: str, rest: list[str], loose: bool, names: list[str]) -> Any:
        services, seat = self.system.services, names.index(rest[0]) if rest[0] in names else 0
        kinds = {each.name: each for each in self.library.catalogue}
        wrong = {
            "jump": lambda: rest[1] not in services[seat].machine.states,
            "jumpenv": lambda: rest[0] not in self.library.world.states,
            "join": lambda: not NAME.fullmatch(rest[0]) or rest[1] not in kinds or rest[2] not in kinds[rest[1]].states,
        }
        if wrong.get(event, bool)():
            return "error name\n"
        if self.action is not None:
            return "error busy\n"
        if event == "jumpenv":
            self.pair = put(self.pair, 1, self.library.world.states.index(rest[0]))
            return "jumped\n"
        if event == "jump":
            self.pair = put(self.pair, 2 + seat, services[seat].machine.states.index(rest[1]))
            return "jumped\n"
        if event == "join":
            return self._join(rest[0], kinds[rest[1]], rest[2], not loose)
        lost = [pair for pair in self.system.pairs if pair not in self.system.related]
        if event == "die":
            dead = services[seat]
            kept = {
                pair[: 2 + seat] + pair[3 + seat :]
                for pair in lost
                if not dead.rests or pair[2 + seat] in dead.machine.final
            }
            self.pair = self.pair[: 2 + seat] + self.pair[3 + seat :]
            return self._tally(services[:seat] + services[seat + 1 :], len(kept))
        freezes = event == "freeze"
        if services[seat].frozen == freezes:
            return "error frozen\n" if freezes else "error ready\n"
        changed = replace(services[seat], frozen=freezes)
        return self._tally([*services[:seat], changed, *services[seat + 1 :]], len(lost) if freezes else None)

    def _join(self, name: str, machine: Machine, state: str, rests: bool) -> Any:
        services = self.system.services
        if any(each.name == name for each in services):
            return "error taken\n"
        if len(services) == MOST_ITEMS:
            return "error full\n"
        number = machine.states.index(state)
        try:
            reply = self._tally([*services, Service(name, machine, number, False, rests)], None)
        except OverLimit:
            return "error limit\n"
        self.pair = (*self.pair, number)
        return reply

    def _tally(self, services: Sequence[Service], kept: int | None) -> Tally:
        self.system = System(self.library, services)
        return Tally(self.system.count - len(self.system.related), kept)


def start_of(library: Library) -> Pair:
    return (library.target.start, library.world.start, *(each.state for each in library.services))


def put(pair: Pair, place: int, state: int) -> Pair:
    return (*pair[:place], state, *pair[place + 1 :])


def explanation_fault(asked: Explained, lines: list[str]) -> str | None:
    """The fault of an explanation, None if it is right. Each entry must follow from earlier ones, and be used by a
    later one unless it is the last. The last entry must be the present pair."""
    system, world = asked.system, asked.system.library.world
    listed: list[Pair] = []
    used = {asked.pair}
    place = 0
    while place < len(lines):
        found = re.fullmatch(r"lost ([^:]+): (\S+)", lines[place])
        if not found:
            return f"no entry: {lines[place]}"
        machines = [system.library.target.states, world.states, *(each.machine.states for each in system.services)]
        names = found[1].split(" ")
        if len(names) != len(machines) or any(name not in states for name, states in zip(names, machines)):
            return f"no pair: {lines[place]}"
        pair = tuple(states.index(name) for name, states in zip(names, machines))
        place += 1
        answers = list(itertools.takewhile(lambda line: line.startswith("  "), lines[place:]))
        place += len(answers)
        ready = [seat for seat, each in enumerate(system.services) if not each.frozen]
        if found[2] == "final" and not answers and not system.may_rest(pair):
            listed.append(pair)
            continue
        if found[2] not in world.actions or world.actions.index(found[2]) not in system.allowed(pair):
            return f"not allowed: {found[0]}"
        due = []
        for seat in ready:
            outcomes = system.outcomes(pair, world.actions.index(found[2]), seat)
            to = next((each for each in outcomes if each in listed), None)
            word = f"  {system.services[seat].name} "
            if outcomes and to is None:
                return f"{system.services[seat].name} may serve {found[0]}"
            if to is None:
                due.append(f"{word}cannot")
            else:
                used.add(to)
                due.append(
                    f"{word}may answer {system.services[seat].machine.states[to[2 + seat]]} {world.states[to[1]]}"
                )
        if answers != due:
            return f"{answers} in place of {due}"
        listed.append(pair)
    if not listed or listed[-1] != asked.pair:
        return "it isn't that of the present pair"
    return None if set(listed) == used and len(listed) == len(used) else "an entry stands there twice, or for nothing"


def session_fault(session: Session, lines: Sequence[bytes], told: str) -> str | None:
    """The fault of the replies to the lines of a session, None if they are right."""
    for line in lines:
        reply = session.tell(line)
        if isinstance(reply, str):
            size = len(reply)
            fault = None if told.startswith(reply) else f"{told[:size + 20]!r} in place of {reply!r}"
        elif isinstance(reply, Tally):
            first = told.partition("\n")[0]
            size = len(first) + 1
            found = re.fullmatch(r"kept (0|[1-9]\d*) added (0|[1-9]\d*)", first)
            right = found and int(found[1]) + int(found[2]) == reply.total and reply.kept in (None, int(found[1]))
            fault = None if right else f"{first!r} in place of {reply}"
        else:
            text, end, _ = told.partition("\nend\n")
            size = len(text) + 5
            fault = explanation_fault(reply, text.split("\n")) if end else "the explanation has no end"
        if fault:
            return f"{line!r}: {fault}"
        told = told[size:]
        if session.is_over:
            break
    return f"{told[:80]!r} is left" if told else None


# Runs.


def lines_of(session: bytes) -> list[bytes]:
    lines = session.split(b"\n")
    return lines[:-1] if lines[-1] == b"" else lines


def shape_of(words: Sequence[str]) -> bool:
    """Whether the arguments have the form of a command."""
    command, count = (words or [""])[0], len(words)
    if command == "make":
        return count == 2 and words[1] in map(str, range(1, 11))
    if command == "advise":
        return count == 4 and words[3] in map(str, range(1, 65))
    return count in {
        "synth": (2,),
        "run": (2, 3),
        "certify": (2,),
        "check": (3,),
        "resilience": (2,),
        "shortest": (2,),
    }.get(command, ())


def run_fault(words: Sequence[str], shelf: Shelf, session: bytes, status: int, told: bytes) -> str | None:
    """The fault of the status or the output of a run, None if they are right."""
    text = told.decode("latin-1")
    try:
        ended, due = run(words, shelf, session, text)
    except Refused as refused:
        ended, due = REFUSED, str(refused).encode().decode("latin-1")
    except Absent:
        ended, due = SHELF_FAULT, ""
    if callable(due):
        fault = due()
    else:
        fault = None if text == due else f"{text[:400]!r} in place of {due[:400]!r}"
    return fault or (None if status == ended else f"status {status} in place of {ended}")


def run(words: Sequence[str], shelf: Shelf, session: bytes, text: str) -> tuple[int, Any]:
    """The status of a run, and its output, or a function that returns the fault of an output."""
    if not shape_of(words):
        return USAGE, USAGE_LINE
    if words[0] == "make":
        return DONE, made(int(words[1]))
    library = read_library(shelf, words[1])
    start = start_of(library)
    try:
        situation = Session(library)
    except OverLimit:
        return LIMIT, f"limit {library.limit}\n"
    system = situation.system
    if words[0] == "synth":
        return (DONE if start in system.related else NO), report(system, start)
    if words[0] == "shortest":
        return DONE, shortest(system, start)
    if words[0] == "resilience":
        return DONE, resilience(library, start)
    if words[0] == "advise":
        return advise(system, start, read_costs(shelf, words[2], library), int(words[3]))
    if words[0] == "check":
        return check(system, start, text_of(shelf, words[2]))
    if words[0] == "certify":
        due = (DONE, f"greatest {len(system.related)}\n{answer(start in system.related)}")
        verdict = check(system, start, text.encode("latin-1"))
        return DONE, lambda: None if verdict == due and text.endswith("end\n") else f"{verdict} in place of {due}"
    heard = lines_of(session if len(words) == 2 else text_of(shelf, words[2]))
    return DONE, lambda: session_fault(situation, heard, text)


def text_of(shelf: Shelf, file: str) -> bytes:
    if file not in shelf:
        raise Absent(file)
    return shelf[file]


def made(count: int) -> str:
    """The output of `make` for so many workers."""
    actions = ["start", "stop", "mend", "hold", "go"]
    floor = World(["floor"], 0, actions, frozenset((0, a, 0) for a in range(5)))

    def machine(name: str, states: str, final: frozenset[int], steps: str) -> Machine:
        names = states.split()
        split = [each.split() for each in steps.split(", ")]
        return Machine(
            name, names, 0, final, frozenset((names.index(b), 0, actions.index(a), names.index(c)) for b, a, c in split)
        )

    worker = machine(
        "worker",
        "idle busy worn",
        frozenset((0, 2)),
        "idle start busy, busy stop idle, busy stop worn,"
        " busy hold busy, busy go busy, worn mend idle, idle mend idle",
    )
    target = machine(
        "",
        "rest work tidy pause",
        frozenset((0,)),
        "rest start work, work stop tidy, tidy mend rest," " work hold pause, pause go work",
    )
    workers = [Service(f"w{number}", worker, 0, False, True) for number in range(1, count + 1)]
    session = Session(Library(4_194_304, floor, [worker], workers, target))

    def summary(word: str, *lines: str) -> str:
        for line in lines:
            session.tell(line.encode())
        system = session.system
        return f"{word} pairs {system.count} related {len(system.related)} {answer(session.pair in system.related)[7:]}"

    return "".join(
        [
            f"made {count}\n",
            summary("start"),
            summary("freeze", "freeze w1"),
            summary("thaw", "thaw w1"),
            summary("die", "die w1"),
            summary("join", "join spare worker idle"),
            summary(
                "round",
                *"do start, use spare, saw busy floor, do stop, use spare, saw worn floor, do mend, use spare,"
                " saw idle floor".split(", "),
            ),
            "end\n",
        ]
    )
