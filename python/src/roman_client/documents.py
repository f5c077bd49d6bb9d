"""System documents: reads them with their part files, looks things up, sets other starting states, and writes them.

The program alone decides what a document is. This module checks only the form that look-ups need. It reports neither
unknown names nor broken rules.
"""

from __future__ import annotations

import itertools
import json
import math
import os
from collections.abc import Iterator, Mapping, Sequence
from dataclasses import dataclass, field
from pathlib import Path
from typing import Any, NamedTuple, Protocol, Union

from .errors import RomanError
from .replies import Service

PathLike = Union[str, "os.PathLike[str]"]

Guard = Any
"""A guard, as a document has it."""

LONGEST_DOCUMENT = 1_048_576
"""The maximum length of a document or a part file, in bytes."""

MOST_STATES = 64
"""The maximum number of states of a target. For several targets it limits the number of their combined states."""

DEEPEST = 127
"""The maximum nesting of lists and objects in a file."""

DEEPEST_WHOLE = DEEPEST + 2
"""The maximum nesting in a document with its parts in place: a behaviour from a file is within a list and an object."""


class DocumentError(RomanError, ValueError):
    """A document can't be read or written, or doesn't have the form of one."""


class ShortForm(DocumentError):
    """A document is in the short form, which the program doesn't read."""


@dataclass(frozen=True)
class Step:
    """A transition of a behaviour or a target. `source` is its list in the document."""

    state: str
    guard: Guard
    action: str
    to: str
    source: Any = field(default=None, compare=False, repr=False)


class Request(NamedTuple):
    """A request: the index of its target, and the action that a service is asked for."""

    target: int
    action: str


@dataclass(frozen=True)
class EnvironmentStep:
    """A transition of the environment. `source` is its list in the document."""

    state: str
    action: str
    to: str
    source: Any = field(default=None, compare=False, repr=False)


@dataclass(frozen=True)
class Environment:
    """The environment, a machine that the target and all services share."""

    states: tuple[str, ...]
    start: str
    actions: tuple[str, ...]
    steps: tuple[EnvironmentStep, ...]

    def after(self, state: str, action: str) -> tuple[str, ...]:
        """The states to which an action may lead from a state, without duplicates."""
        found = (step.to for step in self.steps if step.state == state and step.action == action)
        return tuple(dict.fromkeys(found))

    def before(self, action: str) -> frozenset[str]:
        """The states in which an action is possible."""
        return frozenset(step.state for step in self.steps if step.action == action)

    def states_in(self, guard: Guard) -> frozenset[str]:
        """The states in which a guard holds."""
        return frozenset(state for state in self.states if holds(guard, state))


@dataclass(frozen=True)
class Machine:
    """A behaviour or a target. A single target has no name."""

    name: str
    states: tuple[str, ...]
    start: str
    final: frozenset[str]
    steps: tuple[Step, ...]

    def after(self, state: str, environment: str, action: str) -> tuple[str, ...]:
        """The states to which an action may lead from a state, in a state of the environment, without duplicates."""
        found = (
            step.to
            for step in self.steps
            if step.state == state and step.action == action and holds(step.guard, environment)
        )
        return tuple(dict.fromkeys(found))


class States(Protocol):
    """The states in a report of a session."""

    @property
    def target(self) -> str:
        """The state of the target."""

    @property
    def environment(self) -> str:
        """The state of the environment."""

    @property
    def services(self) -> Sequence[Service]:
        """The services that are present."""


class Document:
    """A system document with its parts in place.

    `value` is the document as JSON, and `version` the number of its version. `services` are the services at the start.
    `behaviours` is the catalogue by name. `targets` has the one target, or the two to four targets.
    """

    def __init__(self, value: Any) -> None:
        """`value` is JSON without parts in files. Raises DocumentError if it doesn't have the form of a document."""
        try:
            self._take(value)
        except (AttributeError, IndexError, KeyError, TypeError, ValueError) as error:
            raise DocumentError(f"it isn't a system document: {error!r}") from None

    def _take(self, value: Any) -> None:
        check_nesting(value, DEEPEST_WHOLE)
        self.value: dict[str, Any] = value
        self.version: int = value["roman"]
        if type(self.version) is not int or not 1 <= self.version <= 3:
            raise ValueError(f"{self.version!r} isn't a version")
        self.environment = _environment(value["environment"])
        machines = [_machine(each, text(each["name"])) for each in listed(value["behaviours"])]
        self.behaviours: Mapping[str, Machine] = {each.name: each for each in machines}
        if self.version == 3:
            given = listed(value["targets"])
            self.targets = tuple(_machine(each, text(each["name"])) for each in given)
        else:
            self.targets = (_machine(value["target"], ""),)
        self.services = tuple(self._service(each) for each in listed(value["services"]))
        self._combined = self._combined_states()
        self._requests = self._all_requests()

    def _service(self, value: Any) -> Service:
        behaviour = self.behaviours[text(value["behaviour"])]
        return Service(
            text(value["name"]),
            behaviour.name,
            text(value.get("state", behaviour.start)),
            flag(value.get("frozen", False)),
            self.version != 1 and not flag(value.get("rests", True)),
        )

    def _combined_states(self) -> Mapping[str, tuple[str, ...]]:
        """The states of all targets, by the name of their combination."""
        count = math.prod(len(target.states) for target in self.targets)
        if count > MOST_STATES:
            raise ValueError(f"the targets have {count} states together, more than {MOST_STATES}")
        states = itertools.product(*(target.states for target in self.targets))
        return {"-".join(each): each for each in states}

    def _all_requests(self) -> Mapping[str, Request]:
        """The actions that may be requested, each with its request."""
        actions = self.environment.actions
        if len(self.targets) == 1:
            return {action: Request(0, action) for action in actions}
        return {
            f"{action}-{target.name}": Request(seat, action)
            for seat, target in enumerate(self.targets)
            for action in actions
            if any(
                step.action == action and holds(step.guard, state)
                for step in target.steps
                for state in self.environment.states
            )
        }

    @classmethod
    def load(cls, path: PathLike, folder: PathLike | None = None) -> Document:
        """Reads a document with its part files. All names are relative to `folder`, as they are for a program that runs
        there. If it is None, they are relative to the working folder. Raises DocumentError."""
        top = Path() if folder is None else Path(folder)
        value = _read_part(top / path)
        if not isinstance(value, dict):
            raise DocumentError(f"{os.fspath(path)} isn't an object")
        if value.get("roman") == "short":
            name = os.fspath(path)
            raise ShortForm(f"{name} is in the short form; roman-expand {name} -o plain.json writes the plain one")
        try:
            placed = dict(_in_place(value, top))
            return cls(placed)
        except TypeError as error:
            raise DocumentError(f"{os.fspath(path)}: {error}") from None
        except DocumentError as error:
            raise DocumentError(f"{os.fspath(path)}: {error}") from None

    # Looking things up.

    @property
    def start(self) -> str:
        """The starting state of the target."""
        return "-".join(target.start for target in self.targets)

    @property
    def actions(self) -> tuple[str, ...]:
        """The actions that may be requested, in the order of a report. A single target has the actions of the
        environment. With several targets each action names its target."""
        return tuple(self._requests)

    def target_states(self, state: str) -> tuple[str, ...]:
        """The states of all targets in a combined state, such as `bright-watering`. Raises DocumentError if there is
        no such state."""
        if state not in self._combined:
            raise DocumentError(f"{state} isn't a state of the target")
        return self._combined[state]

    def delegated(self, action: str) -> str:
        """The action that a service is asked for at a request. With several targets, this is `draw` for `draw-beds`.
        Raises DocumentError if there is no such request."""
        return self._request(action).action

    def _request(self, action: str) -> Request:
        if action not in self._requests:
            raise DocumentError(f"{action} isn't an action that may be requested")
        return self._requests[action]

    def target_after(self, state: str, environment: str, action: str) -> str | None:
        """The target's state after a request, or None if the target doesn't allow it there. The environment may still
        lack the action there; see `allowed`."""
        states = self.target_states(state)
        seat, plain = self._request(action)
        found = self.targets[seat].after(states[seat], environment, plain)
        return "-".join((*states[:seat], found[0], *states[seat + 1 :])) if found else None

    def allowed(self, state: str, environment: str) -> tuple[str, ...]:
        """The actions that the target and the environment allow in these states of theirs."""
        return tuple(
            action
            for action in self.actions
            if self.environment.after(environment, self.delegated(action))
            and self.target_after(state, environment, action) is not None
        )

    def is_final(self, state: str) -> bool:
        """Whether a state of the target is final."""
        states = self.target_states(state)
        return all(each in target.final for each, target in zip(states, self.targets))

    def outcomes(self, behaviour: str, state: str, environment: str, action: str) -> Iterator[tuple[str, str]]:
        """The possible outcomes of a request that is delegated to a service of a behaviour, in these states of the
        service and the environment."""
        plain = self.delegated(action)
        machine = self.behaviours[behaviour]
        return itertools.product(machine.after(state, environment, plain), self.environment.after(environment, plain))

    def has_same_machines(self, other: Document) -> bool:
        """Whether both documents have the same environment, catalogue and targets, apart from the starting states."""

        def machines(document: Document) -> list[Any]:
            environment = document.environment
            return [
                (environment.states, environment.actions, set(environment.steps)),
                *(
                    (each.name, each.states, each.final, _unguarded(each.steps))
                    for each in (*document.behaviours.values(), *document.targets)
                ),
            ]

        return machines(self) == machines(other)

    # Other starting states, and writing.

    def with_states(self, report: States) -> Document:
        """Returns a document whose starting states and services are those of a report. Services that are frozen or
        loose stay so. The report belongs to a session that began with this document."""
        value = dict(self.value)
        if value["roman"] == 1 and any(service.loose for service in report.services):
            value["roman"] = 2
        value["environment"] = {**value["environment"], "start": report.environment}
        states = self.target_states(report.target)
        if self.version == 3:
            targets = zip(value["targets"], states)
            value["targets"] = [{**target, "start": state} for target, state in targets]
        else:
            value["target"] = {**value["target"], "start": states[0]}
        kept = {each["name"]: each for each in self.value["services"]}
        value["services"] = [_entry(service, kept.get(service.name, {})) for service in report.services]
        return Document(value)

    def text(self) -> str:
        """The document as one line of JSON, without a newline at its end."""
        return _text_of(self.value)

    def write(self, path: PathLike) -> None:
        """Writes the document. If one file would be too long or too deep for the program, its parts are written to
        files beside it, whose names begin with that of the document. Raises DocumentError if even a part is too
        long, and OSError if a file can't be written."""
        whole = self.text()
        if len(whole.encode()) <= LONGEST_DOCUMENT and nesting(self.value) <= DEEPEST:
            _write(Path(path), whole)
            return
        value = dict(self.value)
        beside = Path(os.path.abspath(path))
        value["environment"] = _moved(value["environment"], beside, "environment")
        for name in ("behaviours", "targets") if self.version == 3 else ("behaviours",):
            parts = enumerate(value[name])
            value[name] = [_moved(each, beside, f"{name}{number}") for number, each in parts]
        if self.version != 3:
            value["target"] = _moved(value["target"], beside, "target")
        _write(beside, _text_of(value))


def holds(guard: Guard, state: str) -> bool:
    """Whether a guard holds in a state of the environment."""
    if isinstance(guard, bool):
        return guard
    if isinstance(guard, list):
        return state in guard
    ((word, inner),) = guard.items()
    if word == "not":
        return not holds(inner, state)
    return (all if word == "all" else any)(holds(each, state) for each in inner)


def read_json(path: PathLike) -> Any:
    """Reads the JSON in a file. Raises DocumentError, which names the file."""
    try:
        data = Path(path).read_bytes()
        if len(data) > LONGEST_DOCUMENT:
            raise ValueError(f"it has more than {LONGEST_DOCUMENT:,} bytes")
        return json.loads(data.decode("utf-8"), parse_constant=_no_number)
    except OSError as error:
        raise DocumentError(f"{os.fspath(path)}: {error.strerror}") from None
    except (ValueError, RecursionError) as error:
        raise DocumentError(f"{os.fspath(path)}: {error}") from None


def _read_part(path: Path) -> Any:
    """Reads the JSON in a file of a document. Raises DocumentError."""
    value = read_json(path)
    try:
        check_nesting(value, DEEPEST)
    except ValueError as error:
        raise DocumentError(f"{path}: {error}") from None
    return value


def check_nesting(value: Any, most: int) -> None:
    """Raises ValueError if lists and objects are nested deeper than `most`."""
    if nesting(value) > most:
        raise ValueError(f"more than {most} lists and objects are nested")


def nesting(value: Any) -> int:
    """The greatest nesting of lists and objects."""
    depth, level = 0, [value]
    while True:
        level = [each for each in level if isinstance(each, (list, dict))]
        if not level:
            return depth
        depth += 1
        level = [inner for each in level for inner in (each.values() if isinstance(each, dict) else each)]


def text(value: Any) -> str:
    """Returns the value. Raises TypeError unless it is a text."""
    if not isinstance(value, str):
        raise TypeError(f"{value!r} isn't a text")
    return value


def flag(value: Any) -> bool:
    """Returns the value. Raises TypeError unless it is true or false."""
    if not isinstance(value, bool):
        raise TypeError(f"{value!r} is neither true nor false")
    return value


def listed(value: Any) -> list[Any]:
    """Returns the value. Raises TypeError unless it is a list."""
    if not isinstance(value, list):
        raise TypeError(f"{value!r} isn't a list")
    return value


def texts(value: Any) -> tuple[str, ...]:
    """Returns the value as a tuple. Raises TypeError unless it is a list of texts."""
    return tuple(text(each) for each in listed(value))


def _no_number(word: str) -> Any:
    raise ValueError(f"{word} isn't JSON")


def _in_place(value: Mapping[str, Any], folder: Path) -> Iterator[tuple[str, Any]]:
    """The members of a document, with the parts in place of the names of their files."""
    for name, member in value.items():
        if name in ("environment", "target"):
            yield name, _part(member, folder)
        elif name in ("behaviours", "targets") and isinstance(member, list):
            yield name, [_part(each, folder) for each in member]
        else:
            yield name, member


def _part(value: Any, folder: Path) -> Any:
    """A part, which is read if it names a file."""
    if not isinstance(value, dict) or "file" not in value:
        return value
    part = _read_part(folder / text(value["file"]))
    if isinstance(part, dict):
        part.pop("file", None)  # Within a part file it has no meaning, but in the document it names a file.
    return part


def _environment(value: Any) -> Environment:
    steps = tuple(_environment_step(step) for step in listed(value["steps"]))
    return Environment(texts(value["states"]), text(value["start"]), texts(value["actions"]), steps)


def _machine(value: Any, name: str) -> Machine:
    steps = tuple(_step(step) for step in listed(value["steps"]))
    final = frozenset(texts(value["final"]))
    return Machine(name, texts(value["states"]), text(value["start"]), final, steps)


def _environment_step(value: Any) -> EnvironmentStep:
    state, action, to = texts(value)
    return EnvironmentStep(state, action, to, value)


def _step(value: Any) -> Step:
    state, guard, action, to = listed(value)
    _check_guard(guard)
    return Step(text(state), guard, text(action), text(to), value)


def _check_guard(guard: Any) -> None:
    if isinstance(guard, bool):
        return
    if isinstance(guard, list):
        texts(guard)
        return
    ((word, inner),) = guard.items()
    if word not in ("not", "all", "any"):
        raise ValueError(f"{word!r} isn't an operator of guards")
    for each in [inner] if word == "not" else listed(inner):
        _check_guard(each)


def _unguarded(steps: Sequence[Step]) -> frozenset[tuple[str, str, str, str]]:
    """Steps as a set, with each guard as a text."""
    return frozenset((step.state, json.dumps(step.guard, sort_keys=True), step.action, step.to) for step in steps)


SERVICE_MEMBERS = ("name", "behaviour", "state", "frozen", "rests")


def _entry(service: Service, before: Mapping[str, Any]) -> dict[str, Any]:
    """The entry of a service in a document, with the other members of its former entry."""
    entry: dict[str, Any] = {
        "name": service.name,
        "behaviour": service.behaviour,
        "state": service.state,
    }
    entry.update((name, each) for name, each in before.items() if name not in SERVICE_MEMBERS)
    if service.frozen:
        entry["frozen"] = True
    if service.loose:
        entry["rests"] = False
    return entry


def _moved(part: Any, document: Path, name: str) -> dict[str, str]:
    """Writes a part to a file beside its document, and returns the object that names the file."""
    file = document.with_name(f"{document.name}.{name}.json")
    whole = _text_of(part)
    if len(whole.encode()) > LONGEST_DOCUMENT:
        raise DocumentError(f"{name} has more than {LONGEST_DOCUMENT:,} bytes")
    _write(file, whole)
    return {"file": str(file)}


def _text_of(value: Any) -> str:
    return json.dumps(value, ensure_ascii=False, separators=(",", ":"))


def _write(path: Path, whole: str) -> None:
    path.write_text(whole, encoding="utf-8")
