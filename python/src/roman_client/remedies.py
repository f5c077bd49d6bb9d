"""Remedies: changes after which the program finds a composition again.

The program itself tries each remedy, in a second session that begins in the present states. So a remedy promises no
more than the program's report.
"""

from __future__ import annotations

import itertools
from collections.abc import Iterable, Iterator, Sequence
from dataclasses import dataclass

from . import protocol
from .documents import Document
from .errors import Full, OverLimit
from .protocol import Conversation, Program, Steps
from .replies import Report, Service
from .session import Session
from .snapshots import Snapshot

LONGEST_NAME = 32
"""The maximum length of a service's name."""

Words = tuple[str, ...]


@dataclass(frozen=True)
class Change:
    """A change of a session: the words of its line, its description, the service that it is about, and the lines that
    undo it. A change of the environment has an empty `subject`. Remedies are ordered by `cost`."""

    words: Words
    text: str
    subject: str
    undo: tuple[Words, ...]
    cost: int


@dataclass(frozen=True)
class Remedy:
    """Changes that make a composition possible, in the order in which to make them."""

    changes: tuple[Change, ...]

    @property
    def lines(self) -> tuple[str, ...]:
        """The lines of a session that make the changes."""
        return tuple(" ".join(change.words) for change in self.changes)

    @property
    def cost(self) -> int:
        """The cost, by which remedies are ordered."""
        return sum(change.cost for change in self.changes)

    def __str__(self) -> str:
        return " and ".join(change.text for change in self.changes)


def changes(document: Document, report: Report) -> list[Change]:
    """The single changes that can be made in the states of a report, the cheapest first."""
    found = [*_thaws(report), *_environments(document, report), *_moves(document, report)]
    return [*found, *_joins(document, report), *_deaths(report)]


def _thaws(report: Report) -> Iterator[Change]:
    for each in report.services:
        if each.frozen:
            yield Change(("thaw", each.name), f"{each.name} is back", each.name, (("freeze", each.name),), 1)


def _environments(document: Document, report: Report) -> Iterator[Change]:
    for state in document.environment.states:
        if state != report.environment:
            undo = ("jumpenv", report.environment)
            yield Change(("jumpenv", state), f"the environment is {state}", "", (undo,), 2)


def _moves(document: Document, report: Report) -> Iterator[Change]:
    for each in report.services:
        for state in document.behaviours[each.behaviour].states:
            if state != each.state:
                undo = ("jump", each.name, each.state)
                yield Change(("jump", each.name, state), f"{each.name} is {state}", each.name, (undo,), 3)


def _joins(document: Document, report: Report) -> Iterator[Change]:
    for behaviour in document.behaviours.values():
        for state in behaviour.states:
            yield _join(document, report, behaviour.name, state, ())


def _join(document: Document, report: Report, behaviour: str, state: str, taken: Iterable[str]) -> Change:
    name = free_name(behaviour, {*taken, *(each.name for each in report.services)})
    loose = ["loose"] if joins_loose(document, report, behaviour) else []
    another = "another" if any(each.behaviour == behaviour for each in report.services) else "a"
    text = f"{another} {behaviour} joins, {state}"
    return Change(("join", name, behaviour, state, *loose), text, name, (("die", name),), 5)


def _deaths(report: Report) -> Iterator[Change]:
    for each in report.services:
        loose = ["loose"] if each.loose else []
        undo: list[Words] = [("join", each.name, each.behaviour, each.state, *loose)]
        if each.frozen:
            undo.append(("freeze", each.name))
        yield Change(("die", each.name), f"{each.name} is gone for good", each.name, tuple(undo), 9)


def free_name(behaviour: str, taken: Iterable[str]) -> str:
    """Returns a name for a further service of a behaviour."""
    used = set(taken)
    names = (f"{behaviour[: LONGEST_NAME - len(str(each))]}{each}" for each in itertools.count(2))
    return next(name for name in names if name not in used)


def joins_loose(document: Document, report: Report, behaviour: str) -> bool:
    """Whether a further service of a behaviour is loose. It is if there are others, and all are loose."""
    others: list[Service] = [*report.services, *document.services]
    loose = [each.loose for each in others if each.behaviour == behaviour]
    return bool(loose) and all(loose)


def pairs(document: Document, report: Report) -> list[Remedy]:
    """The pairs of changes that can be made in the states of a report, the cheapest first. A pair may thaw and move one
    service. Otherwise its two changes are about different things."""
    single = changes(document, report)
    found = []
    for first, second in itertools.combinations_with_replacement(single, 2):
        if first.words[0] == second.words[0] == "join":
            _, _, behaviour, state, *_ = second.words
            second = _join(document, report, behaviour, state, (first.subject,))
        if first.subject != second.subject or (first.words[0], second.words[0]) == ("thaw", "jump"):
            found.append(Remedy((first, second)))
    return sorted(found, key=lambda each: each.cost)


def helps(core: Conversation, remedy: Remedy) -> Steps[bool]:
    """Whether the program finds a composition after the changes of a remedy. The changes are then undone. A change that
    exceeds a limit doesn't help."""
    made: list[Change] = []
    found = False
    try:
        for change in remedy.changes:
            yield from core.tell(protocol.event_of(change.words))
            made.append(change)
        found = (yield from core.tell(protocol.report())).composition
    except (OverLimit, Full):
        pass
    for change in reversed(made):
        for words in change.undo:
            yield from core.tell(protocol.event_of(words))
    return found


def singles(document: Document, report: Report) -> list[Remedy]:
    """The single changes as remedies to try."""
    return [Remedy((change,)) for change in changes(document, report)]


def mend(document: Document, report: Report, *, program: Program = "roman", two: bool = False) -> tuple[Remedy, ...]:
    """Returns the changes after which there is a composition, the cheapest first. With `two`, these may be pairs of
    changes if no single change helps. Returns none if there is a composition already. `report` belongs to a session
    that began with `document`, and that isn't changed."""
    if report.composition:
        return ()
    with Session.resume(Snapshot(document.with_states(report)), program=program) as session:

        def helping(remedies: Iterable[Remedy]) -> tuple[Remedy, ...]:
            return tuple(each for each in remedies if session.run(helps(session.core, each)))

        found = helping(singles(document, report))
        return found if found or not two else helping(pairs(document, report))


def first_of_each(remedies: Sequence[Remedy], most: int) -> list[Remedy]:
    """The cheapest remedies, at most `most`. The first remedy of each kind comes before all others."""
    seen: set[tuple[str, ...]] = set()
    first: list[Remedy] = []
    rest: list[Remedy] = []
    for remedy in remedies:
        kind = tuple(_kind(change) for change in remedy.changes)
        (rest if kind in seen else first).append(remedy)
        seen.add(kind)
    return [*first, *rest][:most]


def _kind(change: Change) -> str:
    """The kind of a change: its word, with the behaviour for a join, and otherwise with the service."""
    return f"join {change.words[2]}" if change.words[0] == "join" else f"{change.words[0]} {change.subject}"
