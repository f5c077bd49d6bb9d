"""Replies as values."""

from __future__ import annotations

from collections.abc import Sequence
from dataclasses import dataclass


@dataclass(frozen=True)
class Offer:
    """The services that may serve the requested action. None of them leads to a dead end."""

    action: str
    services: tuple[str, ...]


@dataclass(frozen=True)
class Move:
    """The states of the target and the environment after a request."""

    target: str
    environment: str


@dataclass(frozen=True)
class Repair:
    """The work of a change. Of the pairs that aren't related now, `kept` follow from those before the change, and
    `added` were found anew."""

    kept: int
    added: int

    @property
    def lost(self) -> int:
        """The number of pairs that aren't related now."""
        return self.kept + self.added


@dataclass(frozen=True)
class Service:
    """A service in a report."""

    name: str
    behaviour: str
    state: str
    frozen: bool
    loose: bool


@dataclass(frozen=True)
class Report:
    """The present states, and the offers.

    `pairs` and `related` are numbers of pairs. `composition` is true if the present pair is related. `offers` has the
    offered services of each action that the target allows, in the document's order. It is empty if there is no
    composition.
    """

    pairs: int
    related: int
    environment: str
    target: str
    final: bool
    services: tuple[Service, ...]
    composition: bool
    offers: dict[str, tuple[str, ...]]


@dataclass(frozen=True)
class Answer:
    """Why a service can't serve a request.

    `outcome` is None if the service can't take the request. Otherwise it is a possible outcome, the states of the
    service and the environment, that leads to an earlier entry.
    """

    service: str
    outcome: tuple[str, str] | None


@dataclass(frozen=True)
class Lost:
    """A pair that is lost, with the reason.

    `request` is an action that can't be served, and `answers` has an answer of each ready service. If `request` is
    None, the target is final in this pair, but a service isn't. It is None, too, for an action that is named `final`
    if no service is ready.
    """

    target: str
    environment: str
    states: tuple[str, ...]
    request: str | None
    answers: tuple[Answer, ...]


@dataclass(frozen=True)
class Explanation:
    """Why the present pair isn't related. Each entry is lost because of earlier entries alone. The last entry is the
    present pair."""

    entries: tuple[Lost, ...]

    @property
    def present(self) -> Lost:
        """The present pair."""
        return self.entries[-1]

    def __str__(self) -> str:
        return "\n".join(_told(entry) for entry in self.entries)


def _told(entry: Lost) -> str:
    pair = " ".join((entry.target, entry.environment, *entry.states))
    lines = [f"lost {pair}: {'final' if entry.request is None else entry.request}"]
    for answer in entry.answers:
        does = "cannot" if answer.outcome is None else "may answer " + " ".join(answer.outcome)
        lines.append(f"  {answer.service} {does}")
    return "\n".join(lines)


def report_of(lines: Sequence[str]) -> Report:
    """Reads a report, whose last line is `end`. Raises ValueError if the lines have another form."""
    rest = [line.split() for line in lines]
    (pairs_word, pairs), (related_word, related), (environment_word, environment) = rest[:3]
    target_word, target, finality = rest[3]
    if (pairs_word, related_word, environment_word, target_word) != (
        "pairs",
        "related",
        "environment",
        "target",
    ) or finality not in ("final", "running"):
        raise ValueError("no report")
    services: list[Service] = []
    composition: bool | None = None
    offers: dict[str, tuple[str, ...]] = {}
    for words in rest[4:-1]:
        if words[0] == "service" and composition is None:
            _, name, behaviour, state, readiness, *loose = words
            services.append(Service(name, behaviour, state, readiness == "frozen", loose == ["loose"]))
        elif words[0] == "answer" and composition is None:
            composition = words[1] == "composition"
        elif words[0] == "offer" and composition:
            offers[words[1][:-1]] = tuple(words[2:])
        else:
            raise ValueError("no report")
    if composition is None or rest[-1] != ["end"]:
        raise ValueError("no report")
    return Report(
        int(pairs),
        int(related),
        environment,
        target,
        finality == "final",
        tuple(services),
        composition,
        offers,
    )


def explanation_of(lines: Sequence[str]) -> Explanation:
    """Reads an explanation, whose last line is `end`. Raises ValueError if the lines have another form."""
    entries: list[Lost] = []
    for line in lines[:-1]:
        words = line.split()
        if line.startswith("lost "):
            pair, reason = line[len("lost ") :].split(": ")
            target, environment, *states = pair.split()
            request = None if reason == "final" else reason
            entries.append(Lost(target, environment, tuple(states), request, ()))
        elif entries and line.startswith("  "):
            entries[-1] = _with_answer(entries[-1], _answer_of(words))
        else:
            raise ValueError("no explanation")
    if not entries or lines[-1] != "end":
        raise ValueError("no explanation")
    return Explanation(tuple(entries))


def _answer_of(words: Sequence[str]) -> Answer:
    if len(words) == 2 and words[1] == "cannot":
        return Answer(words[0], None)
    if len(words) == 5 and words[1:3] == ["may", "answer"]:
        return Answer(words[0], (words[3], words[4]))
    raise ValueError("no answer of a service")


def _with_answer(entry: Lost, answer: Answer) -> Lost:
    """The entry with one more answer. An entry with answers always has a request: if it is None, the action is named
    `final`."""
    request = "final" if entry.request is None else entry.request
    return Lost(entry.target, entry.environment, entry.states, request, (*entry.answers, answer))
