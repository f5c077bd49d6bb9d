"""The program's explanations in words: the requests, the services that can't serve them, and the changes."""

from __future__ import annotations

import graphlib
from collections.abc import Iterator, Sequence
from dataclasses import dataclass
from typing import Any, Optional

from roman_client import Document, DocumentError, Explanation, Lost
from roman_client.documents import Machine
from roman_client.replies import explanation_of

from .pictures import CHOICE, FADED, GUARD, PLAIN, WRONG, Wrong, coloured, graph, html, marked

Outcome = tuple[str, str]
"""The states of a service and of the environment after an answer."""


def last_explanation(text: str) -> Explanation | None:
    """The last explanation in a text, which may have other replies, too. None if there is none."""
    found: list[str] = []
    lines: list[str] = []
    for line in text.splitlines():
        if line.startswith("lost ") or (lines and line.startswith("  ")):
            lines.append(line)
        else:
            found = [*lines, line] if line == "end" and lines else found
            lines = []
    try:
        return explanation_of(found) if found else None
    except ValueError:
        return None


@dataclass(frozen=True)
class Reply:
    """A possible answer of services that are alike: their names, the change of the first one, and the entry to which it
    leads."""

    names: tuple[str, ...]
    seat: int
    before: str
    outcome: Outcome
    to: int


Step = tuple[int, Optional[Reply], list[Reply]]
"""An entry of a line of play, the answer that is followed, and the other answers."""


class Play:
    """An explanation, with the entry to which each answer leads."""

    def __init__(self, document: Document, explanation: Explanation) -> None:
        self.document = document
        self.entries = explanation.entries
        self.numbers = {(e.target, e.environment, *e.states): i for i, e in enumerate(self.entries)}
        if len({len(each.states) for each in self.entries}) > 1:
            raise Wrong("the entries of the explanation have different numbers of services")
        self.count = len(explanation.present.states)
        self.seats = self.find_seats()
        self.names = self.all_names()
        self.kinds = [self.kind_of(seat) for seat in range(self.count)]
        self.frozen = self.find_frozen()

    # The services of an explanation.

    def target_after(self, entry: Lost) -> str | None:
        """The target's state after the request of an entry, or None if the document has none."""
        if entry.request is None or entry.environment not in self.document.environment.states:
            return None
        try:
            return self.document.target_after(entry.target, entry.environment, entry.request)
        except DocumentError:
            return None

    def led_to(self, number: int, seat: int, outcome: Outcome) -> int | None:
        """The earlier entry to which an answer of that seat leads."""
        entry = self.entries[number]
        state, environment = outcome
        target = self.target_after(entry)
        if target is None:
            return None
        states = (*entry.states[:seat], state, *entry.states[seat + 1 :])
        found = self.numbers.get((target, environment, *states))
        return found if found is not None and found < number else None

    def fits(self, name: str, seat: int) -> bool:
        """Whether all answers of a service lead to an entry, if it has that place."""
        return all(
            self.led_to(number, seat, answer.outcome) is not None
            for number, entry in enumerate(self.entries)
            for answer in entry.answers
            if answer.service == name and answer.outcome is not None
        )

    def find_seats(self) -> dict[str, int]:
        """The place of each service that answers. It is that of the document if this fits. Services may have died and
        joined since; then it is a place with which all answers of the service lead to entries."""
        named = in_order([[answer.service for answer in each.answers] for each in self.entries])
        usual = {each.name: seat for seat, each in enumerate(self.document.services)}
        if self.count == len(usual) and all(name in usual and self.fits(name, usual[name]) for name in named):
            return {name: usual[name] for name in named}
        choices = [[seat for seat in range(self.count) if self.fits(name, seat)] for name in named]
        seats = rising(choices, 0)
        if seats is None:
            raise Wrong("the explanation isn't one of this system")
        return dict(zip(named, seats))

    def all_names(self) -> list[str]:
        """The name of the service at each place. A service that never answers has the name in the document, if it is
        known."""
        names = {seat: name for name, seat in self.seats.items()}
        services = [each.name for each in self.document.services]
        usual = self.count == len(services) and all(services[seat] == name for seat, name in names.items())
        for seat in range(self.count):
            if seat not in names:
                names[seat] = services[seat] if usual else f"service {seat + 1}"
        return [names[seat] for seat in range(self.count)]

    def kind_of(self, seat: int) -> tuple[Machine, bool] | None:
        """The behaviour of a place, and whether its service rests. The behaviour is that of the document, or the only
        one that has the states at this place."""
        for service in self.document.services:
            if service.name == self.names[seat]:
                return self.document.behaviours[service.behaviour], not service.loose
        seen = {each.states[seat] for each in self.entries}
        fitting = [each for each in self.document.behaviours.values() if seen <= set(each.states)]
        return (fitting[0], True) if len(fitting) == 1 else None

    def find_frozen(self) -> set[int]:
        """The places of frozen services, which never answer. If no entry has a request, they are those that the
        document freezes."""
        if not all(entry.request is None for entry in self.entries):
            return set(range(self.count)) - set(self.seats.values())
        frozen = {each.name for each in self.document.services if each.frozen}
        return {seat for seat, name in enumerate(self.names) if name in frozen}

    # The course of the game.

    def unrested(self, number: int) -> str:
        """A text that names the services that aren't in a final state, but have to be."""
        told = []
        for seat, state in enumerate(self.entries[number].states):
            kind = self.kinds[seat]
            if kind is not None and kind[1] and state not in kind[0].final:
                told.append(f"{self.names[seat]} (in {state})")
        names = " and ".join(told) or "a service"
        return f"{names} {'are' if len(told) > 1 else 'is'} in no final state"

    def is_forced(self, number: int) -> bool:
        """Whether an entry leaves no choice: the target allows a single request, and a single service can take it, in a
        single way."""
        entry = self.entries[number]
        able = [each.service for each in entry.answers if each.outcome is not None]
        if entry.request is None or len(able) != 1 or entry.environment not in self.document.environment.states:
            return False
        kind = self.kinds[self.seats[able[0]]]
        if kind is None or len(self.document.allowed(entry.target, entry.environment)) != 1:
            return False
        state = entry.states[self.seats[able[0]]]
        return len(list(self.document.outcomes(kind[0].name, state, entry.environment, entry.request))) == 1

    def answers(self, number: int) -> list[Reply]:
        """The possible answers at an entry. Services that are alike, and may answer alike, count as one."""
        entry = self.entries[number]
        found: dict[object, Reply] = {}
        for name, outcome in ((answer.service, answer.outcome) for answer in entry.answers):
            if outcome is None:
                continue
            seat = self.seats[name]
            kind = self.kinds[seat]
            alike = (kind[0].name, kind[1], entry.states[seat], outcome) if kind else name
            if alike in found:
                first = found[alike]
                found[alike] = Reply((*first.names, name), first.seat, first.before, outcome, first.to)
            else:
                to = self.led_to(number, seat, outcome)
                assert to is not None
                found[alike] = Reply((name,), seat, entry.states[seat], outcome, to)
        return list(found.values())

    def lengths(self) -> list[int]:
        """The number of requests that the opponent still needs at each entry, if the answers end the game soonest."""
        after = {i: [each.to for each in self.answers(i)] for i in range(len(self.entries))}
        lengths = [0] * len(self.entries)
        for number in graphlib.TopologicalSorter(after).static_order():
            rest = [lengths[each] for each in after[number]]
            lengths[number] = 0 if self.entries[number].request is None else 1 + (min(rest) if rest else 0)
        return lengths

    def line(self) -> list[Step]:
        """The shortest line of play: each entry with the answer that is followed, and the other answers."""
        lengths = self.lengths()
        number = len(self.entries) - 1
        line = []
        while True:
            answers = self.answers(number)
            chosen = min(answers, key=lambda each: lengths[each.to]) if answers else None
            line.append((number, chosen, [each for each in answers if each is not chosen]))
            if chosen is None:
                return line
            number = chosen.to

    def whole(self) -> list[Step]:
        """All entries of the game, from the present pair on."""
        waiting, seen = [len(self.entries) - 1], []
        while waiting:
            number = waiting.pop(0)
            if number not in seen:
                seen.append(number)
                waiting += [each.to for each in self.answers(number)]
        return [(number, None, []) for number in seen]

    def chained(self) -> list[list[Step]]:
        """The shortest line of play. Consecutive steps without a choice count as one."""
        chains: list[list[Step]] = []
        for step in self.line():
            if chains and self.is_forced(chains[-1][-1][0]) and self.is_forced(step[0]):
                chains[-1].append(step)
            else:
                chains.append([step])
        return chains

    def served(self, chain: Sequence[Step]) -> str:
        """The requests of a chain, each with the service that serves it."""
        return ", ".join(f"{self.entries[number].request} by {reply.names[0]}" for number, reply, _ in chain if reply)

    def changes(self, number: int) -> list[str]:
        """The differences from the present pair, service by service."""
        start, entry = self.entries[-1], self.entries[number]
        return [
            f"{self.names[seat]}: {before} → {after}"
            for seat, (before, after) in enumerate(zip(start.states, entry.states))
            if before != after
        ]

    def present(self) -> list[str]:
        """The states of the services at the present pair."""
        return [
            f"{name}: {state}" + (" (frozen)" if seat in self.frozen else "")
            for seat, (name, state) in enumerate(zip(self.names, self.entries[-1].states))
        ]

    def answer_text(self, number: int, answer: Reply) -> str:
        """The changes by an answer."""
        state, environment = answer.outcome
        text = f"{state}, as before" if state == answer.before else f"{answer.before} → {state}"
        before = self.entries[number].environment
        return text if environment == before else f"{text}, environment {before} → {environment}"

    # As a text.

    def text(self, everything: bool) -> str:
        return "\n".join(self.text_lines(everything)) + "\n"

    def first_step(self) -> list[str]:
        """The lines up to the first request that leaves a choice, or that no service can take."""
        lines = list(self.text_lines(False))
        starts = [at for at, line in enumerate(lines) if not line.startswith(" ")] + [len(lines)]
        return lines[: starts[2 if len(self.chained()[0]) > 1 else 1]]

    def text_lines(self, everything: bool) -> Iterator[str]:
        chains = [[step] for step in self.whole()] if everything else self.chained()
        for place, chain in enumerate(chains):
            number, answer, rest = chain[0]
            entry = self.entries[number]
            where = f"target {entry.target}, environment {entry.environment}"
            changed = self.present() if place == 0 else self.changes(number)
            title = f"[{number}] " if everything else ""
            yield f"{title}{where}" + (f"; {', '.join(changed)}" if changed else "")
            if len(chain) > 1:
                yield f"  nobody has a choice: {self.served(chain)}"
                continue
            if entry.request is None:
                yield f"  the target may be left here, but {self.unrested(number)}"
                continue
            yield f"  {entry.request} is requested"
            for words in self.helpless(number):
                yield f"    {words}"
            for each in self.answers(number) if everything else [answer] if answer else []:
                to = f", on to [{each.to}]" if everything else ""
                yield f"    {' or '.join(each.names)} may answer: {self.answer_text(number, each)}{to}"
            if rest:
                yield f"    {', '.join(n for each in rest for n in each.names)} would lose too"

    def helpless(self, number: int) -> list[str]:
        """The services that can't take the request of an entry, and those that aren't asked."""
        cannot = [each.service for each in self.entries[number].answers if each.outcome is None]
        told = [f"cannot: {', '.join(cannot)}"] if cannot else []
        frozen = [self.names[seat] for seat in sorted(self.frozen)]
        return told + ([f"frozen: {', '.join(frozen)}"] if frozen else []) or (
            [] if self.entries[number].answers else ["there is no service"]
        )

    # As a picture.

    def picture(self, everything: bool) -> Any:
        """The picture: pairs are boxes, requests of the opponent are diamonds, and answers of services are arrows.
        Consecutive steps without a choice are one dotted arrow."""
        picture = graph("TB")
        picture.node("start", shape="point", width="0.12", label="", tooltip="the present pair")
        picture.edge("start", f"p{len(self.entries) - 1}")
        chains = [[step] for step in self.whole()] if everything else self.chained()
        for place, chain in enumerate(chains):
            number, answer, rest = chain[0]
            self.pair(picture, number, place == 0)
            if len(chain) > 1:
                self.chain(picture, chain)
            elif self.entries[number].request is not None:
                answers = self.answers(number) if everything else [answer] if answer else []
                self.request(picture, number, answers, rest)
        return picture

    def chain(self, picture: Any, chain: Sequence[Step]) -> None:
        """Draws consecutive steps without a choice."""
        last = chain[-1][1]
        assert last is not None
        words = [
            coloured(f"{self.entries[number].request} by {reply.names[0]}", GUARD)
            for number, reply, _ in chain
            if reply
        ]
        label = marked([coloured("nobody has a choice:", FADED), *words])
        picture.edge(f"p{chain[0][0]}", f"p{last.to}", label=label, style="dotted", color=GUARD)

    def request(self, picture: Any, number: int, answers: Sequence[Reply], rest: Sequence[Reply]) -> None:
        """Draws the request of an entry, the services that can't take it, and the answers that are followed."""
        picture.node(f"r{number}", label=self.entries[number].request, shape="diamond", color=GUARD, fontcolor=GUARD)
        picture.edge(f"p{number}", f"r{number}", color=GUARD, arrowhead="none")
        told = self.helpless(number)
        if rest:
            told.append(f"would lose too: {', '.join(n for each in rest for n in each.names)}")
        if told:
            label = marked([coloured(each, FADED) for each in told])
            picture.node(f"x{number}", label=label, shape="plaintext")
            picture.edge(f"r{number}", f"x{number}", style="dotted", arrowhead="tee", color=FADED)
        for answer in answers:
            words = [html(" or ".join(answer.names)), coloured(self.answer_text(number, answer), CHOICE)]
            picture.edge(f"r{number}", f"p{answer.to}", label=marked(words), color=CHOICE, dir="both", arrowtail="dot")

    def pair(self, picture: Any, number: int, is_present: bool) -> None:
        entry = self.entries[number]
        lines = [f"<B>{html(entry.target)}</B> · {html(entry.environment)}"]
        lines += [coloured(each, PLAIN, True) for each in (self.present() if is_present else self.changes(number))]
        if entry.request is None:
            lines.append(coloured(f"the target may be left here, but {self.unrested(number)}", WRONG))
        options = {"penwidth": "2.4"} if is_present else {}
        picture.node(f"p{number}", label=marked(lines), shape="box", style="rounded", **options)


def in_order(lists: Sequence[Sequence[str]]) -> list[str]:
    """The names of all lists, in an order that each list follows. Each list has the order of the services."""
    after: dict[str, list[str]] = {}
    for names in lists:
        for name in names:
            after.setdefault(name, [])
        for earlier, later in zip(names, names[1:]):
            after[later].append(earlier)
    try:
        return list(graphlib.TopologicalSorter(after).static_order())
    except graphlib.CycleError:
        raise Wrong("the services of the explanation stand in different orders") from None


def rising(choices: Sequence[Sequence[int]], least: int) -> list[int] | None:
    """A number from each list, each greater than the one before."""
    if not choices:
        return []
    for seat in choices[0]:
        if seat >= least:
            rest = rising(choices[1:], seat + 1)
            if rest is not None:
                return [seat, *rest]
    return None
