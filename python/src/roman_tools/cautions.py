"""Warnings of what the program accepts and the author probably doesn't mean."""

from __future__ import annotations

from collections.abc import Callable, Iterable, Iterator, Sequence
from dataclasses import replace
from functools import partial
from typing import Optional

from roman_client.documents import Document, EnvironmentStep, Machine, Step, holds

from .checks import MEMBERS, Checker, Part
from .findings import Finding, Level, grouped, in_order, meant
from .limits import too_large
from .placed import guard_span, span_of
from .reader import Members, Span, walked
from .repairs import with_final, with_guards, with_moves, with_requests, with_way_on
from .walk import Stuck, Walk

OWN = {"comment", "description", "note", "notes", "title"}
"""Members for people, in addition to those whose names begin with `$`."""


def warning(span: Span, message: str) -> Finding:
    return Finding(span, Level.WARNING, message)


# The text.


def of_text(checker: Checker) -> Iterator[Finding]:
    """Members that are ignored, or given twice."""
    for part in checker.parts:
        yield from ignored(part, checker.version)
    for value in checker.values:
        for each, _ in walked(value):
            if isinstance(each, Members):
                yield from hidden(each)


def hidden(value: Members) -> Iterator[Finding]:
    for member in value.repeats():
        line, column = value.last[member.name.text].name.span.place
        message = f'"{member.name.text}" is given twice; that of line {line}, column {column} counts'
        yield warning(member.name.span, message)


def ignored(part: Part, version: int) -> Iterator[Finding]:
    """The members of a part that the program ignores."""
    known = MEMBERS[part.word] | ({"name"} if part.word == "target" and version == 3 else set())
    other = "target" if version == 3 else "targets"
    for name, member in part.value.last.items():
        if name == "rests" and part.word == "service" and version == 1:
            message = 'version 1 ignores "rests", and this service rests; version 2 knows loose services'
        elif part.word == "system" and name == other:
            message = f'version {version} ignores "{other}"'
        elif name in known or name in OWN or name.startswith("$"):
            continue
        else:
            missing = {each for each in known if each not in part.value.last}
            message = f'"{name}" is no member of {part.title}, and is ignored{meant(name, missing)}'
        yield warning(member.name.span, message)


# The system.

Mended = Callable[[], Document]
"""Returns the document without the cause of a finding."""

Judged = tuple[Finding, Optional[Mended]]


class Judge:
    """Judges a document that breaks no rule."""

    def __init__(self, document: Document, known: Walk | None = None) -> None:
        """`known` is the walk of another document. It is used if that one has the same environment and targets."""
        self.document = document
        self.environment = document.environment
        self.before = {action: self.environment.before(action) for action in self.environment.actions}
        self.live = {name: self.live_of(each) for name, each in document.behaviours.items()}
        self.walk = known if known is not None and known.is_of(document) else Walk(document)

    def live_of(self, machine: Machine) -> list[Step]:
        """The steps that some state of the environment allows."""
        return [step for step in machine.steps if self.before[step.action] & self.environment.states_in(step.guard)]

    def findings(self) -> Iterator[Finding]:
        for finding, _ in self.judged():
            yield finding

    def judged(self) -> Iterator[Judged]:
        """The findings, each with the document without its cause, if that can be made."""
        yield from self.size()
        reached = closure({self.environment.start}, self.environment.steps)
        yield from unreached("the environment", self.environment.states, reached)
        yield from self.actions()
        for number, behaviour in enumerate(self.document.behaviours.values()):
            yield from self.behaviour(number, behaviour)
        yield from self.services()
        for number, target in enumerate(self.document.targets):
            yield from self.target(number, target)

    def size(self) -> Iterator[Judged]:
        finding = too_large(self.document)
        if finding is not None:
            yield finding, None

    def actions(self) -> Iterator[Judged]:
        """Actions that are never requested, or that no service can take."""
        wanted = {step.action for target in self.document.targets for step in target.steps}
        served = {step.action for service in self.document.services for step in self.live[service.behaviour]}
        for action in self.environment.actions:
            span = span_of(action)
            if not self.before[action]:
                message = f'the environment has no step on "{action}", so nobody is ever asked for it'
                yield warning(span, message), partial(with_moves, self.document, action, self.environment.states)
            elif action not in self.walk.requested:
                unheld = " in a state and an environment that can be reached" if action in wanted else ""
                message = f'the target never allows "{action}"{unheld}'
                is_cause = action in wanted and not self.walk.stuck()
                yield warning(span, message), (partial(with_requests, self.document, action)) if is_cause else None
            elif action not in served:
                message = f'the target allows "{action}", and no service can ever take it'
                yield warning(span, message), None

    def behaviour(self, number: int, behaviour: Machine) -> Iterator[Judged]:
        """Steps of a behaviour that are never taken, and states that are never reached or left."""
        part = ("behaviour", number)
        title = title_of(behaviour, "the behaviour")
        services = [each for each in self.document.services if each.behaviour == behaviour.name]
        names = ", ".join(f'"{each.name}"' for each in services) or "none"
        owner = f'{title} (service{"s" if len(services) > 1 else ""} {names})'
        for finding, mended in self.steps(behaviour, owner, part):
            yield replace(finding, part=part), mended
        starts = {behaviour.start, *(each.state for each in services)}
        reached = closure(starts, self.live[behaviour.name])
        for finding, _ in unreached(title, behaviour.states, reached):
            yield replace(finding, part=part), None
        left = {step.state for step in behaviour.steps} | behaviour.final
        for state in (each for each in behaviour.states if each in reached - left):
            near = meant(state, (each for each in behaviour.states if each in left), 0.8)
            if near:
                message = f'no step of {title} leaves "{state}", which isn\'t final{near}'
                yield replace(warning(span_of(state), message), part=part), None

    def steps(self, machine: Machine, owner: str, part: tuple[str, int]) -> Iterator[Judged]:
        """Steps whose guard never allows them. A guard that is written as `false` is intended."""
        for number, step in enumerate(machine.steps):
            before, states = self.before[step.action], self.environment.states_in(step.guard)
            if not states and step.guard is not False:
                message = f'this guard never holds, so {owner} never takes "{step.action}" by this step'
                yield warning(guard_span(step), message), partial(with_guards, self.document, part, [number])
            elif states and before and not states & before:
                message = (
                    f'if this guard holds, the environment has no step on "{step.action}", so {owner} never takes'
                    " this step"
                )
                yield warning(guard_span(step), message), partial(with_moves, self.document, step.action, states)

    def services(self) -> Iterator[Judged]:
        for service in self.document.services:
            live = self.live[service.behaviour]
            reached = closure({service.state}, live)
            if not any(step.state in reached and step.action in self.walk.requested for step in live):
                message = f'service "{service.name}" can never serve a request'
                yield warning(span_of(service.name), message), None
            left = self.left_in()
            if not service.loose and left and not reached & self.document.behaviours[service.behaviour].final:
                message = (
                    f'the target may be left in "{left}", and service "{service.name}"' " can never be in a final state"
                )
                yield warning(span_of(service.name), message), None

    def left_in(self) -> str | None:
        """A final state that the target reaches, None if there is none. With several targets, each must reach one."""
        found = None
        for seat, target in enumerate(self.document.targets):
            left = self.walk.reached(seat) & target.final
            if not left:
                return None
            found = found or next(state for state in target.states if state in left)
        return found

    # The target.

    def target(self, seat: int, target: Machine) -> Iterator[Judged]:
        title, part = title_of(target, "the target"), ("target", seat)
        yield from self.steps(target, title, part)
        reached = self.walk.reached(seat)
        alone = closure({target.start}, self.live_of(target))
        yield from unreached(title, target.states, alone)
        for state in target.states:
            if state in alone & target.final - reached:
                message = f'{title} never comes into "{state}", which is final: the environment allows no way there'
                yield warning(span_of(state), message), None
        stuck: dict[str, list[Stuck]] = {}
        for each in self.walk.stuck():
            if each.target == seat:
                stuck.setdefault(each.pair.targets[seat], []).append(each)
        for state, places in stuck.items():
            yield self.stuck(title, seat, state, places)
        if target.final & reached:
            yield from self.without_final(title, seat)

    def stuck(self, title: str, seat: int, state: str, places: list[Stuck]) -> Judged:
        """A state in which nothing is allowed in some states of the environment, with the way to the nearest one."""
        target, first = self.document.targets[seat], places[0]
        come = f"; the way there: {', '.join(first.way)}" if first.way else ""
        message = f'{title} can go no further in "{state}", and isn\'t final there'
        steps = [step for step in target.steps if step.state == state]
        if not steps:
            finding = warning(given(target.states, state), f"{message}: no step leaves it{come}")
            return finding, partial(with_final, self.document, seat, state)
        where = first.pair.environment
        closed = [step for step in steps if not holds(step.guard, where)]
        step = (closed or steps)[0]
        moves = [span_of(each.source) for each in self.environment.steps if each.action == step.action]
        if closed:
            why, span = f'the guard of "{step.action}" doesn\'t hold', guard_span(step)
        else:
            why, span = f'the environment has no step on "{step.action}"', (moves or [span_of(step.source)])[0]
        others = f" (or in {len(places) - 1} other states)" if len(places) > 1 else ""
        states = {each.pair.environment for each in places}
        mended = partial(with_way_on, self.document, seat, state, step.action, states)
        return warning(span, f'{message}: if the environment is in "{where}"{others}, {why}{come}'), mended

    def without_final(self, title: str, seat: int) -> Iterator[Judged]:
        """A state from which the target never reaches a final state again, although it can go on."""
        pairs = self.walk.without_final(seat)
        if pairs:
            state = pairs[0].targets[seat]
            way = ", ".join(self.walk.way(pairs[0]))
            message = (
                f'from "{state}" {title} comes into no final state any more, if the environment is in'
                f' "{pairs[0].environment}"; the way there: {way}'
            )
            span = given(self.document.targets[seat].states, state)
            yield warning(span, message), partial(with_final, self.document, seat, state)


MOST_CAUSES = 40
"""The maximum number of causes whose consequences are determined."""

MOST_STEPS = 1_000_000
"""The approximate number of steps of targets that are walked to determine them."""


def judged(document: Document) -> list[Finding]:
    """The findings in a document, each cause before its consequences. Consequences aren't found without their cause."""
    judge = Judge(document)
    mends = dict(judge.judged())
    findings = in_order(mends)
    most = min(MOST_CAUSES, 1 + MOST_STEPS // (1 + judge.walk.size))
    tried = [(each, mend) for each in findings for mend in [mends[each]] if mend is not None][:most]
    rests = {each: set(Judge(mend(), judge.walk).findings()) for each, mend in tried}
    # A cause from which another one follows comes first.
    ranked = sorted(rests, key=lambda each: -sum(other not in rests[each] for other in findings))
    causes: dict[Finding, Finding] = {}
    for cause in ranked:
        if cause in causes or cause in rests[cause]:
            continue
        for other in findings:
            if other != cause and other not in rests[cause]:
                causes.setdefault(other, cause)
    roots = {each: root_of(each, causes) for each in causes}
    return grouped(findings, roots)


def root_of(finding: Finding, causes: dict[Finding, Finding]) -> Finding:
    while finding in causes:
        finding = causes[finding]
    return finding


def unreached(title: str, states: Sequence[str], reached: set[str]) -> Iterator[Judged]:
    """The states that are never reached. If several states have the same place, all of them have to be unreached."""
    known = {span_of(state) for state in states if state in reached}
    for state in states:
        span = span_of(state)
        if span not in known:
            known.add(span)
            yield warning(span, f'{title} never comes into "{state}"'), None


def closure(starts: set[str], steps: Iterable[Step | EnvironmentStep]) -> set[str]:
    """The states that these steps reach from these states."""
    after: dict[str, set[str]] = {}
    for step in steps:
        after.setdefault(step.state, set()).add(step.to)
    found = set(starts)
    waiting = list(starts)
    while waiting:
        more = after.get(waiting.pop(), set()) - found
        found |= more
        waiting += more
    return found


def given(states: Sequence[str], state: str) -> Span:
    """The place at which a state is listed."""
    return span_of(states[states.index(state)])


def title_of(machine: Machine, kind: str) -> str:
    """The name of a machine in messages."""
    return f'{kind.split()[1]} "{machine.name}"' if machine.name else kind
