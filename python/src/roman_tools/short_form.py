"""The short form of documents, and its expansion to a plain document whose words keep their places.

The short form has environments by variables, steps that state only the changes, guards in words, behaviours with
parameters, services by count, and targets by plans. All other parts have the plain form, so a plain document is a short
one, too.
"""

from __future__ import annotations

import itertools
import json
import math
import re
from collections.abc import Iterator, Sequence
from dataclasses import dataclass, field
from pathlib import Path
from typing import Any

from jsonschema import Draft202012Validator  # type: ignore[import]
from jsonschema.exceptions import ValidationError  # type: ignore[import]

from .actions import Actions
from .checks import Checker
from .findings import Finding, Level, meant
from .formulas import Space, words_of
from .plans import Maker, Plan, Request, Shape, TooLarge, Way
from .reader import Constant, Items, Member, Members, Number, Span, Text, Value

SHORT = "short"
"""The version of a short document."""

PARAMETER = re.compile(r"\$(?:\{([A-Za-z0-9_]+)\}|([A-Za-z0-9_]+))")
STAYS = "stays"

SCHEMA = Path(__file__).with_name("short.schema.json")


def is_short(value: Value) -> bool:
    """Whether a document states that it is in the short form."""
    version = value.get("roman") if isinstance(value, Members) else None
    return isinstance(version, Text) and version.text == SHORT


# Values.


def text(at: Span, word: str) -> Text:
    return Text(at, word)


def members(at: Span, **values: Value | None) -> Members:
    """An object of the values that are present."""
    return Members(at, [Member(text(at, name), value) for name, value in values.items() if value is not None])


def plain(value: Value) -> Any:
    """A value without its places. Values that are nested too deeply for a document are cut off."""
    if isinstance(value, Text):
        return value.text
    if isinstance(value, Constant):
        return value.constant
    if isinstance(value, Number):
        return json.loads(value.literal)
    if isinstance(value, Items):
        return [plain(each) for each in value.items]
    assert isinstance(value, Members)
    return {name: plain(member.value) for name, member in value.last.items()}


def word_of(value: Value | None) -> str | None:
    """A text, or true or false as a word. None for any other value."""
    if isinstance(value, Constant) and value.constant is not None:
        return "true" if value.constant else "false"
    return value.text if isinstance(value, Text) else None


def member_text(value: Value, name: str) -> str:
    """The text of a member, which is empty if there is no such member."""
    return word_of(value.get(name) if isinstance(value, Members) else None) or ""


def texts(value: Value | None) -> list[Text]:
    """A text, or the texts of a list."""
    if isinstance(value, Items):
        return [each for each in value.items if isinstance(each, Text)]
    return [value] if isinstance(value, Text) else []


def filled(value: Value, given: dict[str, str], report: Any) -> Value:
    """The value with `$NAME` in its texts replaced."""
    if isinstance(value, Text):

        def word(found: re.Match[str]) -> str:
            name = found[1] or found[2]
            if name not in given:
                report(value.span, f'"${name}" is no parameter{meant(name, given)}')
            return given.get(name, name)

        return text(value.span, PARAMETER.sub(word, value.text)) if "$" in value.text else value
    if isinstance(value, Items):
        return Items(value.span, [filled(each, given, report) for each in value.items])
    if isinstance(value, Members):
        inner = [Member(each.name, filled(each.value, given, report)) for each in value.members]
        return Members(value.span, inner)
    return value


@dataclass(frozen=True)
class Worded(Items):
    """A guard of the plain form with its words in the short one."""

    words: str


@dataclass
class Template:
    """A behaviour with parameters, and the behaviours that were made from it so far."""

    value: Members
    name: str
    defaults: dict[str, str | None]
    made: dict[tuple[tuple[str, str], ...], str] = field(default_factory=dict)
    values: list[Value] = field(default_factory=list)


class Expander:
    """Makes the plain document of a short one. Mistakes are reported to the checker, which then reads the plain
    document."""

    def __init__(self, checker: Checker) -> None:
        self.checker = checker
        self.space = Space([], {}, [], {})
        self.elsewhere: dict[str, str] = {}
        """The states of behaviours, each with a behaviour that has it."""
        self.seen: dict[str, Text] = {}
        """The actions in the order of the document, for an environment that doesn't list them."""
        self.moved: dict[str, Span] = {}
        """The actions on which the environment has a step, with the first one of each."""
        self.planned: dict[str, Span] = {}
        """The actions that plans request, with the first place of each."""

    def report(self, span: Span, message: str) -> None:
        self.checker.findings.append(Finding(span, Level.ERROR, message))

    def from_file(self, value: Value, word: str, number: int) -> Value | None:
        """A part, which is read if it names a file."""
        if not isinstance(value, Members) or "file" not in value.last:
            return value
        part = self.checker.part(value, word, number, f"{word} {number}")
        return None if part is None else part.value

    # The document.

    def expand(self, document: Members) -> Members | None:
        """The plain document, or None if something is wrong."""
        document = self.with_parts(document)
        if self.checker.findings or not self.has_form(document):
            return None
        at = document.span
        self.collect(document)
        self.elsewhere = states_of_behaviours(document)
        environment = self.environment(document.get("environment"), at.head)
        behaviours, services = self.behaviours(document)
        targets = self.targets(document)
        if not self.checker.findings:
            self.check_requests(texts(environment.get("actions")), behaviours, services)
        if self.checker.findings:
            return None
        several = len(targets) > 1
        loose = any(isinstance(s, Members) and is_false(s.get("rests")) for s in services)
        version = 3 if several else 2 if loose else 1
        return members(
            at,
            roman=Number(span_of(document, "roman"), str(version)),
            limit=document.get("limit"),
            environment=environment,
            behaviours=Items(at.head, behaviours),
            services=Items(at.head, services),
            target=None if several else targets[0],
            targets=Items(at.head, targets) if several else None,
        )

    def with_parts(self, document: Members) -> Members:
        """The document with its parts in place."""
        inner = []
        for member in document.last.values():
            name, value = member.name.text, member.value
            if name in ("environment", "target"):
                value = self.from_file(value, name, 0) or value
            elif name in ("behaviours", "targets") and isinstance(value, Items):
                items = [self.from_file(each, name[:-1], i) or each for i, each in enumerate(value.items)]
                value = Items(value.span, items)
            inner.append(Member(member.name, value))
        # The checker judges the parts of the plain document.
        self.checker.parts.clear()
        return Members(document.span, inner)

    def has_form(self, document: Members) -> bool:
        """Whether the document has the form of the schema. Deviations are reported."""
        schema = json.loads(SCHEMA.read_text(encoding="utf-8"))
        try:
            for error in Draft202012Validator(schema).iter_errors(plain(document)):
                self.report(*told(document, error))
        except RecursionError:
            self.report(document.span.head, "too many lists and objects within one another")
        return not self.checker.findings

    def collect(self, document: Members) -> None:
        """Collects the actions in their order: those of the environment's steps, of the targets, and of the
        behaviours."""
        environment = document.get("environment")
        if isinstance(environment, Members):
            for step in items_of(environment.get("steps")):
                self.note(requested(step))
        targets = [document.get("target"), *items_of(document.get("targets"))]
        for target in targets:
            if isinstance(target, Members):
                self.collect_steps(target)
                self.collect_plan(target.get("plan"))
        for behaviour in items_of(document.get("behaviours")):
            if isinstance(behaviour, Members) and "parameters" not in behaviour.last:
                self.collect_steps(behaviour)

    def note(self, actions: Sequence[Value]) -> None:
        for action in actions:
            if isinstance(action, Text):
                self.seen.setdefault(action.text, action)

    def collect_steps(self, machine: Members) -> None:
        for step in items_of(machine.get("steps")):
            self.note(requested(step))

    def collect_plan(self, value: Value | None) -> None:
        if isinstance(value, Text):
            self.note([value])
        for each in items_of(value):
            self.collect_plan(each)
        if isinstance(value, Members):
            self.note(texts(value.get("do")))
            for word in ("choice", "loop", "maybe"):
                self.collect_plan(value.get(word))

    def check_requests(self, known: Sequence[Text], behaviours: Sequence[Value], services: Sequence[Value]) -> None:
        """Reports the actions of plans on which the environment has no step, or no service has one. Actions that aren't
        in the environment's list, and unknown behaviours, are reported with the plain document."""
        kinds = {member_text(each, "behaviour") for each in services}
        if not kinds <= {member_text(each, "name") for each in behaviours}:
            return
        listed = {each.text for each in known}
        served: dict[str, Span] = {}
        idle: dict[str, str] = {}
        for behaviour in behaviours:
            name = member_text(behaviour, "name")
            for step in items_of(behaviour.get("steps") if isinstance(behaviour, Members) else None):
                action = items_of(step)[2]
                if isinstance(action, Text) and name in kinds:
                    served.setdefault(action.text, action.span)
                elif isinstance(action, Text):
                    idle.setdefault(action.text, name)
        planned = {action: span for action, span in self.planned.items() if action in listed}
        for span, message in Actions(planned, self.moved, served, idle).faults():
            self.report(span, message)

    # The environment.

    def environment(self, value: Value | None, at: Span) -> Members:
        """The plain environment. If there is none, it has one state, to which all actions lead back."""
        if not isinstance(value, Members):
            value = members(at, states=Items(at, [text(at, "always")]), otherwise=text(at, STAYS))
        states = self.states(value)
        listed = value.get("actions")
        actions = texts(listed) if listed is not None else list(self.seen.values())
        triples: dict[tuple[str, str, str], Items] = {}
        for step in items_of(value.get("steps")):
            for one, action, other in self.moves(step, states):
                key = (one.text, action.text, other.text)
                triples.setdefault(key, Items(step.span, [one, action, other]))
                self.moved.setdefault(action.text, action.span)
        if is_word(value.get("otherwise"), STAYS):
            taken = {(one, action) for one, action, _ in triples}
            for action, one in itertools.product(actions, states):
                if (one.text, action.text) not in taken:
                    triples[one.text, action.text, one.text] = Items(action.span, [one, action, one])
                    self.moved.setdefault(action.text, action.span)
        where = value.span
        return members(
            where,
            states=Items(span_of(value, "variables", "states"), list(states)),
            start=self.env_start(value, states),
            actions=Items(span_of(value, "actions"), list(actions)),
            steps=Items(span_of(value, "steps"), list(triples.values())),
        )

    def states(self, value: Members) -> list[Text]:
        """The states: the listed ones, or one for each combination of the variables' values."""
        variables = value.get("variables")
        if not isinstance(variables, Members):
            states = texts(value.get("states"))
            self.space = Space([each.text for each in states], {}, [{} for _ in states], self.elsewhere)
            return states
        names = list(variables.last)
        lists = [texts(variables.get(name)) for name in names]
        states, values = [], []
        count = math.prod(len(each) for each in lists)
        if count > 64:
            message = f"the variables have {count:,} combinations; 64 is the most"
            self.report(variables.span, message)
        for each in itertools.islice(itertools.product(*lists), 64):
            states.append(text(each[-1].span, "-".join(one.text for one in each)))
            values.append({name: one.text for name, one in zip(names, each)})
        known = {name: [one.text for one in each] for name, each in zip(names, lists)}
        self.space = Space([each.text for each in states], known, values, self.elsewhere)
        return states

    def env_start(self, value: Members, states: Sequence[Text]) -> Text:
        """The start: a state, the values of variables, or the first state."""
        start = value.get("start")
        if start is None:
            return states[0]
        if isinstance(start, Text):
            return start
        assert isinstance(start, Members)
        return self.changed(dict(self.space.values[0]), start)

    def changed(self, values: dict[str, str], change: Members) -> Text:
        """The state with these values, apart from those that change."""
        for name, member in change.last.items():
            if isinstance(member.value, Text):
                before = len(self.checker.findings)
                at = member.name.span if name not in values else member.value.span
                self.space.test(name, member.value.text, at, self.report)
                if len(self.checker.findings) == before:
                    values[name] = member.value.text
        return text(change.span, "-".join(values.values()))

    def moves(self, step: Value, states: Sequence[Text]) -> Iterator[tuple[Text, Text, Text]]:
        """The plain steps of a step of the environment."""
        if isinstance(step, Items):
            one, action, other = texts(step)
            yield one, action, other
            return
        assert isinstance(step, Members)
        guard = self.step_guard(step)
        ways: list[Value | None] = [None]
        if "set" in step.last:
            ways = [step.get("set")]
        elif "to" in step.last:
            ways = list(texts(step.get("to")))
        elif "ways" in step.last:
            ways = list(items_of(step.get("ways")))
        for action in texts(step.get("on")):
            for number, state in enumerate(states):
                if guard >> number & 1:
                    for way in ways:
                        yield state, action, self.led_to(number, state, way)
                elif is_word(step.get("otherwise"), STAYS):
                    yield state, action, state

    def led_to(self, number: int, state: Text, way: Value | None) -> Text:
        """The state to which a way leads from a state."""
        if way is None:
            return state
        if isinstance(way, Text):
            return way
        return self.changed(dict(self.space.values[number]), way)  # type: ignore[arg-type]

    def step_guard(self, step: Members) -> int:
        """The environment states in which a step of the environment can be taken: by `from` and `when`."""
        guard = self.space.everything
        if "from" in step.last:
            guard &= self.space.joined(
                [self.space.word(t.text, t.span, self.report) for t in texts(step.get("from"))], False
            )
        when = step.get("when")
        return guard if when is None else guard & self.space.guard(when, self.report)

    # Behaviours and services.

    def behaviours(self, document: Members) -> tuple[list[Value], list[Value]]:
        """The catalogue, and its services."""
        templates: dict[str, Template] = {}
        slots: list[Any] = []
        counted: list[tuple[Text, Value]] = []
        for value in items_of(document.get("behaviours")):
            assert isinstance(value, Members)
            name = value.get("name")
            assert isinstance(name, Text)
            if "count" in value.last:
                counted.append((name, value.last["count"].value))
            if "parameters" in value.last:
                template = Template(value, name.text, parameters(value))
                templates[name.text] = template
                slots.append(template)
            else:
                slots.append(self.machine(value))
        services: list[Value] = []
        for value in items_of(document.get("services")):
            assert isinstance(value, Members)
            services += self.services(value, templates)
        for name, count in counted:
            value = members(name.span, name=name, behaviour=name, count=count)
            services += self.services(value, templates)
        behaviours: list[Value] = []
        for slot in slots:
            behaviours += slot.values if isinstance(slot, Template) else [slot]
        return behaviours, services

    def services(self, value: Members, templates: dict[str, Template]) -> Iterator[Value]:
        """The plain services of a service."""
        behaviour = value.get("behaviour")
        assert isinstance(behaviour, Text)
        name = value.get("name") or behaviour
        assert isinstance(name, Text)
        count = value.get("count")
        total = count.whole if isinstance(count, Number) else None
        for number in range(1, (total or 1) + 1):
            given = {"n": str(number)}
            title = filled(name, given, self.report)
            assert isinstance(title, Text)
            if total is not None and total > 1 and title.text == name.text:
                title = text(name.span, f"{name.text}-{number}")
            template = templates.get(behaviour.text)
            kind = behaviour
            if template is not None:
                kind = text(behaviour.span, self.instance(template, value, given))
            elif "with" in value.last:
                self.report(value.last["with"].name.span, f'behaviour "{behaviour.text}" has no parameters')
            yield members(
                value.span,
                name=title,
                behaviour=kind,
                state=value.get("state"),
                frozen=value.get("frozen"),
                rests=value.get("rests"),
            )

    def instance(self, template: Template, service: Members, given: dict[str, str]) -> str:
        """The name of the behaviour that is made from a pattern for a service. It is made if it is new."""
        arguments = dict(template.defaults)
        with_value = service.get("with")
        if isinstance(with_value, Members):
            for name, member in with_value.last.items():
                if name not in arguments:
                    near = meant(name, arguments)
                    self.report(member.name.span, f'"{name}" is no parameter of "{template.name}"{near}')
                arguments[name] = word_of(filled(member.value, given, self.report))
        missing = [name for name, value in arguments.items() if value is None]
        if missing:
            message = f'behaviour "{template.name}" needs "{missing[0]}", by "with": {{"{missing[0]}": ..}}'
            self.report(service.span.head, message)
            return template.name
        values = {name: value or "" for name, value in arguments.items()}
        key = tuple(values.items())
        if key not in template.made:
            told = [value for name, value in values.items() if value != template.defaults.get(name)]
            name = re.sub("[^A-Za-z0-9_-]+", "-", "-".join([template.name, *told])).rstrip("-")
            if len(name) > 32 or name in template.made.values():
                name = f"{template.name}-{len(template.made) + 1}"
            template.made[key] = name
            self.checker.patterns[name] = template.name
            value = filled(template.value, values, self.report)
            assert isinstance(value, Members)
            template.values.append(self.machine(value, name))
        return template.made[key]

    def machine(self, value: Members, name: str | None = None) -> Members:
        """The plain form of a behaviour, or of a target by steps."""
        steps = [each for step in items_of(value.get("steps")) for each in self.steps(step)]
        states = texts(value.get("states"))
        start = value.get("start")
        if not states:
            found: dict[str, Text] = {start.text: start} if isinstance(start, Text) else {}
            named = {each.text for step in steps for each in (step.items[0], step.items[3]) if isinstance(each, Text)}
            if isinstance(start, Text) and named and start.text not in named:
                self.report(start.span, f'"{start.text}" stands in no step{meant(start.text, named)}')
            for step in steps:
                for each in (step.items[0], step.items[3]):
                    assert isinstance(each, Text)
                    found.setdefault(each.text, each)
            states = list(found.values())
        first = start if isinstance(start, Text) else states[0] if states else text(value.span.head, "")
        final = value.get("final")
        if final is None:
            final = Items(first.span, [first])
        elif isinstance(final, Constant):
            final = Items(final.span, list(states))
        title = value.get("name")
        return members(
            value.span,
            name=text(title.span, name) if name and title else title,
            states=Items(span_of(value, "states", "steps"), list(states)),
            start=first,
            final=final,
            steps=Items(span_of(value, "steps"), list(steps)),
        )

    def steps(self, step: Value) -> Iterator[Items]:
        """The plain steps of a step of a machine."""
        if isinstance(step, Items):
            one, *guards, action, other = step.items
            yield Items(step.span, [one, self.told(guards[0] if guards else None, step), action, other])
            return
        assert isinstance(step, Members)
        guard = self.told(step.get("when"), step)
        for one, action in itertools.product(texts(step.get("from")), texts(step.get("on"))):
            for other in texts(step.get("to")) or [one]:
                yield Items(step.span, [one, guard, action, other])

    def told(self, guard: Value | None, step: Value) -> Value:
        """The plain form of a guard. A guard that is written as `false` stays so, because it is intended."""
        if guard is None:
            return Constant(step.span, True)
        if word_of(guard) == "false":
            return Constant(guard.span, False)
        return self.listed(self.space.guard(guard, self.report), guard.span, words_of(guard))

    def listed(self, mask: int, at: Span, words: str) -> Value:
        if mask == self.space.everything:
            return Constant(at, True)
        return Worded(at, [text(at, name) for i, name in enumerate(self.space.states) if mask >> i & 1], words)

    # Targets.

    def targets(self, document: Members) -> list[Value]:
        one = document.get("target")
        values = [one] if one is not None else list(items_of(document.get("targets")))
        return [self.target(each) for each in values if isinstance(each, Members)]

    def target(self, value: Members) -> Members:
        plan_value = value.get("plan")
        if plan_value is None:
            return self.machine(value)
        start = value.get("start")
        first = start if isinstance(start, Text) else text(plan_value.span.head, "start")
        final = value.get("final")
        given = {each.text for each in texts(final)} if isinstance(final, Items) else None
        plan = Plan()
        try:
            maker = Maker(plan, self.shape(plan, plan_value), first.text, len(self.space.states), given)
        except TooLarge as error:
            self.report(plan_value.span.head, str(error))
            return value
        for name, span in maker.clashes():
            self.report(span, f'"{name}" would be two states, from which the plan goes on differently')
        made = maker.made()
        at = plan_value.span
        states = [text(span or first.span, name) for name, span in made.states.items()]
        if isinstance(final, Constant):
            final = Items(final.span, list(states))
        steps = [self.way(way) for way in made.ways]
        return members(
            value.span,
            name=value.get("name"),
            states=Items(at.head, list(states)),
            start=first,
            final=final if isinstance(final, Items) else Items(at.head, [text(at.head, each) for each in made.finals]),
            steps=Items(at.head, list(steps)),
        )

    def way(self, way: Way) -> Items:
        """A step of a plan's machine. Its guard has the words of its request, unless another request shares its
        states of the environment."""
        written = way.request.written
        is_own = written is not None and way.guard == way.request.guard
        words = words_of(written) if written is not None and is_own else self.space.words(way.guard)
        at = way.span if written is None else written.span
        state, action, to = (text(way.span, each) for each in (way.state, way.action, way.to))
        return Items(way.span, [state, self.listed(way.guard, at, words), action, to])

    def request(self, plan: Plan, actions: Sequence[Text], guard: Value | None, name: str | None, at: Span) -> Shape:
        """A place of a plan at which one of these actions may be requested."""
        for action in actions:
            self.planned.setdefault(action.text, action.span)
        mask = self.space.everything if guard is None else self.space.guard(guard, self.report)
        return plan.one(Request(tuple(each.text for each in actions), mask, name, at, guard))

    def shape(self, plan: Plan, value: Value) -> Shape:
        """A piece of a plan."""
        if isinstance(value, Text):
            return self.request(plan, [value], None, None, value.span)
        if isinstance(value, Items):
            return plan.sequence([self.shape(plan, each) for each in value.items])
        assert isinstance(value, Members)
        if "do" in value.last:
            to = value.get("to")
            name = to.text if isinstance(to, Text) else None
            return self.request(plan, texts(value.get("do")), value.get("when"), name, span_of(value, "do"))
        if "choice" in value.last:
            return plan.choice([self.shape(plan, each) for each in items_of(value.get("choice"))])
        inner = self.shape(plan, value.get("loop") or value.get("maybe") or value)
        return plan.loop(inner) if "loop" in value.last else Shape(True, inner.first, inner.last)


def parameters(value: Members) -> dict[str, str | None]:
    """The parameters of a behaviour with their defaults."""
    listed = value.get("parameters")
    if isinstance(listed, Members):
        return {name: word_of(member.value) for name, member in listed.last.items()}
    return {each.text: None for each in texts(listed)}


def states_of_behaviours(document: Members) -> dict[str, str]:
    """The states of the behaviours, each with the name of the first behaviour that has it."""
    found: dict[str, str] = {}
    for behaviour in items_of(document.get("behaviours")):
        name = behaviour.get("name") if isinstance(behaviour, Members) else None
        if not isinstance(behaviour, Members) or not isinstance(name, Text):
            continue
        states = texts(behaviour.get("states"))
        for step in items_of(behaviour.get("steps")):
            if isinstance(step, Members):
                states += [*texts(step.get("from")), *texts(step.get("to"))]
            else:
                items = items_of(step)
                states += [each for each in (*items[:1], *items[-1:]) if isinstance(each, Text)]
        for state in states:
            found.setdefault(state.text, name.text)
    return found


def has_short_words(document: Members) -> bool:
    """Whether a document has members that only the short form has."""
    targets = [document.get("target"), *items_of(document.get("targets"))]
    parts: list[tuple[Sequence[Value | None], tuple[str, ...]]] = [
        ([document.get("environment")], ("variables", "otherwise")),
        (items_of(document.get("behaviours")), ("parameters", "count")),
        (items_of(document.get("services")), ("with", "count")),
        (targets, ("plan",)),
    ]
    return any(
        isinstance(part, Members) and any(word in part.last for word in words) for some, words in parts for part in some
    )


def items_of(value: Value | None) -> list[Value]:
    return value.items if isinstance(value, Items) else []


def requested(step: Value) -> Sequence[Value]:
    """The actions of a step of either form."""
    if isinstance(step, Members):
        return texts(step.get("on"))
    return items_of(step)[-2:-1]


def is_word(value: Value | None, word: str) -> bool:
    return isinstance(value, Text) and value.text == word


def is_false(value: Value | None) -> bool:
    return isinstance(value, Constant) and value.constant is False


def span_of(value: Members, *names: str) -> Span:
    """The place of the first of these members that is present. If there is none, it is the beginning of the object."""
    for name in names:
        if name in value.last:
            return value.last[name].value.span
    return value.span.head


# Deviations from the form of the schema.


def told(document: Members, error: ValidationError) -> tuple[Span, str]:
    """The place of a value of the wrong form, and a message."""
    value: Value = document
    for step in error.absolute_path:
        found = value.get(str(step)) if isinstance(value, Members) else items_of(value)[int(step)]
        assert found is not None
        value = found
    if error.validator == "oneOf":
        return value.span.head, str(error.validator_value[0]["description"])
    if error.validator == "required" and isinstance(value, Members):
        missing = [name for name in error.validator_value if name not in value.last]
        return value.span.head, f'the member "{missing[0]}" is missing here'
    if error.validator == "additionalProperties" and isinstance(value, Members):
        known = error.schema.get("properties", {})
        for name, member in value.last.items():
            if name not in known and not name.startswith("$"):
                return member.name.span, f'"{name}" has no meaning here{meant(name, known)}'
    due = error.schema.get("description", "")
    shown = f'"{value.text}"' if isinstance(value, Text) else value.word
    if error.validator == "pattern":
        return value.span, f'{shown} is no name: 1 to 32 letters, digits, "_" and "-"'
    if error.validator in ("minItems", "maxItems"):
        return value.span, f"the list has {len(items_of(value))} items; {due}"
    if error.validator == "uniqueItems":
        return value.span, "something stands twice in this list"
    return value.span, f"{shown} stands here; {due}" if due else f"{shown} has no place here"
