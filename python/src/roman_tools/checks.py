"""All refusals of the format in a document, in the order in which the program checks its rules."""

from __future__ import annotations

import itertools
import math
import re
from collections.abc import Iterator, Mapping, Sequence
from dataclasses import dataclass, field
from typing import Any

from roman_client.documents import LONGEST_DOCUMENT, MOST_STATES, Document, holds

from .findings import Finding, Level, Refusal, meant
from .placed import placed
from .reader import Broken, Constant, Items, Members, Number, Shelf, Span, Text, Value, parsed

NAME = re.compile(r"[A-Za-z0-9_-]{1,32}", re.ASCII)
STEPS = 16_384
LIMIT, GREATEST_LIMIT = 262_144, 16_777_216

MEMBERS = {
    "system": {"roman", "limit", "environment", "behaviours", "services", "target", "targets"},
    "environment": {"states", "start", "actions", "steps"},
    "behaviour": {"name", "states", "start", "final", "steps"},
    "service": {"name", "behaviour", "state", "frozen", "rests"},
    "target": {"states", "start", "final", "steps"},
}
"""The members of each part that the format defines."""


@dataclass
class Part:
    """A part of a document, with its names in refusals and in messages."""

    document: str
    word: str
    number: int
    title: str
    value: Members


@dataclass
class Names:
    """A list of names as it is written, even if some of it is wrong."""

    known: list[str] = field(default_factory=list)
    sure: bool = False
    """Whether the list has been read whole, so that other names are unknown."""


class Checker:
    """Reads a document, and collects its refusals."""

    def __init__(self, name: str, shelf: Shelf | None = None) -> None:
        self.name = name
        self.shelf = shelf or Shelf()
        self.findings: list[Finding] = []
        self.parts: list[Part] = []
        """The parts that are objects."""
        self.values: list[Value] = []
        """The value of each file."""
        self.version = 0
        self.short = False
        """Whether the document is in the short form."""
        self.patterns: dict[str, str] = {}
        """The behaviours that are made from patterns, each with its pattern."""
        self.document: Document | None = None
        """The plain document, if nothing is refused. Its texts, lists and objects have places."""

    # Findings.

    def refuse(
        self,
        where: tuple[str, str, int],
        kind: str,
        at: tuple[str, int],
        span: Span,
        message: str,
        more: str = "",
    ) -> None:
        """Adds a refusal of a part (document, word, number), at a list and an index."""
        refusal = Refusal(where[0], kind, where[1], where[2], at[0], at[1], more)
        self.findings.append(Finding(span, Level.ERROR, message, refusal))

    def fault(self, part: Part, kind: str, at: tuple[str, int], span: Span, message: str) -> None:
        self.refuse((part.document, part.word, part.number), kind, at, span, message)

    # Files.

    def fetch(self, name: str, where: tuple[str, str, int]) -> Value | None:
        """The value of a file. A refusal is one of the part `where`."""
        source, size = self.shelf.source(name)
        if size > LONGEST_DOCUMENT:
            start = Span(source, 0, 1)
            message = f"the text has {size:,} bytes; {LONGEST_DOCUMENT:,} is the most"
            self.refuse(where, "toolong", ("whole", 0), start, message)
            return None
        try:
            value = parsed(source)
            self.values.append(value)
            return value
        except Broken as broken:
            self.refuse(where, "notjson", ("whole", 0), broken.span, broken.message)
            return None

    def part(self, value: Value, word: str, number: int, title: str) -> Part | None:
        """A part that is an object, from its file if it is given by one."""
        document = self.name
        if isinstance(value, Members) and "file" in value.last:
            where = (self.name, word, number)
            file = value.last["file"].value
            if not isinstance(file, Text):
                message = f"the name of a part file is a text, and {file.word} stands here"
                self.refuse(where, "form", ("file", 0), file.span, message)
                return None
            document = file.text
            size = len(document.encode("utf-8"))
            if not 1 <= size <= 255:
                message = f"the name of a part file has 1 to 255 bytes, and this one has {size}"
                self.refuse(where, "badname", ("file", 0), file.span, message)
                return None
            try:
                found = self.fetch(document, (document, word, number))
            except (OSError, ValueError) as error:
                reason = error.strerror if isinstance(error, OSError) else "no name of a file"
                message = f"{document} can't be read: {reason}"
                self.findings.append(Finding(file.span, Level.ERROR, message))
                return None
            if found is None:
                return None
            value = found
        if not isinstance(value, Members):
            where = (document, word, number)
            message = f"{title} is an object, and {value.word} stands here"
            self.refuse(where, "form", ("whole", 0), value.span, message)
            return None
        part = Part(document, word, number, title, value)
        self.parts.append(part)
        return part

    # Members of any part.

    def member(self, part: Part, name: str) -> Value | None:
        """A member that has to be there."""
        value = part.value.get(name)
        if value is None:
            message = f'{part.title} has no member "{name}"'
            self.fault(part, "missing", (name, 0), part.value.span.head, message)
        return value

    def items(self, part: Part, name: str, least: int, most: int, what: str) -> Items | None:
        """A member that is a list of so many items."""
        value = self.member(part, name)
        if value is None:
            return None
        if not isinstance(value, Items):
            message = f'"{name}" is a list of {what}, and {value.word} stands here'
            self.fault(part, "form", (name, 0), value.span, message)
            return None
        self.count(part, name, value, least, most, what)
        return value

    def count(self, part: Part, name: str, value: Items, least: int, most: int, what: str) -> None:
        count = len(value.items)
        if not least <= count <= most:
            message = f'"{name}" has {least:,} to {most:,} {what}, and here are {count:,}'
            self.fault(part, "count", (name, 0), value.span, message)

    def text(self, part: Part, value: Value, at: tuple[str, int], what: str) -> Text | None:
        """A value that is a text."""
        if isinstance(value, Text):
            return value
        self.fault(part, "form", at, value.span, f"{what} is a text, and {value.word} stands here")
        return None

    def new_name(self, part: Part, value: Value, at: tuple[str, int], what: str, taken: dict[str, Span]) -> str | None:
        """A new name, which must follow the rule of names and not be taken."""
        text = self.text(part, value, at, what)
        if text is None:
            return None
        if not NAME.fullmatch(text.text):
            message = f'"{text.text}" is no name: 1 to 32 letters, digits, "_" and "-"'
            self.fault(part, "badname", at, text.span, message)
        elif text.text in taken:
            line, column = taken[text.text].place
            message = f'"{text.text}" stands twice, first in line {line}, column {column}'
            self.fault(part, "repeated", at, text.span, message)
        taken.setdefault(text.text, text.span)
        return text.text

    def title(self, part: Part, what: str, taken: dict[str, Span]) -> str | None:
        """The member `name` of a part, which becomes part of its title."""
        value = self.member(part, "name")
        if value is None:
            return None
        name = self.new_name(part, value, ("name", 0), f"the name of a {what}", taken)
        if name is not None:
            part.title = f'{what} "{name}"'
        return name

    def names(self, part: Part, name: str, most: int) -> Names:
        """A list of names."""
        value = self.items(part, name, 1, most, "names")
        names = Names()
        if value is None:
            return names
        names.sure = True
        taken: dict[str, Span] = {}
        for index, item in enumerate(value.items):
            found = self.new_name(part, item, (name, index), "a name", taken)
            if found is None:
                names.sure = False
            else:
                names.known.append(found)
        return names

    def known(self, part: Part, value: Value, at: tuple[str, int], what: str, names: Names) -> str | None:
        """A name that has to be in a list."""
        text = self.text(part, value, at, f"the name of {what}")
        if text is None:
            return None
        if text.text in names.known:
            return text.text
        if names.sure:
            message = f'"{text.text}" is no {what.split(" ", 1)[1]}{meant(text.text, dict.fromkeys(names.known))}'
            self.fault(part, "unknown", at, text.span, message)
        return None

    def start(self, part: Part, names: Names) -> None:
        value = self.member(part, "start")
        if value is not None:
            self.known(part, value, ("start", 0), f"a state of {part.title}", names)

    def steps(self, part: Part, form: str) -> Iterator[tuple[int, Items]]:
        """The steps that are lists of the right length, with their numbers. Each is checked when it is read."""
        length = form.count(",") + 1
        value = self.items(part, "steps", 0, STEPS, "steps")
        for index, item in enumerate(value.items if value else []):
            if not isinstance(item, Items):
                message = f"a step is a list {form}, and {item.word} stands here"
                self.fault(part, "form", ("steps", index), item.span, message)
            elif len(item.items) != length:
                message = f"a step is a list {form}, and this one has {counted(len(item.items))}"
                self.fault(part, "form", ("steps", index), item.span, message)
            else:
                yield index, item

    # Guards.

    def guard(self, part: Part, value: Value, index: int, states: Names) -> bool:
        """Checks a guard."""
        if isinstance(value, Constant) and value.constant is not None:
            return True
        if isinstance(value, Items):
            what = "a state of the environment"
            found = [self.known(part, item, ("steps", index), what, states) for item in value.items]
            return None not in found
        if not isinstance(value, Members):
            return self.no_guard(part, value, index, f"{value.word} is no guard")
        if len(value.last) != 1:
            message = f"a guard that is an object has one member, and here are {len(value.last)}"
            return self.no_guard(part, value, index, message)
        (member,) = value.last.values()
        word, inner = member.name.text, member.value
        if word == "not":
            return self.guard(part, inner, index, states)
        if word not in ("all", "any"):
            message = f'"{word}" is no guard; "not", "all" and "any" are' + meant(word, ("not", "all", "any"))
            return self.no_guard(part, member.name, index, message)
        if not isinstance(inner, Items):
            return self.no_guard(part, inner, index, f'"{word}" takes a list of guards')
        return all([self.guard(part, each, index, states) for each in inner.items])

    def no_guard(self, part: Part, value: Value, index: int, message: str) -> bool:
        forms = 'true, false, a list of states, {"not": G}, {"all": [G]} or {"any": [G]}'
        hint = "" if "is no guard;" in message or "takes" in message else f"; it is {forms}"
        self.fault(part, "form", ("steps", index), value.span, message + hint)
        return False

    # The parts.

    def environment(self, value: Value | None) -> tuple[Names, Names]:
        """The states and the actions of the environment."""
        part = None if value is None else self.part(value, "environment", 0, "the environment")
        if part is None:
            return Names(), Names()
        states = self.names(part, "states", 64)
        self.start(part, states)
        actions = self.names(part, "actions", 32)
        for index, step in self.steps(part, "[state, action, state]"):
            one, action, other = step.items
            at = ("steps", index)
            self.known(part, one, at, "a state of the environment", states)
            self.known(part, action, at, "an action", actions)
            self.known(part, other, at, "a state of the environment", states)
        return states, actions

    def machine(self, part: Part, env_states: Names, actions: Names) -> tuple[Names, list[tuple[int, Items]]]:
        """The states of a behaviour or a target, and those of its steps that are well-formed, with their numbers."""
        states = self.names(part, "states", 64)
        self.start(part, states)
        final = self.member(part, "final")
        if isinstance(final, Items):
            for index, item in enumerate(final.items):
                self.known(part, item, ("final", index), f"a state of {part.title}", states)
        elif final is not None:
            message = f'"final" is a list of states, and {final.word} stands here'
            self.fault(part, "form", ("final", 0), final.span, message)
        steps = []
        for index, step in self.steps(part, "[state, guard, action, state]"):
            one, guard, action, other = step.items
            at = ("steps", index)
            found = (
                self.known(part, one, at, f"a state of {part.title}", states),
                self.guard(part, guard, index, env_states) or None,
                self.known(part, action, at, "an action", actions),
                self.known(part, other, at, f"a state of {part.title}", states),
            )
            if None not in found:
                steps.append((index, step))
        return states, steps

    def choices(self, part: Part, steps: Sequence[tuple[int, Items]], env_states: Names) -> None:
        """The steps of a target that leave a choice with an earlier one."""
        earlier: dict[tuple[str, str], list[tuple[int, str, frozenset[str]]]] = {}
        guards: dict[tuple[str, str, str], frozenset[str]] = {}
        spans = {number: item.span for number, item in steps}
        for number, item in steps:
            state, guard, action, to = placed(item)
            holding = frozenset(each for each in env_states.known if holds(guard, each))
            before = earlier.setdefault((state, action), [])
            other = next((each for each in before if each[1] != to and each[2] & holding), None)
            if other is not None:
                first = next(each for each in env_states.known if each in other[2] & holding)
                line, column = spans[other[0]].place
                message = (
                    f'{part.title} has a choice in "{state}": this step and'
                    f" that of line {line}, column {column} can both be taken where the environment"
                    f' is in "{first}"'
                )
                where = (part.document, part.word, part.number)
                self.refuse(where, "choice", ("steps", number), item.span, message, f"{other[0]} {first}")
            # If earlier steps with the same successor cover its guard, a step can't be the first of a choice.
            known = guards.get((state, action, to), frozenset())
            if holding - known:
                guards[state, action, to] = known | holding
                before.append((number, to, holding))

    def service(
        self, value: Value, number: int, taken: dict[str, Span], catalogue: Names, states: Mapping[str, Names]
    ) -> None:
        where = (self.name, "service", number)
        if not isinstance(value, Members):
            message = f"a service is an object, and {value.word} stands here"
            self.refuse(where, "form", ("whole", 0), value.span, message)
            return
        part = Part(self.name, "service", number, f"service {number}", value)
        self.parts.append(part)
        self.title(part, "service", taken)
        behaviour = self.member(part, "behaviour")
        kind = None
        if behaviour is not None:
            kind = self.known(part, behaviour, ("behaviour", 0), "a behaviour", catalogue)
        given = value.get("state")
        if given is not None:
            title = f'a state of behaviour "{behaviour.text}"' if isinstance(behaviour, Text) else "a state"
            self.known(part, given, ("state", 0), title, states.get(kind or "", Names()))
        for name in ("frozen", "rests") if self.version != 1 else ("frozen",):
            self.flag(part, name)

    def flag(self, part: Part, name: str) -> None:
        value = part.value.get(name)
        if value is None or (isinstance(value, Constant) and value.constant is not None):
            return
        message = f'"{name}" is true or false, and {value.word} stands here'
        self.fault(part, "form", (name, 0), value.span, message)

    # The document.

    def check(self, value: Value) -> None:
        """Collects all refusals of a document, and reads it if there are none."""
        if not isinstance(value, Members):
            message = f"a document is an object, and {value.word} stands here"
            self.refuse((self.name, "system", 0), "form", ("whole", 0), value.span, message)
            return
        part = Part(self.name, "system", 0, "the document", value)
        self.parts.append(part)
        self.version = self.read_version(part)
        self.check_limit(part)
        env_states, actions = self.environment(self.member_part(part, "environment"))
        catalogue, states = self.behaviours(part, env_states, actions)
        items = self.items(part, "services", 0, 32, "services")
        taken: dict[str, Span] = {}
        for number, item in enumerate(items.items if items else []):
            self.service(item, number, taken, catalogue, states)
        self.targets(part, env_states, actions)
        if self.findings:
            return
        whole = self.whole(value)
        if self.version == 3:
            self.combine(part, whole)
        if not self.findings:
            self.document = Document(whole)

    def whole(self, value: Members) -> Any:
        """The document, with part files replaced by their content."""
        found = placed(value)
        for part in self.parts:
            inner = placed(part.value)
            inner.pop("file", None)
            if part.word in found and part.word in ("environment", "target"):
                found[part.word] = inner
            if part.word == "behaviour" or (part.word == "target" and self.version == 3):
                found[f"{part.word}s"][part.number] = inner
        return found

    def read_version(self, part: Part) -> int:
        """The version, or the likeliest one if none is given."""
        likely = 3 if part.value.get("targets") and not part.value.get("target") else 2
        value = self.member(part, "roman")
        if value is None:
            return likely
        whole = value.whole if isinstance(value, Number) else None
        if whole is None:
            message = f"the version is the number 1, 2 or 3, and {described(value)} stands here"
            self.fault(part, "form", ("roman", 0), value.span, message)
        elif whole not in (1, 2, 3):
            message = f"there is no version {whole}; there are 1, 2 and 3"
            self.fault(part, "version", ("roman", 0), value.span, message)
        return whole if whole in (1, 2, 3) else likely

    def check_limit(self, part: Part) -> None:
        value = part.value.get("limit")
        whole = value.whole if isinstance(value, Number) else None
        if value is None:
            return
        if whole is None:
            message = f"the limit is a whole number, and {described(value)} stands here"
            self.fault(part, "form", ("limit", 0), value.span, message)
        elif not 1 <= whole <= GREATEST_LIMIT:
            message = f"the limit is 1 to {GREATEST_LIMIT:,}"
            self.fault(part, "count", ("limit", 0), value.span, message)

    def member_part(self, part: Part, name: str) -> Value | None:
        """A part of the document that has to be there."""
        value = part.value.get(name)
        if value is None:
            where = (self.name, name, 0)
            message = f'the document has no member "{name}"'
            self.refuse(where, "missing", ("whole", 0), part.value.span.head, message)
        return value

    def behaviours(self, part: Part, env_states: Names, actions: Names) -> tuple[Names, Mapping[str, Names]]:
        """The names of the behaviours, and the states of each."""
        value = self.items(part, "behaviours", 0, 32, "behaviours")
        catalogue = Names(sure=value is not None)
        states: dict[str, Names] = {}
        taken: dict[str, Span] = {}
        for number, item in enumerate(value.items if value else []):
            behaviour = self.part(item, "behaviour", number, f"behaviour {number}")
            name = None
            if behaviour is not None:
                name = self.title(behaviour, "behaviour", taken)
                found, _ = self.machine(behaviour, env_states, actions)
            if name is None:
                catalogue.sure = False
            else:
                catalogue.known.append(name)
                states.setdefault(name, found)
        return catalogue, states

    def targets(self, part: Part, env_states: Names, actions: Names) -> None:
        if self.version != 3:
            value = self.member_part(part, "target")
            target = None if value is None else self.part(value, "target", 0, "the target")
            if target is not None:
                self.choices(target, self.machine(target, env_states, actions)[1], env_states)
            return
        items = self.items(part, "targets", 2, 4, "targets")
        taken: dict[str, Span] = {}
        for number, item in enumerate(items.items if items else []):
            target = self.part(item, "target", number, f"target {number}")
            if target is not None:
                self.title(target, "target", taken)
                self.choices(target, self.machine(target, env_states, actions)[1], env_states)

    def combine(self, part: Part, document: Any) -> None:
        """Adds the first refusal by the rules on the combination of several targets."""
        environment, targets = document["environment"], document["targets"]
        span = targets.span
        count = math.prod(len(target["states"]) for target in targets)
        if count > MOST_STATES:
            message = f"the targets have {count:,} combined states; {MOST_STATES} is the most"
            return self.fault(part, "count", ("targets", 1), span, message)
        actions = [
            f"{action}-{target['name']}"
            for target in targets
            for action in environment["actions"]
            if any(
                step[2] == action and any(holds(step[1], each) for each in environment["states"])
                for step in target["steps"]
            )
        ]
        if not 1 <= len(actions) <= 32:
            message = f"the targets have {len(actions)} combined actions; there may be 1 to 32"
            return self.fault(part, "count", ("targets", 2), span, message)
        states = ["-".join(each) for each in itertools.product(*(target["states"] for target in targets))]
        for name in (*states, *actions):
            if len(name) > 32:
                message = f'the combined name "{name}" has {len(name)} bytes; 32 is the most'
                return self.fault(part, "badname", ("targets", 3), span, message)
        for names in (states, actions):
            for name in names:
                if names.count(name) > 1:
                    message = f'two combined names are "{name}"'
                    return self.fault(part, "repeated", ("targets", 4), span, message)
        return None


def described(value: Value) -> str:
    """The kind of a value, or the literal of a number."""
    return value.literal if isinstance(value, Number) else value.word


def counted(items: int) -> str:
    return "1 item" if items == 1 else f"{items} items"
