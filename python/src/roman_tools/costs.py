"""Files of costs: the refusals in them, the warnings, and the plain costs of a short document.

For a short document an item may name a behaviour, a service, or a pattern, which means all behaviours that are made
from it. The item of a service takes precedence over that of its behaviour, and this over that of its pattern.
"""

from __future__ import annotations

import json
from dataclasses import dataclass, field

from roman_client.documents import LONGEST_DOCUMENT, Document
from roman_client.policies import GREATEST_COST

from .checks import Checker, counted
from .findings import Finding, Level, Refusal, meant
from .reader import Broken, Items, Number, Span, Text, Value, parsed
from .walk import Walk

MOST_ITEMS = 1024


@dataclass(frozen=True)
class Cost:
    """An item: the name of a behaviour, a pattern or a service, an action, and the cost."""

    name: str
    action: str
    cost: int
    span: Span


@dataclass
class Costs:
    """A file of costs that was read: its items, and the findings in it."""

    name: str
    short: bool
    """Whether it belongs to a short document."""
    items: list[Cost] = field(default_factory=list)
    findings: list[Finding] = field(default_factory=list)

    def fault(self, kind: str, place: str, index: int, span: Span, message: str) -> None:
        refusal = Refusal(self.name, kind, "costs", 0, place, index)
        self.findings.append(Finding(span, Level.ERROR, message, None if self.short else refusal))

    @property
    def is_refused(self) -> bool:
        return any(each.level is Level.ERROR for each in self.findings)


class Reader:
    """Reads a file of costs for a document."""

    def __init__(self, checker: Checker, document: Document, name: str) -> None:
        self.checker = checker
        self.document = document
        self.services = {each.name: each for each in document.services} if checker.short else {}
        self.patterns = set(checker.patterns.values())
        self.costs = Costs(name, checker.short)

    @property
    def names(self) -> set[str]:
        """The names that an item may have."""
        return {*self.document.behaviours, *self.services, *self.patterns}

    def read(self) -> Costs:
        """Reads all items. Raises OSError if the file can't be read."""
        source, size = self.checker.shelf.source(self.costs.name)
        start = Span(source, 0, 1)
        if size > LONGEST_DOCUMENT:
            self.costs.fault(
                "toolong", "whole", 0, start, f"the text has {size:,} bytes; {LONGEST_DOCUMENT:,} is the most"
            )
            return self.costs
        try:
            value = parsed(source)
        except Broken as broken:
            self.costs.fault("notjson", "whole", 0, broken.span, broken.message)
            return self.costs
        if not isinstance(value, Items):
            self.costs.fault("form", "whole", 0, value.span, f"costs are a list, and {value.word} stands here")
            return self.costs
        if len(value.items) > MOST_ITEMS:
            message = f"a list of costs has at most {MOST_ITEMS:,} items, and here are {len(value.items):,}"
            self.costs.fault("count", "whole", 0, value.span.head, message)
        for index, item in enumerate(value.items):
            self.item(index, item)
        if not self.costs.findings:
            self.shared()
            self.costs.findings += self.missing(value.span.head)
        return self.costs

    def item(self, index: int, item: Value) -> None:
        """An item `[behaviour, action, cost]`."""
        if not isinstance(item, Items) or len(item.items) != 3:
            found = counted(len(item.items)) if isinstance(item, Items) else item.word
            message = f"a cost is a list [behaviour, action, cost], and {found} stands here"
            return self.costs.fault("form", "steps", index, item.span, message)
        name, action, cost = item.items
        who = "behaviour, service or pattern" if self.checker.short else "behaviour"
        for value, known, what in (
            (name, self.names, who),
            (action, set(self.document.actions), "action that is requested"),
        ):
            if not isinstance(value, Text):
                message = f"the name of a {what.split()[0].rstrip(',')} is a text, and {value.word} stands here"
                return self.costs.fault("form", "steps", index, value.span, message)
            if value.text not in known:
                message = f'"{value.text}" is no {what}{meant(value.text, sorted(known))}'
                return self.costs.fault("unknown", "steps", index, value.span, message)
        whole = cost.whole if isinstance(cost, Number) else None
        if whole is None:
            return self.costs.fault(
                "form", "steps", index, cost.span, "a cost is a whole number without sign, point or exponent"
            )
        if whole > GREATEST_COST:
            return self.costs.fault("count", "steps", index, cost.span, f"a cost is at most {GREATEST_COST:,}")
        assert isinstance(name, Text) and isinstance(action, Text)
        for each in self.costs.items:
            if (each.name, each.action) == (name.text, action.text):
                message = f'"{name.text}" has a cost of "{action.text}" already, in line {each.span.place[0]}'
                return self.costs.fault("repeated", "steps", index, item.span, message)
        self.costs.items.append(Cost(name.text, action.text, whole, item.span))
        return None

    def items_of(self, behaviour: str, action: str) -> list[Cost]:
        """The items with the cost of an action of a behaviour, in the order of precedence."""
        services = {name for name, each in self.services.items() if each.behaviour == behaviour}
        ranks = [services - set(self.document.behaviours), {behaviour}, {self.checker.patterns.get(behaviour, "")}]
        found = [each for each in self.costs.items if each.action == action]
        return [each for names in ranks for each in found if each.name in names]

    def shared(self) -> None:
        """Warns of services of one behaviour that have different costs: the behaviour has only one."""
        for each in self.costs.items:
            service = self.services.get(each.name)
            if service is None or each.name in self.document.behaviours:
                continue
            own = {item.name: item.cost for item in self.items_of(service.behaviour, each.action)}
            others = [name for name, other in self.services.items() if other.behaviour == service.behaviour]
            if any(own.get(name) != each.cost for name in others):
                names = " and ".join(f'"{name}"' for name in others)
                message = f"{names} are of one behaviour, which has one cost: name each of them, with the same cost"
                self.costs.fault("unknown", "steps", 0, each.span, message)

    def missing(self, at: Span) -> list[Finding]:
        """Warns of behaviours that serve requests, and have no item."""
        requested = Walk(self.document).requested
        found = []
        for behaviour in self.document.behaviours.values():
            services = [each.name for each in self.document.services if each.behaviour == behaviour.name]
            serves = any(step.action in requested for step in behaviour.steps)
            costs = (self.items_of(behaviour.name, action) for action in self.document.actions)
            if services and serves and not any(costs):
                names = ", ".join(f'"{name}"' for name in services)
                message = f'behaviour "{behaviour.name}" ({names}) has no item, so each of its actions costs 0'
                found.append(Finding(at, Level.WARNING, message))
        return found

    def by_behaviour(self) -> dict[tuple[str, str], int]:
        """The costs by the behaviours of the plain document, and the actions."""
        found = {}
        for name in self.document.behaviours:
            for action in self.document.actions:
                items = self.items_of(name, action)
                if items:
                    found[name, action] = items[0].cost
        return found

    def plain(self) -> str:
        """The costs in the form that the program reads."""
        lines = [f"  {json.dumps([*names, cost])}" for names, cost in self.by_behaviour().items()]
        return "[\n" + ",\n".join(lines) + "\n]\n" if lines else "[]\n"
