"""Policies, which choose one of the offered services."""

from __future__ import annotations

import json
import os
from collections.abc import Callable, Iterable, Mapping, Sequence
from dataclasses import dataclass
from typing import NamedTuple, Union

from .documents import PathLike


@dataclass(frozen=True)
class Choice:
    """The input of a policy: the requested action, the services that are offered for it, in the document's order, and
    the behaviour of each service."""

    action: str
    offered: tuple[str, ...]
    behaviours: Mapping[str, str]


class Chosen(NamedTuple):
    """A policy's choice with its reason, for the history of a store."""

    service: str
    reason: str | None


Policy = Callable[[Choice], Union[str, Chosen]]
"""Chooses one of the offered services, with or without a reason. After each possible choice, the next request has an
offer."""


def first_offered(choice: Choice) -> str:
    """Chooses the first offered service."""
    return choice.offered[0]


GREATEST_COST = 1_000_000
"""The greatest cost in a table."""


class LeastCost:
    """Chooses the service that costs least for the request, and the first of several that cost the same.

    A cost is given for a behaviour and an action. The default is 0.
    """

    def __init__(self, costs: Iterable[Sequence[str | int]]) -> None:
        """`costs` is a table of items `[behaviour, action, cost]`. A cost is a whole number from 0 to 1,000,000.

        Raises ValueError for an item of another form, and for a second item with the same names. `advise` refuses such
        tables, too. The names aren't looked up in a document.
        """
        self.costs: dict[tuple[str, str], int] = {}
        """The cost by behaviour and action."""
        for item in costs:
            if not isinstance(item, Sequence):
                raise ValueError(f"{item!r} isn't [behaviour, action, cost]")
            behaviour, action, cost = item
            if not isinstance(behaviour, str) or not isinstance(action, str):
                raise ValueError(f"{behaviour!r} and {action!r} aren't both names")
            if type(cost) is not int or not 0 <= cost <= GREATEST_COST:
                raise ValueError(f"{cost!r} isn't a whole number from 0 to {GREATEST_COST:,}")
            if (behaviour, action) in self.costs:
                raise ValueError(f"{behaviour} has two costs of {action}")
            self.costs[behaviour, action] = cost

    @classmethod
    def read(cls, file: PathLike) -> LeastCost:
        """Reads a table of costs from a JSON file. Raises ValueError if the file has another form."""
        with open(file, encoding="utf-8") as text:
            table = json.load(text)
        if not isinstance(table, list):
            raise ValueError(f"{os.fspath(file)} isn't a list of items [behaviour, action, cost]")
        return cls(table)

    def __call__(self, choice: Choice) -> str:
        def cost(service: str) -> int:
            return self.costs.get((choice.behaviours[service], choice.action), 0)

        return min(choice.offered, key=cost)
