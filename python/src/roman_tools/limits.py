"""The size of a system, and its limit."""

from __future__ import annotations

import itertools
import math

from roman_client import Document

from .checks import GREATEST_LIMIT, LIMIT
from .findings import Finding, Level
from .placed import limit_span


def cells(document: Document) -> int:
    """The number of cells of a system: its pairs with an action."""
    targets = math.prod(len(each.states) for each in document.targets)
    services = math.prod(service_sizes(document))
    return targets * len(document.environment.states) * services * len(document.actions)


def service_sizes(document: Document) -> list[int]:
    """The number of states of each service."""
    return [len(document.behaviours[each.behaviour].states) for each in document.services]


def too_large(document: Document) -> Finding | None:
    """The finding that a system has more cells than its limit, if it has. It has the factors and a sufficient limit."""
    limit = document.value.get("limit", LIMIT)
    count = cells(document)
    if count <= limit:
        return None
    size = f"the target, the environment, the services and the actions make {product(document)} = {count:,} cells"
    if count > GREATEST_LIMIT:
        rest = f"the greatest limit is {GREATEST_LIMIT:,}, so fewer states or services are due"
    else:
        rest = f'the limit is {limit:,}; write "limit": {rounded(count)}'
    return Finding(limit_span(document), Level.WARNING, f"{size}, and {rest}")


def product(document: Document) -> str:
    """The number of cells as a product. Consecutive services of one size are a power."""
    runs = itertools.groupby(service_sizes(document))
    services = "·".join(power(size, len(list(run))) for size, run in runs)
    targets = "·".join(str(len(each.states)) for each in document.targets)
    factors = (targets, str(len(document.environment.states)), services, str(len(document.actions)))
    return " × ".join(each for each in factors if each)


def power(base: int, exponent: int) -> str:
    return str(base) if exponent == 1 else f"{base}^{exponent}"


def rounded(cells: int) -> int:
    """A limit with one digit other than 0 that is enough for so many cells, or the greatest limit."""
    unit = int("1" + "0" * (len(str(cells)) - 1))
    return min(-(-cells // unit) * unit, GREATEST_LIMIT)
