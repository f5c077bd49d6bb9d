"""The dispatcher for asyncio in virtual time. The home is ended, and its requests are cancelled, between any two
awaits. No action is carried out twice, no request is lost, and no state is wrong."""

from __future__ import annotations

import os

import pytest
from hypothesis import given
from hypothesis import strategies as st

from .small_aio_home import lived
from .small_home import Manner, Universe, beginning
from .test_every_point import HELD, HOMES, MANNERS, REQUESTS

ENDS = int(os.environ.get("ROMAN_AIO_ENDS", "2"))
"""The number of times that a home is ended."""


def after(universes: list[Universe], seen: set[object]) -> list[Universe]:
    """The universes that are new."""
    found = []
    for each in universes:
        if (identity := each.identity()) not in seen:
            seen.add(identity)
            found.append(each)
    return found


def explore(manners: dict[str, Manner], script: tuple[str, ...], ends: int, slow: bool) -> int:
    """Continues a home from all universes that so many ends leave. Returns the number of runs."""
    seen: set[object] = set()
    universes, runs = after([beginning(manners)], seen), 0
    for _ in range(ends + 1):
        left: list[Universe] = []
        for universe in universes:
            left += after(lived(manners, universe, script, slow=slow).left, seen)
            runs += 1
        universes = left
    return runs


@pytest.mark.parametrize("slow", [False, True], ids=["at once", "in a thread"])
@pytest.mark.parametrize("script", [REQUESTS, HELD], ids=["requests", "held"])
@pytest.mark.parametrize("home", HOMES)
def test_a_home_that_is_ended(home: str, script: tuple[str, ...], slow: bool) -> None:
    manners = dict(zip(("t1", "t2"), HOMES[home]))
    assert explore(manners, script, ENDS, slow) > 20


@pytest.mark.parametrize("slow", [False, True], ids=["at once", "in a thread"])
@pytest.mark.parametrize("home", HOMES)
def test_a_request_that_is_cancelled(home: str, slow: bool) -> None:
    """It is cancelled in each round of the loop, and the home is ended in each round after that."""
    manners = dict(zip(("t1", "t2"), HOMES[home]))
    plain = lived(manners, beginning(manners), REQUESTS, slow=slow)
    seen: set[object] = set()
    for at in range(plain.rounds + 1):
        cancelled = lived(manners, beginning(manners), REQUESTS, slow=slow, cancels=frozenset({at}))
        for universe in after(cancelled.left, seen):
            lived(manners, universe, REQUESTS, slow=slow)


SCRIPTS = st.tuples(st.integers(1, 4), st.integers(0, 4)).map(
    lambda counts: tuple(f"request {number}" for number in range(counts[0]))
    + tuple(("freeze t1", "thaw t1")[number % 2] for number in range(counts[1]))
)


@given(
    manners=st.tuples(MANNERS, MANNERS),
    script=SCRIPTS,
    delays=st.tuples(*[st.floats(0, 12)] * 4),
    slow=st.booleans(),
    cancels=st.frozensets(st.integers(3, 150), max_size=3),
    cuts=st.lists(st.floats(0, 0.999), max_size=3),
)
def test_many_at_once_that_are_cancelled_and_ended(
    manners: tuple[Manner, Manner],
    script: tuple[str, ...],
    delays: tuple[float, ...],
    slow: bool,
    cancels: frozenset[int],
    cuts: list[float],
) -> None:
    services = dict(zip(("t1", "t2"), manners))
    universe = beginning(services)
    for cut in (*cuts, None):
        home = lived(services, universe, script, slow=slow, cancels=cancels, delays=delays)
        if cut is not None:
            universe = home.left[int(cut * len(home.left))]
