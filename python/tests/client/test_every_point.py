"""A small home is ended at every point, repeatedly, and continues. No action is carried out twice, no request is lost,
and no state is wrong."""

from __future__ import annotations

import os
from dataclasses import replace

import pytest
from hypothesis import settings
from hypothesis import strategies as st
from hypothesis.stateful import RuleBasedStateMachine, initialize, rule

from .small_home import Faults, Manner, Run, Universe, beginning

REQUESTS = ("request one", "freeze t1", "request two", "thaw t1", "request three")

HELD = ("request one", "freeze t1", "freeze t2", "thaw t2", "request two", "request three")

BOTH = ("both one two", "freeze t1", "both three four", "thaw t1")
"""Requests that follow each other at once. The end of one is written with the call of the next one."""

HOMES = {
    "two that tell": (Manner(), Manner()),
    "two that tell their state": (Manner("plain"), Manner("plain")),
    "a mute one": (Manner("mute"), Manner()),
    "one that is repeatable": (Manner("mute", repeatable=True), Manner()),
    "one that fails": (Manner(fails=1), Manner()),
    "two that fail": (Manner(fails=1), Manner(fails=1)),
    "one that is late": (Manner(late=1, late_is_doubt=True), Manner()),
    "one that acts late": (Manner(late=1, acts_late=True, late_is_doubt=True), Manner()),
    "a mute one that is late": (Manner("mute", late=1, acts_late=True, late_is_doubt=True), Manner()),
}

ENDS = int(os.environ.get("ROMAN_ENDS", "3"))
"""The number of times that a home is ended. Each further one makes some fifty times as many runs, most of which leave
no new universe."""


def explore(manners: dict[str, Manner], script: tuple[str, ...], ends: int) -> int:
    """Continues a home from all universes that so many ends leave. Returns the number of runs."""
    universes = [beginning(manners)]
    seen = {universes[0].identity()}
    runs = 0
    for number in range(ends + 1):
        left: list[Universe] = []
        for universe in universes:
            run = Run(universe, manners, script)
            run.go()
            run.check()
            runs += 1
            if number == ends:
                continue
            for each in run.left:
                if (identity := each.identity()) not in seen:
                    seen.add(identity)
                    left.append(each)
        universes = left
    return runs


@pytest.mark.parametrize("script", [REQUESTS, HELD, BOTH], ids=["requests", "held", "both"])
@pytest.mark.parametrize("home", HOMES)
def test_a_home_that_is_ended(home: str, script: tuple[str, ...]) -> None:
    manners = dict(zip(("t1", "t2"), HOMES[home]))
    assert explore(manners, script, ENDS) > 20


@pytest.mark.parametrize("script", [REQUESTS, BOTH], ids=["requests", "both"])
@pytest.mark.parametrize("kind", ["ended before", "ended after", "full"])
@pytest.mark.parametrize("home", HOMES)
def test_a_home_whose_program_ends_or_whose_disk_is_full(home: str, kind: str, script: tuple[str, ...]) -> None:
    """This occurs at each effect, and the home is ended at each effect after that."""
    manners = dict(zip(("t1", "t2"), HOMES[home]))
    plain = Run(beginning(manners), manners, script)
    plain.go()
    for at in range(2, plain.effects + 1):
        run = Run(beginning(manners), manners, script, Faults(at, kind))
        run.go()
        run.check()
        for universe in {each.identity(): each for each in run.left}.values():
            after = Run(universe, manners, script)
            after.go()
            after.check()


MANNERS = st.builds(
    Manner,
    tells=st.sampled_from(("tells", "plain", "mute")),
    fails=st.integers(0, 2),
    late=st.integers(0, 2),
    acts_late=st.booleans(),
    repeatable=st.booleans(),
    late_is_doubt=st.just(True),
)


class Lives(RuleBasedStateMachine):
    """A home with random devices that gets requests, freezes and thaws, and is ended at random effects."""

    @initialize(one=MANNERS, other=MANNERS)
    def begin(self, one: Manner, other: Manner) -> None:
        self.manners = {"t1": one, "t2": other}
        self.script: list[str] = []
        self.live_on(beginning(self.manners))

    def live_on(self, universe: Universe) -> None:
        """Begins another home, which takes the steps that aren't acknowledged."""
        self.run = Run(universe, self.manners, tuple(self.script))
        self.run.go()
        self.run.check()

    def step(self, step: str, fault: Faults, cut: float) -> None:
        """Takes a step, with a fault at one of its effects. If `cut` is below 1, the home is ended at one of them."""
        self.script.append(step)
        self.run.script = tuple(self.script)
        self.run.left.clear()
        self.run.faults = replace(fault, at=self.run.effects + fault.at)
        self.run.take_rest()
        self.run.check()
        while cut < 1 and self.run.left:
            left = self.run.left[int(cut * len(self.run.left))]
            self.live_on(left)
            cut = 10 * cut % 1 if cut > 0.5 else 1.0  # Sometimes it is ended twice, or more often.

    faults = st.builds(Faults, st.integers(1, 15), st.sampled_from(("", "", "ended before", "ended after", "full")))
    cuts = st.floats(0, 2)

    @rule(fault=faults, cut=cuts)
    def request(self, fault: Faults, cut: float) -> None:
        self.step(f"request {len(self.script)}", fault, cut)

    @rule(word=st.sampled_from(("freeze", "thaw")), service=st.sampled_from(("t1", "t2")), fault=faults, cut=cuts)
    def change(self, word: str, service: str, fault: Faults, cut: float) -> None:
        other = "t2" if service == "t1" else "t1"
        if word == "freeze" and self.run.is_held(other):
            return  # One service has to be left.
        self.step(f"{word} {service}", fault, cut)


Lives.TestCase.settings = settings(
    max_examples=int(os.environ.get("ROMAN_LIVES", "60")), stateful_step_count=12, deadline=None
)
TestLives = Lives.TestCase
