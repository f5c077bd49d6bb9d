#!/usr/bin/env python3
"""Runs simulated devices that fail at random, and checks that no offered request ends in a dead end.

The devices are those of a document, by default the home of the samples. Each answers by one of its transitions, drawn
at random. Sometimes it fails or reports an impossible outcome, and is away for some requests. Sometimes a person moves
a device by hand, or the environment changes by itself. Requests are drawn from those that the target allows, and so are
the offered services.

The demonstration checks what `roman` promises. Once a request had an offer, each request that the target allows has
one, until the next change. If the target is final, so is each service that isn't loose.
"""

from __future__ import annotations

import argparse
import os
import random
import sys
from pathlib import Path
from typing import Any

from roman_client import Choice, DeviceFailed, Dispatcher, Document, DocumentError, NoComposition, ProgramEnded, Session

TOP = Path(__file__).resolve().parents[2]


class DeadEnd(BaseException):
    """A promise was broken. It isn't an Exception, because the dispatcher would take that for a device's failure."""


class World:
    """The devices behind the services, and the states of target and environment."""

    def __init__(self, document: Document, chance: random.Random, failing: float) -> None:
        self.document = document
        self.chance = chance
        self.failing = failing
        self.behaviours = {each.name: document.behaviours[each.behaviour] for each in document.services}
        self.loose = {each.name for each in document.services if each.loose}
        self.states: dict[str, str] = {each.name: each.state for each in document.services}
        self.environment = document.environment.start
        self.target = document.start
        self.away: dict[str, int] = {}
        self.outages = 0
        self.lies = 0

    def allowed(self) -> list[str]:
        """The actions that the target allows."""
        return list(self.document.allowed(self.target, self.environment))

    def outcomes(self, service: str, action: str) -> list[tuple[str, str]]:
        """The possible outcomes of an action: the states of the service, with those of the environment."""
        behaviour, state = self.behaviours[service].name, self.states[service]
        return list(self.document.outcomes(behaviour, state, self.environment, action))

    def device(self, service: str, action: str) -> tuple[str, str]:
        """Carries out an action, fails, or lies."""
        outcomes = self.outcomes(service, action)
        if not outcomes:
            raise DeadEnd(f"{service} was asked for {action} in {self.states[service]}")
        draw = self.chance.random()
        if draw < self.failing:
            self.outages += 1
            self.away[service] = self.chance.randrange(1, 8)
            raise DeviceFailed(f"{service} doesn't answer")
        if draw < 1.3 * self.failing:
            lies = [
                (state, to)
                for state in self.behaviours[service].states
                for to in self.document.environment.states
                if (state, to) not in outcomes
            ]
            if lies:
                self.lies += 1
                self.away[service] = self.chance.randrange(1, 8)
                return self.chance.choice(lies)
        self.states[service], self.environment = self.chance.choice(outcomes)
        return self.states[service], self.environment

    def back(self, service: str) -> bool:
        """Whether a service that failed is back."""
        self.away[service] -= 1
        if self.away[service] > 0:
            return False
        del self.away[service]
        return True

    def rests(self) -> bool:
        """Whether the target isn't final, or each service that isn't loose is final, too."""
        return not self.document.is_final(self.target) or all(
            self.states[service] in behaviour.final
            for service, behaviour in self.behaviours.items()
            if service not in self.loose
        )


class Demonstration:
    """Makes requests at random, and checks them."""

    def __init__(self, session: Session, world: World) -> None:
        self.session = session
        self.world = world
        self.served = 0
        self.refused = 0
        self.by_hand = 0
        self.offered_at: int | None = session.changes if session.opening.composition else None
        self.dispatcher = Dispatcher(
            session,
            {service: self.device_of(service) for service in world.states},
            policy=self.draw,
            back=world.back,
        )
        self.remember()

    def device_of(self, service: str) -> Any:
        return lambda action: self.world.device(service, action)

    def draw(self, choice: Choice) -> str:
        """A policy that draws one of the offered services. It checks that each of them can take the request."""
        self.offered_at = self.session.changes
        for service in choice.offered:
            if not self.world.outcomes(service, choice.action):
                raise DeadEnd(f"{service} was offered for {choice.action}, and can't take it")
        return self.world.chance.choice(choice.offered)

    def remember(self) -> None:
        """Stores the states to which a person may bring the devices back."""
        self.good = (dict(self.world.states), self.world.environment)

    def disturb(self) -> None:
        """Moves a device by hand, or changes the environment."""
        world = self.world
        self.by_hand += 1
        if world.chance.random() < 0.5:
            world.environment = world.chance.choice(world.document.environment.states)
            self.session.jumpenv(world.environment)
        else:
            service = world.chance.choice(sorted(world.states))
            world.states[service] = world.chance.choice(world.behaviours[service].states)
            self.session.jump(service, world.states[service])

    def put_right(self) -> None:
        """Brings the devices back to their states after the last request."""
        self.by_hand += 1
        states, environment = self.good
        for service, state in states.items():
            if self.world.states[service] != state:
                self.session.jump(service, state)
        if self.world.environment != environment:
            self.session.jumpenv(environment)
        self.world.states, self.world.environment = dict(states), environment

    def turn(self) -> None:
        """Makes a request, and checks it."""
        world = self.world
        if world.chance.random() < world.failing / 4:
            self.disturb()
        actions = world.allowed()
        if not actions:
            self.put_right()
            return
        action = world.chance.choice(actions)
        try:
            done = self.dispatcher.request(action)
        except NoComposition as refusal:
            self.explained(refusal)
            return
        if (done.state, done.environment) != (world.states[done.service], world.environment):
            raise DeadEnd(f"{done.service} is elsewhere than the session says")
        world.target = done.target
        self.served += 1
        self.remember()
        if self.offered_at == self.session.changes and not world.rests():
            raise DeadEnd("the target may be left, and a service may not")

    def explained(self, refusal: NoComposition) -> None:
        """Checks that the lack of a composition follows a change, and has an explanation."""
        self.refused += 1
        if self.offered_at == self.session.changes:
            raise DeadEnd(f"{refusal.line} has no composition, and nothing changed since an offer")
        if refusal.explanation is None or refusal.explanation.present.target != self.world.target:
            raise DeadEnd("the explanation isn't that of the present pair")
        if not self.dispatcher.failed:
            self.put_right()


def main() -> int:
    parse = argparse.ArgumentParser(description=(__doc__ or "").splitlines()[0])
    parse.add_argument("system", nargs="?", default=str(TOP / "samples" / "home.json"))
    parse.add_argument("--requests", type=int, default=5000)
    parse.add_argument("--failing", type=float, default=0.05, help="the probability that a device fails")
    parse.add_argument("--seed", type=int, default=1)
    parse.add_argument("--program", default=os.environ.get("ROMAN", str(TOP / "roman")))
    words = parse.parse_args()
    try:
        document = Document.load(words.system)
        world = World(document, random.Random(words.seed), words.failing)
        with Session(words.system, program=words.program, timeout=60) as session:
            demonstration = Demonstration(session, world)
            for _ in range(words.requests):
                demonstration.turn()
            print(
                f"{demonstration.served} requests served, {demonstration.refused} without a"
                f" composition; {world.outages} failures, {world.lies} impossible outcomes,"
                f" {demonstration.by_hand} changes by hand; no dead end"
            )
            return 0
    except DeadEnd as end:
        print(f"demonstration: {end} (seed {words.seed})", file=sys.stderr)
    except (DocumentError, ProgramEnded) as end:
        print(f"demonstration: {end}", file=sys.stderr)
    return 1


if __name__ == "__main__":
    sys.exit(main())
