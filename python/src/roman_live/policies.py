"""Policies: the choice among the offered services."""

from __future__ import annotations

import asyncio
import logging
import tempfile
from collections.abc import Awaitable, Callable, Mapping
from pathlib import Path

from roman_client import Document, LeastCost, Report, RomanError, aio, first_offered
from roman_client.policies import Choice

from .config import HomeFileError, Policy, PolicyName

LOG = logging.getLogger("roman_live")

REMEMBERED = 4096
"""The maximum number of combinations of states whose advice is remembered."""

Choose = Callable[[Choice], Awaitable[str]]


def make_policy(policy: Policy, session: aio.Session, program: str, seconds: float) -> Choose:
    """Makes the policy of a home. The program may take so many seconds for its advice. Raises HomeFileError if the
    costs can't be read, or have an unknown name: a service whose name is misspelt would be free."""
    if policy.choose is PolicyName.ROUND_ROBIN:
        return RoundRobin()
    if policy.choose is PolicyName.FIRST:
        return _at_once(first_offered)
    assert policy.costs is not None
    assert session.core.document is not None
    try:
        least = LeastCost.read(policy.costs)
        _look_up(least, session.core.document)
    except (OSError, ValueError) as error:
        raise HomeFileError(f"policy.costs is {str(policy.costs)!r}: {error}") from None
    if policy.choose is PolicyName.LEAST_COST:
        return _at_once(least)
    return LeastWorst(policy, session, program, seconds, least)


def _look_up(least: LeastCost, document: Document) -> None:
    """Raises ValueError for a name that isn't in the document."""
    for behaviour, action in least.costs:
        if behaviour not in document.behaviours:
            raise ValueError(f"{behaviour} is no behaviour of the document")
        if action not in document.actions:
            raise ValueError(f"{action} is no action that may be requested")


def _at_once(choose: Callable[[Choice], str]) -> Choose:
    async def policy(choice: Choice) -> str:
        return choose(choice)

    return policy


class RoundRobin:
    """Chooses the offered service that was chosen least recently for this action."""

    def __init__(self) -> None:
        self._taken: dict[tuple[str, str], int] = {}
        self._count = 0

    async def __call__(self, choice: Choice) -> str:
        service = min(choice.offered, key=lambda each: self._taken.get((choice.action, each), 0))
        self._count += 1
        self._taken[choice.action, service] = self._count
        return service


class LeastWorst:
    """Chooses the service that `advise` names, with which the next requests cost least at worst. If there is no advice,
    it chooses the service that costs least now."""

    def __init__(
        self, policy: Policy, session: aio.Session, program: str, seconds: float, otherwise: LeastCost
    ) -> None:
        self._policy = policy
        self._session = session
        self._program = program
        self._seconds = seconds
        self._otherwise = otherwise
        self._registry: dict[tuple[str, ...], Mapping[str, str]] = {}

    async def __call__(self, choice: Choice) -> str:
        try:
            advice = await self._advice()
        except (OSError, RomanError) as error:
            LOG.warning("no advice: %s", error)
            advice = {}
        service = advice.get(choice.action)
        return service if service in choice.offered else self._otherwise(choice)

    async def _advice(self) -> Mapping[str, str]:
        """The service for each action in the present states, by `advise`."""
        report = await self._session.report()
        states = _states(report)
        if states not in self._registry:
            if len(self._registry) >= REMEMBERED:
                self._registry.clear()
            self._registry[states] = await self._ask(report)
        return self._registry[states]

    async def _ask(self, report: Report) -> Mapping[str, str]:
        """Asks the program, with a document whose starting states are those of the report."""
        assert self._session.core.document is not None
        with tempfile.TemporaryDirectory(prefix="roman-live-") as folder:
            document = Path(folder) / "system.json"
            self._session.core.document.with_states(report).write(document)
            words = (str(document), str(self._policy.costs), str(self._policy.requests))
            process = await asyncio.create_subprocess_exec(
                self._program,
                "advise",
                *words,
                stdin=asyncio.subprocess.DEVNULL,
                stdout=asyncio.subprocess.PIPE,
                stderr=asyncio.subprocess.PIPE,
            )
            try:
                async with asyncio.timeout(self._seconds):  # `wait_for` of Python 3.11 may drop a cancellation.
                    output, errors = await process.communicate()
            except TimeoutError:
                LOG.warning("advise gave nothing within %s seconds", self._seconds)
                return {}
            finally:
                if process.returncode is None:
                    process.kill()
                    await process.wait()
        if process.returncode != 0:
            said = (output + errors).decode(errors="replace").strip()
            LOG.warning("advise ended with status %s: %s", process.returncode, said)
            return {}
        return advice_of(output.decode(errors="replace").splitlines())


def _states(report: Report) -> tuple[str, ...]:
    """The states on which the advice depends."""
    services = (
        word
        for each in report.services
        for word in (each.name, each.behaviour, each.state, str(each.frozen), str(each.loose))
    )
    return (report.target, report.environment, *services)


def advice_of(lines: list[str]) -> dict[str, str]:
    """The service for each action, from the lines `for ACTION: SERVICE COST`."""
    advice = {}
    for line in lines:
        words = line.split()
        if len(words) == 4 and words[0] == "for" and words[1].endswith(":"):
            advice[words[1][:-1]] = words[2]
    return advice
