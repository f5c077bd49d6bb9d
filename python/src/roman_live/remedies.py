"""Changes that would help if there is no composition."""

from __future__ import annotations

import asyncio
import logging
from typing import Any

from roman_client import Document, Remedy, Report, RomanError, aio
from roman_client.protocol import Program

LOG = logging.getLogger("roman_live")

SECONDS = 10.0
"""The number of seconds for which remedies are looked for. Those that were found by then are shown."""


class Remedies:
    """The remedies of the newest report, which are cached. They are tried in a session of their own, so that the home's
    session continues meanwhile."""

    def __init__(self, document: Document, program: Program, seconds: float = SECONDS) -> None:
        self._document = document
        self._program = program
        self._seconds = seconds
        self._turn = asyncio.Lock()
        self._last: tuple[Report, dict[str, Any]] | None = None

    async def of(self, report: Report) -> dict[str, Any]:
        """The remedies for the states of a report, as JSON. Pairs of changes are tried if no single one helps."""
        async with self._turn:
            if self._last is None or self._last[0] != report:
                self._last = report, await self._find(report)
            return self._last[1]

    async def _find(self, report: Report) -> dict[str, Any]:
        found: list[Remedy] = []
        complete = True
        try:
            async with asyncio.timeout(self._seconds):
                async for remedy in aio.remedies(self._document, report, program=self._program, two=True):
                    found.append(remedy)
        except TimeoutError:
            complete = False
        except (RomanError, OSError) as error:
            LOG.warning("no remedies: %s", error)
            complete = False
        shown = [remedy_to_json(each) for each in found]
        return {"composes": report.composition, "complete": complete, "remedies": shown}


def remedy_to_json(remedy: Remedy) -> dict[str, Any]:
    """A remedy, with the words of each change."""
    return {"text": str(remedy), "changes": [list(change.words) for change in remedy.changes]}
