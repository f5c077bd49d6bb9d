"""Remedies, for asyncio."""

from __future__ import annotations

from collections.abc import AsyncIterator, Iterable

from ..documents import Document
from ..protocol import Program
from ..remedies import Remedy, helps, pairs, singles
from ..replies import Report
from ..snapshots import Snapshot
from .session import Session


async def remedies(
    document: Document, report: Report, *, program: Program = "roman", two: bool = False
) -> AsyncIterator[Remedy]:
    """Yields the remedies of `roman_client.mend`, each as soon as it is found."""
    if report.composition:
        return
    async with Session.resume(Snapshot(document.with_states(report)), program=program) as session:

        async def helping(tried: Iterable[Remedy]) -> AsyncIterator[Remedy]:
            for each in tried:
                if await session.run(helps(session.core, each)):
                    yield each

        found = False
        async for each in helping(singles(document, report)):
            found = True
            yield each
        if two and not found:
            async for each in helping(pairs(document, report)):
                yield each


async def mend(
    document: Document, report: Report, *, program: Program = "roman", two: bool = False
) -> tuple[Remedy, ...]:
    """Returns the changes after which there is a composition, as `roman_client.mend` does."""
    return tuple([each async for each in remedies(document, report, program=program, two=two)])
