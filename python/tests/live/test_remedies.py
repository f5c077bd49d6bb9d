"""The remedies that a home looks for."""

import os

from roman_client import Document, Session
from roman_live.remedies import Remedies

from . import PROGRAM, sample


async def test_what_was_found_in_time_is_shown() -> None:
    document = Document.load(sample("home.json"))
    with Session(sample("home.json"), program=PROGRAM) as session:
        session.freeze("kettle")
        report = session.report()

    whole = await Remedies(document, PROGRAM).of(report)
    assert whole["complete"] and len(whole["remedies"]) == 2
    cut = await Remedies(document, PROGRAM, seconds=0).of(report)
    assert not cut["complete"] and not cut["remedies"]
    none = await Remedies(document, os.devnull).of(report)
    assert not none["complete"] and not none["remedies"]


async def test_they_are_remembered() -> None:
    document = Document.load(sample("home.json"))
    with Session(sample("home.json"), program=PROGRAM) as session:
        session.freeze("kettle")
        report = session.report()

    remedies = Remedies(document, PROGRAM)
    first = await remedies.of(report)
    assert await remedies.of(report) is first
