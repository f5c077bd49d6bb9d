"""Sessions with the program."""

import json
import os
import signal
import sys
from collections.abc import Callable
from concurrent.futures import ThreadPoolExecutor
from pathlib import Path
from unittest import mock

import pytest

import roman_client as roman
from roman_client import Session

from . import PROGRAM, sample


def home() -> Session:
    return Session(sample("home.json"), program=PROGRAM, timeout=60)


def test_a_request() -> None:
    with home() as session:
        assert session.do("brighten") == roman.Offer("brighten", ("window", "ceiling"))
        session.use("window")
        assert session.saw("open", "day") == roman.Move("bright", "day")
        assert session.do("boil").services == ("kettle",)
        session.abort()
        assert session.changes == 0
        assert session.quit() == 0


def test_changes() -> None:
    with home() as session:
        assert session.freeze("ceiling").lost == 134
        assert session.thaw("ceiling") == roman.Repair(116, 0)
        session.jump("window", "ajar")
        session.jumpenv("dusk")
        session.die("window")
        assert session.join("blind2", "blind", "shut", loose=True).lost > 0
        assert session.changes == 6
        report = session.report()
        assert report.environment == "dusk"
        assert report.services[-1] == roman.Service("blind2", "blind", "shut", False, True)


def test_a_report() -> None:
    with home() as session:
        session.freeze("window")
        assert session.report() == roman.Report(
            pairs=144,
            related=session.report().related,
            environment="day",
            target="quiet",
            final=True,
            services=(
                roman.Service("window", "blind", "shut", True, False),
                roman.Service("ceiling", "lamp", "off", False, False),
                roman.Service("kettle", "kettle", "empty", False, False),
            ),
            composition=True,
            offers={"brighten": ("ceiling",)},
        )
        session.freeze("ceiling")
        report = session.report()
        assert not report.composition
        assert report.offers == {}


def test_an_explanation() -> None:
    with Session(sample("web.json"), program=PROGRAM) as session:
        session.die("post")
        with pytest.raises(roman.NoComposition):
            session.do("book")
        if session.report().composition:
            pytest.fail("without its mailer the shop has no composition")
        explanation = session.explain()
        assert explanation.present.request == "book"
        assert explanation.present.target == "idle"
        assert roman.Answer("bank", None) in explanation.present.answers
        for entry in explanation.entries:
            assert len(entry.states) == 3
        assert "lost idle cheap ready open full: book\n  fly may" in str(explanation)


def test_an_explanation_by_finality() -> None:
    with Session(sample("lamp.json"), program=PROGRAM) as session:
        session.jump("l1", "on")
        assert session.explain().entries == (roman.Lost("off", "e", ("on",), None, ()),)


def test_each_refusal() -> None:
    with Session(sample("lamp.json"), program=PROGRAM) as session:
        refused: list[tuple[type[roman.Refusal], Callable[[], object], str]] = [
            (roman.UnknownName, lambda: session.do("dim"), "error name"),
            (roman.Idle, lambda: session.use("l1"), "error idle"),
            (roman.NotAllowed, lambda: session.do("off"), "not allowed"),
            (roman.NotFrozen, lambda: session.thaw("l1"), "error ready"),
            (roman.NameTaken, lambda: session.join("l1", "lamp", "off"), "error taken"),
            (roman.Related, session.explain, "error related"),
            (roman.BadLine, lambda: session.do("o" * 300), "error line"),
        ]
        for kind, call, reply in refused:
            with pytest.raises(kind) as caught:
                call()
            assert caught.value.reply == reply
        session.do("on")
        with pytest.raises(roman.Busy):
            session.freeze("l1")
        session.use("l1")
        with pytest.raises(roman.Impossible) as impossible:
            session.saw("off", "e")
        assert impossible.value.line == "saw off e"
        session.abort()
        session.join("l2", "lamp", "off")
        session.jump("l2", "on")
        with pytest.raises(roman.NoComposition):
            session.do("on")
        session.jump("l2", "off")
        session.freeze("l2")
        with pytest.raises(roman.AlreadyFrozen):
            session.freeze("l2")
        session.do("on")
        with pytest.raises(roman.NotOffered):
            session.use("l2")
        assert session.status is None


def test_full_and_over_the_limit(tmp_path: Path) -> None:
    document = json.loads(Path(sample("lamp.json")).read_text(encoding="utf-8"))
    dot = {"name": "dot", "states": ["d"], "start": "d", "final": ["d"], "steps": []}
    document["behaviours"].append(dot)
    document["services"] += [{"name": f"d{i}", "behaviour": "dot"} for i in range(31)]
    document["limit"] = 8
    path = tmp_path / "full.json"
    path.write_text(json.dumps(document), encoding="utf-8")
    with Session(path, program=PROGRAM) as session:
        with pytest.raises(roman.Full):
            session.join("d31", "dot", "d")
        session.die("d0")
        with pytest.raises(roman.OverLimit):
            session.join("l2", "lamp", "off")


def test_words_that_are_none() -> None:
    with home() as session:
        for word in ("", "two words", "line\nquit", "tab\t", "end\r", "\ud800"):
            with pytest.raises(ValueError):
                session.do(word)
        with pytest.raises(TypeError):
            session.do(b"brighten")  # type: ignore[arg-type]
        assert session.report().composition


def test_many_requests_leave_room() -> None:
    with home() as session:
        before = session.room
        session.do("brighten")
        assert before - session.room == len("do brighten\n")


def test_calls_of_several_threads_take_turns() -> None:
    with home() as session, ThreadPoolExecutor(8) as threads:
        reports = list(threads.map(lambda _: session.report(), range(200)))
    assert reports == [session.opening] * 200


# Sessions that continue in another program.


def test_a_snapshot() -> None:
    with home() as session:
        session.join("spare", "lamp", "on", loose=True)
        session.freeze("ceiling")
        session.die("kettle")
        session.jumpenv("dusk")
        report, snapshot = session.report(), session.snapshot()
    with Session.resume(snapshot, program=PROGRAM) as session:
        assert session.opening == report
        assert session.snapshot().document.value == snapshot.document.value


def test_a_snapshot_of_an_open_request(tmp_path: Path) -> None:
    with home() as session:
        path = tmp_path / "snapshot.json"
        session.do("brighten")
        offered = session.snapshot()
        session.use("window")
        session.snapshot().write(path)
        used = roman.Snapshot.read(path)
    assert (offered.request, offered.service) == ("brighten", None)
    assert (used.request, used.service) == ("brighten", "window")
    with Session.resume(offered, program=PROGRAM) as session:
        session.use("ceiling")
        assert session.saw("on", "day").target == "bright"
    with Session.resume(used, program=PROGRAM) as session:
        assert session.saw("open", "day").target == "bright"
        assert session.snapshot().request is None


def test_what_is_no_snapshot(tmp_path: Path) -> None:
    document = json.loads(Path(sample("lamp.json")).read_text(encoding="utf-8"))
    path = tmp_path / "snapshot.json"
    for value in (
        [],
        {},
        {"document": {}, "request": None, "service": None},
        {"document": document, "request": 3, "service": None},
        {"document": document, "request": None},
    ):
        path.write_text(json.dumps(value), encoding="utf-8")
        with pytest.raises(roman.DocumentError):
            roman.Snapshot.read(path)
    path.write_text("{", encoding="utf-8")
    with pytest.raises(roman.DocumentError):
        roman.Snapshot.read(path)


def test_a_session_goes_on_before_it_is_too_long() -> None:
    """With little room for each program, callers notice nothing, in any phase of a request."""
    outcomes = {"brighten": ("on", "day"), "dim": ("off", "day")}
    pids = set()
    with Session(sample("lamp.json"), program=PROGRAM, timeout=60, longest=1000) as plain, Session(
        sample("home.json"), program=PROGRAM, longest=120
    ) as session:
        assert plain.do("on").services == ("l1",)
        session.freeze("window")
        session.join("spare", "lamp", "off", loose=True)
        for turn in range(40):
            for action in ("brighten", "boil", "pour", "dim"):
                pids.add(session.pid)
                offer = session.do(action)
                service = offer.services[0]
                assert "window" not in offer.services
                session.use(service)
                if action == "boil" and turn == 20:
                    for _ in range(30):
                        session.report()
                state = {"boil": "hot", "pour": "empty"}.get(action)
                session.saw(*((state, "day") if state else outcomes[action]))
                assert session.core.sent <= 120
        assert session.report().services[0].frozen is True
        assert session.changes == 2
    assert len(pids) > 20


def test_a_session_of_more_than_16_megabytes() -> None:
    line = "x" * 1_000_000
    with home() as session:
        first = session.pid
        session.freeze("window")
        session.do("brighten")
        for _ in range(17):
            with pytest.raises(roman.BadLine):
                session.do(line)
        assert session.pid != first
        session.use("ceiling")
        assert session.saw("on", "day").target == "bright"
    with Session(sample("home.json"), program=PROGRAM, longest=1 << 40) as session:
        with pytest.raises(roman.ProgramEnded) as caught:
            for _ in range(17):
                with pytest.raises(roman.BadLine):
                    session.do(line)
        assert caught.value.status == 8


def test_no_place_for_the_next_program_yet() -> None:
    """Between two requests a session tries to continue early. If it can't yet, it continues later."""
    with Session(sample("lamp.json"), program=PROGRAM, longest=400) as session:
        first = session.pid
        with mock.patch("tempfile.mkdtemp", side_effect=OSError(28, "no space")):
            while session.room > 40:
                session.jumpenv("e")
        assert session.pid == first
        session.jumpenv("e")
        assert session.pid != first


def test_a_document_that_is_not_to_be_read_from_here() -> None:
    """If the program runs elsewhere, the session works, and logs why it can't continue in another program."""
    move = f'import os, sys; os.execv({PROGRAM!r}, ["roman", "run", {sample("lamp.json")!r}])'
    with Session("elsewhere.json", program=[sys.executable, "-c", move]) as session:
        assert session.do("on").services == ("l1",)
        with pytest.raises(roman.DocumentError, match="elsewhere.json"):
            session.snapshot()


def test_a_document_in_the_short_form() -> None:
    """One line explains what to do, unless the program expands it, as ./roman does."""
    name = sample("short/house.json")
    said = f"{name} is in the short form; roman-expand {name} -o plain.json writes the plain one"
    with pytest.raises(roman.ShortForm) as raised:
        Session(name, program=PROGRAM, timeout=60)
    assert str(raised.value) == said
    with pytest.raises(roman.ShortForm):
        roman.Document.load(name)


def test_a_document_that_is_refused(tmp_path: Path) -> None:
    Path(tmp_path, "empty.json").write_text("{}", encoding="utf-8")
    with pytest.raises(roman.ProgramEnded) as caught:
        Session("empty.json", program=PROGRAM, folder=tmp_path)
    assert caught.value.status == 3
    assert caught.value.output == ("refused empty.json missing system 0 roman 0",)


def test_a_document_over_its_limit(tmp_path: Path) -> None:
    document = json.loads(Path(sample("lamp.json")).read_text(encoding="utf-8"))
    document["limit"] = 7
    path = tmp_path / "small.json"
    path.write_text(json.dumps(document), encoding="utf-8")
    with pytest.raises(roman.ProgramEnded) as caught:
        Session(path, program=PROGRAM)
    assert (caught.value.status, caught.value.output) == (4, ("limit 7",))


def test_a_document_that_is_not_there() -> None:
    with pytest.raises(roman.ProgramEnded) as caught:
        Session("/nowhere/gone.json", program=PROGRAM)
    assert (caught.value.status, caught.value.output) == (5, ())


def test_a_program_that_is_killed() -> None:
    with home() as session:
        session.do("brighten")
        os.kill(session.pid, signal.SIGKILL)
        with pytest.raises(roman.ProgramEnded) as caught:
            session.use("window")
        assert caught.value.status == -signal.SIGKILL
        with pytest.raises(roman.ProgramEnded):
            session.report()
        assert session.status == -signal.SIGKILL


def test_calls_after_the_end() -> None:
    session = home()
    assert session.quit() == 0
    with pytest.raises(roman.ProgramEnded):
        session.do("brighten")
    assert session.close() == 0
