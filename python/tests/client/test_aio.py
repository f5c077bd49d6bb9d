"""Sessions and dispatchers for asyncio."""

import asyncio
import inspect
import os
import shutil
import signal
import sys
import tempfile
import time
from collections.abc import AsyncIterator, Awaitable, Callable
from contextlib import asynccontextmanager
from pathlib import Path
from typing import Any
from unittest import mock

import pytest

import roman_client as roman
from roman_client import NOT_DONE, Verdict, aio, library, protocol
from roman_client.aio import streams
from roman_client.aio.library import LibraryStreams
from roman_client.store import open_read_only

from . import PROGRAM, copy_store, sample
from .test_pipes import BEGIN, LONG, OPENING

States = tuple[str, str]

REQUIRED = inspect.Parameter.empty


async def works(action: str) -> States:
    """A lamp that carries out each action."""
    return action, "e"


async def test_a_reply_that_comes_at_once_isnt_awaited(monkeypatch: pytest.MonkeyPatch) -> None:
    monkeypatch.setattr(streams, "MOMENT", 60_000)
    async with home() as session:
        assert session._told(protocol.do("brighten")) == roman.Offer("brighten", ("window", "ceiling"))
        with pytest.raises(roman.Refusal):
            session._told(protocol.use("kettle"))
        assert session._told(protocol.use("window")) is None
        assert session._told(protocol.saw("open", "day")) == roman.Move("bright", "day")


async def test_a_reply_that_comes_later_is_awaited() -> None:
    """Other calls have their turns after it."""
    async with home() as session:
        os.kill(session.pid, signal.SIGSTOP)
        told = session._told(protocol.do("brighten"))
        assert inspect.iscoroutine(told)
        first = asyncio.ensure_future(told)
        await asyncio.sleep(0)
        second = session._told(protocol.use("window"))
        assert inspect.iscoroutine(second)
        os.kill(session.pid, signal.SIGCONT)
        assert await asyncio.gather(first, second) == [roman.Offer("brighten", ("window", "ceiling")), None]


async def broken(action: str) -> States:
    """A lamp that can't be reached."""
    raise roman.DeviceFailed("no answer")


def home(**words: Any) -> aio.Session:
    return aio.Session(sample("home.json"), program=PROGRAM, timeout=60, **words)


def lamp(**words: Any) -> aio.Session:
    return aio.Session(sample("lamp.json"), program=PROGRAM, timeout=60, **words)


@asynccontextmanager
async def played(code: str, timeout: float | None = None) -> AsyncIterator[aio.Session]:
    """A session with a program in Python that reads the first line and writes a first report. The deadline doesn't
    apply to this."""
    async with aio.Session("system", program=[sys.executable, "-c", BEGIN + code]) as session:
        assert isinstance(session._streams, streams.Streams)
        session._streams._timeout = timeout
        yield session


async def test_ctrl_c_does_not_reach_the_program() -> None:
    async with lamp() as session:
        assert os.getsid(session.pid) == session.pid


def test_a_session_within_this_process_is_also_one_of_its_children() -> None:
    """The library is a stand-in, which opens all documents."""
    stand_in = mock.Mock(roman_open=mock.Mock(return_value=0))
    with mock.patch.object(library, "load_library", lambda path: stand_in):
        session = LibraryStreams(protocol.Start(("lamp.json",), None), True)
    child = os.fork()
    if child == 0:
        os._exit(session.pid != os.getpid())
    assert os.waitpid(child, 0)[1] == 0
    assert session.pid == os.getpid()


async def test_the_events() -> None:
    async with home() as session:
        assert session.opening.target == "quiet"
        offer = await session.do("brighten")
        assert offer == roman.Offer("brighten", ("window", "ceiling"))
        await session.use("window")
        assert (await session.saw("open", "day")) == roman.Move("bright", "day")
        await session.do("boil")
        await session.abort()
        assert (await session.freeze("ceiling")).lost == 134
        assert (await session.thaw("ceiling")) == roman.Repair(116, 0)
        await session.jump("window", "ajar")
        await session.jumpenv("dusk")
        await session.die("kettle")
        await session.join("spare", "kettle", "warm", loose=True)
        report = await session.report()
        assert report.services[-1].name == "spare"
        with pytest.raises(roman.NotFrozen):
            await session.thaw("spare")
        with pytest.raises(ValueError):
            await session.do("two words")
        assert (session.changes, session.status) == (6, None)
        assert (await session.quit()) == 0
        with pytest.raises(roman.ProgramEnded):
            await session.report()


async def test_an_explanation() -> None:
    async with lamp() as session:
        await session.jump("l1", "on")
        entries = (await session.explain()).entries
        assert entries == (roman.Lost("off", "e", ("on",), None, ()),)


async def test_before_it_begins() -> None:
    session = home()
    with pytest.raises(roman.NotBegun):
        await session.report()
    with pytest.raises(roman.NotBegun):
        session.pid


async def test_a_snapshot() -> None:
    async with home() as session:
        await session.freeze("window")
        await session.do("brighten")
        snapshot = await session.snapshot()
    async with aio.Session.resume(snapshot, program=PROGRAM) as session:
        await session.use("ceiling")
        assert (await session.saw("on", "day")).target == "bright"
    with roman.Session.resume(snapshot, program=PROGRAM) as plain:
        plain.use("ceiling")


async def test_it_goes_on_before_it_is_too_long() -> None:
    pids = set()
    async with home(longest=120) as session:
        for _ in range(20):
            pids.add(session.pid)
            await session.do("brighten")
            await session.use("window")
            await session.abort()
            assert session.core.sent <= 120
    assert len(pids) > 5


async def test_calls_of_several_tasks_take_turns() -> None:
    async with home() as session:
        reports = await asyncio.gather(*(session.report() for _ in range(100)))
        assert reports == [session.opening] * 100


async def test_other_tasks_have_turns_too() -> None:
    """The replies come at once, so that nothing is awaited."""

    async def call() -> None:
        for _ in range(1_000):
            await session.jump("l1", "on")

    async with lamp() as session:
        with mock.patch.object(streams, "MOMENT", 60_000):
            calling = asyncio.create_task(call())
            while not session.changes:
                await asyncio.sleep(0)
            assert session.changes < 1_000
            await calling


async def test_ends() -> None:
    with pytest.raises(roman.ProgramEnded) as caught:
        await aio.Session("/nowhere/gone.json", program=PROGRAM).begin()
    assert caught.value.status == 5
    with pytest.raises(roman.ProgramEnded) as caught:
        await aio.Session(sample("home.session"), program=PROGRAM).begin()
    assert caught.value.status == 3
    assert caught.value.output[0].startswith("refused ")
    with pytest.raises(FileNotFoundError):
        await aio.Session("x", program="/nowhere/roman").begin()


async def test_programs_that_die_or_hang() -> None:
    begun = time.monotonic()
    for code, status in (
        ("raise SystemExit(7)", 7),
        ("sys.stdin.readline(); sys.stderr.write('roman: oh\\n'); sys.exit(6)", 6),
        ("sys.stdin.readline(); say('offer l'); sys.exit(7)", 7),
        (f"sys.stdin.readline(); os.close(1); time.sleep({LONG})", -9),
    ):
        async with played(code) as session:
            with pytest.raises(roman.ProgramEnded) as caught:
                await session.do("on")
            assert caught.value.status == status
            if status == 6:
                assert caught.value.errors == ("roman: oh",)
    hangs = f"time.sleep({LONG})"
    for code in (hangs, f"sys.stdin.readline(); say('pairs 4\\n'); {hangs}"):
        async with played(code, timeout=0.5) as session:
            with pytest.raises(roman.NoReply):
                await session.report()
            with pytest.raises(roman.ProgramEnded):
                await session.report()
    async with played(f"sys.stdin.readline(); say('kept 1 added\\n'); {hangs}") as session:
        with pytest.raises(roman.UnexpectedReply):
            await session.do("on")
    with pytest.raises(roman.NoReply):
        words = [sys.executable, "-c", f"import time; {hangs}"]
        await aio.Session("system", program=words, timeout=0.5).begin()
    assert time.monotonic() - begun < LONG / 2


async def test_a_long_report_and_a_flood_of_errors() -> None:
    code = """
sys.stdin.readline()
sys.stderr.write("x" * 3_000_000)
services = " ".join(f"s{i}" for i in range(20_000))
say("pairs 4\\nrelated 2\\nenvironment e\\ntarget off final\\n")
say("service l1 lamp off ready\\nanswer composition\\noffer on: " + services + "\\nend\\n")
sys.stderr.write("x" * 3_000_000)
say(sys.stdin.readline() and "aborted\\n")
"""
    assert "offer on" in OPENING
    async with played(code) as session:
        assert (await session.report()).offers["on"][-1] == "s19999"
        await session.abort()


async def test_a_call_that_is_cancelled() -> None:
    async with played(f"time.sleep({LONG})") as session:
        task = asyncio.ensure_future(session.do("on"))
        await asyncio.sleep(0.2)
        task.cancel()
        with pytest.raises(asyncio.CancelledError):
            await task
        with pytest.raises(roman.ProgramEnded):
            await session.do("on")


async def test_a_call_that_is_cancelled_twice() -> None:
    """Its reply comes later, and isn't taken for that of the next call."""
    async with lamp() as session:
        assert isinstance(session._streams, streams.Streams)
        os.kill(session.pid, signal.SIGSTOP)
        calling = asyncio.create_task(session.jump("l1", "on"))
        while session._streams._reply is None:
            await asyncio.sleep(0)
        for _ in range(2):
            calling.cancel()
            await asyncio.sleep(0)
        with pytest.raises(asyncio.CancelledError):
            await calling
        os.kill(session.pid, signal.SIGCONT)
        with pytest.raises(roman.ProgramEnded):
            await session.jump("l1", "off")


async def lamps(session: aio.Session, count: int) -> None:
    for number in range(2, count + 1):
        await session.join(f"l{number}", "lamp", "off")


async def test_requests() -> None:
    told: list[roman.Failure] = []
    async with lamp() as session:
        await lamps(session, 2)
        async with aio.Dispatcher(session, {"l1": broken, "l2": works}, on_failure=told.append) as dispatcher:
            done = await dispatcher.request("on")
            assert (done.service, done.failures) == ("l2", tuple(told))
            assert dispatcher.failed == {"l1"}
            await dispatcher.thaw("l1", "on")
            with pytest.raises(roman.NoComposition) as caught:
                await dispatcher.request("off")
            assert caught.value.explanation is not None
            await dispatcher.jump("l1", "off")
            assert (await dispatcher.request("off")).service == "l2"
            await dispatcher.die("l1")
            await dispatcher.join("l3", "lamp", "off", works)
            await dispatcher.freeze("l2")
            assert (await dispatcher.request("on")).service == "l3"
            assert dispatcher.served == 3
            with pytest.raises(roman.Related):
                await dispatcher.explain()


async def test_policies_and_backs_of_both_kinds() -> None:
    async def last(choice: roman.Choice) -> str:
        return choice.offered[-1]

    async def back(service: str) -> bool:
        return True

    both: list[tuple[aio.Policy, aio.Back]] = [
        (last, back),
        (lambda choice: "l2", lambda service: True),
    ]
    for policy, is_back in both:
        async with lamp() as session:
            await lamps(session, 2)
            await session.freeze("l2")
            devices = {"l1": works, "l2": works}
            async with aio.Dispatcher(session, devices, policy=policy, back=is_back) as dispatcher:
                assert (await dispatcher.request("on")).service == "l2"


async def test_deadlines() -> None:
    ended: list[str] = []

    async def hangs(action: str) -> States:
        try:
            await asyncio.sleep(LONG)
        finally:
            ended.append("cancelled")
        return works_late

    works_late: States = ("on", "e")
    async with lamp() as session:
        await lamps(session, 2)
        devices: dict[str, Any] = {"l1": aio.device(hangs, timeout=0.1), "l2": works}
        async with aio.Dispatcher(session, devices) as dispatcher:
            done = await dispatcher.request("on")
            assert done.service == "l2"
            assert isinstance(done.failures[0].error, roman.DeviceTimeout)
            await asyncio.sleep(0)
            assert ended == ["cancelled"]


async def test_changes_wait_their_turn() -> None:
    go_on = asyncio.Event()

    async def waits(action: str) -> States:
        with pytest.raises(roman.InsideRequest):
            await dispatcher.freeze("l1")
        posted.append(dispatcher.post(protocol.jump("l2", "on")))
        await go_on.wait()
        return await works(action)

    posted: list[Any] = []
    async with lamp() as session:
        await lamps(session, 2)
        async with aio.Dispatcher(session, {"l1": waits, "l2": works}) as dispatcher:
            request = asyncio.ensure_future(dispatcher.request("on"))
            freeze = asyncio.ensure_future(dispatcher.freeze("l1"))
            while not posted:
                await asyncio.sleep(0.01)
            assert (await dispatcher.report()).target == "off"
            assert dispatcher.under_way is not None
            assert not (request.done() or freeze.done() or posted[0].done())
            go_on.set()
            assert (await request).service == "l1"
            await freeze
            await posted[0]
            states = [(each.state, each.frozen) for each in (await dispatcher.report()).services]
            assert states == [("on", True), ("on", False)]


async def test_a_request_that_is_cancelled() -> None:
    async def hangs(action: str) -> States:
        asked.set()
        await asyncio.sleep(LONG)
        return await works(action)

    for store in (False, True):
        asked = asyncio.Event()
        with tempfile.TemporaryDirectory() as folder:
            async with lamp() as session:
                await lamps(session, 2)
                async with aio.Dispatcher(
                    session,
                    {"l1": hangs, "l2": works},
                    store=f"{folder}/journal" if store else None,
                ) as dispatcher:
                    request = asyncio.ensure_future(dispatcher.request("on", key="a"))
                    await asked.wait()
                    assert dispatcher.under_way is not None
                    request.cancel()
                    with pytest.raises(asyncio.CancelledError):
                        await request
                    with pytest.raises(roman.InDoubt):
                        await dispatcher.request("on", key="a")
                    assert (await dispatcher.request("on")).service == "l2"
                    assert dispatcher.failed == {"l1"}


async def test_a_store(tmp_path: Path) -> None:
    async def kills(action: str) -> States:
        os.kill(session.pid, signal.SIGKILL)
        return await works(action)

    notices: list[roman.Notice] = []
    store = f"{tmp_path}/journal"
    async with lamp() as session:
        async with aio.Dispatcher(session, {"l1": kills}, store=store, watch=notices.append) as dispatcher:
            done = await dispatcher.request("on", key="a")
            assert done.target == "on"
            with pytest.raises(roman.StoreLocked):
                aio.Dispatcher(session, {"l1": works}, store=store)
    assert [type(each) for each in notices][-1] == roman.Done
    async with lamp() as session:
        async with aio.Dispatcher(session, {"l1": works}, store=store) as dispatcher:
            assert (await dispatcher.request("on", key="a")) == done
            assert (await dispatcher.report()).target == "on"
            assert (await dispatcher.request("off")).target == "off"
            assert dispatcher.served == 2


async def test_texts_that_can_not_be_encoded(tmp_path: Path) -> None:
    """A key is refused before it is written. In a source or an error of a device, the surrogate becomes a question
    mark."""
    half = "half \ud800"

    async def broken_so(action: str) -> States:
        raise roman.DeviceFailed(half)

    async with lamp() as session:
        await lamps(session, 2)
        store = tmp_path / "store"
        async with aio.Dispatcher(session, {"l1": broken_so, "l2": works}, store=store) as dispatcher:
            for refused in (dispatcher.request("on", half), dispatcher.record("on", "l1", "on", "e", half)):
                with pytest.raises(ValueError, match="a key has no letter that UTF-8 can't encode"):
                    await refused
            assert (await dispatcher.request("on", "é", half)).service == "l2"
            await dispatcher.change(roman.protocol.jump("l2", "off"), half)
        with open_read_only(store) as database:
            found = list(database.execute("SELECT key, source, error FROM calls"))
            assert found == [("é", "half ?", "half ?"), ("é", "half ?", None)]
            assert list(database.execute("SELECT source FROM changes")) == [("half ?",)]


async def test_what_was_under_way(tmp_path: Path) -> None:
    async def works_and_copies(action: str) -> States:
        copy_store(store, f"{tmp_path}/cut")
        return await works(action)

    async def tells(call: roman.Call) -> Any:
        return told

    store = f"{tmp_path}/journal"
    async with lamp() as session:
        async with aio.Dispatcher(session, {"l1": works_and_copies}, store=store) as first:
            await first.request("on")
    for told, verdict in (
        (("on", "e"), Verdict.DONE),
        (NOT_DONE, Verdict.NOT_DONE),
        (None, Verdict.IN_DOUBT),
    ):
        shutil.copy(f"{tmp_path}/cut", store)
        async with lamp() as session:
            device = aio.device(works, state=tells)
            async with aio.Dispatcher(session, {"l1": device}, store=store) as dispatcher:
                assert dispatcher.recovered is not None
                assert dispatcher.recovered.verdict == verdict
                if verdict is Verdict.IN_DOUBT:
                    await dispatcher.thaw("l1")
                    await dispatcher.record("on", "l1", "on", "e")
                    assert dispatcher.served == 1


async def test_a_cancelled_request_while_the_journal_is_written() -> None:
    """Wherever it is cut off, the next request continues from the journal. The request may be in doubt only if its
    device was asked. A person then settles it."""
    asked: list[str] = []

    async def is_asked(action: str) -> States:
        asked.append(action)
        return await works(action)

    for moment in range(0, 40, 2):
        asked.clear()
        with tempfile.TemporaryDirectory() as folder:
            async with lamp() as session:
                device = aio.device(is_asked, state=is_on(session))
                async with aio.Dispatcher(session, {"l1": device}, store=f"{folder}/journal") as dispatcher:
                    request = asyncio.ensure_future(dispatcher.request("on", key="a"))
                    for _ in range(moment):
                        await asyncio.sleep(0)
                    request.cancel()
                    try:
                        await request
                    except asyncio.CancelledError:
                        pass
                    for service in dispatcher.failed:
                        await dispatcher.thaw(service)
                    try:
                        done = await dispatcher.request("on", key="a")
                    except roman.InDoubt:
                        assert asked == ["on"]
                        done = await dispatcher.record("on", "l1", "on", "e", key="a")
                    assert (done.target, dispatcher.served) == ("on", 1)
                    assert (await dispatcher.request("on", key="a")) == done
                    assert len(asked) <= 1


def is_on(session: aio.Session) -> Callable[[roman.Call], Awaitable[roman.Outcome]]:
    async def state(call: roman.Call) -> States:
        return "on", "e"

    return state


# The two drivers are twins: awaited calls can't share code with the other ones.


def test_both_have_the_same_calls_with_the_same_words() -> None:
    twins: tuple[tuple[type, type], ...] = (
        (roman.Session, aio.Session),
        (roman.Dispatcher, aio.Dispatcher),
    )
    for one, other in twins:
        found = calls(other)
        assert found.pop("begin") == [("self", inspect.Parameter.POSITIONAL_OR_KEYWORD, REQUIRED)]
        found.pop("core", None)  # This is available only after it has begun.
        assert calls(one) == found


def test_what_is_awaited() -> None:
    at_once = {"__init__", "post", "resume"}
    for each in (aio.Session, aio.Dispatcher):
        found = {name for name, value in vars(each).items() if inspect.isroutine(value) and name in calls(each)}
        awaited = {name for name in found if inspect.iscoroutinefunction(getattr(each, name))}
        assert found - awaited == at_once & found


def calls(kind: type) -> dict[str, Any]:
    """The public names of a class, with the parameters of its methods."""
    found: dict[str, Any] = {}
    for name, value in vars(kind).items():
        if name == "__init__" or not name.startswith("_"):
            called = getattr(kind, name)
            words = inspect.signature(called).parameters.values() if callable(called) else ()
            found[name] = [(word.name, word.kind, word.default) for word in words]
    return found
