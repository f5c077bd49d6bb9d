"""A home in this process with simulated devices: policies, pauses, and devices that move by themselves."""

import asyncio
import os
import re
import signal
import socket
from contextlib import AsyncExitStack
from pathlib import Path
from typing import Any
from unittest import mock

import pytest

from roman_client import Call, DeviceFailed, Frozen, InDoubt, StoreLocked
from roman_client.store import Store, open_read_only
from roman_live import errors, fleet, recovery
from roman_live.config import HomeFile, HomeFileError
from roman_live.devices import Answer, Listener, Reach
from roman_live.home import Home
from roman_live.http_api import Server, result

from . import PROGRAM, sample
from .machinery import PATIENCE

HOME = ("window", "ceiling", "kettle")
SERVICES = {"depot": ("belt", "drone", "van", "broom"), "home": HOME, "short/home": HOME}


class Played(Reach):
    """A device with the outcomes of the test. If the test has none, it has its first possible outcome."""

    reached = "played"

    def __init__(self, service: str, listener: Listener, test: "InProcess") -> None:
        super().__init__(service, listener)
        self.test = test

    async def ask(self, number: int, call: Call) -> Answer:
        self.test.asked.append(self.service)
        if self.service in self.test.broken:
            raise DeviceFailed("broken")
        waited = self.test.gates.get(self.service)
        if waited is not None:
            await waited.wait()
        home = self.test.home
        known = home.registry[self.service]
        outcomes = home.document.outcomes(known.behaviour, known.state, home.registry.environment, call.request)
        state, environment = next(iter(outcomes))
        self.test.states[self.service] = state
        return Answer(state, environment)

    async def tell(self, number: int | None, call: Call | None = None) -> Answer | None:
        self.test.told.append(self.service)
        waited = self.test.mute.get(self.service)
        if waited is not None:
            await waited.wait()
        if self.service in self.test.broken:
            raise DeviceFailed("broken")
        state = self.test.states.get(self.service)
        return None if state is None else Answer(state, self.test.environment)


class InProcess:
    """Homes of a sample."""

    seconds = PATIENCE

    def __init__(self, folder: Path, at_end: AsyncExitStack) -> None:
        self.folder = folder
        self.at_end = at_end
        self.asked: list[str] = []
        self.told: list[str] = []
        self.broken: set[str] = set()
        self.states: dict[str, str] = {}
        self.environment: str | None = None
        self.gates: dict[str, asyncio.Event] = {}
        self.mute: dict[str, asyncio.Event] = {}
        self.home: Home

    async def begin(self, name: str, more: str = "") -> Home:
        devices = "".join(
            f'[devices.{each}]\nreach = "http"\nurl = "http://x"\nseconds = {self.seconds}\n' for each in SERVICES[name]
        )
        file = self.folder / "home.toml"
        head = f'document = "{sample(name)}.json"\nprogram = "{PROGRAM}"\n'
        file.write_text(f"{head}{more}\n{devices}", encoding="utf-8")
        with mock.patch.object(fleet, "make_reach", self.play):
            self.home = await Home.start(HomeFile.read(file))
        self.at_end.push_async_callback(self.home.close)
        return self.home

    def play(self, service: str, entry: Any, listener: Listener, *words: Any) -> Reach:
        """Makes the reach of a service."""
        return Played(service, listener, self)

    async def until(self, true: Any) -> None:
        for _ in range(6000):
            if true():
                return
            await asyncio.sleep(0.01)
        pytest.fail("it didn't come")

    async def service(self, name: str) -> dict[str, Any]:
        (found,) = (each for each in (await self.home.view.state())["services"] if each["name"] == name)
        return dict(found)


@pytest.fixture
def homes(tmp_path: Path, at_end: AsyncExitStack) -> InProcess:
    return InProcess(tmp_path, at_end)


def lines(caplog: pytest.LogCaptureFixture) -> list[str]:
    """The log."""
    return [f"{each.levelname}:{each.name}:{each.getMessage()}" for each in caplog.records]


# The policies.


async def served_by(homes: InProcess, more: str, actions: list[str]) -> list[str]:
    home = await homes.begin("depot", more)
    return [(await home.requests.serve(each))["served_by"] for each in actions]


async def test_first(homes: InProcess) -> None:
    assert (await served_by(homes, "", ["load", "ship"])) == ["belt", "drone"]


async def test_least_cost(homes: InProcess) -> None:
    costs = homes.folder / "costs"
    costs.write_text('[["drone", "ship", 7], ["van", "ship", 5]]', encoding="utf-8")
    more = f'[policy]\nchoose = "least cost"\ncosts = "{costs}"'
    assert (await served_by(homes, more, ["load", "ship"])) == ["belt", "van"]


async def test_least_worst_is_that_of_advise(homes: InProcess) -> None:
    costs = homes.folder / "costs"
    # The drone is cheaper now, but it would later have to sweep at a high price.
    costs.write_text(
        '[["drone", "ship", 1], ["van", "ship", 2], ["drone", "sweep", 90], ["broom", "sweep", 90]]',
        encoding="utf-8",
    )
    more = f'[policy]\nchoose = "least worst"\nrequests = 1\ncosts = "{costs}"'
    assert (await served_by(homes, more, ["load", "ship"])) == ["belt", "drone"]
    await homes.home.close()
    costs.write_text('[["drone", "ship", 3], ["van", "ship", 2]]', encoding="utf-8")
    assert (await served_by(homes, more, ["load", "ship"])) == ["belt", "van"]


async def test_round_robin(homes: InProcess) -> None:
    home = await homes.begin("home", '[policy]\nchoose = "round robin"')
    cycle = ["brighten", "boil", "pour", "dim"]
    served = [(await home.requests.serve(each))["served_by"] for each in cycle * 3]
    assert served[::4] == ["window", "ceiling", "window"]


async def test_costs_that_cannot_be_read(homes: InProcess) -> None:
    with pytest.raises(HomeFileError, match="policy.costs is"):
        await homes.begin("depot", '[policy]\nchoose = "least cost"\ncosts = "none"')


async def test_costs_of_what_is_not_there(homes: InProcess) -> None:
    costs = homes.folder / "costs"
    for text, wrong in (
        ('["dron", "ship", 1]', "dron is no behaviour"),
        ('["drone", "shp", 1]', "shp is no action"),
    ):
        costs.write_text(f'[["van", "ship", 1], {text}]', encoding="utf-8")
        for choose in ("least cost", "least worst"):
            with pytest.raises(HomeFileError, match=wrong):
                await homes.begin("depot", f'[policy]\nchoose = "{choose}"\ncosts = "{costs}"')


# Messages of a home that can't begin as it was meant to.


async def test_a_program_that_is_not_there(homes: InProcess) -> None:
    with pytest.raises(errors.NoProgram, match="program is '/nowhere', which can't be started: No such file"):
        with mock.patch(f"{__name__}.PROGRAM", "/nowhere"):
            await homes.begin("home")
    with pytest.raises(errors.NoProgram, match="program is 'no-such-roman', which isn't in PATH; say there"):
        with mock.patch(f"{__name__}.PROGRAM", "no-such-roman"):
            await homes.begin("home")


async def test_a_document_that_is_none(homes: InProcess) -> None:
    """Its reader stops at the first mistake, and refers to roman-lint, which lists all."""
    file = homes.folder / "home.toml"
    file.write_text(f'document = "mine.json"\nprogram = "{PROGRAM}"\n', encoding="utf-8")
    with pytest.raises(HomeFileError, match="home.toml: document: /.*/mine.json: No such file or directory$"):
        await Home.start(HomeFile.read(file))
    (homes.folder / "mine.json").write_text('{"roman": 1}', encoding="utf-8")
    with pytest.raises(HomeFileError, match="home.toml: document: mine.json: .*; roman-lint /.*/mine.json says"):
        await Home.start(HomeFile.read(file))


async def test_a_port_that_is_taken(homes: InProcess) -> None:
    with socket.create_server(("127.0.0.1", 0)) as taken:
        port = taken.getsockname()[1]
        home = await homes.begin("home", f"[page]\nport = {port}")
        server = Server(home, home.file.page)
        homes.at_end.push_async_callback(server.close)
        with pytest.raises(errors.NoPage, match=f"home.toml: page: .* 127.0.0.1, port {port}: Address already"):
            await server.begin()


async def test_a_document_that_is_refused(homes: InProcess) -> None:
    text = Path(sample("home.json")).read_text(encoding="utf-8")
    wrong = text.replace('["dusk", "brighten", "dusk"]', '["dusk", "brighten", "night"]')
    (homes.folder / "mine.json").write_text(wrong, encoding="utf-8")
    (homes.folder / "home.toml").write_text(f'document = "mine.json"\nprogram = "{PROGRAM}"\n', encoding="utf-8")
    with pytest.raises(HomeFileError, match="home.toml: document: .* refused .*; roman-lint /.*/mine.json says"):
        await Home.start(HomeFile.read(homes.folder / "home.toml"))


async def test_a_journal_of_another_document(homes: InProcess) -> None:
    journal = '[journal]\npath = "journal"'
    await (await homes.begin("home", journal)).close()
    with pytest.raises(HomeFileError, match="journal.path: .* of another document, .* begins anew"):
        await homes.begin("depot", journal)


async def test_a_table_that_the_journal_needs(homes: InProcess) -> None:
    journal = '[journal]\npath = "journal"'
    with mock.patch.dict(SERVICES, home=(*HOME, "spare")):
        home = await homes.begin("home", journal)
    await home.fleet.join("spare", "lamp", "off", False)
    await home.close()
    with pytest.raises(HomeFileError, match="no device for the service spare, which the store has"):
        await homes.begin("home", journal)


async def test_beside_a_home_that_is_just_beginning(homes: InProcess) -> None:
    """No device is made, and nothing is written, although there is no store yet."""
    beginning = Store(homes.folder / "journal")
    homes.at_end.callback(beginning.close)
    with mock.patch.object(homes, "play", side_effect=AssertionError):
        with pytest.raises(StoreLocked, match="does this home run already?"):
            await homes.begin("home", '[journal]\npath = "journal"')
    assert {each.name for each in homes.folder.iterdir()} == {"home.toml", "journal.lock"}


async def test_a_service_that_joined_again(homes: InProcess) -> None:
    """It is asked after the next start, too."""
    journal = '[journal]\npath = "journal"'
    home = await homes.begin("home", journal)
    await home.fleet.die("window")
    await home.fleet.join("window", "blind", "shut", False)
    await home.close()
    home = await homes.begin("home", journal)
    await home.fleet.freeze("ceiling")
    assert (await home.requests.serve("brighten"))["served_by"] == "window"


async def test_a_request_in_doubt_that_was_done(homes: InProcess) -> None:
    journal = '[journal]\npath = "journal"'
    home = await homes.begin("home", journal)
    homes.gates["window"] = asyncio.Event()
    asked = asyncio.ensure_future(home.requests.serve("brighten", "a"))
    await homes.until(lambda: homes.asked)
    await home.close()
    assert isinstance((await asyncio.gather(asked, return_exceptions=True))[0], BaseException)
    homes.states["window"] = "open"
    home = await homes.begin("home", journal)
    await homes.until(lambda: not home.registry["window"].frozen)
    with pytest.raises(InDoubt):
        await home.requests.serve("brighten", "a")
    await home.fleet.jump("window", "shut")  # This was its earlier state.
    await home.requests.record("brighten", "window", ("open", "day"), "a")
    assert (await home.requests.serve("brighten", "a"))["served_by"] == "window"
    assert ((await home.view.state())["target"]["state"], homes.asked) == ("bright", ["window"])


async def test_the_home_ends_as_a_request_over_http_is_open(homes: InProcess) -> None:
    """The request ends before the store is closed."""
    home = await homes.begin("home", '[journal]\npath = "journal"')
    homes.gates["window"] = asyncio.Event()
    asked = asyncio.ensure_future(home.requests.serve_here("brighten", "a"))
    await homes.until(lambda: homes.asked)
    await home.close()
    assert asked.cancelled()
    with open_read_only(homes.folder / "journal") as database:
        assert database.execute("SELECT result FROM calls").fetchall() == [("in doubt",)]


async def test_a_request_over_http_that_gets_no_turn(homes: InProcess) -> None:
    """Its task continues, and isn't taken for one that is cancelled."""
    home = await homes.begin("home")
    homes.gates["window"] = asyncio.Event()
    first = asyncio.ensure_future(home.requests.serve("brighten"))
    await homes.until(lambda: homes.asked)
    task = asyncio.current_task()
    assert task is not None
    with pytest.raises(errors.Expired):
        await home.requests.serve_here("boil", expires=0.01)
    assert task.cancelling() == 0
    homes.gates["window"].set()
    await first


async def test_a_service_that_is_new_in_the_document(homes: InProcess, caplog: pytest.LogCaptureFixture) -> None:
    journal = '[journal]\npath = "journal"'
    home = await homes.begin("home", journal)
    await home.fleet.die("ceiling")
    await home.close()
    caplog.clear()
    with caplog.at_level("WARNING", "roman_live"):
        home = await homes.begin("home", journal)
    assert len(lines(caplog)) == 1
    assert "ceiling isn't there by the store" in lines(caplog)[0]
    assert "missing" in [each.kind for each in home.events.after(0)]


async def test_each_event_is_logged(homes: InProcess, caplog: pytest.LogCaptureFixture) -> None:
    home = await homes.begin("home")
    caplog.clear()
    with caplog.at_level("INFO", "roman_live"):
        await home.requests.serve("brighten")
        home.fleet.late("kettle", "says something")
    assert "INFO:roman_live:window is asked to brighten (the first of window, ceiling)" in lines(caplog)
    assert "INFO:roman_live:kettle says something" in lines(caplog)


async def test_each_event_is_logged_once(homes: InProcess, caplog: pytest.LogCaptureFixture) -> None:
    home = await homes.begin("home")
    caplog.clear()
    with caplog.at_level("INFO", "roman_live"):
        home.fleet._broker_changed(False, "the broker is gone")
    assert lines(caplog) == ["WARNING:roman_live:the broker is gone"]


async def test_what_is_known_by_the_journal_is_no_news(homes: InProcess, caplog: pytest.LogCaptureFixture) -> None:
    journal = '[journal]\npath = "journal"'
    home = await homes.begin("home", journal)
    await home.requests.serve("brighten")
    await home.close()
    caplog.clear()
    with caplog.at_level("INFO"):
        await homes.begin("home", journal)
    assert not [each for each in lines(caplog) if "window served" in each]
    assert "INFO:roman_live:home.json runs; requests served so far: 1" in lines(caplog)


# The findings of `roman-live --check`, also while the home runs.


async def check(homes: InProcess, more: str = "") -> None:
    file = homes.folder / "home.toml"
    text = file.read_text(encoding="utf-8")
    file.write_text(text + more, encoding="utf-8")
    await Home.check(HomeFile.read(file))


async def test_nothing_is_wrong_and_nobody_is_asked(homes: InProcess, caplog: pytest.LogCaptureFixture) -> None:
    caplog.clear()
    with caplog.at_level("WARNING", "roman_live"):  # There is no broker.
        await homes.begin("home", '[journal]\npath = "journal"\n[mqtt]\nport = 1')
    written = (homes.folder / "journal").read_bytes()
    homes.told.clear()
    await check(homes)
    assert (homes.asked, homes.told) == ([], [])
    assert (homes.folder / "journal").read_bytes() == written


async def test_a_check_finds_a_journal_of_another_document(homes: InProcess) -> None:
    journal = '[journal]\npath = "journal"'
    await (await homes.begin("home", journal)).close()
    with pytest.raises(HomeFileError, match="of another document"):
        await homes.begin("depot", journal)
    with pytest.raises(HomeFileError, match="journal.path is '/.*/journal', the store of another document"):
        await check(homes)
    (homes.folder / "journal").write_text("hello\n", encoding="utf-8")
    with pytest.raises(HomeFileError, match="journal.path: /.*/journal is neither a store nor a journal"):
        await check(homes)


async def test_a_check_misses_a_table_that_the_journal_needs(homes: InProcess) -> None:
    """A service that joined needs one, also while the home runs. A service that was removed doesn't."""
    journal = '[journal]\npath = "journal"'
    with mock.patch.dict(SERVICES, home=(*HOME, "spare")):
        home = await homes.begin("home", journal)
    await home.fleet.join("spare", "lamp", "off", False)
    await home.fleet.jump("spare", "on")
    with (homes.folder / "journal").open("ab") as file:
        file.write(b'{"event":"chan')  # It is being written.
    await check(homes)
    text = (homes.folder / "home.toml").read_text(encoding="utf-8")
    (homes.folder / "home.toml").write_text(text.partition("[devices.spare]")[0], encoding="utf-8")
    with pytest.raises(HomeFileError, match="no device for the service spare, which the store has; .* is gone"):
        await check(homes)
    await home.fleet.die("spare")
    await check(homes)


async def test_a_command_that_is_not_there(homes: InProcess) -> None:
    await (await homes.begin("home")).close()
    spare = '[devices.spare]\nreach = "command"\ncommand = ["./spare"]\n'
    with pytest.raises(HomeFileError, match="home.toml: devices.spare.command can't be run: ./spare isn't there"):
        await check(homes, spare)
    (homes.folder / "spare").touch(mode=0o644)
    with pytest.raises(HomeFileError, match="spare.command can't be run: ./spare may not be executed, .* chmod"):
        await check(homes)
    (homes.folder / "spare").chmod(0o755)
    await check(homes)
    with pytest.raises(HomeFileError, match="other.command can't be run: no-such-lamp isn't in PATH"):
        await check(homes, '[devices.other]\nreach = "command"\ncommand = ["no-such-lamp"]\n')


# A home whose document is in the short form.


async def test_it_runs_as_the_plain_one_does(homes: InProcess) -> None:
    home = await homes.begin("short/home")
    assert home.document.version == 1
    cycle = ["brighten", "boil", "pour", "dim"]
    assert [(await home.requests.serve(each))["served_by"] for each in cycle] == [
        "window",
        "kettle",
        "kettle",
        "window",
    ]
    assert (await home.view.state())["document"] == "home.json"


async def test_its_journal_is_taken_up(homes: InProcess) -> None:
    journal = '[journal]\npath = "journal"'
    home = await homes.begin("short/home", journal)
    await home.requests.serve("brighten")
    await home.close()
    home = await homes.begin("short/home", journal)
    assert (await home.requests.serve("boil"))["served_by"] == "kettle"


async def test_mistakes_stand_where_they_were_written(homes: InProcess) -> None:
    text = Path(sample("short/home.json")).read_text(encoding="utf-8")
    wrong = text.replace('"when": "day"', '"when": "dya"', 1)
    (homes.folder / "mine.json").write_text(wrong, encoding="utf-8")
    (homes.folder / "home.toml").write_text(f'document = "mine.json"\nprogram = "{PROGRAM}"\n', encoding="utf-8")
    with pytest.raises(HomeFileError) as raised:
        await Home.start(HomeFile.read(homes.folder / "home.toml"))
    line = wrong[: wrong.index('"dya"')].count("\n") + 1
    assert re.search(f'\nmine.json:{line}:[0-9]+: error: .*dya.*"day"', str(raised.value))


async def test_pauses_grow_and_end_when_it_is_back(homes: InProcess) -> None:
    pauses: list[float | None] = []

    async def quick(wake: asyncio.Event, seconds: float | None) -> bool:
        pauses.append(seconds)
        await asyncio.sleep(0)
        return wake.is_set()

    home = await homes.begin("home")
    homes.states["window"] = "shut"
    homes.broken.add("window")
    with mock.patch.object(recovery, "happens", quick):
        done = await home.requests.serve("brighten")
        assert done["failures"] == [{"service": "window", "error": "broken"}]
        await homes.until(lambda: len(pauses) >= 9)
        shown = await homes.service("window")
        assert (shown["status"], shown["last_error"]) == ("frozen", "broken")
        homes.broken.clear()
        homes.states["window"] = "ajar"
        await homes.until(lambda: not home.registry["window"].frozen)
    assert pauses[:9] == [1, 2, 4, 8, 16, 32, 60, 60, 60]
    assert (await homes.service("window"))["state"] == "ajar"


async def test_one_that_is_frozen_by_hand_meanwhile_stays_so(homes: InProcess) -> None:
    home = await homes.begin("home")
    homes.broken.add("window")
    await home.requests.serve("brighten")
    homes.gates["kettle"] = asyncio.Event()
    boiling = asyncio.ensure_future(home.requests.serve("boil"))
    await homes.until(lambda: "kettle" in homes.asked)
    freezing = asyncio.ensure_future(home.fleet.freeze("window"))
    await asyncio.sleep(0.01)
    home.fleet.moved("window", Answer("shut"))
    await asyncio.sleep(0.01)
    homes.gates["kettle"].set()
    await asyncio.gather(boiling, freezing)
    await home.requests.serve("pour")
    shown = await homes.service("window")
    assert (shown["status"], shown["by_hand"]) == ("frozen", True)


async def test_what_it_says_while_it_is_taken_back_counts(homes: InProcess) -> None:
    """It was asked for its state, and reports another one while it is taken back in that state."""
    home = await homes.begin("home")
    homes.broken.add("window")
    await home.requests.serve("brighten")
    async with home.fleet._turn("window"):
        asked = asyncio.ensure_future(home.fleet.back("window", Answer("shut")))
        await asyncio.sleep(0)
        home.fleet.moved("window", Answer("ajar"))
        await asyncio.sleep(0.01)
    assert await asked
    await homes.until(lambda: home.registry["window"].state == "ajar")


async def test_one_that_does_not_tell_keeps_no_other_from_coming_back(homes: InProcess) -> None:
    homes.seconds = 3600.0
    home = await homes.begin("home")
    homes.broken.add("window")
    await home.requests.serve("brighten")
    await home.fleet.freeze("kettle")
    homes.broken.clear()
    homes.mute["kettle"] = asyncio.Event()
    thawing = asyncio.ensure_future(home.fleet.thaw("kettle"))
    await homes.until(lambda: homes.told[-1] == "kettle")
    home.fleet.moved("window", Answer("ajar"))
    await homes.until(lambda: not home.registry["window"].frozen)
    homes.mute["kettle"].set()
    await thawing
    assert (await homes.service("kettle"))["status"] == "ready"


async def test_one_that_is_thawed_by_hand_tells_the_environment_too(homes: InProcess) -> None:
    home = await homes.begin("home")
    await home.fleet.freeze("window")
    homes.states["window"], homes.environment = "ajar", "dusk"
    await home.fleet.thaw("window")
    assert (await homes.service("window"))["state"] == "ajar"
    assert (await home.view.state())["environment"] == "dusk"


async def test_one_that_is_nowhere_stays_frozen(homes: InProcess) -> None:
    home = await homes.begin("home")
    await home.fleet.freeze("window")
    for state, environment, wrong in (
        ("stuck", None, "window says it is in stuck, which is none of blind's states: shut, ajar, open"),
        ("ajar", "noon", "window says the environment is in noon, which is none of its states: day, dusk"),
    ):
        homes.states["window"], homes.environment = state, environment
        with pytest.raises(errors.UnknownState, match=f"^{wrong}$"):
            await home.fleet.thaw("window")
    assert (await homes.service("window"))["status"] == "frozen"
    homes.states["window"], homes.environment = "stuck", None
    position = home.dispatcher.core.position
    place = position.places["window"]._replace(frozen=Frozen.FAILED)
    home.dispatcher.core.position = position.with_place("window", place)
    assert not (await home.fleet.back("window", Answer("stuck")))
    assert "none of blind's states" in (await homes.service("window"))["last_error"]


async def test_one_that_cannot_tell_stays_frozen(homes: InProcess) -> None:
    home = await homes.begin("home")
    homes.broken.add("window")
    await home.requests.serve("brighten")
    homes.broken.clear()
    home.fleet.late("window", "says something")
    await homes.until(lambda: homes.told.count("window") >= 2)
    await asyncio.sleep(0.05)
    assert (await homes.service("window"))["status"] == "frozen"
    await home.fleet.thaw("window")
    assert (await homes.service("window"))["status"] == "ready"


# The program runs, but no longer replies.


def kinds(homes: InProcess) -> dict[str, str]:
    """The newest text of each kind of event."""
    return {each.kind: each.text for each in homes.home.events.after(0)}


def other_program(homes: InProcess, hangs: str) -> Any:
    """Runs another program, which hangs if it is called with these words."""
    program = homes.folder / "program"
    program.write_text(f'#!/bin/sh\n[ "$1" != {hangs} ] || exec sleep 3600\nexec {PROGRAM} "$@"\n', encoding="utf-8")
    program.chmod(0o755)
    return mock.patch(f"{__name__}.PROGRAM", str(program))


async def test_a_request_goes_on_with_another_program(homes: InProcess) -> None:
    home = await homes.begin("home", "program_seconds = 10")
    os.kill(home.session.pid, signal.SIGSTOP)
    assert (await asyncio.wait_for(home.requests.serve("brighten"), 60))["served_by"] == "window"
    assert kinds(homes)["restarted"] == "the program was started again: no whole reply within 10.0 seconds"


async def test_the_state_comes_from_another_program(homes: InProcess) -> None:
    home = await homes.begin("home", "program_seconds = 10")
    os.kill(home.session.pid, signal.SIGSTOP)
    assert (await asyncio.wait_for(home.view.state(), 60))["composes"]
    assert kinds(homes)["hung"] == "the program was ended: no whole reply within 10.0 seconds"
    assert "restarted" in kinds(homes)


async def test_a_program_that_hangs_at_the_beginning(homes: InProcess) -> None:
    wrong = "gave no whole reply within 0.2 seconds; program_seconds gives it more"
    with other_program(homes, "run"), pytest.raises(errors.NoProgram, match=wrong):
        await asyncio.wait_for(homes.begin("home", "program_seconds = 0.2"), 60)


async def test_its_advice(homes: InProcess, caplog: pytest.LogCaptureFixture) -> None:
    costs = homes.folder / "costs"
    costs.write_text('[["drone", "ship", 3], ["van", "ship", 2]]', encoding="utf-8")
    more = f'program_seconds = 10\n[policy]\nchoose = "least worst"\ncosts = "{costs}"'
    with other_program(homes, "advise"):
        home = await homes.begin("depot", more)
    await home.requests.serve("load")
    caplog.clear()
    with caplog.at_level("WARNING", "roman_live"):
        done = await asyncio.wait_for(home.requests.serve("ship"), 60)
    assert done["served_by"] == "van"
    assert lines(caplog) == ["WARNING:roman_live:advise gave nothing within 10.0 seconds"]


# The program ends, and can't be started for a while, for example because its package is replaced.


class Away(InProcess):
    """A home with a window that failed, whose program is gone."""

    async def leave(self) -> None:
        home = await self.begin("home")
        self.states["window"] = "shut"
        self.broken.add("window")
        await home.requests.serve("brighten")
        self.words = home.session.core.words
        home.session.core.words = ("/nowhere",)
        os.kill(home.session.pid, signal.SIGKILL)

    def there(self) -> None:
        """Makes the program available again."""
        self.home.session.core.words = self.words


@pytest.fixture
def away(tmp_path: Path, at_end: AsyncExitStack) -> Away:
    return Away(tmp_path, at_end)


async def test_a_device_that_is_back_is_asked_again(away: Away, caplog: pytest.LogCaptureFixture) -> None:
    await away.leave()
    away.broken.clear()
    caplog.clear()
    with caplog.at_level("WARNING", "roman_live"):
        away.home.fleet.late("window", "says something")
        await away.until(lambda: any("can't be thawed" in each for each in lines(caplog)))
    away.there()
    away.home.fleet.late("window", "says something")
    await away.until(lambda: not away.home.registry["window"].frozen)


async def test_requests_are_answered(away: Away) -> None:
    await away.leave()
    status, value = await result(away.home, "boil", None, True)
    assert (status, value) == (503, {"error": "[Errno 2] No such file or directory: '/nowhere'"})
    away.there()
    assert (await result(away.home, "boil", None, True))[0] == 200


async def test_what_a_device_did_meanwhile_counts(away: Away) -> None:
    await away.leave()
    away.there()
    away.gates["kettle"] = asyncio.Event()
    away.environment = "dusk"
    boiling = asyncio.ensure_future(result(away.home, "boil", None, True))
    await away.until(lambda: "kettle" in away.asked)
    away.home.session.core.words = ("/nowhere",)
    os.kill(away.home.session.pid, signal.SIGKILL)
    away.gates["kettle"].set()
    assert (await boiling)[0] == 503
    away.there()
    assert (await result(away.home, "dim", None, True))[1]["error"] == "not allowed"
    await away.until(lambda: away.home.registry["kettle"].state == "warm")
    assert (await result(away.home, "pour", None, True))[0] == 200


async def test_the_state_is_told_when_it_is_there_again(away: Away, caplog: pytest.LogCaptureFixture) -> None:
    await away.leave()
    listener = away.home.events.listen()
    caplog.clear()
    with caplog.at_level("WARNING", "roman_live"):
        away.home.fleet.late("kettle", "says something")
        away.home.dirty.set()
        await away.until(lambda: any("can't be had" in each for each in lines(caplog)))
    away.there()
    await away.home.requests.serve("boil")
    while True:
        states = [each.value for each in await listener.heard(60) if each.name == "state"]
        if states and states[-1]["target"]["state"] == "boiled":
            break


async def test_an_unexpected_error_ends_no_recovery(homes: InProcess) -> None:
    home = await homes.begin("home")
    homes.states["window"] = "shut"
    homes.broken.add("window")
    await home.requests.serve("brighten")
    homes.broken.clear()
    with mock.patch.object(home.fleet, "_check_place", side_effect=[KeyError("lost"), None]) as checked:
        async with asyncio.timeout(60):
            while home.registry["window"].frozen:
                home.fleet.retries.hurry("window")
                await asyncio.sleep(0.01)
    assert checked.call_count == 2


async def test_an_unexpected_error_ends_no_publishing(homes: InProcess, caplog: pytest.LogCaptureFixture) -> None:
    home = await homes.begin("home")
    listener = home.events.listen()
    with mock.patch.object(home.view, "state", side_effect=KeyError("lost")):
        home.dirty.set()
        await homes.until(lambda: "the state can't be published" in caplog.messages)
    home.dirty.set()
    assert [each.name for each in await listener.heard(60)][-1:] == ["state"]


async def test_what_comes_at_the_end_is_ignored(homes: InProcess) -> None:
    home = await homes.begin("home")
    await home.fleet.close()
    tasks = asyncio.all_tasks()
    homes.told.clear()
    home.fleet._broker_changed(True, "the broker is there")
    home.fleet.moved("window", Answer("ajar"))
    assert asyncio.all_tasks() == tasks and not home.fleet.moves.is_open


async def test_moves_before_the_beginning(homes: InProcess) -> None:
    homes.states["window"] = "ajar"
    home = await homes.begin("home")
    await homes.until(lambda: home.registry["window"].state == "ajar")
    assert (await home.requests.serve("brighten"))["state"] == "open"


async def test_the_beginning_does_not_wait_for_one_that_does_not_tell(homes: InProcess) -> None:
    homes.mute["window"] = asyncio.Event()
    homes.seconds = 3600.0
    with mock.patch.object(fleet, "FIRST_WORD", 0.1):
        home = await asyncio.wait_for(homes.begin("home"), 60)
    homes.states["window"] = "ajar"
    homes.mute["window"].set()
    await homes.until(lambda: home.registry["window"].state == "ajar")


async def test_one_that_does_not_tell_in_time(homes: InProcess, caplog: pytest.LogCaptureFixture) -> None:
    homes.mute["window"] = asyncio.Event()
    homes.seconds = 0.1
    caplog.clear()
    with caplog.at_level("WARNING", "roman_live"):
        home = await homes.begin("home")
    text = "window doesn't tell where it is: no answer within 0.1 seconds"
    assert lines(caplog) == [f"WARNING:roman_live:{text}"]
    assert text in [each.text for each in home.events.after(0)]
    assert (await homes.service("window"))["last_error"] == "no answer within 0.1 seconds"
    homes.mute["window"].set()
    homes.states["window"] = "shut"
    await home.fleet.compare("window")
    assert (await homes.service("window"))["last_error"] is None


async def test_what_is_told_counts_for_nothing_where_it_is_asked_meanwhile(homes: InProcess) -> None:
    home = await homes.begin("home")
    homes.states["window"] = "ajar"
    homes.mute["window"] = asyncio.Event()
    comparing = asyncio.ensure_future(home.fleet.compare("window"))
    await homes.until(lambda: homes.told.count("window") == 2)
    assert (await home.requests.serve("brighten"))["state"] == "open"
    homes.states["window"] = "ajar"  # It reported this before it was asked.
    homes.mute["window"].set()
    await comparing
    await home.requests.serve("boil")
    assert (await homes.service("window"))["state"] == "open"


async def test_what_is_said_before_the_answer_is_older_than_it(homes: InProcess) -> None:
    home = await homes.begin("home")
    homes.gates["window"] = asyncio.Event()
    request = asyncio.ensure_future(home.requests.serve("brighten"))
    await homes.until(lambda: homes.asked)
    home.fleet.moved("window", Answer("ajar"))
    home.fleet.moved("ceiling", Answer("on"))
    homes.gates["window"].set()
    assert (await request)["state"] == "open"
    await homes.until(lambda: home.registry["ceiling"].state == "on")
    assert (await homes.service("window"))["state"] == "open"


async def test_what_moves_while_a_service_is_chosen_is_heeded(homes: InProcess) -> None:
    home = await homes.begin("home")
    policy, chosen = home.chooser.policy, []

    async def slow(choice: Any) -> str:
        chosen.append(choice.offered)
        if len(chosen) == 1:
            home.fleet.environment_moved("dusk")
        return await policy(choice)

    home.chooser.policy = slow
    done = await home.requests.serve("brighten")
    assert done["served_by"] == "ceiling"
    assert chosen == [("window", "ceiling"), ("ceiling",)]


async def test_a_second_request_waits_or_is_told(homes: InProcess) -> None:
    home = await homes.begin("home")
    homes.gates["window"] = asyncio.Event()
    first = asyncio.ensure_future(home.requests.serve("brighten"))
    await homes.until(lambda: homes.asked)
    with pytest.raises(errors.Busy):
        await home.requests.serve("boil", wait=False)
    second = asyncio.ensure_future(home.requests.serve("boil"))
    assert (await homes.service("window"))["status"] == "under way"
    first.cancel()
    await asyncio.sleep(0.02)
    homes.gates["window"].set()
    assert (await second)["served_by"] == "kettle"
    assert (await homes.service("window"))["state"] == "open"
