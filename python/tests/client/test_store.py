"""The store of a dispatcher: the position from which it continues, wherever it was cut off."""

from __future__ import annotations

import contextlib
import resource
import shutil
import sqlite3
import threading
from collections.abc import Callable, Iterator
from pathlib import Path
from typing import Any
from unittest import mock

import pytest

import roman_client as roman
from roman_client import NOT_DONE, Call, Device, Did, Dispatcher, Frozen, Session, Verdict, aio, core
from roman_client.devices import Outcome, Told
from roman_client.store import Store, open_read_only

from . import PROGRAM, copy_store, sample

OUTCOMES = {
    ("window", "brighten"): ("open", "day"),
    ("window", "dim"): ("ajar", "day"),
    ("ceiling", "brighten"): ("on", "day"),
    ("ceiling", "dim"): ("off", "day"),
    ("kettle", "boil"): ("hot", "dusk"),
    ("kettle", "pour"): ("empty", "dusk"),
}

JOURNALS = Path(__file__).parent / "journals"


class Home(Device):
    """A service of the home. `told` is its answer about a call, and `broken` its error."""

    def __init__(self, told: Told | BaseException = None, repeatable: bool = False) -> None:
        self.told = told
        self.repeatable = repeatable
        self.calls: list[Call] = []
        self.asked: list[Call] = []
        self.answer: Any = None
        self.before: Callable[[Call], Any] = lambda call: None

    def serve(self, call: Call) -> Outcome:
        self.calls.append(call)
        self.before(call)
        if isinstance(self.answer, BaseException):
            raise self.answer
        answer: Outcome = self.answer or OUTCOMES[call.service, call.action]
        return answer

    def state(self, call: Call) -> Told:
        self.asked.append(call)
        if isinstance(self.told, BaseException):
            raise self.told
        return self.told


class Stores:
    """A store, and the devices of its dispatchers."""

    def __init__(self, folder: Path) -> None:
        self.folder = folder
        self.path = folder / "store"
        self.devices = {name: Home() for name in ("window", "ceiling", "kettle")}

    @contextlib.contextmanager
    def dispatcher(self, path: Path | None = None, devices: Any = None, **words: Any) -> Iterator[Dispatcher]:
        with Session(sample("home.json"), program=PROGRAM, timeout=60) as session:
            with Dispatcher(session, devices or self.devices, store=path or self.path, **words) as dispatcher:
                yield dispatcher

    def devices_that_tell(self, told: Any = NOT_DONE, repeatable: bool = False) -> dict[str, Home]:
        return {name: Home(told, repeatable) for name in self.devices}

    def rows(self, query: str, path: Path | None = None) -> list[Any]:
        with open_read_only(path or self.path) as database:
            return database.execute(query).fetchall()

    def cut_off(self, action: str, *before: str) -> Path:
        """A copy of a store while a device is at work."""
        copy = self.folder / "copy"
        with self.dispatcher() as dispatcher:
            for each in before:
                dispatcher.request(each)
            for device in self.devices.values():
                device.before = lambda call: copy_store(self.path, copy)
            dispatcher.request(action, key="a")
        return copy


@pytest.fixture
def stores(tmp_path: Path) -> Stores:
    return Stores(tmp_path)


# The position from which it continues.


def test_it_goes_on(stores: Stores) -> None:
    with stores.dispatcher() as dispatcher:
        dispatcher.freeze("window")
        assert dispatcher.request("brighten").service == "ceiling"
        dispatcher.jumpenv("dusk")
        dispatcher.join("lamp2", "lamp", "on", Home(), loose=True)
        report, served = dispatcher.report(), dispatcher.served
    with pytest.raises(ValueError, match="lamp2"), stores.dispatcher():
        pass
    stores.devices["lamp2"] = Home()
    with stores.dispatcher() as dispatcher:
        assert dispatcher.report() == report
        assert (dispatcher.served, served, dispatcher.failed, dispatcher.recovered) == (1, 1, frozenset(), None)
        dispatcher.die("lamp2")
    del stores.devices["lamp2"]
    with stores.dispatcher() as dispatcher:
        assert len(dispatcher.report().services) == 3


def test_a_service_that_joined_again(stores: Stores) -> None:
    """It has its device after the program has ended, and after a restart. The services keep their order."""
    with stores.dispatcher() as dispatcher:
        dispatcher.die("window")
        dispatcher.join("window", "blind", "ajar", stores.devices["window"])
        dispatcher.freeze("ceiling")
        dispatcher.session.close()
        assert dispatcher.request("brighten").service == "window"
        report = dispatcher.report()
    with stores.dispatcher() as dispatcher:
        assert dispatcher.report() == report
        for action in ("boil", "pour"):
            dispatcher.request(action)
        assert dispatcher.request("dim").service == "window"


def test_a_device_is_asked_when_its_call_is_on_the_disk(stores: Stores) -> None:
    seen: list[Any] = []

    def results() -> Any:
        return stores.rows("SELECT service, result FROM calls")

    with stores.dispatcher() as dispatcher:
        stores.devices["window"].before = lambda call: seen.append(results())
        dispatcher.request("brighten")
    assert seen == [[("window", None)]]
    assert results() == [("window", "served")]


def test_each_commit_is_synced(stores: Stores) -> None:
    with stores.dispatcher() as dispatcher:
        database = dispatcher._store._connection()  # type: ignore[union-attr]
        assert database.execute("PRAGMA synchronous").fetchall() == [(2,)]
        assert database.execute("PRAGMA journal_mode").fetchall() == [("wal",)]


def log_of(store: Path) -> bytes:
    """The content that a store has written, but not yet moved into its database."""
    log = Path(f"{store}-wal")
    return log.read_bytes() if log.exists() else b""


class Watched(Store):
    """A store that copies itself after each commit."""

    copies: list[tuple[Path, Path]]

    def commit(self, *words: Any) -> None:
        super().commit(*words)
        self.keep()

    def begin(self, *words: Any) -> None:
        super().begin(*words)
        self.copies = []
        self.keep()

    def keep(self) -> None:
        copy = Path(f"{self.path}.{len(self.copies)}")
        shutil.copy(self.path, copy)
        Path(f"{copy}-wal").write_bytes(log_of(self.path))
        self.copies.append((copy, Path(f"{copy}-wal")))


def play(stores: Stores) -> tuple[list[tuple[int, Any]], list[tuple[Path, Path]]]:
    """Makes requests, failures and changes. Returns the states between two of them, each with the number of commits,
    and the copies after all commits."""
    stands: list[tuple[int, Any]] = []
    with mock.patch("roman_client.dispatcher.Store", Watched), stores.dispatcher() as dispatcher:
        copies = dispatcher._store.copies  # type: ignore[union-attr]

        def note() -> None:
            stands.append((len(copies) - 1, (dispatcher.report(), dispatcher.served, dispatcher.failed)))

        note()
        dispatcher.freeze("window")
        note()
        for action in ("brighten", "boil", "pour"):
            dispatcher.request(action)
            note()
        dispatcher.jumpenv("day")
        note()
        stores.devices["ceiling"].answer = roman.DeviceFailed("burnt out")
        with pytest.raises(roman.NoComposition):
            dispatcher.request("dim")
        note()
        dispatcher.jump("ceiling", "on")
        note()
        dispatcher.thaw("ceiling")
        note()
    return stands, copies


def test_wherever_it_is_cut_off(stores: Stores) -> None:
    """It continues from a commit, both after each commit and in the middle of each."""
    stands, copies = play(stores)
    told = dict(stands)
    previous = None
    for number, (copy, log) in enumerate(copies):
        whole, start = log.read_bytes(), 0 if previous is None else previous
        previous = len(whole)
        for cut in sorted({len(whole), (start + len(whole)) // 2, len(whole) - 1, start}):
            for rest in (b"", b"\0" * (len(whole) - cut), b"\xff" * (len(whole) - cut)):
                here = stores.folder / "here"
                shutil.copy(copy, here)
                Path(f"{here}-wal").write_bytes(whole[:cut] + rest)
                newest = number if cut == len(whole) else number - 1
                if newest < 0:
                    continue
                with stores.dispatcher(here, stores.devices_that_tell()) as dispatcher:
                    if newest in told:
                        now = dispatcher.report(), dispatcher.served, dispatcher.failed
                        assert now == told[newest], (number, cut)
                    elif dispatcher.recovered is not None:
                        assert dispatcher.recovered.verdict is Verdict.NOT_DONE
                for file in stores.folder.glob("here*"):
                    file.unlink()


def test_the_keys_of_the_last_requests(stores: Stores) -> None:
    with mock.patch.object(core, "KEYS", 3), stores.dispatcher() as dispatcher:
        for number in range(3):
            for action in ("brighten", "boil", "pour"):
                dispatcher.request(action, key=f"{action}{number}")
            dispatcher.jumpenv("day")
            dispatcher.request("dim")
        report = dispatcher.report()
    assert stores.rows("SELECT key FROM keys ORDER BY place") == [("brighten2",), ("boil2",), ("pour2",)]
    with stores.dispatcher() as dispatcher:
        assert (dispatcher.served, dispatcher.report(), dispatcher.core.position.calls) == (12, report, 12)
        assert dispatcher.request("brighten", key="brighten2").action == "brighten"
        assert dispatcher.served == 12


def test_the_history_has_a_bound(stores: Stores) -> None:
    with mock.patch("roman_client.store.HISTORY", 5), stores.dispatcher() as dispatcher:
        for _ in range(4):
            for action in ("brighten", "boil", "pour"):
                dispatcher.request(action)
            dispatcher.jumpenv("day")
            dispatcher.request("dim")
        for state in ("ajar", "shut") * 5:
            dispatcher.jump("window", state)
    assert stores.rows("SELECT min(number), max(number) FROM calls") == [(12, 16)]
    assert stores.rows("SELECT count(*) FROM changes") == [(5,)]


def test_the_history_says_who_asked_and_who_served_and_why(stores: Stores) -> None:
    def policy(choice: roman.Choice) -> roman.Chosen:
        return roman.Chosen(choice.offered[0], "it is the first")

    stores.devices["window"].answer = roman.DeviceFailed("stuck")
    with stores.dispatcher(policy=policy) as dispatcher:
        dispatcher.request("brighten", key="a", source="the page")
        dispatcher.change(roman.protocol.freeze("kettle"), source="the cleaner")
    calls = stores.rows("SELECT requested, service, key, source, reason, result, state, error, request FROM calls")
    assert calls == [
        ("brighten", "window", "a", "the page", "it is the first", "failed", None, "stuck", 1),
        ("brighten", "ceiling", "a", "the page", "it is the first", "served", "on", None, 1),
    ]
    assert stores.rows("SELECT words, cause, source FROM changes") == [("freeze kettle", "by hand", "the cleaner")]
    assert stores.rows("SELECT count(*) FROM calls WHERE ended >= begun AND begun > 1e9") == [(2,)]


# Keys.


def test_a_key_is_served_once(stores: Stores) -> None:
    with stores.dispatcher() as dispatcher:
        done = dispatcher.request("brighten", key="a")
        assert dispatcher.request("brighten", key="a") == done
        assert len(stores.devices["window"].calls) == 1
    with stores.dispatcher() as dispatcher:
        assert dispatcher.request("brighten", key="a") == done
        assert len(stores.devices["window"].calls) == 1


def test_a_key_of_another_request(stores: Stores) -> None:
    with stores.dispatcher() as dispatcher:
        dispatcher.request("brighten", key="a")
        calls: list[Callable[[], Any]] = [
            lambda: dispatcher.request("boil", key="a"),
            lambda: dispatcher.record("boil", "kettle", "hot", "day", key="a"),
            lambda: dispatcher.record("brighten", "ceiling", "on", "day", key="a"),
        ]
        for call in calls:
            with pytest.raises(roman.KeyTaken, match="a"):
                call()
        assert dispatcher.served == 1
        dispatcher.request("boil", key="b")


def test_a_key_has_at_most_256_bytes(stores: Stores) -> None:
    with stores.dispatcher() as dispatcher:
        for key in ("k" * 257, "ü" * 129):
            with pytest.raises(ValueError, match="256 bytes"):
                dispatcher.request("brighten", key=key)
        dispatcher.request("brighten", key="k" * 256)
        assert dispatcher.served == 1


def test_what_is_recorded_twice_with_one_key_counts_once(stores: Stores) -> None:
    with stores.dispatcher() as dispatcher:
        done = dispatcher.record("brighten", "window", "open", "day", key="a")
        assert dispatcher.record("brighten", "window", "open", "day", key="a") == done
        assert (dispatcher.served, dispatcher.request("brighten", key="a")) == (1, done)
    with stores.dispatcher() as dispatcher:
        assert dispatcher.record("brighten", "window", "open", "day", key="a") == done
        assert dispatcher.served == 1


def test_failures_are_kept_with_a_key(stores: Stores) -> None:
    stores.devices["window"].answer = "nonsense"
    with stores.dispatcher() as dispatcher:
        dispatcher.request("brighten", key="a")
    with stores.dispatcher() as dispatcher:
        (failure,) = dispatcher.request("brighten", key="a").failures
        assert (failure.service, failure.text) == ("window", "answered 'nonsense', which can't be")


# Frozen services, and their causes.


def test_why_a_service_is_frozen(stores: Stores) -> None:
    stores.devices["window"].answer = roman.DeviceFailed("stuck")
    with stores.dispatcher() as dispatcher:
        dispatcher.request("brighten")
        dispatcher.freeze("kettle")
        assert dispatcher.failed == {"window"}
    with stores.dispatcher() as dispatcher:
        assert dispatcher.failed == {"window"}
        assert dispatcher.core.position.frozen(Frozen.BY_HAND) == {"kettle"}
        repair = dispatcher.freeze("window")  # After this it isn't asked whether it is back.
        report = dispatcher.report()
        assert repair.lost == report.pairs - report.related
        assert dispatcher.failed == frozenset()
        with pytest.raises(roman.AlreadyFrozen):
            dispatcher.freeze("window")
    with stores.dispatcher() as dispatcher:
        assert dispatcher.core.position.frozen(Frozen.BY_HAND) == {"window", "kettle"}
        dispatcher.thaw("window")
        assert dispatcher.core.position.frozen(*Frozen) == {"kettle"}


def test_a_freeze_and_its_cause_are_one_commit(stores: Stores) -> None:
    """After each commit, a service is frozen by hand exactly if it is frozen."""
    with mock.patch("roman_client.dispatcher.Store", Watched), stores.dispatcher() as dispatcher:
        copies = dispatcher._store.copies  # type: ignore[union-attr]
        for _ in range(2):
            dispatcher.freeze("window")
            dispatcher.thaw("window")
    found = []
    for copy, _ in copies:
        with stores.dispatcher(copy) as dispatcher:
            (window,) = (each for each in dispatcher.report().services if each.name == "window")
            assert (dispatcher.core.position.frozen(Frozen.BY_HAND) == {"window"}) is window.frozen
            found.append(window.frozen)
    assert found == [False, True, False, True, False]


# One dispatcher, and its own files.


def test_two_on_one_store(stores: Stores) -> None:
    with stores.dispatcher():
        with pytest.raises(roman.StoreLocked, match="another dispatcher"), stores.dispatcher():
            pass
    with stores.dispatcher():
        pass


@pytest.mark.parametrize("gone", ["store", "store.lock"])
def test_a_store_that_is_removed_while_it_is_in_use(stores: Stores, gone: str) -> None:
    """Another dispatcher may begin then. The first one no longer asks a device."""
    with stores.dispatcher() as first:
        for file in stores.folder.glob(f"{gone}*"):
            file.unlink()
        with pytest.raises(roman.StoreFailed, match="No such file"):
            first.request("brighten")
        with stores.dispatcher() as second:
            with pytest.raises(roman.StoreFailed, match="was replaced"):
                first.request("brighten")
            assert [each.calls for each in stores.devices.values()] == [[], [], []]
            second.request("brighten")


def test_a_reader_is_no_hindrance(stores: Stores) -> None:
    with stores.dispatcher() as dispatcher, open_read_only(stores.path) as database:
        database.execute("BEGIN")
        assert database.execute("SELECT served FROM home").fetchall() == [(0,)]
        dispatcher.request("brighten")
        assert database.execute("SELECT served FROM home").fetchall() == [(0,)]
        database.execute("COMMIT")
        assert database.execute("SELECT served FROM home").fetchall() == [(1,)]


def test_what_is_no_store(stores: Stores) -> None:
    with stores.dispatcher() as dispatcher:
        dispatcher.request("brighten")
    whole = stores.path.read_bytes()
    for text in (b"", b"{}\n", b"\n" + whole, whole[:100], whole[:4096] + b"\0" * (len(whole) - 4096)):
        stores.path.write_bytes(text)
        with pytest.raises(roman.StoreBroken), stores.dispatcher():
            pass
        assert stores.path.read_bytes() == text
    for change in (
        "PRAGMA user_version = 2",
        "PRAGMA application_id = 7",
        "UPDATE home SET document = '{}'",
        "UPDATE services SET name = 'widow' WHERE name = 'window'; UPDATE services SET state = 'up'",
        "UPDATE services SET frozen = 'perhaps'",
        "UPDATE home SET target = 'nowhere'",
        "DELETE FROM home",
        "DROP TABLE keys",
    ):
        stores.path.write_bytes(whole)
        with contextlib.closing(sqlite3.connect(stores.path)) as database:
            database.executescript(change)
        with pytest.raises((roman.StoreBroken, ValueError)), stores.dispatcher():
            pass
    stores.path.unlink()
    stores.path.mkdir()
    with pytest.raises(roman.StoreBroken), stores.dispatcher():
        pass


def test_a_store_of_another_document(stores: Stores) -> None:
    with stores.dispatcher():
        pass
    with Session(sample("lamp.json"), program=PROGRAM) as session:
        with pytest.raises(roman.StoreBroken, match="of another document"):
            Dispatcher(session, {"l1": Home()}, store=stores.path)


def test_a_store_that_can_not_be_made(stores: Stores) -> None:
    with pytest.raises(roman.StoreFailed, match="No such file"), stores.dispatcher(stores.folder / "gone" / "store"):
        pass


@pytest.mark.parametrize("ends_at", ["connect", "link", "rename"])
def test_a_beginning_that_is_cut_off(stores: Stores, ends_at: str) -> None:
    """The store exists only when it is complete, and an incomplete one isn't in the way."""
    where = "sqlite3.connect" if ends_at == "connect" else f"os.{ends_at}"
    shutil.copy(JOURNALS / "home.journal", stores.path)
    stores.devices["lamp2"] = Home()
    with mock.patch(where, side_effect=OSError(5, "Input/output error")):
        with pytest.raises(roman.StoreFailed, match="Input/output error"), stores.dispatcher():
            pass
    with stores.dispatcher() as dispatcher:
        assert dispatcher.served == 4


# The call that was under way.


def recovered(
    stores: Stores, told: Any, *, repeatable: bool = False, action: str = "brighten"
) -> tuple[roman.Recovery, roman.Report, dict[str, Home]]:
    before = ("brighten",) if action == "boil" else ()
    copy = stores.cut_off(action, *before)
    devices = stores.devices_that_tell(told, repeatable)
    with stores.dispatcher(copy, devices) as dispatcher:
        recovery = dispatcher.recovered
        assert recovery is not None
        assert recovery.call.request == action
        assert dispatcher.under_way is None
        done = recovery.verdict is Verdict.DONE
        assert dispatcher.served == len(before) + done
        assert dispatcher.failed == ({recovery.call.service} if recovery.verdict is Verdict.IN_DOUBT else set())
        assert sum(len(device.calls) for device in devices.values()) == repeatable
        if done:
            assert dispatcher.request(action, key="a") == recovery.done
        elif recovery.verdict is Verdict.IN_DOUBT:
            with pytest.raises(roman.InDoubt):
                dispatcher.request(action, key="a")
        report = dispatcher.report()
    with stores.dispatcher(copy, devices) as dispatcher:
        assert dispatcher.recovered is None
        assert dispatcher.report() == report
    return recovery, report, devices


@pytest.mark.parametrize("told", [("open", "day"), Did(("open", "day"))])
def test_it_was_done(stores: Stores, told: Any) -> None:
    recovery, report, _ = recovered(stores, told)
    assert recovery.verdict is Verdict.DONE
    assert recovery.done is not None
    assert (recovery.done.service, recovery.done.target, report.target) == ("window", "bright", "bright")


@pytest.mark.parametrize("told", [NOT_DONE, ("shut", "day")])
def test_it_was_not_done(stores: Stores, told: Any) -> None:
    recovery, report, _ = recovered(stores, told)
    assert (recovery.verdict, report.target) == (Verdict.NOT_DONE, "quiet")


@pytest.mark.parametrize(
    "told",
    [
        None,
        ("ajar", "day"),
        ("open", "dusk"),
        ("gone", "day"),
        ("open",),
        roman.DeviceFailed("no answer"),
        Did(("shut", "day")),  # The device did the call, and has moved since.
        Did(("gone", "day")),
    ],
)
def test_it_can_not_tell(stores: Stores, told: Any) -> None:
    recovery, report, _ = recovered(stores, told)
    assert (recovery.verdict, report.target, report.services[0].frozen) == (Verdict.IN_DOUBT, "quiet", True)


def test_it_is_safe_to_repeat(stores: Stores) -> None:
    recovery, _, devices = recovered(stores, None, repeatable=True)
    assert recovery.verdict is Verdict.DONE
    assert devices["window"].calls == [recovery.call]


def test_it_is_repeated_and_makes_no_sense(stores: Stores) -> None:
    copy = stores.cut_off("brighten")
    devices = stores.devices_that_tell(repeatable=True)
    devices["window"].answer = ("ajar", "day")
    with stores.dispatcher(copy, devices) as dispatcher:
        assert dispatcher.recovered is not None
        assert dispatcher.recovered.verdict is Verdict.IN_DOUBT
        with pytest.raises(roman.InDoubt):
            dispatcher.request("brighten", key="a")
        assert sum(len(each.calls) for each in devices.values()) == 1


def test_failures_before_it_are_not_lost(stores: Stores) -> None:
    """The first device fails before the second one is at work. The result of the request has this failure."""
    stores.devices["window"].answer = roman.DeviceFailed("stuck")
    copy = stores.folder / "copy"
    with stores.dispatcher() as dispatcher:
        stores.devices["ceiling"].before = lambda call: copy_store(stores.path, copy)
        dispatcher.request("brighten", key="a")
    with stores.dispatcher(copy, stores.devices_that_tell(("on", "day"))) as dispatcher:
        (failure,) = dispatcher.request("brighten", key="a").failures
        assert (failure.service, failure.text) == ("window", "stuck")


def test_an_interrupt_while_a_device_is_at_work(stores: Stores) -> None:
    stores.devices["window"].answer = KeyboardInterrupt()
    with stores.dispatcher() as dispatcher:
        with pytest.raises(KeyboardInterrupt):
            dispatcher.request("brighten", key="a")
        assert dispatcher.failed == {"window"}
        with pytest.raises(roman.InDoubt):
            dispatcher.request("brighten", key="a")


@contextlib.contextmanager
def workshop(store: Path, device: Device) -> Iterator[Dispatcher]:
    with Session(sample("workshop.json"), program=PROGRAM, timeout=60) as session:
        with Dispatcher(session, {name: device for name in ("arm1", "arm2", "arm3")}, store=store) as dispatcher:
            yield dispatcher


def test_a_state_that_says_nothing(stores: Stores) -> None:
    """If the action may leave the state as it is, the state doesn't show whether the action was carried out, unless the
    device knows."""
    copy = stores.folder / "copy"

    def arm(action: str) -> Outcome:
        copy_store(stores.path, copy)
        return "worn", "full"

    with workshop(stores.path, roman.device(arm)) as dispatcher:
        assert dispatcher.request("clean").service == "arm1"
    whole = copy.read_bytes()
    cases: list[tuple[Any, Verdict]] = [
        (("fresh", "full"), Verdict.IN_DOUBT),
        (Did(("fresh", "full")), Verdict.DONE),
        (("worn", "full"), Verdict.DONE),
    ]
    for told, verdict in cases:
        copy.write_bytes(whole)
        with workshop(copy, Home(told)) as dispatcher:
            assert dispatcher.recovered is not None
            assert dispatcher.recovered.verdict is verdict


def test_a_doubt_is_settled(stores: Stores) -> None:
    copy = stores.cut_off("brighten")
    with stores.dispatcher(copy, stores.devices_that_tell(None)) as dispatcher:
        with pytest.raises(roman.NotOffered):
            dispatcher.record("brighten", "window", "open", "day", key="a")
        dispatcher.thaw("window")
        for wrong in (("ajar", "day"), ("gone", "day"), ("", "day")):
            with pytest.raises((roman.Refusal, ValueError)):
                dispatcher.record("brighten", "window", *wrong)
        done = dispatcher.record("brighten", "window", "open", "day", key="a")
        assert (done.target, dispatcher.served) == ("bright", 1)
        assert dispatcher.request("brighten", key="a") == done
        report = dispatcher.report()
    with stores.dispatcher(copy, stores.devices_that_tell(None)) as dispatcher:
        assert (dispatcher.report(), dispatcher.served) == (report, 1)
        assert dispatcher.request("brighten", key="a") == done


@pytest.mark.parametrize("commit", [1, 2])
@pytest.mark.parametrize("written", [False, True])
def test_an_interrupt_while_it_is_written(stores: Stores, commit: int, written: bool) -> None:
    """A KeyboardInterrupt occurs at a commit, before or after it is written. The next call repairs the session."""
    commits: list[int] = []
    plain = Store.commit

    def interrupted(store: Store, *words: Any) -> None:
        commits.append(0)
        if len(commits) == commit and not written:
            raise KeyboardInterrupt
        plain(store, *words)
        if len(commits) == commit:
            raise KeyboardInterrupt

    with stores.dispatcher() as dispatcher:
        with mock.patch.object(Store, "commit", interrupted), pytest.raises(KeyboardInterrupt):
            dispatcher.request("brighten", key="a")
        assert dispatcher.request("brighten", key="a").target == "bright"
        assert (dispatcher.served, len(stores.devices["window"].calls)) == (1, 1)
        report = dispatcher.report()
    assert stores.rows("SELECT count(*) FROM calls WHERE result IS NULL") == [(0,)]
    with stores.dispatcher() as dispatcher:
        assert (dispatcher.recovered, dispatcher.report(), dispatcher.served) == (None, report, 1)


# Late devices.


def late(stores: Stores, error: BaseException, told: Any) -> Home:
    window = stores.devices["window"]
    window.late_is_doubt, window.answer, window.told = True, error, told
    return window


@pytest.mark.parametrize("error", [roman.DeviceTimeout("late"), roman.DeviceLost("gone")])
def test_a_late_device_is_asked_before_another_one(stores: Stores, error: BaseException) -> None:
    with stores.dispatcher() as dispatcher:
        window = late(stores, error, Did(("open", "day")))
        done = dispatcher.request("brighten", key="a")
        assert (done.service, done.failures, window.asked) == ("window", (), window.calls)
        assert (stores.devices["ceiling"].calls, dispatcher.failed) == ([], frozenset())
        window.told = NOT_DONE
        for action in ("boil", "pour"):
            dispatcher.request(action)
        dispatcher.jumpenv("day")
        with pytest.raises(roman.NoComposition) as refusal:
            dispatcher.request("dim")
        assert [each.service for each in refusal.value.failures] == ["window"]


@pytest.mark.parametrize("told", [None, Did(("shut", "day")), roman.DeviceFailed("no answer")])
def test_a_late_device_that_can_not_tell_is_in_doubt(stores: Stores, told: Any) -> None:
    with stores.dispatcher() as dispatcher:
        late(stores, roman.DeviceTimeout("late"), told)
        for _ in range(2):
            with pytest.raises(roman.InDoubt, match="window"):
                dispatcher.request("brighten", key="a")
        assert stores.devices["ceiling"].calls == []
        assert dispatcher.failed == {"window"}
    with stores.dispatcher() as dispatcher:
        assert dispatcher.core.position.places["window"].frozen is Frozen.IN_DOUBT
        with pytest.raises(roman.InDoubt):
            dispatcher.request("brighten", key="a")


@pytest.mark.parametrize("error", [roman.DeviceFailed("no"), OSError("broken")])
def test_a_device_that_says_that_it_failed_is_not_late(stores: Stores, error: BaseException) -> None:
    with stores.dispatcher() as dispatcher:
        window = late(stores, error, None)
        assert dispatcher.request("brighten").service == "ceiling"
        assert window.asked == []


# A full disk.


@contextlib.contextmanager
def full(stores: Stores, commits: int) -> Iterator[None]:
    """After so many commits, no file can grow."""
    before = resource.getrlimit(resource.RLIMIT_FSIZE)
    left = commits
    plain = Store.commit

    def limited(store: Store, *words: Any) -> None:
        nonlocal left
        if left <= 0:
            resource.setrlimit(resource.RLIMIT_FSIZE, (len(log_of(stores.path)), before[1]))
        left -= 1
        try:
            plain(store, *words)
        finally:
            resource.setrlimit(resource.RLIMIT_FSIZE, before)

    with mock.patch.object(Store, "commit", limited):
        yield


async def test_a_slow_disk_is_awaited_in_a_thread(stores: Stores) -> None:
    """The thread only ends the commit. If this fails, the entries are written with the next ones."""
    threads: list[tuple[str, bool]] = []
    broken: list[bool] = []

    class Slow(Store):
        pace = 1.0

        def write(self, *words: Any) -> None:
            threads.append(("write", threading.current_thread() is threading.main_thread()))
            super().write(*words)

        def sync(self) -> None:
            threads.append(("sync", threading.current_thread() is threading.main_thread()))
            interrupts = iter(broken)
            self._connection().set_progress_handler(lambda: next(interrupts, False), 1)
            super().sync()

    async def shut(action: str) -> tuple[str, str]:
        broken.append(True)
        return "open", "day"

    async with aio.Session(sample("home.json"), program=PROGRAM, timeout=60) as session:
        devices = dict.fromkeys(stores.devices, shut)
        async with aio.Dispatcher(session, devices, store=Slow(stores.path)) as dispatcher:
            with pytest.raises(roman.StoreFailed, match="store: interrupted"):
                await dispatcher.request("brighten")
            broken.clear()
            await dispatcher.jumpenv("dusk")
    assert threads == [("write", True), ("sync", False)] * 3
    assert stores.rows("SELECT result FROM calls") == [("served",)]
    assert stores.rows("SELECT environment FROM home") == [("dusk",)]


def test_a_full_disk_before_the_device_is_asked(stores: Stores) -> None:
    with stores.dispatcher() as dispatcher:
        for _ in range(2):
            with full(stores, 0), pytest.raises(roman.StoreFailed, match="store: "):
                dispatcher.request("brighten")
        assert stores.devices["window"].calls == []
        assert dispatcher.request("brighten").target == "bright"


def test_a_full_disk_after_the_device_answered(stores: Stores) -> None:
    cut = stores.folder / "cut"
    with stores.dispatcher() as dispatcher:
        with full(stores, 1), pytest.raises(roman.StoreFailed) as caught:
            dispatcher.request("brighten", key="a")
        done = caught.value.done
        assert done is not None
        assert (done.target, dispatcher.served) == ("bright", 1)
        copy_store(stores.path, cut)
        for action, key in (("boil", None), ("brighten", "a")):  # Even a known answer isn't returned.
            with full(stores, 0), pytest.raises(roman.StoreFailed):
                dispatcher.request(action, key=key)
        assert stores.devices["kettle"].calls == []
        assert dispatcher.request("brighten", key="a") == done
        assert dispatcher.report().target == "bright"
        assert dispatcher.request("boil").target == "boiled"
        report = dispatcher.report()
    with stores.dispatcher() as dispatcher:
        assert (dispatcher.report(), dispatcher.served) == (report, 2)
    with stores.dispatcher(cut, stores.devices_that_tell(("open", "day"))) as dispatcher:
        assert dispatcher.recovered is not None
        assert dispatcher.recovered.verdict is Verdict.DONE


def test_a_full_disk_at_a_change(stores: Stores) -> None:
    with stores.dispatcher() as dispatcher:
        with full(stores, 0), pytest.raises(roman.StoreFailed):
            dispatcher.jumpenv("dusk")
        dispatcher.freeze("window")
        with full(stores, 0), pytest.raises(roman.StoreFailed):
            dispatcher.thaw("window", "open")
        dispatcher.freeze("kettle")
        report = dispatcher.report()
        window = report.services[0]
        assert (report.environment, window.state, window.frozen) == ("dusk", "open", False)
    with stores.dispatcher() as dispatcher:
        assert dispatcher.report() == report


def test_a_full_disk_is_no_reason_to_tell_nothing(stores: Stores) -> None:
    notices: list[Any] = []
    with stores.dispatcher(watch=notices.append) as dispatcher:
        dispatcher.freeze("kettle")
        with full(stores, 0), pytest.raises(roman.StoreFailed):
            dispatcher.thaw("kettle")
        assert notices.pop() == roman.Changed(("thaw", "kettle"))
        with full(stores, 2), pytest.raises(roman.StoreFailed) as caught:
            dispatcher.request("brighten")
        assert notices.pop() == caught.value.done
        with full(stores, 1), pytest.raises(roman.StoreFailed) as caught:
            dispatcher.record("boil", "kettle", "hot", "dusk")
        assert notices.pop() == caught.value.done
        assert dispatcher.served == 2


@pytest.mark.parametrize("answer", [roman.DeviceFailed("stuck"), ("hot", "day")])
def test_one_that_fails_while_the_disk_is_full(stores: Stores, answer: Any) -> None:
    failures: list[roman.Failure] = []
    stores.devices["window"].answer = answer
    with stores.dispatcher(on_failure=failures.append) as dispatcher:
        with full(stores, 1), pytest.raises(roman.StoreFailed):
            dispatcher.request("brighten")
        assert failures.pop().service == "window"
        assert dispatcher.failed == {"window"}
        assert dispatcher.request("brighten").service == "ceiling"
    assert stores.rows("SELECT service, result FROM calls") == [("window", "failed"), ("ceiling", "served")]


def test_one_that_joins_while_the_disk_is_full_has_its_device(stores: Stores) -> None:
    with stores.dispatcher() as dispatcher:
        dispatcher.freeze("window")
        with full(stores, 0), pytest.raises(roman.StoreFailed):
            dispatcher.join("blind", "blind", "shut", Home())
        dispatcher.die("ceiling")
        assert dispatcher.core.devices.keys() == {"window", "ceiling", "kettle", "blind"}
    assert [name for (name,) in stores.rows("SELECT name FROM services ORDER BY place")] == [
        "window",
        "kettle",
        "blind",
    ]


def test_an_interrupt_while_the_disk_is_full(stores: Stores) -> None:
    stores.devices["window"].answer = KeyboardInterrupt()
    with stores.dispatcher() as dispatcher:
        with full(stores, 1), pytest.raises(KeyboardInterrupt):
            dispatcher.request("brighten")
        assert dispatcher.request("brighten").service == "ceiling"


# A journal of the older form.


def test_a_journal_is_taken_over_once(stores: Stores, caplog: pytest.LogCaptureFixture) -> None:
    shutil.copy(JOURNALS / "home.journal", stores.path)
    stores.devices["lamp2"] = Home()
    for number in range(2):
        caplog.clear()
        with stores.dispatcher() as dispatcher:
            report = dispatcher.report()
            assert (report.target, report.environment, dispatcher.served) == ("quiet", "day", 4)
            assert [(each.name, each.state, each.frozen) for each in report.services] == [
                ("window", "shut", False),
                ("ceiling", "off", False),
                ("kettle", "empty", False),
                ("lamp2", "off", True),
            ]
            assert (dispatcher.failed, dispatcher.core.position.calls) == (frozenset(), 6)
            assert dispatcher.core.position.places["lamp2"].frozen is Frozen.BY_HAND
            first = dispatcher.request("brighten", key="first")
            assert (first.service, [each.service for each in first.failures]) == ("ceiling", ["window"])
            assert dispatcher.request("dim", key="third").service == "ceiling"
        assert sum("was a journal" in each for each in caplog.messages) == (number == 0)
    assert Path(f"{stores.path}.old").read_bytes() == (JOURNALS / "home.journal").read_bytes()


@pytest.mark.parametrize("told, verdict", [(NOT_DONE, Verdict.NOT_DONE), (("open", "day"), Verdict.DONE)])
def test_a_journal_with_a_call_under_way(stores: Stores, told: Any, verdict: Verdict) -> None:
    shutil.copy(JOURNALS / "under-way.journal", stores.path)
    devices = {name: Home(told) for name in (*stores.devices, "lamp2")}
    with stores.dispatcher(devices=devices) as dispatcher:
        assert dispatcher.recovered is not None
        assert (dispatcher.recovered.verdict, dispatcher.recovered.call.number) == (verdict, 7)
        assert [len(each.asked) for each in devices.values()] == [1, 0, 0, 0]


@pytest.mark.parametrize("held", [[], ["lamp2"], ["window"]])
def test_what_a_home_stored_beside_its_journal(stores: Stores, held: list[str]) -> None:
    """A service is frozen by hand if it is frozen, and was recorded as frozen by hand."""
    shutil.copy(JOURNALS / "home.journal", stores.path)
    beside = Path(f"{stores.path}.live")
    beside.write_text(f'{{"first": 1234, "held": {str(held).replace(chr(39), chr(34))}}}', encoding="utf-8")
    stores.devices["lamp2"] = Home()
    with stores.dispatcher() as dispatcher:
        assert dispatcher.core.position.frozen(Frozen.BY_HAND) == {"lamp2"}.intersection(held)
        assert dispatcher.failed == {"lamp2"}.difference(held)
    assert stores.rows("SELECT first FROM home") == [(1234,)]
    assert not beside.exists()


@pytest.mark.parametrize("tear", [lambda last: last[:-5], lambda last: b"", lambda last: last + b"\0" * 512])
@pytest.mark.parametrize("zeros", [False, True])
def test_a_journal_whose_last_line_is_torn(stores: Stores, tear: Callable[[bytes], bytes], zeros: bool) -> None:
    """Its pages may reach the disk in any order, so zeros or garbage may precede complete lines."""
    *lines, last = (JOURNALS / "under-way.journal").read_bytes().splitlines(keepends=True)
    torn = tear(last)
    if zeros:
        torn = b"\0" * (len(torn) // 2) + torn[len(torn) // 2 :]
    stores.path.write_bytes(b"".join(lines) + torn)
    devices = {name: Home(NOT_DONE) for name in (*stores.devices, "lamp2")}
    with stores.dispatcher(devices=devices) as dispatcher:
        assert (dispatcher.served, dispatcher.report().target) == (4, "quiet")


def test_a_journal_that_is_broken_before_its_end(stores: Stores) -> None:
    whole = (JOURNALS / "home.journal").read_bytes()
    lines = whole.splitlines(keepends=True)
    for text in (
        lines[0] + b"\0\0\n" + b"".join(lines[1:]),
        whole.replace(b'"journal":1', b'"journal":2'),
        lines[0] + b"{}\n" + b"".join(lines[1:]),
        lines[0] + lines[6],
        lines[0] + lines[3].replace(b"window", b"widow"),
        lines[0] + b'{"event":"changed","words":["jump","window"]}\n',
        lines[0] + b'{"event":"changed","words":["jump","window","broken"]}\n',
        whole.replace(b'"shut","ajar"]', b'"shut"]'),
    ):
        stores.path.write_bytes(text)
        with pytest.raises(roman.StoreBroken), stores.dispatcher():
            pass
        assert stores.path.read_bytes() == text


def test_a_device_that_hangs_has_one_thread(stores: Stores) -> None:
    """It is taken back before each request, and hangs again."""
    hangs = threading.Event()
    stores.devices["window"].timeout = 0.02
    stores.devices["window"].before = lambda call: hangs.wait()
    before = set(threading.enumerate())
    with stores.dispatcher(back=lambda service: True) as dispatcher:
        for _ in range(5):
            for action in ("brighten", "boil", "pour"):
                dispatcher.request(action)
            dispatcher.jumpenv("day")
            dispatcher.request("dim")
        assert len(set(threading.enumerate()) - before) == 1
        assert len(stores.devices["window"].calls) == 1
        hangs.set()
