"""Dispatchers with the program and simulated devices."""

import json
import logging
import os
import queue
import shutil
import signal
import subprocess
import sys
import threading
import time
from collections.abc import Callable
from concurrent.futures import Future, ThreadPoolExecutor
from pathlib import Path
from typing import Any, List
from unittest import mock

import pytest

import roman_client as roman
from roman_client import Dispatcher, LeastCost, Session, protocol
from roman_client.core import Dispatching

from . import PROGRAM, TOP, sample

States = tuple[str, str]

PATIENCE = 120.0
"""The number of seconds to wait for an event that has to come. The machine may be very busy."""


def lamps(count: int) -> Session:
    """A session with several sample lamps."""
    session = Session(sample("lamp.json"), program=PROGRAM, timeout=60)
    for number in range(2, count + 1):
        session.join(f"l{number}", "lamp", "off")
    return session


def works(action: str) -> States:
    """A lamp that carries out each action."""
    return action, "e"


def broken(action: str) -> States:
    """A lamp that can't be reached."""
    raise roman.DeviceFailed("no answer")


def wrong(action: str) -> States:
    """A lamp that does the opposite."""
    return ("off" if action == "on" else "on"), "e"


def test_the_first_offered_serves() -> None:
    with lamps(2) as session:
        dispatcher = Dispatcher(session, {"l1": works, "l2": works})
        assert dispatcher.request("on") == roman.Done("on", "l1", "on", "on", "e", ())
        assert dispatcher.request("off").target == "off"


def test_a_failure_goes_to_another() -> None:
    told: list[roman.Failure] = []
    with lamps(2) as session:
        dispatcher = Dispatcher(session, {"l1": broken, "l2": works}, on_failure=told.append)
        done = dispatcher.request("on")
        assert (done.service, len(done.failures)) == ("l2", 1)
        assert done.failures == tuple(told)
        assert isinstance(told[0].error, roman.DeviceFailed)
        assert dispatcher.failed == {"l1"}
        assert session.report().services[0].frozen
        dispatcher.thaw("l1")
        assert dispatcher.failed == frozenset()
        assert not session.report().services[0].frozen


def test_impossible_outcomes() -> None:
    outcomes: list[Any] = [
        ("off", "e"),
        ("lit", "e"),
        ("on", "night"),
        ("", "e"),
        ("x" * 300, "e"),
        ("\ud800", "e"),
        (b"on", "e"),
        ("on",),
        None,
    ]
    for outcome in outcomes:
        with lamps(2) as session:
            act: Callable[[str], Any] = lambda action: outcome
            dispatcher = Dispatcher(session, {"l1": act, "l2": works})
            done = dispatcher.request("on")
            assert done.service == "l2"
            assert done.failures[0].outcome == outcome
            assert dispatcher.failed == {"l1"}


def test_no_composition_has_its_explanation() -> None:
    with lamps(2) as session:
        dispatcher = Dispatcher(session, {"l1": broken, "l2": wrong})
        with pytest.raises(roman.NoComposition) as caught:
            dispatcher.request("on")
        explanation = caught.value.explanation
        assert explanation is not None
        assert explanation is not None
        assert explanation.present.request == "on"
        assert dispatcher.failed == {"l1", "l2"}


def test_services_come_back() -> None:
    where: dict[str, object] = {"l1": False}
    devices: dict[str, Callable[[str], States]] = {"l1": broken, "l2": works}
    with lamps(2) as session:
        dispatcher = Dispatcher(
            session,
            {"l1": lambda action: devices["l1"](action), "l2": works},
            back=lambda service: where[service],  # type: ignore[return-value,arg-type]
        )
        assert dispatcher.request("on").service == "l2"
        assert dispatcher.request("off").service == "l2"
        where["l1"], devices["l1"] = True, works
        assert dispatcher.request("on").service == "l1"
        devices["l1"] = broken
        with pytest.raises(roman.NoComposition):
            dispatcher.request("off")
        where["l1"], devices["l1"] = "off", works
        with pytest.raises(roman.NoComposition):
            dispatcher.request("off")
        assert session.report().services[0].state == "off"


def test_refusals_of_the_caller() -> None:
    with lamps(1) as session:
        dispatcher = Dispatcher(session, {"l1": works})
        with pytest.raises(roman.NotAllowed):
            dispatcher.request("off")
        with pytest.raises(roman.UnknownName):
            dispatcher.request("dim")
        assert dispatcher.request("on").target == "on"


def test_a_policy_of_the_caller() -> None:
    with lamps(3) as session:
        dispatcher = Dispatcher(
            session,
            {"l1": works, "l2": works, "l3": works},
            policy=lambda choice: choice.offered[-1],
        )
        assert dispatcher.request("on").service == "l3"
        dispatcher.policy = lambda choice: "l1"
        with pytest.raises(ValueError):
            dispatcher.request("off")
        dispatcher.policy = roman.first_offered
        assert dispatcher.request("off").service == "l3"


def test_the_least_cost(tmp_path: Path) -> None:
    document = json.loads(Path(sample("lamp.json")).read_text(encoding="utf-8"))
    lamp = document["behaviours"][0]
    document["behaviours"].append({**lamp, "name": "spare"})
    document["services"].append({"name": "s1", "behaviour": "spare"})
    system, costs = Path(tmp_path, "system.json"), Path(tmp_path, "costs.json")
    system.write_text(json.dumps(document), encoding="utf-8")
    costs.write_text('[["lamp", "on", 3], ["spare", "on", 1]]', encoding="utf-8")
    with Session(system, program=PROGRAM) as session:
        devices = {"l1": works, "s1": works, "l2": works}
        dispatcher = Dispatcher(session, devices, policy=LeastCost.read(costs))
        assert dispatcher.request("on").service == "s1"
        dispatcher.request("off")
        dispatcher.policy = LeastCost([["spare", "on", 4]])
        assert dispatcher.request("on").service == "l1"


def test_costs_that_are_none(tmp_path: Path) -> None:
    good: list[Any] = [["lamp", "on", 0], ("lamp", "off", 1_000_000), ["spare", "on", 1]]
    LeastCost(good)
    bad: list[Any] = [
        ["lamp", "dim", 1.9],
        ["lamp", "dim", 1.0],
        ["lamp", "dim", -5],
        ["lamp", "dim", 1_000_001],
        ["lamp", "dim", "3"],
        ["lamp", "dim", True],
        ["lamp", "dim", None],
        ["lamp", "dim"],
        ["lamp", "dim", 1, 1],
        3,
        None,
        {"lamp": 1, "dim": 2, "cost": 3},
        [1, "dim", 1],
        ["lamp", ["dim"], 1],
        ["lamp", "on", 0],
    ]
    for item in bad:
        with pytest.raises(ValueError):
            LeastCost([*good, item])
    costs = tmp_path / "costs"
    for text in ("", "{}", "3", "null", '"abc"'):
        costs.write_text(text, encoding="utf-8")
        with pytest.raises(ValueError):
            LeastCost.read(costs)


def test_devices_are_there_for_all() -> None:
    with lamps(2) as session:
        with pytest.raises(ValueError):
            Dispatcher(session, {"l1": works})
        dispatcher = Dispatcher(session, {"l1": works, "l2": works})
        dispatcher.die("l1")
        dispatcher.join("l3", "lamp", "off", works)
        dispatcher.freeze("l2")
        assert dispatcher.request("on").service == "l3"
        assert dispatcher.failed == frozenset()


def test_an_interrupt_freezes_the_service() -> None:
    def interrupted(action: str) -> States:
        raise KeyboardInterrupt

    with lamps(2) as session:
        dispatcher = Dispatcher(session, {"l1": interrupted, "l2": works})
        with pytest.raises(KeyboardInterrupt):
            dispatcher.request("on")
        assert dispatcher.failed == {"l1"}
        assert dispatcher.request("on").service == "l2"


def test_a_change_that_waits_hides_no_result() -> None:
    """It can't be made when the request ends, and is made with the next one."""
    changes: list[Future[None]] = []
    broken = mock.patch.object(Dispatching, "drain", side_effect=OSError("no program"))

    def watch(notice: roman.Notice) -> None:
        if isinstance(notice, roman.Done) and not changes:
            changes.append(dispatcher.post(protocol.jumpenv("e")))
            broken.start()

    with lamps(1) as session:
        dispatcher = Dispatcher(session, {"l1": works}, watch=watch)
        try:
            assert dispatcher.request("on").target == "on"
        finally:
            broken.stop()
        assert not changes[0].done()
        dispatcher.request("off")
        assert changes[0].result(0) is None


# Devices that hang, programs that die, services that were frozen, and changes during a request.


def test_a_device_has_a_deadline() -> None:
    begun, late = threading.Event(), threading.Event()

    def hangs(action: str) -> States:
        begun.set()
        late.wait()
        return works(action)

    with lamps(2) as session:
        device = roman.device(hangs, timeout=0.1)
        dispatcher = Dispatcher(session, {"l1": device, "l2": works})
        done = dispatcher.request("on")
        assert begun.wait(PATIENCE)
        assert done.service == "l2"
        assert isinstance(done.failures[0].error, roman.DeviceTimeout)
        late.set()
        assert dispatcher.request("off").service == "l2"
        assert dispatcher.failed == {"l1"}


def test_a_device_within_its_deadline() -> None:
    with lamps(2) as session:
        l1, l2 = (roman.device(each, timeout=PATIENCE) for each in (broken, works))
        done = Dispatcher(session, {"l1": l1, "l2": l2}).request("on")
        assert (done.service, done.state) == ("l2", "on")
        assert type(done.failures[0].error) == roman.DeviceFailed


def test_a_late_answer_is_nobody_elses() -> None:
    """The first call's answer comes while the device is asked for the second time."""
    answers: "List[queue.Queue[States]]" = []
    begun = threading.Event()

    def slow(action: str) -> States:
        mine: "queue.Queue[States]" = queue.Queue()
        answers.append(mine)
        begun.set()
        return mine.get(timeout=PATIENCE)

    with lamps(2) as session:
        slow_one = roman.device(slow, timeout=0.3)
        dispatcher = Dispatcher(session, {"l1": slow_one, "l2": works}, back=lambda s: True)
        for action in ("on", "off", "on"):
            done = dispatcher.request(action)
            assert done.service == "l2"
        assert begun.wait(PATIENCE)
        assert len(answers) == 1  # It isn't asked again before its call has ended.
        answers[0].put(("on", "e"))
        for action in ("off", "on") * 50:
            if len(answers) > 1:
                break
            time.sleep(0.01)
            done = dispatcher.request(action)
        assert (len(answers), done.service) == (2, "l2")
        assert isinstance(done.failures[0].error, roman.DeviceTimeout)
        answers[1].put(("on", "e"))


def test_frozen_services_are_asked_whether_they_are_back() -> None:
    with lamps(2) as session:
        session.freeze("l1")
        asked: list[str] = []

        def back(service: str) -> bool:
            asked.append(service)
            return True

        dispatcher = Dispatcher(session, {"l1": works, "l2": works}, back=back)
        assert dispatcher.failed == {"l1"}
        assert dispatcher.request("on").service == "l1"
        assert (asked, dispatcher.failed) == (["l1"], frozenset())
        dispatcher.freeze("l2")
        dispatcher.request("off")
        assert asked == ["l1"]


def test_errors_of_back_count_as_not_back(caplog: pytest.LogCaptureFixture) -> None:
    answers: list[Any] = [OSError("no route"), "lit", "", 3, b"on", None]

    def back(service: str) -> Any:
        answer = answers.pop()
        if isinstance(answer, Exception):
            raise answer
        return answer

    with lamps(2) as session:
        dispatcher = Dispatcher(session, {"l1": broken, "l2": works}, back=back)
        dispatcher.request("on")
        for number in range(6):
            caplog.clear()
            with caplog.at_level("INFO", "roman_client"):
                dispatcher.request("off" if number % 2 == 0 else "on")
            assert dispatcher.failed == {"l1"}
            assert ("not back" in caplog.text) == (number > 0)
        assert answers == []


def test_a_service_that_somebody_thawed() -> None:
    with lamps(2) as session:
        session.freeze("l1")
        dispatcher = Dispatcher(session, {"l1": works, "l2": works}, back=lambda service: True)
        session.thaw("l1")
        dispatcher.request("on")
        assert dispatcher.failed == frozenset()


def test_no_composition_says_who_failed_and_who_is_frozen() -> None:
    with lamps(3) as session:
        dispatcher = Dispatcher(session, {"l1": broken, "l2": wrong, "l3": works})
        dispatcher.freeze("l3")
        with pytest.raises(roman.NoComposition) as caught:
            dispatcher.request("on")
        failures = caught.value.failures
        assert [each.service for each in failures] == ["l1", "l2"]
        assert failures[1].outcome == ("off", "e")
        assert caught.value.frozen == ("l1", "l2", "l3")
        with pytest.raises(roman.NoComposition) as caught:
            dispatcher.request("on")
        assert caught.value.failures == ()


def test_a_program_that_dies_while_a_device_is_at_work() -> None:
    with lamps(1) as session:

        def kills(action: str) -> States:
            os.kill(session.pid, signal.SIGKILL)
            return works(action)

        dispatcher = Dispatcher(session, {"l1": kills})
        with pytest.raises(roman.ProgramEnded) as caught:
            dispatcher.request("on")
        ended = caught.value
        assert (ended.action, ended.service) == ("on", "l1")
        assert ended.outcome == ("on", "e")
        with pytest.raises(roman.ProgramEnded) as caught:
            dispatcher.request("on")
        assert caught.value.service is None


def test_with_a_store_the_request_goes_on(tmp_path: Path) -> None:
    with lamps(2) as session:
        notices: list[roman.Notice] = []

        def kills(action: str) -> States:
            os.kill(session.pid, signal.SIGKILL)
            return works(action)

        with Dispatcher(session, {"l1": kills, "l2": works}, store=f"{tmp_path}/j", watch=notices.append) as dispatcher:
            for action in ("on", "off"):
                os.kill(session.pid, signal.SIGKILL)
                assert dispatcher.request(action).service == "l1"
            os.kill(session.pid, signal.SIGKILL)
            assert dispatcher.report().target == "off"
            os.kill(session.pid, signal.SIGKILL)
            dispatcher.freeze("l1")
            assert dispatcher.report().services[0].frozen
            assert dispatcher.served == 2
        kinds = [type(notice).__name__ for notice in notices]
        request = ["Restarted", "Asked", "Restarted", "Done"]
        assert kinds == [*request, *request, "Restarted", "Restarted", "Changed"]


def test_a_program_that_can_not_be_started_again(tmp_path: Path) -> None:
    program = tmp_path / "roman"
    program.symlink_to(shutil.which(PROGRAM) or PROGRAM)
    with Session(sample("lamp.json"), program=str(program), timeout=60) as session:
        with Dispatcher(session, {"l1": works}, store=f"{tmp_path}/j") as dispatcher:
            program.unlink()
            os.kill(session.pid, signal.SIGKILL)
            with pytest.raises(FileNotFoundError):
                dispatcher.request("on")
            program.symlink_to(shutil.which(PROGRAM) or PROGRAM)
            assert dispatcher.request("on").target == "on"


def test_changes_that_come_meanwhile_wait_their_turn() -> None:
    inside, go_on = threading.Event(), threading.Event()

    def waits(action: str) -> States:
        inside.set()
        go_on.wait(PATIENCE)
        return works(action)

    with lamps(2) as session, ThreadPoolExecutor(4) as threads:
        dispatcher = Dispatcher(session, {"l1": waits, "l2": works})
        request = threads.submit(dispatcher.request, "on")
        assert inside.wait(PATIENCE)
        assert dispatcher.report().target == "off"
        way = dispatcher.under_way
        assert way is not None
        assert (way.service, way.number) == ("l1", 1)
        freeze = threads.submit(dispatcher.freeze, "l1")
        jump = dispatcher.post(protocol.jump("l2", "on"))
        unknown = dispatcher.post(protocol.jump("l2", "lit"))
        time.sleep(0.05)
        waiting: list["Future[Any]"] = [request, freeze, jump, unknown]
        assert not any(each.done() for each in waiting)
        go_on.set()
        assert request.result(PATIENCE).service == "l1"
        assert freeze.result(PATIENCE).lost > 0
        assert jump.result(PATIENCE) is None
        with pytest.raises(roman.UnknownName):
            unknown.result(PATIENCE)
        states = [(each.state, each.frozen) for each in dispatcher.report().services]
        assert states == [("on", True), ("on", False)]


def test_changes_of_a_device_itself() -> None:
    """They are made before the next attempt at the request, or after the request."""
    told: list[Any] = []

    def moves(action: str) -> States:
        told.append(dispatcher.post(protocol.jump("l2", "on")))
        with pytest.raises(roman.InsideRequest):
            dispatcher.jump("l2", "on")
        raise roman.DeviceFailed("it fell on the other one")

    for timeout in (None, PATIENCE):
        with lamps(3) as session:
            device = roman.device(moves, timeout=timeout)
            dispatcher = Dispatcher(session, {"l1": device, "l2": works, "l3": works})
            with pytest.raises(roman.NoComposition):
                dispatcher.request("on")
            assert told.pop().done()
            assert dispatcher.report().services[1].state == "on"
            with pytest.raises(ValueError):
                dispatcher.post(protocol.do("on")).result()


def test_requests_of_several_threads_take_turns() -> None:
    at_work: list[int] = []

    def works_alone(action: str) -> States:
        at_work.append(1)
        assert len(at_work) == 1
        time.sleep(0.002)
        at_work.pop()
        return works(action)

    def switch(number: int) -> str:
        end = time.monotonic() + PATIENCE
        while time.monotonic() < end:
            try:
                return dispatcher.request("on" if number % 2 == 0 else "off").state
            except roman.NotAllowed:
                time.sleep(0.002)
        raise AssertionError("it never got its turn")

    with lamps(1) as session, ThreadPoolExecutor(6) as threads:
        dispatcher = Dispatcher(session, {"l1": works_alone})
        states = list(threads.map(switch, range(12)))
        assert states == ["on", "off"] * 6
        assert dispatcher.served == 12


def test_a_listener_that_fails(caplog: pytest.LogCaptureFixture) -> None:
    def fails(notice: object) -> None:
        raise RuntimeError("deaf")

    with lamps(2) as session:
        dispatcher = Dispatcher(session, {"l1": broken, "l2": works}, watch=fails, on_failure=fails)
        assert dispatcher.request("on").service == "l2"
    assert [each.levelname for each in caplog.records if each.levelno >= logging.ERROR]


def test_an_interrupted_policy() -> None:
    def interrupted(choice: roman.Choice) -> str:
        raise KeyboardInterrupt

    with lamps(1) as session:
        dispatcher = Dispatcher(session, {"l1": works}, policy=interrupted)
        with pytest.raises(KeyboardInterrupt):
            dispatcher.request("on")
        dispatcher.policy = roman.first_offered
        assert dispatcher.request("on").target == "on"


def test_several_targets() -> None:
    """A device is asked for the plain action. A function receives the request, which names the target."""
    asked: list[roman.Call] = []

    class Lamp(roman.Device):
        def serve(self, call: roman.Call) -> States:
            asked.append(call)
            return call.action, "e"

    def lamp(action: str) -> States:
        assert action == "on-a"
        return "on", "e"

    with Session(sample("two.json"), program=PROGRAM, timeout=60) as session:
        dispatcher = Dispatcher(session, {"l1": lamp, "l2": Lamp()})
        assert dispatcher.request("on-a").target == "on-off"
        assert dispatcher.request("on-b").target == "on-on"
        assert (asked[0].action, asked[0].request) == ("on", "on-b")


def test_a_session_that_goes_on_meanwhile() -> None:
    with Session(sample("lamp.json"), program=PROGRAM, longest=150) as session:
        dispatcher = Dispatcher(session, {"l1": works})
        for _ in range(60):
            dispatcher.request("on")
            dispatcher.request("off")
        assert dispatcher.served == 120


def run_with(*words: str) -> "subprocess.CompletedProcess[str]":
    """Runs it at the top of the repository, to which the names of the samples' part files are relative."""
    script = str(TOP / "python" / "examples" / "demonstration.py")
    return subprocess.run(
        [sys.executable, script, "--program", PROGRAM, *words],
        cwd=TOP,
        env={**os.environ, "PYTHONPATH": str(TOP / "python" / "src")},
        capture_output=True,
        text=True,
        timeout=5 * PATIENCE,
        check=False,
    )


def test_thousands_of_requests_have_no_dead_end() -> None:
    done = run_with("--requests", "5000")
    assert (done.returncode, done.stderr) == (0, "")
    assert "no dead end" in done.stdout
    assert int(done.stdout.split()[0]) > 2000


@pytest.mark.parametrize("name", ["web", "depot", "workshop", "greenhouse", "lamp"])
def test_the_other_samples(name: str) -> None:
    """Each sample with one target and a composition: most requests are served."""
    done = run_with(sample(f"{name}.json"), "--requests", "500", "--seed", "7")
    assert (done.returncode, done.stderr) == (0, "")
    assert "no dead end" in done.stdout
    assert int(done.stdout.split()[0]) > 100
