"""A home that runs: its start, its end, and the notices of its dispatcher."""

from __future__ import annotations

import asyncio
import logging
import os
import shutil
import tempfile
from collections.abc import Awaitable
from dataclasses import dataclass, replace
from pathlib import Path
from typing import TypeVar

from roman_client import (
    Asked,
    Call,
    Changed,
    Document,
    DocumentError,
    Done,
    Failure,
    NoReply,
    Notice,
    ProgramEnded,
    Recovery,
    Restarted,
    StoreBroken,
    StoreLocked,
    Verdict,
    aio,
)
from roman_client.store import Store

from .activity import Activity, Chooser
from .ahead import HomeDispatcher
from .config import IN_PROCESS, HomeFile, HomeFileError, Policy, PolicyName
from .errors import NoProgram
from .events import EventLog, now
from .fleet import EarlierRuns, Fleet
from .metrics import Metrics
from .persisted import ANEW, GONE, check_folder, check_store
from .policies import make_policy
from .processes import Processes
from .registry import Registry
from .requests import Requests
from .short_form import is_short, plain_costs, plain_text
from .sources import SOURCE
from .view import View

LOG = logging.getLogger("roman_live")

STARTS = 8
"""The number of times that a start is tried if the program is killed meanwhile."""

REFUSED = (3, 4)
"""The statuses of the program for a document that it refuses, and for one that is too large."""

Value = TypeVar("Value")


@dataclass(frozen=True)
class OpenedSystem:
    """The document of a home with the session that runs it. `folder` is for temporary files."""

    document: Document
    session: aio.Session
    program: str
    folder: tempfile.TemporaryDirectory[str]

    @classmethod
    async def open(cls, file: HomeFile) -> OpenedSystem:
        """Reads the document, and starts the program on it. Raises HomeFileError or NoProgram."""
        folder = tempfile.TemporaryDirectory(prefix="roman-live-")
        try:
            place = _plain_folder(file, Path(folder.name))
            document = Document.load(file.document.name, place)
            program = _program(file)
            session = aio.Session(
                file.document.name,
                program=program,
                folder=place,
                timeout=file.program_seconds,
                library=file.in_process and os.environ.get("ROMAN_LIBRARY", True),
            )
            await _begin(file, session, program)
            return cls(document, session, program, folder)
        except DocumentError as error:
            folder.cleanup()
            raise HomeFileError(f"{file.path}: document: {error}{_hint(file)}") from None
        except BaseException:
            folder.cleanup()
            raise

    async def close(self) -> None:
        """Ends the program, and removes the temporary files."""
        await self.session.close()
        self.folder.cleanup()


def _plain_folder(file: HomeFile, temporary: Path) -> Path:
    """The folder of the document in its plain form, under its own name. Raises DocumentError."""
    if not is_short(file.document):
        return file.document.parent
    text = plain_text(file.document)
    folder = temporary / "plain"
    folder.mkdir()
    (folder / file.document.name).write_text(text, encoding="utf-8")
    return folder


def _plain_policy(file: HomeFile, temporary: Path) -> Policy:
    """The policy, with the costs of the plain document. Raises HomeFileError."""
    if file.policy.costs is None or not is_short(file.document):
        return file.policy
    try:
        text = plain_costs(file.document, file.policy.costs)
    except DocumentError as error:
        raise HomeFileError(f"{file.path}: policy.costs: {error}") from None
    place = temporary / "plain.costs"
    place.write_text(text, encoding="utf-8")
    return replace(file.policy, costs=place)


def _program(file: HomeFile) -> str:
    """The program. A relative path is resolved from the folder of the home file."""
    return str(file.path.parent / file.program) if "/" in file.program else file.program


def _hint(file: HomeFile) -> str:
    return f"; roman-lint {file.document} says where" if file.document.exists() else ""


async def _begin(file: HomeFile, session: aio.Session, program: str) -> None:
    """Starts the program. Raises HomeFileError if it refuses the document, and NoProgram."""
    try:
        await session.begin()
    except ProgramEnded as error:
        if error.status not in REFUSED:
            raise
        raise HomeFileError(f"{file.path}: document: {error}{_hint(file)}") from None
    except NoReply as error:
        raise NoProgram(
            f"{file.path}: program is {program!r}, which gave {error}; program_seconds gives it more"
        ) from None
    except OSError as error:
        if file.in_process:
            raise NoProgram(f"{file.path}: program is {IN_PROCESS!r}, which needs libroman: {error}") from None
        known = "/" in program or shutil.which(program) is not None
        why = f"can't be started: {error.strerror}" if known else "isn't in PATH; say there where it is"
        raise NoProgram(f"{file.path}: program is {program!r}, which {why}") from None


class Home:
    """A home that runs, from `start` to `close`."""

    def __init__(self, file: HomeFile, opened: OpenedSystem, store: Store, *, simulate: bool) -> None:
        """Makes the devices and all other parts. The store is locked. Raises HomeFileError."""
        self.file = file
        self.simulate = simulate
        self.document = opened.document
        self.session = opened.session
        self.events = EventLog()
        self.metrics = Metrics()
        self.dirty = asyncio.Event()
        self.activity = Activity()
        self.registry = Registry(opened.document, opened.session.opening)
        policy = Policy() if simulate else _plain_policy(file, Path(opened.folder.name))
        choose = make_policy(policy, opened.session, opened.program, file.program_seconds)
        self.chooser = Chooser(choose, policy.choose.value, self.activity)
        self.dispatcher = HomeDispatcher(opened.session, {}, policy=self.chooser, store=store, watch=self._watch)
        earlier = EarlierRuns(store.first, store.last_calls(), Processes(Path(f"{store.path}.commands")))
        self.fleet = Fleet(
            file,
            opened.document,
            self.dispatcher,
            self.registry,
            self.activity,
            self.events,
            earlier,
            self.dirty.set,
            simulate=simulate,
        )
        self._noticed = asyncio.Event()
        self.requests = Requests(
            opened.document,
            self.dispatcher,
            self.fleet,
            self.activity,
            self.events,
            self.metrics,
            self._noticed,
            self.dirty.set,
            file.limits.waiting,
            shares=self.fleet.sensor is None and policy.choose is not PolicyName.LEAST_WORST,
        )
        self.view = View(self)
        self.store = store.path
        self._opened = opened
        self._store = store
        self._begun = False

    # Beginning and end.

    @classmethod
    async def start(cls, file: HomeFile, *, simulate: bool = False) -> Home:
        """Starts the program, locks the store, connects to the devices, and continues from the store. With `simulate` a
        person plays all devices, and nothing is stored. Raises HomeFileError, or the errors of the client."""
        for _ in range(STARTS - 1):
            try:
                return await cls._start(file, simulate)
            except ProgramEnded as error:
                if error.status >= 0:
                    raise
                LOG.warning("the program was killed at the start, which is tried again: %s", error)
        return await cls._start(file, simulate)

    @classmethod
    async def _start(cls, file: HomeFile, simulate: bool) -> Home:
        opened = await OpenedSystem.open(file)
        try:
            store = _open_store(file, opened, simulate)
        except BaseException:
            await opened.close()
            raise
        try:
            home = cls(file, opened, store, simulate=simulate)
        except BaseException:
            store.close()
            await opened.close()
            raise
        try:
            await home._begin()
        except BaseException:
            await home.close()
            raise
        return home

    @classmethod
    async def check(cls, file: HomeFile, *, simulate: bool = False) -> None:
        """Raises the errors of `start` that are known without asking a broker or a device. It may be called while the
        home runs."""
        opened = await OpenedSystem.open(file)
        try:
            with tempfile.TemporaryDirectory(prefix="roman-live-") as folder:
                store = Store(Path(folder) / "store")
                try:
                    home = cls(file, opened, store, simulate=simulate)
                finally:
                    store.close()
            hindrances = {name: device.reach.hindrance() for name, device in home.fleet.devices.items()}
            errors = [
                f"{file.path}: devices.{name}.command can't be run: {hindrance}"
                for name, hindrance in hindrances.items()
                if hindrance is not None
            ]
            try:
                if file.journal is not None and not simulate:
                    check_store(file.journal, opened.document, home.fleet.devices)
            except HomeFileError as error:
                errors.append(str(error))
            if errors:
                raise HomeFileError("\n".join(errors))
        finally:
            await opened.close()

    async def _begin(self) -> None:
        """Opens the devices, continues from the store, and asks the devices for their states."""
        await self.fleet.open()
        call = None if self._store.stored is None else self._store.stored.under_way
        if call is not None:
            await self.fleet.end_earlier(call)
        try:
            await self.dispatcher.begin()
        except StoreBroken as error:
            raise HomeFileError(f"{self.file.path}: journal.path: {error}; {ANEW}") from None
        except ValueError as error:
            raise HomeFileError(f"{self.file.path}: {error}, which the store has; {GONE}") from None
        self.registry.take(await self.dispatcher.report())
        for name in [each for each, known in self.registry.items() if known.dead]:
            text = f"{name} isn't there by the store: it is gone, or new in the document; then let it join"
            self.events.add("missing", text, level=logging.WARNING, service=name)
        self._begun = True
        await self.fleet.begin()
        served = self.dispatcher.served
        since = f"; requests served so far: {served}" if served else ""
        self.events.add("begun", f"{self.file.document.name} runs{since}")
        if self.fleet.broker is not None:
            self.fleet.broker.subscribe(self.fleet.broker.state_topic, self.view.hear_state)
        self.fleet.background.run(self.view.publish())

    async def close(self) -> None:
        """Stops all parts. A request that is open is dropped, and its service is frozen."""
        await self.requests.background.close()
        await self.fleet.close()
        await self.dispatcher.close()
        await self.fleet.disconnect()
        await self._opened.close()

    async def reply(self, reply: Awaitable[Value]) -> Value:
        """Waits for a reply of the program. If none comes, the client has ended the program. This adds an event,
        because the next caller only finds that the program has ended, and restarts it."""
        try:
            return await reply
        except NoReply as error:
            self.events.add("hung", f"the program was ended: {error}")
            raise

    # Notices of the dispatcher.

    def _watch(self, notice: Notice) -> None:
        if isinstance(notice, Asked):
            self._asked(notice.call)
        elif isinstance(notice, Done):
            self._served(notice)
        elif isinstance(notice, Failure):
            self._failed(notice)
        elif isinstance(notice, Changed):
            self._changed(notice.words)
        elif isinstance(notice, Recovery):
            self._recovered(notice)
        elif isinstance(notice, Restarted):
            self.metrics.restarts.inc()
            self.events.add("restarted", f"the program was started again: {notice.why}")
            self.fleet.background.run(self._refresh())
        self._noticed.set()
        self.dirty.set()

    def _asked(self, call: Call) -> None:
        self.activity.asked(call, now())
        self.fleet.moves.drop(call.service)  # Its answer is newer.
        self.registry[call.service].calls += 1
        self.metrics.asked.labels(call.service).inc()
        asker, why = SOURCE.get(), self.activity.reason
        self.events.add(
            "asked",
            f"{call.service} is asked to {call.action}{f' for {asker}' if asker else ''}{f' ({why})' if why else ''}",
            service=call.service,
            action=call.request,
            request=self.fleet.number(call),
            asker=asker,
            reason=why,
        )

    def _served(self, done: Done) -> None:
        call = self.activity.call
        self.requests.done(done, self.fleet.newest if call is None else self.fleet.number(call[0]))
        self.activity.ended()
        self.activity.failures.clear()
        self.registry.served(done)
        self.fleet.look_at_environment()
        self.events.add(
            "served",
            f"{done.service} served {done.action}, and is {done.state}",
            service=done.service,
            action=done.action,
            state=done.state,
            environment=done.environment,
        )

    def _failed(self, failure: Failure) -> None:
        self.activity.ended()
        self.activity.failures.append(failure)
        self.metrics.failures.labels(failure.service).inc()
        self.registry.failed(failure)
        self.events.add(
            "failed",
            f"{failure.service} failed at {failure.action}: {failure.text}",
            service=failure.service,
            action=failure.action,
            error=failure.text,
        )
        if self._begun:
            self.fleet.retries.start(failure.service)

    def _changed(self, words: tuple[str, ...]) -> None:
        """Handles a change that was made by hand or by a device."""
        self.registry.changed(words)
        word, service, *_ = words
        if word == "jumpenv":
            self.events.add("changed", f"the environment is {service} now", change=list(words))
            return
        if word in ("thaw", "die") or word == "freeze" and service in self.fleet.held():
            self.fleet.retries.stop(service)
        elif word == "freeze":
            self.fleet.retries.start(service)
        self.events.add("changed", " ".join(words), service=service, change=list(words))

    def _recovered(self, recovery: Recovery) -> None:
        call, verdict = recovery.call, recovery.verdict
        if recovery.done is not None:
            self.registry.served(recovery.done)
        if verdict is Verdict.IN_DOUBT:
            self.registry[call.service].last_error = "it isn't known whether it carried out its last call"
            self.registry[call.service].frozen = True
        text = f"{call.service} was under way at {call.request}: {verdict.value}"
        self.events.add("recovered", text, service=call.service, action=call.request, verdict=verdict.value)

    async def _refresh(self) -> None:
        """Takes all states from the program."""
        self.registry.take(await self.reply(self.session.report()))
        self.fleet.retries.start_all()
        self.dirty.set()


def _open_store(file: HomeFile, opened: OpenedSystem, simulate: bool) -> Store:
    """Opens and locks the store. If the home file names none, a temporary one is used, from which the home continues if
    the program ends. Raises HomeFileError."""
    path = file.journal
    if path is None or simulate:
        path = Path(opened.folder.name) / "store"
    check_folder(path)
    try:
        return Store(path)
    except StoreLocked as error:
        raise StoreLocked(f"{error}; does this home run already?") from None
    except StoreBroken as error:
        raise HomeFileError(f"{file.path}: journal.path: {error}; {ANEW}") from None
