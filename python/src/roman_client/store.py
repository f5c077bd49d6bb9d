"""The store of a dispatcher: a database of its newest position and of its history.

Each commit is one transaction, which is on the disk when the call returns. A lock on a file beside the database
keeps out a second dispatcher.
"""

from __future__ import annotations

import contextlib
import fcntl
import json
import os
import sqlite3
import time
from collections import deque
from collections.abc import Iterator, Mapping, Sequence
from dataclasses import dataclass, field
from pathlib import Path
from typing import Any, NamedTuple

from .devices import Call, DeviceFailed, Outcome, Verdict
from .documents import Document, DocumentError, PathLike
from .errors import StoreBroken, StoreFailed, StoreLocked
from .notices import Done, Failure
from .position import Frozen, Place, Position
from .takeover import Journal, is_database

APPLICATION = 0x726F6D61
"""The application ID of a database of this client."""

VERSION = 1
"""The version of the schema."""

COMMITS = 8
"""The number of recent commits of which the quickest one is the pace of the disk."""

HISTORY = 100_000
"""The maximum number of calls in the history, and that of changes."""

SCHEMA = """
CREATE TABLE home (
    one INTEGER PRIMARY KEY CHECK (one = 1),
    document TEXT NOT NULL,
    target TEXT NOT NULL,
    environment TEXT NOT NULL,
    served INTEGER NOT NULL,
    calls INTEGER NOT NULL,
    changes INTEGER NOT NULL,
    first INTEGER NOT NULL,
    starts INTEGER NOT NULL
) STRICT;
CREATE TABLE services (
    place INTEGER PRIMARY KEY,
    name TEXT NOT NULL UNIQUE,
    behaviour TEXT NOT NULL,
    state TEXT NOT NULL,
    loose INTEGER NOT NULL,
    frozen TEXT
) STRICT;
CREATE TABLE keys (
    place INTEGER PRIMARY KEY,
    key TEXT NOT NULL UNIQUE,
    answer TEXT NOT NULL
) STRICT;
CREATE TABLE calls (
    number INTEGER PRIMARY KEY,
    request INTEGER NOT NULL,
    requested TEXT NOT NULL,
    action TEXT NOT NULL,
    service TEXT NOT NULL,
    key TEXT,
    source TEXT,
    reason TEXT,
    begun REAL NOT NULL,
    ended REAL,
    result TEXT,
    state TEXT,
    environment TEXT,
    target TEXT,
    error TEXT
) STRICT;
CREATE TABLE changes (
    number INTEGER PRIMARY KEY,
    time REAL NOT NULL,
    words TEXT NOT NULL,
    cause TEXT,
    source TEXT
) STRICT;
"""

SERVED, RECORDED, FAILED, NOT_DONE, IN_DOUBT = "served", "recorded", "failed", "not done", "in doubt"
"""The results of a call. The result of one that is under way is NULL."""

Kept = Done | Call
"""The value that is stored for the key of a request: how it was served, or the call that is in doubt."""


class CallBegun(NamedTuple):
    """A call that is about to be made. `request` is the number of the first call for the same request, `source` names
    its sender, and `reason` states why the policy chose this service."""

    call: Call
    request: int
    source: str | None = None
    reason: str | None = None


class CallEnded(NamedTuple):
    """The result of a call, with the outcome and the state of the target if it was served."""

    number: int
    result: str
    outcome: Outcome | None = None
    target: str | None = None
    error: str | None = None


class ChangeMade(NamedTuple):
    """A change with its number, and the words of its line."""

    number: int
    words: tuple[str, ...]
    cause: Frozen | None = None
    source: str | None = None


class KeyStored(NamedTuple):
    """A value that is stored for a key. `dropped` are keys whose values are removed."""

    key: str
    kept: Kept
    dropped: tuple[str, ...] = ()


Entry = CallBegun | CallEnded | ChangeMade | KeyStored


@dataclass(frozen=True)
class Stored:
    """The content from which a dispatcher continues: the document, the position, the call that is under way with the
    number of its request and that request's failures, and the values of keys, the oldest first."""

    document: Document
    position: Position
    under_way: Call | None = None
    request: int = 0
    failures: tuple[Failure, ...] = ()
    keys: Mapping[str, Kept] = field(default_factory=dict)


class Store:
    """An open database. `stored` is its content when it was opened, None if it is new. `journal` is a journal of an
    older form, which `begin` replaces. Calls are numbered from `first`, which differs between stores."""

    def __init__(self, path: PathLike) -> None:
        """Opens and locks a store. Raises `StoreLocked`, `StoreBroken`, or `StoreFailed` if the lock's file can't be
        created."""
        self.path = Path(os.path.abspath(path))
        self.stored: Stored | None = None
        self.journal: Journal | None = None
        self.first = time.time_ns() // 1000  # Each call takes more than a microsecond.
        self.starts = 1
        self._paces: deque[float] = deque([1.0], maxlen=COMMITS)
        self._database: sqlite3.Connection | None = None
        self._written = Position("", "")
        self._pending = self._written, 0.0
        self._files: dict[str, tuple[int, int]] = {}
        self._lock = _locked(self.path)
        try:
            self._open()
        except BaseException:
            self.close()
            raise

    def _open(self) -> None:
        """Reads the stored position."""
        if not self.path.exists():
            return
        if not is_database(self.path):
            self.journal = Journal.read(self.path)
            self.first = self.journal.first or self.first
            return
        try:
            self._connect()
            self.stored = read(self._connection(), self.path)
            self._written = self.stored.position
            self._begin_run()
        except sqlite3.DatabaseError as error:
            raise _broken(self.path, error) from error

    def _connect(self) -> None:
        """Opens the database, and stores the identities of its files."""
        self._database = _connected(self.path)
        for name in (str(self.path), _lock_of(self.path)):
            found = os.stat(name)
            self._files[name] = (found.st_dev, found.st_ino)

    def _begin_run(self) -> None:
        """Counts this start."""
        database = self._connection()
        ((self.first, starts),) = database.execute("SELECT first, starts FROM home")
        self.starts = starts + 1
        try:
            database.execute("UPDATE home SET starts = ?", (self.starts,))
        except sqlite3.OperationalError as error:
            raise StoreFailed(f"{self.path}: {error}") from error

    def begin(self, stored: Stored) -> None:
        """Creates the database. A journal of an older form is kept beside it, with the ending `.old`. Raises
        `StoreFailed`."""
        fresh = Path(f"{self.path}.new")
        try:
            fresh.unlink(missing_ok=True)
            with contextlib.closing(sqlite3.connect(fresh, isolation_level=None)) as database:
                database.execute("PRAGMA synchronous = FULL")
                database.executescript(
                    f"BEGIN; PRAGMA application_id = {APPLICATION}; PRAGMA user_version = {VERSION};{SCHEMA}"
                )
                self._fill(database, stored)
                database.execute("COMMIT")
            if self.journal is not None:
                with contextlib.suppress(FileExistsError):
                    os.link(self.path, f"{self.path}.old")
            os.rename(fresh, self.path)
            _sync_folder(self.path.parent)
            self._connect()
        except (OSError, sqlite3.Error) as error:
            raise StoreFailed(f"{self.path}: {getattr(error, 'strerror', None) or error}") from error
        if self.journal is not None:
            self.journal.forget()
        self.stored, self.journal, self._written = stored, None, stored.position

    def _fill(self, database: sqlite3.Connection, stored: Stored) -> None:
        """Writes the first content of a new database."""
        value = json.dumps(stored.document.value)
        row = (1, value, "", "", 0, 0, 0, self.first, self.starts)
        database.execute("INSERT INTO home VALUES (?, ?, ?, ?, ?, ?, ?, ?, ?)", row)
        _write_position(database, Position("", ""), stored.position)
        for key, kept in stored.keys.items():
            _write_entry(database, KeyStored(key, kept))
        if stored.under_way is not None:
            _write_entry(database, CallBegun(stored.under_way, stored.request))

    def commit(self, position: Position, entries: Sequence[Entry]) -> None:
        """Writes the position and the entries, and returns when they are on the disk. An entry that is written again
        changes nothing. Raises `StoreFailed`."""
        self.write(position, entries)
        self.sync()

    def write(self, position: Position, entries: Sequence[Entry]) -> None:
        """Begins a commit without waiting for the disk. `sync` ends it. Raises `StoreFailed`."""
        database = self._connection()
        self._check_there()
        begun = time.perf_counter()
        try:
            database.execute("BEGIN IMMEDIATE")
            for entry in entries:
                _write_entry(database, entry)
            if not (len(entries) == 1 and isinstance(entries[0], CallBegun) and self._has_only_called(position)):
                _write_position(database, self._written, position)
        except BaseException as error:
            self._roll_back(database, error)
            raise
        self._pending = position, time.perf_counter() - begun

    def sync(self) -> None:
        """Ends a commit, and returns when it is on the disk. This may run in a thread. Raises `StoreFailed`."""
        database = self._connection()
        begun = time.perf_counter()
        try:
            database.execute("COMMIT")
        except BaseException as error:
            self._roll_back(database, error)
            raise
        self._written, seconds = self._pending
        self._paces.append(seconds + time.perf_counter() - begun)

    def _roll_back(self, database: sqlite3.Connection, error: BaseException) -> None:
        """Rolls the transaction back. Raises `StoreFailed` if its error is one of the database."""
        if database.in_transaction:
            database.execute("ROLLBACK")
        if isinstance(error, sqlite3.Error):
            raise StoreFailed(f"{self.path}: {error}") from error

    def _has_only_called(self, position: Position) -> bool:
        """Whether only the number of the newest call has changed, which is also in the history."""
        return position._replace(calls=self._written.calls) == self._written

    @property
    def pace(self) -> float:
        """The number of seconds of the quickest recent commit. Other work may have slowed down the rest."""
        return min(self._paces)

    def last_calls(self) -> dict[str, int]:
        """The number of the last call of each service that has one in the history."""
        if self._database is None:
            return {}
        return dict(self._database.execute("SELECT service, max(number) FROM calls GROUP BY service"))

    def _check_there(self) -> None:
        """Raises `StoreFailed` if a file was removed or replaced: another dispatcher may be at work then."""
        for name, file in self._files.items():
            try:
                found = os.stat(name)
            except OSError as error:
                raise StoreFailed(f"{name}: {error.strerror}") from None
            if (found.st_dev, found.st_ino) != file:
                raise StoreFailed(f"{name} was replaced while it was in use")

    def _connection(self) -> sqlite3.Connection:
        if self._database is None:
            raise StoreFailed(f"{self.path} wasn't begun")
        return self._database

    def close(self) -> None:
        """Closes the database, and releases its lock."""
        if self._database is not None:
            with contextlib.suppress(sqlite3.Error):
                self._database.close()
            self._database = None
        if self._lock >= 0:
            os.close(self._lock)
            self._lock = -1


# Opening.


def _lock_of(path: Path) -> str:
    return f"{path}.lock"


def _locked(path: Path) -> int:
    """Locks a store, until this process ends at the latest. Returns the file descriptor of the lock."""
    name = _lock_of(path)
    try:
        lock = os.open(name, os.O_RDWR | os.O_CREAT | os.O_CLOEXEC, 0o644)
    except OSError as error:
        raise StoreFailed(f"{name}: {error.strerror}") from error
    try:
        fcntl.flock(lock, fcntl.LOCK_EX | fcntl.LOCK_NB)
    except OSError:
        os.close(lock)
        raise StoreLocked(f"another dispatcher is at work on {path}") from None
    return lock


def _connected(path: Path) -> sqlite3.Connection:
    """Opens a connection that may write."""
    database = sqlite3.connect(path, isolation_level=None, check_same_thread=False)
    try:
        database.execute("PRAGMA journal_mode = WAL")
        database.execute("PRAGMA synchronous = FULL")
    except BaseException:
        database.close()
        raise
    return database


@contextlib.contextmanager
def open_read_only(path: PathLike) -> Iterator[sqlite3.Connection]:
    """Opens a read-only connection, also while a dispatcher is at work. Raises `StoreBroken`."""
    place = Path(os.path.abspath(path))
    try:
        with contextlib.closing(sqlite3.connect(f"{place.as_uri()}?mode=ro", uri=True)) as database:
            yield database
    except sqlite3.Error as error:
        raise _broken(place, error) from error


def _sync_folder(path: Path) -> None:
    folder = os.open(path, os.O_RDONLY | os.O_CLOEXEC)
    try:
        os.fsync(folder)
    finally:
        os.close(folder)


def _broken(path: Path, error: Exception) -> StoreBroken:
    return StoreBroken(f"{path}: {error}")


# Reading.


def read(database: sqlite3.Connection, path: Path) -> Stored:
    """Reads the content of a database. Raises `StoreBroken`."""
    try:
        _check_version(database)
        ((document, *numbers),) = database.execute(
            "SELECT document, target, environment, served, calls, changes FROM home"
        )
        rows = database.execute("SELECT name, behaviour, state, loose, frozen FROM services ORDER BY place")
        places = {
            name: Place(behaviour, state, bool(loose), None if frozen is None else Frozen(frozen))
            for name, behaviour, state, loose, frozen in rows
        }
        target, environment, served, calls, changes = numbers
        ((newest,),) = database.execute("SELECT max(number) FROM calls")
        calls = max(calls, newest or 0)
        position = Position(target, environment, places, served, calls, changes)
        keys = {
            key: _kept_of(json.loads(answer))
            for key, answer in database.execute("SELECT key, answer FROM keys ORDER BY place")
        }
        under_way, request, failures = _open_call(database)
        return Stored(Document(json.loads(document)), position, under_way, request, failures, keys)
    except (DocumentError, KeyError, TypeError, ValueError, RecursionError) as error:
        raise StoreBroken(f"{path}: {error!r}") from error
    except sqlite3.Error as error:
        raise _broken(path, error) from error


def _check_version(database: sqlite3.Connection) -> None:
    ((application,),) = database.execute("PRAGMA application_id")
    ((version,),) = database.execute("PRAGMA user_version")
    if application != APPLICATION:
        raise ValueError("it is the database of another program")
    if version != VERSION:
        raise ValueError(f"its schema has the version {version}, and this program knows {VERSION}")


def _open_call(database: sqlite3.Connection) -> tuple[Call | None, int, tuple[Failure, ...]]:
    """The call that is under way, the number of its request, and the earlier failures of that request."""
    row = database.execute(
        "SELECT service, action, requested, number, key, request FROM calls WHERE result IS NULL "
        "AND number = (SELECT max(number) FROM calls)"
    ).fetchone()
    if row is None:
        return None, 0, ()
    *words, request = row
    failed = database.execute(
        "SELECT service, requested, error FROM calls WHERE request = ? AND result = ? ORDER BY number",
        (request, FAILED),
    )
    failures = tuple(Failure(service, action, DeviceFailed(error), None) for service, action, error in failed)
    return Call(*words), request, failures


# Writing.


def _write_position(database: sqlite3.Connection, before: Position, now: Position) -> None:
    """Writes the changes of a position."""
    database.execute(
        "UPDATE home SET target = ?, environment = ?, served = ?, calls = ?, changes = ?",
        (now.target, now.environment, now.served, now.calls, now.changes),
    )
    if now.places is before.places:
        return
    known = before.places
    if list(now.places) != list(known):
        database.execute("DELETE FROM services")
        known = {}
    for name, place in now.places.items():
        if known.get(name) is not place:
            frozen = None if place.frozen is None else place.frozen.value
            database.execute(
                "INSERT INTO services (name, behaviour, state, loose, frozen) VALUES (?, ?, ?, ?, ?) "
                "ON CONFLICT (name) DO UPDATE "
                "SET state = excluded.state, loose = excluded.loose, frozen = excluded.frozen",
                (name, place.behaviour, place.state, place.loose, frozen),
            )


def _write_entry(database: sqlite3.Connection, entry: Entry) -> None:
    """Writes an entry of the history."""
    if isinstance(entry, CallBegun):
        _write_begun(database, entry)
    elif isinstance(entry, CallEnded):
        state, environment = entry.outcome or (None, None)
        database.execute(
            "UPDATE calls SET ended = ?, result = ?, state = ?, environment = ?, target = ?, error = ? "
            "WHERE number = ?",
            (time.time(), entry.result, state, environment, entry.target, storable(entry.error), entry.number),
        )
        if entry.number > HISTORY:
            database.execute("DELETE FROM calls WHERE number <= ?", (entry.number - HISTORY,))
    elif isinstance(entry, ChangeMade):
        cause = None if entry.cause is None else entry.cause.value
        row = (entry.number, time.time(), " ".join(entry.words), cause, storable(entry.source))
        database.execute("INSERT OR REPLACE INTO changes VALUES (?, ?, ?, ?, ?)", row)
        if entry.number > HISTORY:
            database.execute("DELETE FROM changes WHERE number <= ?", (entry.number - HISTORY,))
    else:
        for key in entry.dropped:
            database.execute("DELETE FROM keys WHERE key = ?", (key,))
        # A key that is stored again becomes the newest one.
        answer = json.dumps(_kept_to_json(entry.kept), separators=(",", ":"))
        database.execute("INSERT OR REPLACE INTO keys (key, answer) VALUES (?, ?)", (entry.key, answer))


def _write_begun(database: sqlite3.Connection, entry: CallBegun) -> None:
    call = entry.call
    row = (call.number, entry.request, call.request, call.action, call.service, call.key)
    database.execute(
        "INSERT OR REPLACE INTO calls (number, request, requested, action, service, key, source, reason, begun) "
        "VALUES (?, ?, ?, ?, ?, ?, ?, ?, ?)",
        (*row, storable(entry.source), storable(entry.reason), time.time()),
    )


def storable(text: str | None) -> str | None:
    """A text with question marks in place of single surrogates, which JSON may have and UTF-8 can't encode."""
    return None if text is None else text.encode(errors="replace").decode()


# The values of keys, as JSON.


def _kept_to_json(kept: Kept) -> dict[str, Any]:
    if isinstance(kept, Call):
        doubt = {"service": kept.service, "action": kept.action, "request": kept.request}
        return {"doubt": {**doubt, "number": kept.number, "key": kept.key}}
    done = {"action": kept.action, "service": kept.service, "state": kept.state, "target": kept.target}
    failures = [[each.service, each.action, each.text] for each in kept.failures]
    return {"done": {**done, "environment": kept.environment, "failures": failures}}


def _kept_of(value: Any) -> Kept:
    if "doubt" in value:
        doubt = value["doubt"]
        return Call(doubt["service"], doubt["action"], doubt["request"], doubt["number"], doubt["key"])
    done = value["done"]
    failures = tuple(Failure(service, action, DeviceFailed(error), None) for service, action, error in done["failures"])
    return Done(done["action"], done["service"], done["state"], done["target"], done["environment"], failures)


def result_of(verdict: Verdict) -> str:
    """The result of a call that was under way, by the verdict on it."""
    return {Verdict.DONE: SERVED, Verdict.NOT_DONE: NOT_DONE, Verdict.IN_DOUBT: IN_DOUBT}[verdict]
