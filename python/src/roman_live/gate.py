"""Limits the number of connections to the page, and the time for which they may be silent."""

from __future__ import annotations

import asyncio
import logging
from collections.abc import Callable

from .limits import Limits

LOG = logging.getLogger("roman_live.http_api")

LONGEST_HEAD = 524_288
"""The maximum number of bytes that are read from a connection for one request. It is more than that of a body, because
the system passes up to 262,144 bytes at once."""


class Gate:
    """Makes the connections of a server. If there are too many, a new connection replaces the one that has been silent
    longest, preferably one that has never made a request. A connection whose request is being served stays open."""

    def __init__(self, make: Callable[[], asyncio.Protocol], limits: Limits) -> None:
        """`make` makes the protocol that serves a connection."""
        self.limits = limits
        self._make = make
        self._open: dict[asyncio.BaseProtocol, Connection] = {}
        self._new: dict[Connection, float] = {}
        self._silent: dict[Connection, float] = {}
        self._timer: asyncio.TimerHandle | None = None

    def __call__(self) -> asyncio.Protocol:
        return Connection(self, self._make())

    def begun(self, protocol: asyncio.BaseProtocol) -> None:
        """A complete request has come, and is being served."""
        connection = self._open.get(protocol)
        if connection is not None:
            self._forget(connection)
            connection.read = 0

    def ended(self, protocol: asyncio.BaseProtocol) -> None:
        """A request was answered. The connection is silent until its next one."""
        connection = self._open.get(protocol)
        if connection is not None:
            self._forget(connection)
            connection.read = 0
            self._expect(connection, self._silent)

    def enter(self, connection: Connection) -> bool:
        """Registers a new connection. Returns False if all connections have a request."""
        if len(self._open) >= self.limits.connections:
            oldest = next(iter(self._new or self._silent), None)
            if oldest is None:
                LOG.warning("connections are refused: %d are open, which all have a request", len(self._open))
                return False
            LOG.warning("silent connections are closed: more than %d are open", self.limits.connections)
            oldest.end()
            self.leave(oldest)
        self._open[connection.inner] = connection
        self._expect(connection, self._new)
        return True

    def leave(self, connection: Connection) -> None:
        """Removes a closed connection."""
        self._open.pop(connection.inner, None)
        self._forget(connection)

    def _forget(self, connection: Connection) -> None:
        self._new.pop(connection, None)
        self._silent.pop(connection, None)

    def _expect(self, connection: Connection, waiting: dict[Connection, float]) -> None:
        """Sets the time by which a connection has to send a complete request."""
        loop = asyncio.get_running_loop()
        waiting[connection] = loop.time() + self.limits.silence
        if self._timer is None:
            self._timer = loop.call_at(waiting[connection], self._end_silent)

    def _end_silent(self) -> None:
        """Closes the connections whose time is over, and sets the timer to the next such time."""
        self._timer = None
        loop = asyncio.get_running_loop()
        for waiting in (self._new, self._silent):
            for connection, until in list(waiting.items()):
                if until > loop.time():
                    break
                self._forget(connection)
                connection.end()
        ends = [until for waiting in (self._new, self._silent) for until in list(waiting.values())[:1]]
        if ends:
            self._timer = loop.call_at(min(ends), self._end_silent)


class Connection(asyncio.Protocol):
    """A connection. It passes everything to the protocol `inner`. The gate closes it if it is silent for too long."""

    def __init__(self, gate: Gate, inner: asyncio.Protocol) -> None:
        self.inner = inner
        self.read = 0
        """The number of bytes that were read of its present request."""
        self._gate = gate
        self._transport: asyncio.Transport | None = None

    def end(self) -> None:
        """Closes the connection at once."""
        if self._transport is not None:
            self._transport.abort()

    def connection_made(self, transport: asyncio.BaseTransport) -> None:
        assert isinstance(transport, asyncio.Transport)
        if not self._gate.enter(self):
            transport.abort()
            return
        self._transport = transport
        self.inner.connection_made(transport)

    def connection_lost(self, exc: Exception | None) -> None:
        if self._transport is None:
            return
        self._gate.leave(self)
        self.inner.connection_lost(exc)

    def data_received(self, data: bytes) -> None:
        self.read += len(data)
        if self.read > LONGEST_HEAD:
            self.end()
        else:
            self.inner.data_received(data)

    def eof_received(self) -> bool | None:
        return self.inner.eof_received()

    def pause_writing(self) -> None:
        self.inner.pause_writing()

    def resume_writing(self) -> None:
        self.inner.resume_writing()
