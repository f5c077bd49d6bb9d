"""A running program behind two pipes, for asyncio."""

from __future__ import annotations

import asyncio
import contextlib
import os
import select
from collections import deque
from collections.abc import Awaitable, Callable, Coroutine
from types import CoroutineType
from typing import Any, Deque

from ..errors import NoReply, ProgramEnded
from ..protocol import Effect, Exchange, Start, Steps, Value, is_farewell

MOMENT = 1
"""The number of milliseconds that `exchange` waits for a reply before it returns a coroutine. Most replies come within
0.05 milliseconds, which isn't worth a turn of the loop."""

INPUT, ERRORS = 0, 2
"""The pipes that the loop reads and writes. `Streams` reads the program's output itself."""


class Streams(asyncio.SubprocessProtocol):
    """A program that was started. If it has died, no call waits for it."""

    def __init__(self, output: int, timeout: float | None) -> None:
        """`output` is the end of a pipe from which the program's output is read."""
        self._timeout = timeout
        self._loop = asyncio.get_running_loop()
        self._transport: asyncio.SubprocessTransport
        self._input: asyncio.WriteTransport
        self._output = output
        self._ready = select.poll()
        self._ready.register(output, select.POLLIN)
        self._begun = bytearray()
        self._lines: list[str] = []
        self._reply: asyncio.Future[None] | None = None
        self._until = 0.0
        self._timer: asyncio.TimerHandle | None = None
        self._given_up = False
        self._ended: ProgramEnded | None = None
        self._errors: Deque[bytes] = deque(maxlen=64)
        self._said_all = asyncio.Event()
        self._deaf = asyncio.Event()
        self._silent = asyncio.Event()
        self._exited = asyncio.Event()

    @classmethod
    async def start(cls, start: Start, timeout: float | None) -> Streams:
        """Starts a program."""
        loop = asyncio.get_running_loop()
        output, end = os.pipe()
        os.set_blocking(output, False)
        try:
            (_, streams), interrupt = await to_its_end(
                loop.subprocess_exec(
                    lambda: cls(output, timeout),
                    *start.words,
                    stdout=end,
                    cwd=start.folder,
                    start_new_session=True,  # Ctrl-C doesn't end it.
                )
            )
        except BaseException:
            loop.remove_reader(output)  # Or the next file with this number couldn't be read.
            os.close(output)
            raise
        finally:
            os.close(end)
        if interrupt is not None:
            await streams.stop()
            raise interrupt
        return streams

    # Callbacks of the loop.

    def connection_made(self, transport: asyncio.BaseTransport) -> None:
        assert isinstance(transport, asyncio.SubprocessTransport)
        self._transport = transport
        pipe = transport.get_pipe_transport(INPUT)
        assert isinstance(pipe, asyncio.WriteTransport)
        self._input = pipe
        self._loop.add_reader(self._output, self._read)

    def pipe_data_received(self, fd: int, data: bytes) -> None:
        self._errors.append(data)

    def pipe_connection_lost(self, fd: int, exc: Exception | None) -> None:
        if fd == ERRORS:
            self._silent.set()
        else:
            self._deaf.set()
            self._wake()

    def process_exited(self) -> None:
        self._exited.set()

    def _read(self) -> None:
        """Reads what the program has written."""
        try:
            data = os.read(self._output, 1 << 18)
        except BlockingIOError:
            return
        self._begun += data
        if not data:
            self._loop.remove_reader(self._output)
            self._said_all.set()
            self._wake()
        elif b"\n" in data:
            *whole, self._begun = self._begun.split(b"\n")
            self._lines += [line.decode(errors="replace") for line in whole]
            self._wake()

    def _wake(self) -> None:
        """Wakes the call that waits."""
        if self._reply is not None and not self._reply.done():
            self._reply.set_result(None)

    # Calls.

    @property
    def pid(self) -> int:
        """The process ID of the program."""
        pid = self._transport.get_pid()
        assert pid is not None
        return pid

    def poll(self) -> int | None:
        """The program's status, or None while it runs."""
        return self._transport.get_returncode()

    def exchange(self, exchange: Exchange) -> list[str] | Coroutine[Any, Any, list[str]]:
        """Sends a line, and returns the lines of its reply, or a coroutine that waits for them. If this fails or is
        cancelled, the program is ended: the rest of its reply would be taken for the next one."""
        if self._ended is not None:
            raise self._ended.again()
        if not self._deaf.is_set() and not self._given_up:
            self._input.write(exchange.data)
            if not self._said_all.is_set() and self._ready.poll(MOMENT):
                self._read()
                if self._is_whole(exchange):
                    return self._taken(exchange)
        return self._whole(exchange)

    def _is_whole(self, exchange: Exchange) -> bool:
        """Whether the whole reply has been read."""
        if not self._lines or self._given_up:
            return False
        if exchange.is_long(self._lines[0]):
            return "end" in self._lines
        return not is_farewell(self._lines[0])

    def _taken(self, exchange: Exchange) -> list[str]:
        """The lines of the reply."""
        length = self._lines.index("end") + 1 if exchange.is_long(self._lines[0]) else 1
        reply, self._lines = self._lines[:length], self._lines[length:]
        return reply

    async def _whole(self, exchange: Exchange) -> list[str]:
        """Waits for the reply. Raises `ProgramEnded` if the program writes nothing more, and `NoReply` at the
        deadline."""
        try:
            self._set_deadline()
            while not self._is_whole(exchange):
                is_over = self._said_all.is_set() or self._deaf.is_set() or self._given_up
                if is_over or self._lines and not exchange.is_long(self._lines[0]):
                    raise await self._ending()
                self._reply = self._loop.create_future()
                await self._reply
            return self._taken(exchange)
        except BaseException:
            self._given_up = True  # What follows may be cancelled, too.
            await self.stop()
            raise
        finally:
            self._reply = None

    def _set_deadline(self) -> None:
        """Sets the deadline of the reply. One timer serves many replies: if it fires too early, it is set again."""
        if self._timeout is None:
            return
        self._until = self._loop.time() + self._timeout
        if self._timer is None or self._timer.when() > self._until:
            self._set_timer()

    def _set_timer(self) -> None:
        if self._timer is not None:
            self._timer.cancel()
        self._timer = self._loop.call_at(self._until, self._check_time)

    def _check_time(self) -> None:
        self._timer = None
        if self._reply is None or self._reply.done():
            return
        if self._loop.time() < self._until:
            self._set_timer()
        else:
            self._reply.set_exception(NoReply(f"no whole reply within {self._timeout} seconds"))

    # The end.

    async def _ending(self) -> ProgramEnded:
        """Returns how the program ended, with its last output. A program that only closed its output is ended."""
        await happens(self._said_all, 1)
        status = await self._wait(1)
        said = [*self._lines, *([self._begun.decode(errors="replace")] if self._begun else [])]
        self._ended = ProgramEnded(status, said, self._error_lines())
        return self._ended

    async def _wait(self, seconds: float) -> int:
        """Waits that long for the program, then ends it, and returns its status."""
        if not await happens(self._exited, seconds):
            with contextlib.suppress(ProcessLookupError):
                self._transport.kill()
        await self._exited.wait()
        await happens(self._silent, 0.2)
        status = self._transport.get_returncode()
        assert status is not None
        return status

    async def close(self) -> int:
        """Closes the input, ends the program if it doesn't end by itself, and returns its status."""
        self._input.close()
        await self._wait(5 if self._timeout is None else min(5, self._timeout))
        return await self.stop()

    async def stop(self) -> int:
        """Ends the program, and returns its status."""
        status = self._transport.get_returncode()
        if status is None:
            status = await self._wait(0)
        if self._ended is None:
            self._ended = ProgramEnded(status, (), self._error_lines())
        if self._timer is not None:
            self._timer.cancel()
        self._transport.close()
        if self._output >= 0:
            self._loop.remove_reader(self._output)
            os.close(self._output)
            self._output = -1
        return status

    def _error_lines(self) -> list[str]:
        return b"".join(self._errors).decode(errors="replace").splitlines()[-16:]


async def happens(event: asyncio.Event, seconds: float | None) -> bool:
    """Waits that long for an event, also in a task that was cancelled. Returns whether it is set."""
    # In Python 3.11 `wait_for` drops a cancellation that comes with the event, and `timeout` raises an earlier one.
    waiting = asyncio.ensure_future(event.wait())
    try:
        await asyncio.wait({waiting}, timeout=seconds)
    finally:
        waiting.cancel()
    return event.is_set()


async def to_its_end(work: Awaitable[Value]) -> tuple[Value, asyncio.CancelledError | None]:
    """The value of a work, and the cancellation of the present task if that came meanwhile. It doesn't cancel the work,
    and the caller has to raise it. An error of the work is dropped then. Processes are started so: if asyncio's start
    is cancelled, it ends the process alone, and waits until what that has started closes its pipes."""
    task = asyncio.ensure_future(work)
    interrupt: asyncio.CancelledError | None = None
    while not task.done():
        try:
            await asyncio.wait({task})
        except asyncio.CancelledError as error:
            interrupt = error
    if interrupt is not None and (task.cancelled() or task.exception() is not None):
        raise interrupt
    return task.result(), interrupt


async def abandon(pipe: asyncio.StreamWriter) -> None:
    """Closes a pipe to a process that has ended. If the process left a line unread, the error is dropped here: asyncio
    reports errors that are never retrieved."""
    if not pipe.transport.is_closing() or pipe.transport.get_write_buffer_size():
        pipe.transport.abort()
    with contextlib.suppress(OSError):
        await asyncio.shield(asyncio.ensure_future(pipe.wait_closed()))


async def run(steps: Steps[Value], perform: Callable[[Effect], Any], begun: Any = None) -> Value:
    """Performs the effects one by one, and returns the value of the steps. A result that is a coroutine is awaited.
    `begun` is the coroutine of an effect that the steps have yielded already."""
    try:
        effect: Any = None if begun else next(steps)
        while True:
            try:
                result = begun or perform(effect)
                if type(result) is CoroutineType:
                    result = await result
            except BaseException as error:
                effect = steps.throw(error)
            else:
                effect = steps.send(result)
            begun = None
    except StopIteration as end:
        value: Value = end.value
        return value


def advance(steps: Steps[Value], perform: Callable[[Effect], Any]) -> Value | Coroutine[Any, Any, Value]:
    """Performs the effects until one has to be awaited. Returns the value of the steps, or a coroutine that performs
    the rest."""
    try:
        effect = next(steps)
        while True:
            try:
                result = perform(effect)
            except BaseException as error:
                effect = steps.throw(error)
            else:
                if type(result) is CoroutineType:
                    return run(steps, perform, result)
                effect = steps.send(result)
    except StopIteration as end:
        value: Value = end.value
        return value
