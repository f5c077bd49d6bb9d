"""Devices that are commands: one for each call, or one that keeps running and reads lines."""

from __future__ import annotations

import asyncio
import contextlib
import os
import re
import shutil
import signal
from collections.abc import Iterator
from typing import Any

from roman_client import Call, DeviceFailed, DeviceLost
from roman_client.aio.streams import abandon, to_its_end

from ..config import CommandReach
from ..errors import check_file_limit
from ..limits import one_line
from ..processes import Processes, lock, unlock
from .base import LONGEST_ANSWER, STATE_WORD, Answer, Listener, Reach, short

REST = 0.5
"""The number of seconds to wait for the rest of the output of a command that has ended. A process that it left running
may keep the output open."""

STILL = "is still at work on an earlier call, and this home may not end it: it runs for another user"
"""The error if a command that was given up still runs, for example because sudo runs it."""


class Command(Reach):
    """A device that is a command with the action as its last word. It writes one line with its state and that of the
    environment, and ends with status 0. With `?` as the action it reports its present state."""

    reached = "command"

    def __init__(
        self, service: str, listener: Listener, entry: CommandReach, processes: Processes, before: int | None
    ) -> None:
        super().__init__(service, listener)
        self._entry = entry
        self._processes = processes
        self._before = before
        self._left: asyncio.SubprocessTransport | None = None

    def hindrance(self) -> str | None:
        return _hindrance(self._entry)

    async def ask(self, number: int, call: Call) -> Answer:
        self._check_free()
        with self._processes.at_work(number) as file:
            return await self._run(call.action, number, (file,))

    async def tell(self, number: int | None, call: Call | None = None) -> Answer | None:
        self._check_free()
        return await self._run(STATE_WORD, number, ())

    def _check_free(self) -> None:
        """Raises DeviceFailed while an earlier command is at work."""
        if self._left is not None and self._left.get_returncode() is None:
            raise DeviceFailed(STILL)
        if self._before is not None:
            _check_ended(self._processes, self._before)
            self._before = None

    async def _run(self, word: str, number: int | None, holds: tuple[int, ...]) -> Answer:
        """Runs the command once. Ends those of its processes that still run afterwards, or when this is cancelled."""
        loop = asyncio.get_running_loop()
        with _naming(self._entry):
            start = loop.subprocess_exec(
                CommandOutput,
                *self._entry.command,
                word,
                stdin=asyncio.subprocess.DEVNULL,
                **_around(self._entry, number, holds),
            )
            (transport, written), interrupt = await to_its_end(start)
        try:
            if interrupt is not None:
                raise interrupt
            await written.ended
            await asyncio.wait({written.closed}, timeout=REST)
        finally:
            ends = transport.get_returncode() is not None or _kill(transport.get_pid())
            with contextlib.suppress(PermissionError):  # Closing would end the command, too.
                transport.close()
            if ends:
                await asyncio.wait({written.closed})
            else:
                self._left = transport
        status = transport.get_returncode()
        if status != 0:
            last = written.errors.decode(errors="replace").strip().splitlines()[-1:]
            raise DeviceFailed(f"ended with status {status}: {one_line(''.join(last))}".rstrip(": "))
        return _answer(bytes(written.output))


class CommandOutput(asyncio.SubprocessProtocol):
    """The `output` of a command that runs once, and the last bytes of its `errors`. `ended` is done when the command
    has ended or has written more than `most` bytes, and `closed` when no process can write any more."""

    def __init__(self, most: int = LONGEST_ANSWER) -> None:
        self._most = most
        loop = asyncio.get_running_loop()
        self.output, self.errors = bytearray(), bytearray()
        self.ended: asyncio.Future[None] = loop.create_future()
        self.closed: asyncio.Future[None] = loop.create_future()

    def pipe_data_received(self, fd: int, data: bytes) -> None:
        if fd == 2:
            self.errors += data
            del self.errors[:-LONGEST_ANSWER]
        elif len(self.output) <= self._most:
            self.output += data
            if len(self.output) > self._most and not self.ended.done():
                self.ended.set_exception(DeviceFailed(f"answered more than {self._most} bytes"))

    def process_exited(self) -> None:
        if not self.ended.done():
            self.ended.set_result(None)

    def connection_lost(self, error: Exception | None) -> None:
        self.closed.set_result(None)


class LineCommand(Reach):
    """A command that keeps running. It reads a line for each call, and writes one with its state and that of the
    environment. It answers `?` with its present state.

    If it is numbered, each line begins with the number of a call, and so does the answer. So a late answer is
    recognised. A line that begins with `-` reports a move by itself. A command without numbers is ended if it is late
    or writes an unexpected line, since this line could be taken for the answer to another call. A command that doesn't
    report its state in time is ended, too. The next call restarts it.
    """

    reached = "command"

    def __init__(
        self, service: str, listener: Listener, entry: CommandReach, processes: Processes, before: int | None
    ) -> None:
        super().__init__(service, listener)
        self._entry = entry
        self._processes = processes
        self._before = before
        self._file = -1
        self._process: asyncio.subprocess.Process | None = None
        self._left: asyncio.subprocess.Process | None = None
        self._listening: set[asyncio.Task[None]] = set()
        self._waiting: tuple[int, asyncio.Future[Answer]] | None = None
        self._last = 0
        self._turn = asyncio.Lock()

    def hindrance(self) -> str | None:
        return _hindrance(self._entry)

    def _close_file(self) -> None:
        """Closes the file with the locks of a command that has ended."""
        if self._file >= 0:
            os.close(self._file)
            self._file = -1

    async def close(self) -> None:
        if self._process is not None:
            await self._drop(self._process)
        self._close_file()
        if self._listening:
            _, deaf = await asyncio.wait(self._listening, timeout=REST)
            for task in deaf:
                task.cancel()

    async def ask(self, number: int, call: Call) -> Answer:
        async with self._turn:
            process = await self._running()
            lock(self._file, number)  # Until it answers. A late command holds the lock until it ends.
            answer = await self._exchange(process, number, call.action)
            unlock(self._file, number)
            return answer

    async def tell(self, number: int | None, call: Call | None = None) -> Answer | None:
        async with self._turn:
            self._last -= 1  # No call has a number below 0.
            return await self._exchange(await self._running(), self._last, STATE_WORD)

    async def _exchange(self, process: asyncio.subprocess.Process, number: int, word: str) -> Answer:
        """Writes a line, and waits for its answer."""
        answer: asyncio.Future[Answer] = asyncio.get_running_loop().create_future()
        self._waiting = number, answer
        try:
            assert process.stdin is not None
            line = f"{number} {word}\n" if self._entry.numbered else f"{word}\n"
            process.stdin.write(line.encode())
            await process.stdin.drain()
            return await answer
        except OSError as error:
            await self._drop(process)
            raise DeviceFailed(f"can't be reached: {error}") from None
        except asyncio.CancelledError:
            if not self._entry.numbered or word == STATE_WORD:
                await self._drop(process)
            raise
        finally:
            self._waiting = None
            if answer.done() and not answer.cancelled():
                answer.exception()  # Marks the error as retrieved, if the command ended before it had read the line.

    async def _running(self) -> asyncio.subprocess.Process:
        """Returns the command, and starts it if it doesn't run."""
        if self._left is not None and self._left.returncode is None:
            raise DeviceFailed(STILL)
        if self._before is not None:
            _check_ended(self._processes, self._before)
            self._before = None
        if self._process is None or self._process.returncode is not None:
            self._close_file()
            self._file = self._processes.open()
            self._process = await _start(self._entry, (self._file,))
            listening = asyncio.ensure_future(self._listen(self._process))
            self._listening.add(listening)
            listening.add_done_callback(self._listening.discard)
        return self._process

    async def _listen(self, process: asyncio.subprocess.Process) -> None:
        """Reads the lines of the command, until it ends or writes a line that belongs to no call."""
        assert process.stdin is not None and process.stdout is not None
        try:
            while True:
                line = await process.stdout.readline()
                if process is not self._process:
                    return
                if not line.endswith(b"\n"):
                    raise DeviceLost("ended in place of an answer" if self._awaited(None) else "ended")
                self._hear(line.strip())
        except DeviceFailed as error:
            await self._fail(process, error)
        except ValueError:
            await self._fail(process, DeviceFailed(f"wrote a line of more than {LONGEST_ANSWER} bytes"))
        finally:
            await abandon(process.stdin)

    def _hear(self, line: bytes) -> None:
        """Handles a line. Raises DeviceFailed if it belongs to no call."""
        if self._entry.numbered:
            self._hear_numbered(line)
            return
        answer = self._awaited(None)
        if answer is None:
            raise DeviceFailed(f"wrote {short(line)}, which nobody asked for")
        answer.set_result(_answer(line))
        self.listener.answered(self.service)

    def _hear_numbered(self, line: bytes) -> None:
        first, _, rest = line.partition(b" ")
        if first == b"-":
            self.listener.moved(self.service, _answer(rest))
            return
        if not re.fullmatch(rb"-?[0-9]{1,18}", first):
            raise DeviceFailed(f"wrote {short(line)}, which begins with no number")
        answer = self._awaited(int(first))
        if answer is None:
            self.listener.late(self.service, f"answered to {int(first)}, which nobody waits for")
            return
        try:
            answer.set_result(_answer(rest))
        except DeviceFailed as error:
            answer.set_exception(error)
        self.listener.answered(self.service)

    def _awaited(self, number: int | None) -> asyncio.Future[Answer] | None:
        """The answer for which `_exchange` waits, None if it waits for that to another number."""
        if self._waiting is None or self._waiting[1].done():
            return None
        return self._waiting[1] if number in (None, self._waiting[0]) else None

    async def _fail(self, process: asyncio.subprocess.Process, error: DeviceFailed) -> None:
        """Ends the command, and passes the error to the call that waits. If no call waits, the error is reported as a
        late answer."""
        if process is not self._process:
            return
        answer = self._awaited(None)
        if answer is not None:
            answer.set_exception(error)
        else:
            self.listener.late(self.service, str(error))
        await self._drop(process)

    async def _drop(self, process: asyncio.subprocess.Process) -> None:
        """Ends the command. Its further output is ignored."""
        if process is self._process:
            self._process = None
        if process.returncode is not None:
            return
        if _kill(process.pid):
            await _ended(process)
        else:
            assert process.stdin is not None
            process.stdin.close()  # A well-behaved command ends at the end of its input.
            self._left = process


def _around(entry: CommandReach, number: int | None, holds: tuple[int, ...]) -> dict[str, Any]:
    """The surroundings of a command: a group of its own, the folder of the home file, and these files open. The number
    of its call is in its environment."""
    known = {} if number is None else {"ROMAN_CALL": str(number)}
    env = {**os.environ, **known}
    return {"cwd": entry.folder, "env": env, "start_new_session": True, "pass_fds": holds}


def _hindrance(entry: CommandReach) -> str | None:
    """Why a command can't be run, as far as this can be checked without running it."""
    word = entry.command[0]
    path = str(entry.folder / word) if "/" in word else word
    if shutil.which(path) is not None:
        return None
    if "/" not in word:
        return f"{word} isn't in PATH"
    return f"{word} may not be executed, as after chmod +x" if os.path.exists(path) else f"{word} isn't there"


@contextlib.contextmanager
def _naming(entry: CommandReach) -> Iterator[None]:
    """Raises DeviceFailed with the name of a command if it can't be started, and NoSpace at the limit of open files."""
    try:
        yield
    except OSError as error:
        check_file_limit(error)
        raise DeviceFailed(f"{entry.command[0]} can't be started: {error.strerror}") from None


async def _start(entry: CommandReach, holds: tuple[int, ...]) -> asyncio.subprocess.Process:
    """Starts a command that keeps running."""
    start = asyncio.create_subprocess_exec(
        *entry.command,
        stdin=asyncio.subprocess.PIPE,
        stdout=asyncio.subprocess.PIPE,
        limit=LONGEST_ANSWER,
        **_around(entry, None, holds),
    )
    with _naming(entry):
        process, interrupt = await to_its_end(start)
    if interrupt is not None:
        _kill(process.pid)
        await _ended(process)
        raise interrupt
    return process


async def _ended(process: asyncio.subprocess.Process) -> None:
    """Waits for the end of a command that was killed, and closes its pipes. A process outside of its group may keep
    them open."""
    await asyncio.wait({asyncio.ensure_future(process.wait())}, timeout=REST)
    process._transport.close()  # type: ignore[attr-defined]  # There is no public call for this.


def _check_ended(processes: Processes, number: int) -> None:
    """Raises DeviceFailed if the command of an earlier run's call is still at work."""
    if processes.is_at_work(number):
        raise DeviceFailed("is still at work on a call of an earlier run of this home")


def _kill(group: int) -> bool:
    """Ends all processes of a group. Returns False if the home may end none of them."""
    try:
        with contextlib.suppress(ProcessLookupError):
            os.killpg(group, signal.SIGKILL)
    except PermissionError:
        return False
    return True


def _answer(data: bytes) -> Answer:
    """The answer in a line: a state, and that of the environment if it is known."""
    lines = data.decode(errors="replace").splitlines()
    words = lines[0].split() if lines else []
    if len(lines) != 1 or not 1 <= len(words) <= 2:
        raise DeviceFailed(f"answered {short(data)}, and not a line with its state and the environment's")
    return Answer(words[0], words[1] if len(words) == 2 else None)
