"""A running program behind two pipes, for callers that block."""

from __future__ import annotations

import os
import selectors
import subprocess
import time
from collections import deque
from typing import Deque

from .errors import NoReply, ProgramEnded
from .protocol import Exchange, Start, is_farewell


class Pipes:
    """A program that was started. If it has died, no call waits for it."""

    def __init__(self, start: Start, timeout: float | None) -> None:
        self._timeout = timeout
        self._until: float | None = None
        self._lines: Deque[str] = deque()
        self._begun = bytearray()
        self._ended: ProgramEnded | None = None
        self._errors: Deque[bytes] = deque(maxlen=64)
        self.process = subprocess.Popen(
            start.words,
            stdin=subprocess.PIPE,
            stdout=subprocess.PIPE,
            stderr=subprocess.PIPE,
            cwd=start.folder,
            bufsize=0,
            start_new_session=True,  # Ctrl-C doesn't end it.
        )
        assert self.process.stdin is not None
        os.set_blocking(self.process.stdin.fileno(), False)
        self._watch = selectors.DefaultSelector()
        for stream in (self.process.stdout, self.process.stderr):
            assert stream is not None
            os.set_blocking(stream.fileno(), False)
            self._watch.register(stream, selectors.EVENT_READ)

    @property
    def pid(self) -> int:
        """The process ID of the program."""
        return self.process.pid

    def poll(self) -> int | None:
        """The program's status, or None while it runs."""
        return self.process.poll()

    def exchange(self, exchange: Exchange) -> list[str]:
        """Sends a line, and reads its whole reply. If this fails, the program is ended: the rest of its reply would be
        taken for the next one."""
        if self._ended is not None:
            raise self._ended.again()
        self._until = None if self._timeout is None else time.monotonic() + self._timeout
        try:
            self._send(exchange.data)
            lines = [self._next_line()]
            if exchange.is_long(lines[0]):
                while lines[-1] != "end":
                    lines.append(self._next_line())
            elif is_farewell(lines[0]):
                self._lines.appendleft(lines[0])
                raise self._ending()
            return lines
        except BaseException:
            self.stop()
            raise

    def interrupt(self) -> None:
        """Ends the program, so that the thread that waits for a reply stops waiting."""
        self.process.kill()

    def close(self) -> int:
        """Closes the input, ends the program if it doesn't end by itself, and returns its status."""
        assert self.process.stdin is not None
        try:
            self.process.stdin.close()
        except OSError:
            pass
        try:
            self.process.wait(timeout=5 if self._timeout is None else min(5, self._timeout))
        except subprocess.TimeoutExpired:
            pass
        return self.stop()

    def stop(self) -> int:
        """Ends the program, closes its pipes, and returns its status."""
        if self.process.poll() is None:
            self.process.kill()
        status = self.process.wait()
        if self._ended is None:
            self._ended = ProgramEnded(status, (), self._error_lines())
        self._watch.close()
        for stream in (self.process.stdin, self.process.stdout, self.process.stderr):
            if stream is not None and not stream.closed:
                try:
                    stream.close()
                except OSError:
                    pass
        return status

    def _send(self, data: bytes) -> None:
        """Writes a line. The program has read all earlier lines, so the pipe has room for it, unless the line is longer
        than the pipe. The rest of such a line waits for the program to read, until the deadline of the reply."""
        assert self.process.stdin is not None
        try:
            while True:
                data = data[self.process.stdin.write(data) or 0 :]
                if not data:
                    return
                self._wait(0.01)
                if self._is_late():
                    raise self._no_reply()
        except (BrokenPipeError, ValueError):
            raise self._ending() from None

    def _next_line(self) -> str:
        """Returns the next line of a reply. Raises `NoReply` at the deadline that `exchange` set."""
        while not self._lines:
            self._wait(0.2)
            if not self._lines and self._is_late():
                raise self._no_reply()
        return self._lines.popleft()

    def _wait(self, seconds: float) -> None:
        """Waits that long for something to read, but not past the deadline."""
        left = seconds if self._until is None else self._until - time.monotonic()
        if not self._gather(min(seconds, left)):
            raise self._ending()

    def _is_late(self) -> bool:
        """Whether the deadline has passed."""
        return self._until is not None and time.monotonic() >= self._until

    def _no_reply(self) -> NoReply:
        return NoReply(f"no whole reply within {self._timeout} seconds")

    def _gather(self, seconds: float) -> bool:
        """Waits that long for something to read, and reads it. Returns false if nothing more can come: the program has
        closed its output, or has ended with nothing left to read."""
        gone = self.process.poll() is not None
        ready = self._watch.select(max(seconds, 0))
        for key, _ in ready:
            data = os.read(key.fd, 65536)
            if not data:
                self._watch.unregister(key.fileobj)
            elif key.fileobj is self.process.stdout:
                self._begun += data
                *whole, rest = self._begun.split(b"\n")
                self._lines.extend(line.decode(errors="replace") for line in whole)
                self._begun = bytearray(rest)
            else:
                self._errors.append(data)
        if self.process.stdout not in self._watch.get_map():
            return False
        return bool(ready) or not gone

    def _ending(self) -> ProgramEnded:
        """Returns how the program ended, with its last output. A program that only closed its output is ended."""
        while self._watch.get_map() and self._gather(0.2):
            pass
        try:
            status = self.process.wait(timeout=1)
        except subprocess.TimeoutExpired:
            self.process.kill()
            status = self.process.wait()
        self._drain_errors()
        output = [*self._lines, *([self._begun.decode(errors="replace")] if self._begun else [])]
        self._ended = ProgramEnded(status, output, self._error_lines())
        return self._ended

    def _drain_errors(self) -> None:
        """Reads the rest of the program's standard error."""
        assert self.process.stderr is not None
        try:
            while True:
                data = os.read(self.process.stderr.fileno(), 65536)
                if not data:
                    return
                self._errors.append(data)
        except (BlockingIOError, ValueError, OSError):
            return

    def _error_lines(self) -> list[str]:
        return b"".join(self._errors).decode(errors="replace").splitlines()[-16:]
