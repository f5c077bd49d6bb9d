"""Sessions within this process, by libroman, in place of a program behind two pipes."""

from __future__ import annotations

import ctypes
import json
import os
from collections.abc import Iterator
from functools import lru_cache
from pathlib import Path
from typing import Any, Union

from .documents import PathLike
from .errors import ProgramEnded
from .protocol import Exchange, Start

Library = Union[bool, PathLike]
"""True for the installed library, or the path of a shared library. False is for a session by the program."""

NAME = "libroman.so.1"
UNLIMITED = 1 << 62
"""The number of bytes of lines that a session of the library accepts: its sessions never have to be renewed."""

CLOSED, MISSING, MEMORY, QUIT = 2, 5, 9, 1
"""Statuses of `roman.h`."""


class Handle(ctypes.Structure):
    """A handle of a shelf or a session of the library. It begins empty."""

    _fields_ = [("at", ctypes.c_void_p), ("full", ctypes.c_bool)]


@lru_cache(maxsize=None)
def load_library(path: str) -> ctypes.CDLL:
    """Loads the library at a path. Raises OSError if it can't be loaded."""
    library = ctypes.CDLL(path)
    handle = ctypes.POINTER(Handle)
    text = [ctypes.c_char_p, ctypes.c_size_t]
    library.roman_add.argtypes = [handle, *text, *text]
    library.roman_open.argtypes = [handle, handle, *text]
    library.roman_synth.argtypes = [handle, handle, *text]
    library.roman_check.argtypes = [handle, handle, *text, *text]
    library.roman_answer.argtypes = [handle, *text]
    library.roman_reply.argtypes = [handle, ctypes.c_size_t, *text]
    library.roman_reply.restype = ctypes.c_size_t
    library.roman_close.argtypes = library.roman_clear.argtypes = [handle]
    library.roman_close.restype = library.roman_clear.restype = None
    return library


def part_names(text: bytes) -> Iterator[str]:
    """The names of the part files in a document, which may be invalid."""
    try:
        document = json.loads(text)
    except (ValueError, RecursionError):
        return
    members: list[Any] = [*document.values()] if isinstance(document, dict) else []
    for member in members:
        for part in member if isinstance(member, list) else [member]:
            if isinstance(part, dict) and isinstance(part.get("file"), str):
                yield part["file"]


def put_system(library: ctypes.CDLL, shelf: Handle, system: str, folder: Path, errors: list[str]) -> None:
    """Puts a document and its part files on the shelf. Files that can't be read are left out, and reported in
    `errors`."""
    text = put_file(library, shelf, system, folder, errors)
    for name in dict.fromkeys(part_names(text)):
        if name != system:
            put_file(library, shelf, name, folder, errors)


def put_file(library: ctypes.CDLL, shelf: Handle, name: str, folder: Path, errors: list[str]) -> bytes:
    """Puts a file on the shelf, if it can be read. Returns its content."""
    try:
        text = (folder / name).read_bytes()
    except (OSError, ValueError) as error:
        errors.append(f"roman: {name}: {getattr(error, 'strerror', None) or error}")
        return b""
    library.roman_add(shelf, os.fsencode(name), len(os.fsencode(name)), text, len(text))
    return text


def synth(system: PathLike, library: Library = True, folder: PathLike | None = None) -> tuple[int, str]:
    """Returns the status and the output of `roman synth`, without a process. Names are relative to `folder`, or to the
    working folder if it is None."""
    return _work(library, folder, [os.fspath(system)])


def check(
    system: PathLike, certificate: PathLike, library: Library = True, folder: PathLike | None = None
) -> tuple[int, str]:
    """Returns the status and the output of `roman check`, without a process. Names are as for `synth`."""
    return _work(library, folder, [os.fspath(system), os.fspath(certificate)])


def _work(library: Library, folder: PathLike | None, names: list[str]) -> tuple[int, str]:
    """Calls `roman_synth` for one name, and `roman_check` for two."""
    calls = load_library(NAME if isinstance(library, bool) else os.fspath(library))
    top = Path() if folder is None else Path(folder)
    shelf, session = Handle(), Handle()
    try:
        put_system(calls, shelf, names[0], top, [])
        for name in names[1:]:
            put_file(calls, shelf, name, top, [])
        words = [word for name in names for word in (os.fsencode(name), len(os.fsencode(name)))]
        status = (calls.roman_synth if len(names) == 1 else calls.roman_check)(session, shelf, *words)
        length = calls.roman_reply(session, 0, b"", 0)
        room = ctypes.create_string_buffer(length)
        calls.roman_reply(session, 0, room, length)
        return status, ctypes.string_at(room, length).decode(errors="replace")
    finally:
        calls.roman_close(session)
        calls.roman_clear(shelf)


class InProcess:
    """A session of the library, with the methods of `Pipes`. It ends with this process."""

    def __init__(self, start: Start, library: Library) -> None:
        self._ended: ProgramEnded | None = None
        self._session = Handle()
        self._library = load_library(NAME if isinstance(library, bool) else os.fspath(library))
        self._answer, self._copy_reply = self._library.roman_answer, self._library.roman_reply
        self._room = ctypes.create_string_buffer(4096)
        self._open(start.words[-1], Path() if start.folder is None else Path(start.folder))

    def __del__(self) -> None:
        if self._session.full:
            self._close(0)

    @property
    def pid(self) -> int:
        """The process ID of this process."""
        return os.getpid()

    def exchange(self, exchange: Exchange) -> list[str]:
        """Answers a line. Raises `ProgramEnded` if the session has ended or memory runs out."""
        if self._ended is not None:
            raise self._ended.again()
        line = exchange.data.rstrip(b"\n")
        status = self._answer(self._session, line, len(line))
        lines = self._reply()
        if status == MEMORY:
            self._close(MEMORY)
        elif status == QUIT:
            self._close(0)
        if status == MEMORY:
            assert self._ended is not None
            raise self._ended
        return lines

    def poll(self) -> int | None:
        """The status with which the program would have ended, or None while the session is open."""
        return None if self._ended is None else self._ended.status

    def interrupt(self) -> None:
        """Does nothing: an answer of the library can't be interrupted."""

    def close(self) -> int:
        """Ends the session, and returns the status with which the program would have ended."""
        return self._close(0)

    def stop(self) -> int:
        """Does the same as `close`."""
        return self._close(0)

    def _open(self, system: str, folder: Path) -> None:
        shelf = Handle()
        errors: list[str] = []
        try:
            put_system(self._library, shelf, system, folder, errors)
            name = os.fsencode(system)
            status = self._library.roman_open(self._session, shelf, name, len(name))
        finally:
            self._library.roman_clear(shelf)
        if status:
            self._ended = ProgramEnded(status, self._reply(), errors if status == MISSING else ())

    def _reply(self) -> list[str]:
        """The lines of the last reply."""
        length = self._copy_reply(self._session, 0, self._room, len(self._room))
        if length > len(self._room):
            self._room = ctypes.create_string_buffer(length)
            self._copy_reply(self._session, 0, self._room, length)
        return str(memoryview(self._room)[:length], "utf-8", "replace").split("\n")[:-1]

    def _close(self, status: int) -> int:
        if self._ended is None:
            self._ended = ProgramEnded(status, (), ())
        self._library.roman_close(self._session)
        return self._ended.status
