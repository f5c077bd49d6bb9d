"""Errors of a home."""

from __future__ import annotations

import contextlib
import errno
import fcntl
import os
import resource
import ssl

from aiohttp import ClientConnectorCertificateError, ClientConnectorError

from roman_client import RomanError

from .limits import one_line

TEMPORARY_ERRORS = (RomanError, OSError)
"""Errors that may pass by themselves. A program that can't be started raises OSError."""


FILES = 12
"""The maximum number of files that a call of a device opens. A command needs three pipes, and more at its start."""

NO_FILE = os.open(os.devnull, os.O_RDONLY | os.O_CLOEXEC)
"""A file that is duplicated to find out whether file descriptors are left."""


class Busy(RomanError):
    """A request is open."""


class TooManyRequests(RomanError):
    """Too many requests are open."""


class UnknownAction(RomanError):
    """The document has no action with this name."""


class MovedMeanwhile(RomanError):
    """A service or the environment moved by itself while a service was chosen."""


class Expired(RomanError):
    """A request waited too long for its turn."""


class Cancelled(RomanError):
    """A request was cancelled while it waited for its turn."""


class HomeEnding(RomanError):
    """The home is about to end, and refuses requests."""


class NoProgram(RomanError):
    """The program can't be started, or doesn't reply."""


class NoHome(RomanError):
    """No home answers at the address."""


class NoPage(RomanError):
    """The page can't listen at the address of the home file."""


class NoSpace(RomanError):
    """A file of the home can't be read or written now, for example because the disk is full."""


class UnknownState(RomanError):
    """A device reports a state of itself or of the environment that the document doesn't have."""


class NoDevice(RomanError):
    """The home file has no device for a service."""


def check_file_limit(error: OSError) -> None:
    """Raises NoSpace if an error means that the system has no more files now. This isn't a failure of a device."""
    if error.errno in (errno.EMFILE, errno.ENFILE):
        raise NoSpace(system_text(error)) from None


def check_files() -> None:
    """Raises NoSpace if too few files are left to ask a device. A new file has the lowest free number. So if the number
    that is FILES below the limit is free, enough are left. Otherwise FILES files are opened to find out."""
    lowest = max(0, resource.getrlimit(resource.RLIMIT_NOFILE)[0] - FILES)
    held: list[int] = []
    try:
        with contextlib.suppress(OSError):
            held.append(fcntl.fcntl(NO_FILE, fcntl.F_DUPFD_CLOEXEC, lowest))
        if held != [lowest]:
            while len(held) < FILES:
                held.append(os.dup(NO_FILE))
    except OSError as error:
        check_file_limit(error)
        raise
    finally:
        for each in held:
            os.close(each)


def error_text(error: Exception) -> str:
    """The text of an error, or its type if it has no text."""
    return one_line(str(error)) or type(error).__name__


def connection_error(error: ClientConnectorError) -> str:
    """The reason why there is no connection, in the words of the system."""
    if isinstance(error, ClientConnectorCertificateError):
        why = error.certificate_error
        return f"its certificate isn't believed: {getattr(why, 'verify_message', why)}"
    return system_text(error.os_error)


def system_text(error: OSError) -> str:
    """An error in the words of the system, without additions of the library."""
    if isinstance(error, ssl.SSLError):
        return f"TLS: {(error.reason or str(error)).replace('_', ' ').lower()}"
    return os.strerror(error.errno) if error.errno and error.errno > 0 else str(error)
