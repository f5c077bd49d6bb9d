#!/usr/bin/python3
"""Opens a session of a system document, and answers the lines of the standard input. It uses only ctypes:
talk.py LIBRARY SYSTEM [PART ..] <SESSION. The package roman_client does this for you."""

import ctypes
import sys
from pathlib import Path


class Handle(ctypes.Structure):
    """The structure of roman_shelf and roman_session in roman.h."""

    _fields_ = [("at", ctypes.c_void_p), ("full", ctypes.c_bool)]


def reply(library: ctypes.CDLL, session: Handle) -> str:
    room = library.roman_reply(ctypes.byref(session), 0, ctypes.create_string_buffer(1), 0)
    into = ctypes.create_string_buffer(room + 1)
    library.roman_reply(ctypes.byref(session), 0, into, room)
    return into.raw[:room].decode()


def main() -> int:
    library = ctypes.CDLL(sys.argv[1])
    library.roman_reply.restype = ctypes.c_size_t
    library.roman_reply.argtypes = [ctypes.POINTER(Handle), ctypes.c_size_t, ctypes.c_char_p, ctypes.c_size_t]
    for call, slices in (("roman_add", 2), ("roman_answer", 1)):
        getattr(library, call).argtypes = [ctypes.POINTER(Handle), *[ctypes.c_char_p, ctypes.c_size_t] * slices]
    library.roman_open.argtypes = [ctypes.POINTER(Handle)] * 2 + [ctypes.c_char_p, ctypes.c_size_t]
    shelf, session = Handle(), Handle()
    try:
        for path in sys.argv[2:]:
            name, text = path.encode(), Path(path).read_bytes()
            library.roman_add(shelf, name, len(name), text, len(text))
        name = sys.argv[2].encode()
        status = library.roman_open(session, shelf, name, len(name))
        if status:
            sys.stdout.write(reply(library, session))
            return status
        for line in sys.stdin.buffer:
            line = line.rstrip(b"\n")
            status = library.roman_answer(session, line, len(line))
            sys.stdout.write(reply(library, session))
            if status == 1:
                break
        return 0
    finally:
        library.roman_close(ctypes.byref(session))
        library.roman_clear(ctypes.byref(shelf))


if __name__ == "__main__":
    sys.exit(main())
