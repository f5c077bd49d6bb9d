"""A response over HTTP that is sent in one piece."""

from __future__ import annotations

import functools
import time
from email.utils import formatdate

from aiohttp import web
from aiohttp.abc import AbstractStreamWriter


class WholeResponse(web.StreamResponse):
    """A response with JSON that is sent together with its head. aiohttp sends the head first. It is for HTTP/1.1, and
    leaves the connection open."""

    def __init__(self, body: bytes) -> None:
        super().__init__()
        self._whole = b"%b%d\r\n\r\n%b" % (_head(int(time.time())), len(body), body)
        self._writer: AbstractStreamWriter | None = None

    @property
    def keep_alive(self) -> bool | None:
        """True: the connection stays open."""
        return True

    async def prepare(self, request: web.BaseRequest) -> AbstractStreamWriter | None:
        self._writer = request.writer
        return self._writer

    async def write_eof(self, data: bytes = b"") -> None:
        assert self._writer is not None
        await self._writer.write_eof(self._whole)


@functools.lru_cache(1)
def _head(second: int) -> bytes:
    """The head of a response in a given second, up to the length of the body."""
    lines = (
        "HTTP/1.1 200 OK",
        "Content-Type: application/json; charset=utf-8",
        "Cache-Control: no-store",
        "X-Content-Type-Options: nosniff",
        "Referrer-Policy: no-referrer",
        f"Date: {formatdate(second, usegmt=True)}",
        "Content-Length: ",
    )
    return "\r\n".join(lines).encode()
