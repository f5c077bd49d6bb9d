"""A crowd of strangers, as a program: silent connections to a page, listeners that don't read, and a sensor that never
stops. `crowd.py PAGE BROKER CONNECTIONS LISTENERS MESSAGES` writes a line when all are there."""

from __future__ import annotations

import asyncio
import json
import resource
import socket
import struct
import sys

BATCH = 100
"""The number of connections that are opened at once."""

TICKS = 50
"""The number of times per second that the sensor sends its messages."""

CONNECT = b"\x10\x11\x00\x04MQTT\x04\x02\x00\x00\x00\x05crowd"
"""The first packet to a broker: a new session without a limit for silence."""


def packet(topic: str, payload: bytes) -> bytes:
    """A message at QoS 0."""
    body = struct.pack("!H", len(topic)) + topic.encode() + payload
    assert len(body) < 128
    return bytes((0x30, len(body))) + body


async def connected(port: int, text: bytes) -> socket.socket:
    """A connection that sends a text, and reads nothing."""
    each = socket.socket()
    each.setsockopt(socket.SOL_SOCKET, socket.SO_RCVBUF, 4096)
    each.setblocking(False)
    loop = asyncio.get_running_loop()
    await loop.sock_connect(each, ("127.0.0.1", port))
    await loop.sock_sendall(each, text)
    return each


async def open_all(port: int, count: int, text: bytes) -> list[socket.socket]:
    """Opens so many connections."""
    found: list[socket.socket] = []
    while len(found) < count:
        more = min(BATCH, count - len(found))
        found += await asyncio.gather(*(connected(port, text) for _ in range(more)))
    return found


async def report(port: int, rate: int) -> None:
    """Reports the environment so many times a second."""
    broker = await connected(port, CONNECT)
    loop = asyncio.get_running_loop()
    each = b"".join(
        packet("roman/environment", json.dumps({"state": "day", "n": number}).encode())
        for number in range(rate // TICKS)
    )
    due = loop.time()
    while True:
        await loop.sock_sendall(broker, each)
        due = max(due + 1 / TICKS, loop.time() - 1)
        await asyncio.sleep(due - loop.time())


async def main(page: int, broker: int, connections: int, listeners: int, messages: int) -> None:
    """Makes the crowd, which stays until this process is ended."""
    hard = resource.getrlimit(resource.RLIMIT_NOFILE)[1]
    resource.setrlimit(resource.RLIMIT_NOFILE, (hard, hard))
    held = await open_all(page, connections, b"")
    held += await open_all(page, listeners, b"GET /events HTTP/1.1\r\nHost: localhost\r\n\r\n")
    reporting = (
        asyncio.ensure_future(report(broker, messages)) if messages else asyncio.ensure_future(asyncio.sleep(1e6))
    )
    print(len(held), flush=True)
    await reporting


if __name__ == "__main__":
    asyncio.run(main(*map(int, sys.argv[1:])))
