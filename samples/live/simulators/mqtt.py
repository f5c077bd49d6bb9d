"""Simulated devices behind a broker."""

from __future__ import annotations

import asyncio
import contextlib
import socket
from typing import Any

import paho.mqtt.client as mqtt  # type: ignore[import]

from .base import Settings, World

AWAY = 0.3
"""How many seconds a device is away when it starts again."""


class MqttDevice:
    """A device that is connected to a broker. `will` is the topic and the message of its last will."""

    will: tuple[str, str]
    topics: tuple[str, ...]

    def __init__(self, name: str, settings: Settings) -> None:
        self.world = World(name, settings)
        self._loop = asyncio.get_running_loop()
        self._client = self._new_client()

    def _new_client(self) -> Any:
        """A client with the name of the device. At a new connection the broker first ends the old one of that name, so
        that its last will never comes after what the new one publishes."""
        paho2 = getattr(mqtt, "CallbackAPIVersion", None)
        name = f"simulated-{self.world.name}"
        return mqtt.Client(paho2.VERSION1, client_id=name) if paho2 else mqtt.Client(client_id=name)

    async def start(self) -> None:
        client = self._client
        client.will_set(self.will[0], self.will[1], qos=0, retain=True)
        client.on_connect = lambda *_: self._loop.call_soon_threadsafe(self._connected)
        client.on_message = lambda _client, _data, message: self._loop.call_soon_threadsafe(
            self._heard, client, message.topic, message.payload.decode(errors="replace")
        )
        client.reconnect_delay_set(1, 2)
        client.connect_async(self.world.settings.host, self.world.settings.broker, keepalive=15)
        client.loop_start()

    async def stop(self) -> None:
        self.world.stop()
        await self._cut()

    async def _cut(self) -> None:
        """Cuts the connection without a word, so that the broker publishes the last will. A new client replaces the
        old one at once: what the device publishes before `start` connects it is lost."""
        old, self._client = self._client, self._new_client()
        await asyncio.to_thread(_end, old)

    async def restart(self) -> None:
        """Starts again, as after a break of the power."""
        await self._cut()
        await asyncio.sleep(AWAY)
        await self.start()

    def _connected(self) -> None:
        for topic in self.topics:
            self._client.subscribe(topic)
        self.connected()

    def _heard(self, client: Any, topic: str, text: str) -> None:
        if client is self._client:
            self.heard(topic, text)

    def publish(self, topic: str, text: str, retain: bool = False) -> None:
        """Publishes a message at QoS 0."""
        self._client.publish(topic, text, qos=0, retain=retain)

    def connected(self) -> None:
        """The broker is there: says what the device says then."""
        raise NotImplementedError

    def heard(self, topic: str, text: str) -> None:
        """A message came."""
        raise NotImplementedError


def _end(client: Any) -> None:
    """Ends the connection of a client, and its thread, which sees that the connection ends."""
    if client.socket() is not None:
        with contextlib.suppress(OSError):
            client.socket().shutdown(socket.SHUT_RDWR)
    client.loop_stop()
    if client.socket() is not None:
        client.socket().close()
