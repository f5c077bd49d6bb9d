"""The connection to the MQTT broker, for asyncio."""

from __future__ import annotations

import array
import asyncio
import fcntl
import functools
import json
import logging
import ssl
import termios
from collections import deque
from collections.abc import Callable
from typing import Any

import paho.mqtt.client as mqtt  # type: ignore[import]

from roman_client.aio.streams import happens

from .config import Broker
from .limits import LONGEST_BODY

LOG = logging.getLogger("roman_live.mqtt_api")

KEEPALIVE = 15
"""The seconds of silence after which the client pings the broker."""

SHORTEST_PAUSE, LONGEST_PAUSE = 1.0, 30.0
"""The seconds between two attempts to connect. The pause doubles with each failure."""

MOST_WAITING = 1000
"""The maximum number of messages that wait for a connection."""

REFUSED = 128
"""A broker's answer, in place of a level, to a subscription that it refuses."""

AT_ONCE = 50
"""The maximum number of packets that are read in one turn of the loop."""

GONE = {"gone": True}
"""The state that is published for a home that no longer runs, in the same form as for a device that is gone."""

FIRST_WAIT = 5.0
"""The number of seconds to wait for the broker at the start, for its confirmation of subscriptions, and at the end."""

Listener = Callable[[bytes, bool], None]

PatternListener = Callable[[str, bytes, bool], None]
"""Receives the topic of a message, the message, and whether it is a retained one."""

LateListener = Callable[[bytes, bool, Callable[[], None]], None]
"""Receives a message, whether the broker repeats it until it is acknowledged, and a call that acknowledges it."""


class LateClient(mqtt.Client):  # type: ignore[misc]
    """A client of paho 1 with the `ack` of paho 2. paho 1 acknowledges a message at QoS 1 when it has read it, and has
    no documented way to do this later."""

    def _send_puback(self, mid: int) -> Any:
        return mqtt.MQTT_ERR_SUCCESS

    def ack(self, mid: int, qos: int) -> Any:
        """Acknowledges the message with this number."""
        return super()._send_puback(mid)


def new_client(manual_ack: bool = False, **words: Any) -> Any:
    """Returns a client of paho 1, or one of paho 2 with the callbacks of paho 1. Only `reconnect` connects it. With
    `manual_ack` it acknowledges a message at QoS 1 only by its `ack`."""
    words["reconnect_on_failure"] = False
    versions = getattr(mqtt, "CallbackAPIVersion", None)
    if versions is None:
        return (LateClient if manual_ack else mqtt.Client)(**words)
    return mqtt.Client(versions.VERSION1, manual_ack=manual_ack, **words)


class Connection:
    """A connection that is restored whenever it is lost, with its subscriptions. Its end is published on the topic
    of the home's state: by `close`, or by the broker if it ends otherwise.

    The client runs in the loop by paho's interface for external loops. Only `reconnect`, which blocks, runs in a
    thread, and nothing else calls the client meanwhile."""

    def __init__(self, broker: Broker, changed: Callable[[bool, str], None]) -> None:
        """`changed` receives whether the connection is in order, and a text that describes the change."""
        self.broker = broker
        self.connected = False
        self.connections = 0
        self.resumed = False
        """Whether the broker had kept the session when the connection was made."""
        self.state_topic = self.topic("state")
        self._changed = changed
        self._why: str | None = None
        self._listeners: dict[str, list[Listener]] = {}
        self._of_newest: set[str] = set()
        self._newest: Any = None
        self._unsent: deque[tuple[str, str]] = deque(maxlen=MOST_WAITING)
        self._asked: dict[int, str] = {}
        self._agreed = asyncio.Event()
        self._agreed.set()
        self._first = asyncio.Event()
        self._lost = asyncio.Event()
        self._pause = SHORTEST_PAUSE
        self._socket: Any = None
        self._task: asyncio.Task[None] | None = None
        self._client = self._prepare(self._new_client())

    def _new_client(self) -> Any:
        client = new_client()
        client.will_set(self.state_topic, json.dumps(GONE), qos=1, retain=True)
        return client

    def _prepare(self, client: Any) -> Any:
        client.on_connect = self._on_connect
        client.on_disconnect = self._on_disconnect
        client.on_message = self._on_message
        client.on_subscribe = self._on_subscribe
        client.on_socket_close = self._on_socket_close
        client.on_socket_register_write = self._on_socket_register_write
        client.on_socket_unregister_write = self._on_socket_unregister_write
        if self.broker.username is not None:
            client.username_pw_set(self.broker.username, self.broker.password)
        if self.broker.tls is not None:
            client.tls_set_context(self.broker.tls.context())
        client.max_queued_messages_set(MOST_WAITING)
        client.connect_async(self.broker.host, self.broker.port, KEEPALIVE)
        return client

    def topic(self, name: str) -> str:
        """A topic of this home."""
        return f"{self.broker.prefix}/{name}"

    def subscribe(self, topic: str, listener: Listener, *, newest: bool = False) -> None:
        """Calls a listener with each message on a topic, and with whether it is a retained one. With `newest` the
        listener receives only the last of several messages that come in a row."""
        self._listeners.setdefault(topic, []).append(listener)
        if newest:
            self._of_newest.add(topic)
        if self.connected:
            self._subscribe(topic)

    def subscribe_all(self, pattern: str, listener: PatternListener) -> None:
        """Calls a listener with each message on the topics of a pattern, which may have wildcards."""

        def hear(client: Any, data: Any, message: Any) -> None:
            if not _is_too_long(message):
                listener(message.topic, message.payload, bool(message.retain))

        self._client.message_callback_add(pattern, hear)
        self._listeners[pattern] = []
        if self.connected:
            self._subscribe(pattern)

    def _subscribe(self, topic: str) -> None:
        sent, number = self._client.subscribe(topic, qos=1)
        if sent == mqtt.MQTT_ERR_SUCCESS:
            self._asked[number] = topic
            self._agreed.clear()

    async def agreed(self) -> None:
        """Waits up to FIRST_WAIT until the broker has confirmed all subscriptions. Earlier messages are lost."""
        await happens(self._agreed, FIRST_WAIT)

    def publish(self, topic: str, value: Any) -> None:
        """Publishes JSON, as soon as there is a connection."""
        text = json.dumps(value)
        if self.connected:
            self._client.publish(topic, text, qos=1)
        else:
            self._unsent.append((topic, text))

    def publish_now(self, topic: str, value: Any, retain: bool = False) -> bool:
        """Publishes JSON at once. Returns False if there is no connection. The message isn't sent again after the
        connection was lost, and the broker doesn't keep it for a listener that is away."""
        return self.send_now(topic, json.dumps(value), retain)

    def send_now(self, topic: str, text: str, retain: bool = False) -> bool:
        """Publishes a text, as `publish_now` does."""
        if not self.connected:
            return False
        sent = self._client.publish(topic, text, qos=0, retain=retain)
        return bool(sent.rc == mqtt.MQTT_ERR_SUCCESS)

    async def open(self, patience: float | None = None) -> None:
        """Connects. Returns after `patience` seconds, by default FIRST_WAIT, if the broker isn't there by then."""
        self._task = asyncio.create_task(self._stay_connected())
        if not await happens(self._first, FIRST_WAIT if patience is None else patience) and self._why is None:
            self._changed(False, self._unreached())

    async def close(self) -> None:
        """Publishes the end of the home, and disconnects. The broker publishes a last will only for lost clients."""
        self.publish_now(self.state_topic, GONE, retain=True)
        await self.disconnect()

    async def disconnect(self) -> None:
        """Disconnects."""
        self.connected = False  # So that the end isn't reported as a loss.
        if self._socket is not None:
            self._client.disconnect()
            await happens(self._lost, FIRST_WAIT)
        if self._task is not None:
            self._task.cancel()
            await asyncio.wait([self._task])

    async def _stay_connected(self) -> None:
        """Connects, and reconnects after each loss."""
        while True:
            self._lost.clear()
            try:
                await asyncio.to_thread(self._client.reconnect)
            except Exception as error:  # A host that isn't a valid name raises a UnicodeError, for example.
                self._fail(error)
            else:
                self._watch()
                while not await happens(self._lost, 1.0):
                    self._run(self._client.loop_misc)
            await asyncio.sleep(self._pause)
            self._pause = min(2 * self._pause, LONGEST_PAUSE)

    def _watch(self) -> None:
        loop = asyncio.get_running_loop()
        self._socket = self._client.socket()
        loop.add_reader(self._socket, self._read)
        loop.add_writer(self._socket, self._write)

    def _read(self) -> None:
        """Reads the packets that have come, at most `AT_ONCE` in one turn. A further turn is scheduled if there is
        more: the loop doesn't notice data that a TLS socket has buffered."""
        watched = self._socket
        for _ in range(AT_ONCE):
            self._run(self._client.loop_read)
            if self._socket is not watched or not _has_more(watched):
                break
        else:
            if isinstance(watched, ssl.SSLSocket):
                asyncio.get_running_loop().call_soon(self._read_more, watched)
        self._deliver()

    def _read_more(self, watched: Any) -> None:
        if self._socket is watched:
            self._read()

    def _write(self) -> None:
        self._run(self._client.loop_write)

    def _run(self, step: Callable[[], Any]) -> None:
        """Makes the client read, write or check the time. An error, such as one of TLS, ends the connection."""
        try:
            step()
        except Exception as error:
            if self._socket is not None:
                self._unwatch()
            self._end()
            self._fail(error)

    def _unwatch(self) -> None:
        loop = asyncio.get_running_loop()
        loop.remove_reader(self._socket)
        loop.remove_writer(self._socket)
        self._socket = None

    def _end(self) -> None:
        self.connected = False
        self._asked.clear()
        self._agreed.set()
        self._lost.set()

    def _unreached(self) -> str:
        return f"the broker at {self.broker.host}:{self.broker.port} can't be reached"

    def _fail(self, error: Exception) -> None:
        self._miss(f"{self._unreached()}: {getattr(error, 'strerror', None) or error}")

    def _miss(self, why: str) -> None:
        """Reports the reason why there is no connection, once for each reason."""
        if why != self._why:
            self._why = why
            self._changed(False, why)

    # Callbacks of the client. Those with a socket handle only the socket that the loop watches, because `reconnect`
    # also calls them in its thread, for the old socket and for the new one.

    def _on_socket_close(self, client: Any, data: Any, closed: Any) -> None:
        if closed is self._socket:
            self._unwatch()

    def _on_socket_register_write(self, client: Any, data: Any, watched: Any) -> None:
        if watched is self._socket:
            asyncio.get_running_loop().add_writer(watched, self._write)

    def _on_socket_unregister_write(self, client: Any, data: Any, watched: Any) -> None:
        if watched is self._socket:
            asyncio.get_running_loop().remove_writer(watched)

    def _on_connect(self, client: Any, data: Any, flags: Any, code: int) -> None:
        if code != 0:
            self._miss(f"the broker refuses: {mqtt.connack_string(code)}")
            return
        self.connected = True
        self.connections += 1
        self.resumed = bool(flags["session present"])
        self._pause = SHORTEST_PAUSE
        self._why = None
        for topic in self._listeners:
            self._subscribe(topic)
        while self._unsent:
            topic, text = self._unsent.popleft()
            self._client.publish(topic, text, qos=1)
        self._first.set()
        self._changed(True, "the broker is there")

    def _on_disconnect(self, client: Any, data: Any, code: int) -> None:
        was_connected = self.connected
        self._end()
        if was_connected:
            self._changed(False, "the broker is gone")

    def _on_subscribe(self, client: Any, data: Any, number: int, levels: Any) -> None:
        topic = self._asked.pop(number, None)
        if REFUSED in levels and topic is not None:
            self._changed(False, f"the broker doesn't let this home listen to {topic}")
        if not self._asked:
            self._agreed.set()

    def _on_message(self, client: Any, data: Any, message: Any) -> None:
        if _is_too_long(message):
            return
        if self._newest is not None and self._newest.topic != message.topic:
            self._deliver()
        self._newest = message
        if message.topic not in self._of_newest:
            self._deliver()

    def _deliver(self) -> None:
        """Passes the last message to its listeners."""
        message, self._newest = self._newest, None
        if message is None:
            return
        for listener in self._listeners.get(message.topic, ()):
            try:
                listener(message.payload, bool(message.retain))
            except Exception:
                LOG.exception("a message on %s", message.topic)


class SessionConnection(Connection):
    """A connection with a session that the broker keeps while the home is away. It subscribes to one topic. After each
    new connection the broker sends the unacknowledged messages at QoS 1 again."""

    def __init__(self, broker: Broker, changed: Callable[[bool, str], None], topic: str, hear: LateListener) -> None:
        """Calls `hear` with each message on the topic."""
        super().__init__(broker, changed)
        self._hear = hear
        self.subscribe(topic, lambda payload, retained: None)

    def _new_client(self) -> Any:
        return new_client(manual_ack=True, client_id=f"roman-live-{self.broker.prefix}", clean_session=False)

    async def close(self) -> None:
        await self.disconnect()

    def _on_message(self, client: Any, data: Any, message: Any) -> None:
        acknowledge = functools.partial(self._acknowledge, message, self.connections)
        if _is_too_long(message) or message.retain:  # A retained request is out of date.
            acknowledge()
            return
        try:
            self._hear(message.payload, message.qos > 0, acknowledge)
        except Exception:
            LOG.exception("a message on %s", message.topic)
            acknowledge()  # The message would fail again.

    def _acknowledge(self, message: Any, connection: int) -> None:
        """Acknowledges a message. If its connection was lost, the broker sends it again."""
        if message.qos > 0 and self.connected and connection == self.connections:
            self._client.ack(message.mid, message.qos)


def _has_more(watched: Any) -> bool:
    """Whether a socket has more to read."""
    if isinstance(watched, ssl.SSLSocket):
        return watched.pending() > 0
    count = array.array("i", [0])
    fcntl.ioctl(watched, termios.FIONREAD, count)
    return count[0] > 0


def _is_too_long(message: Any) -> bool:
    if len(message.payload) <= LONGEST_BODY:
        return False
    LOG.warning("a message on %s is ignored: it has more than %d bytes", message.topic, LONGEST_BODY)
    return True
