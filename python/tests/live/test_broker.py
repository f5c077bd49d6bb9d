"""The connection to a broker: messages before there is one, topics that it refuses, and TLS."""

import asyncio
import json
import re
import ssl
import subprocess
from contextlib import AsyncExitStack
from pathlib import Path
from typing import Tuple
from unittest import mock

import paho.mqtt.client as mqtt  # type: ignore[import]
import pytest

from roman_live import mqtt_api
from roman_live.config import Broker, Tls
from roman_live.mqtt_api import REFUSED, Connection, SessionConnection, new_client

from .machinery import PATIENCE, Mosquitto

KEY = "-newkey ec -pkeyopt ec_paramgen_curve:prime256v1"
"""The arguments of openssl for a new key."""


async def test_an_answer_waits_for_a_connection(at_end: AsyncExitStack, tmp_path: Path) -> None:
    broker = Mosquitto(tmp_path)
    at_end.callback(broker.stop)
    loop = asyncio.get_running_loop()
    heard: "asyncio.Queue[Tuple[str, object]]" = asyncio.Queue()
    listening = asyncio.Event()
    listener = mqtt.Client()
    listener.on_connect = lambda *words: listener.subscribe("home/#", qos=1)
    listener.on_subscribe = lambda *words: loop.call_soon_threadsafe(listening.set)
    listener.on_message = lambda client, data, message: loop.call_soon_threadsafe(
        heard.put_nowait, (message.topic, json.loads(message.payload))
    )
    listener.connect("127.0.0.1", broker.port)
    listener.loop_start()
    at_end.callback(listener.loop_stop)
    at_end.callback(listener.disconnect)
    await asyncio.wait_for(listening.wait(), PATIENCE)
    connection = Connection(Broker(port=broker.port), lambda connected, text: None)
    assert not connection.publish_now("home/lamp/ask", {"id": 1})
    connection.publish("home/answers", {"id": "\ud800"})
    await connection.open()
    at_end.push_async_callback(connection.close)
    assert (await asyncio.wait_for(heard.get(), PATIENCE)) == ("home/answers", {"id": "\ud800"})
    assert connection.publish_now("home/lamp/ask", {"id": 2})
    assert (await asyncio.wait_for(heard.get(), PATIENCE)) == ("home/lamp/ask", {"id": 2})


def test_paho_2_calls_back_as_paho_1_does() -> None:
    """Debian 12 has paho 1. Clients of paho 2 are made with one more argument, in front of the others, and can
    acknowledge late."""
    versions = mock.Mock(VERSION1="as paho 1")
    with mock.patch.object(mqtt, "Client") as client:
        with mock.patch.object(mqtt, "CallbackAPIVersion", versions, create=True):
            new_client()
            SessionConnection(Broker(), lambda connected, text: None, "roman/requests", mock.Mock())
    first, second = client.call_args_list
    assert first == mock.call("as paho 1", manual_ack=False, reconnect_on_failure=False)
    assert second.args == ("as paho 1",) and second.kwargs["manual_ack"]


async def test_it_is_said_which_topic() -> None:
    said: list[tuple[bool, str]] = []
    connection = Connection(Broker(), lambda connected, text: said.append((connected, text)))
    connection._asked = {1: "home/window/answer", 2: "home/lamp/answer"}
    connection._agreed.clear()
    connection._on_subscribe(None, None, 1, [REFUSED])
    connection._on_subscribe(None, None, 2, [1])
    await connection.agreed()
    assert said == [(False, "the broker doesn't let this home listen to home/window/answer")]


# A broker that requires a login.


async def test_it_is_said_once_that_it_refuses(at_end: AsyncExitStack, tmp_path: Path) -> None:
    broker = Mosquitto(tmp_path, "allow_anonymous false\n")
    at_end.callback(broker.stop)
    said: list[str] = []
    connection = Connection(Broker(port=broker.port), lambda connected, text: said.append(text))
    refused = connection._on_connect
    times: "asyncio.Queue[int]" = asyncio.Queue()

    def counted(client: object, data: object, flags: object, code: int) -> None:
        times.put_nowait(code)
        refused(client, data, flags, code)

    connection._client.on_connect = counted
    with mock.patch.multiple(mqtt_api, FIRST_WAIT=0.0):
        await connection.open()
    at_end.push_async_callback(connection.close)
    for _ in range(2):
        assert (await asyncio.wait_for(times.get(), PATIENCE)) == mqtt.CONNACK_REFUSED_NOT_AUTHORIZED
    assert said[-1] == "the broker refuses: Connection Refused: not authorised."
    assert len(said) == len(set(said))


@pytest.mark.parametrize("step", ["reconnect", "loop_misc", "loop_read"])
async def test_an_unexpected_error_ends_no_connecting(at_end: AsyncExitStack, tmp_path: Path, step: str) -> None:
    broker = Mosquitto(tmp_path)
    at_end.callback(broker.stop)
    said: list[tuple[bool, str]] = []
    connection = Connection(Broker(port=broker.port), lambda connected, text: said.append((connected, text)))
    at_end.push_async_callback(connection.close)
    with mock.patch.object(connection._client, step, side_effect=RuntimeError("odd")):
        await connection.open(0.0)
        async with asyncio.timeout(PATIENCE):
            while not said or not said[-1][1].endswith("can't be reached: odd"):
                await asyncio.sleep(0.01)
    async with asyncio.timeout(PATIENCE):
        while not connection.connected:
            await asyncio.sleep(0.01)
    assert said[-1] == (True, "the broker is there")


class Encrypted:
    """A broker that requires a certificate, and has one."""

    def __init__(self, folder: Path, at_end: AsyncExitStack) -> None:
        self.folder = folder
        self.at_end = at_end
        self.openssl(f"req -x509 {KEY} -nodes -keyout ca.key -out ca.pem -days 2 -subj /CN=home")
        (self.folder / "names").write_text("subjectAltName = IP:127.0.0.1\n", encoding="ascii")
        for name in ("broker", "live"):
            self.openssl(f"req {KEY} -nodes -keyout {name}.key -out {name}.asked -subj /CN={name}")
            self.openssl(
                f"x509 -req -in {name}.asked -CA ca.pem -CAkey ca.key -CAcreateserial -days 2"
                f" -extfile names -out {name}.pem"
            )
        files = (("cafile", "ca.pem"), ("certfile", "broker.pem"), ("keyfile", "broker.key"))
        more = "".join(f"{word} {self.folder / file}\n" for word, file in files)
        self.broker = Mosquitto(self.folder, f"user root\n{more}require_certificate true\n")
        at_end.callback(self.broker.stop)
        self.said: list[tuple[bool, str]] = []

    def openssl(self, words: str) -> None:
        """Makes a key or a certificate."""
        subprocess.run(["/usr/bin/openssl", *words.split()], cwd=self.folder, check=True, capture_output=True)

    async def connection(self, tls: Tls) -> Connection:
        broker = Broker(port=self.broker.port, tls=tls)
        connection = Connection(broker, lambda connected, text: self.said.append((connected, text)))
        await connection.open()
        self.at_end.push_async_callback(connection.close)
        return connection


@pytest.fixture
def encrypted(tmp_path: Path, at_end: AsyncExitStack) -> Encrypted:
    return Encrypted(tmp_path, at_end)


async def test_it_is_there(encrypted: Encrypted) -> None:
    tls = Tls(*(encrypted.folder / name for name in ("ca.pem", "live.pem", "live.key")))
    assert (await encrypted.connection(tls)).connected
    assert encrypted.said == [(True, "the broker is there")]


async def test_a_broker_that_is_not_believed(encrypted: Encrypted) -> None:
    connection = await encrypted.connection(Tls())
    assert not connection.connected
    ((connected, text),) = encrypted.said
    assert not connected
    assert re.search("^the broker at 127.0.0.1:[0-9]+ can't be reached: .*certificate verify failed", text)


async def test_a_home_that_shows_no_certificate(encrypted: Encrypted) -> None:
    connection = await encrypted.connection(Tls(encrypted.folder / "ca.pem"))
    assert not connection.connected
    ((_, text),) = encrypted.said
    assert re.search("can't be reached: .*certificate required", text)
    again = asyncio.Event()
    loop = asyncio.get_running_loop()
    with mock.patch.object(connection._client, "reconnect", lambda: loop.call_soon_threadsafe(again.set)):
        await asyncio.wait_for(again.wait(), PATIENCE)


async def test_messages_that_come_in_one_record(encrypted: Encrypted) -> None:
    """The system doesn't report messages that the socket has already decrypted."""
    messages = [b"\x30\x09\x00\x04lamp" + b"%03d" % number for number in range(3)]

    async def broker(reader: asyncio.StreamReader, writer: asyncio.StreamWriter) -> None:
        await reader.readexactly(2)
        writer.write(b"\x20\x02\x00\x00" + b"".join(messages))
        await reader.read()
        writer.close()

    context = ssl.create_default_context(ssl.Purpose.CLIENT_AUTH)
    context.load_cert_chain(encrypted.folder / "broker.pem", encrypted.folder / "broker.key")
    async with await asyncio.start_server(broker, "127.0.0.1", 0, ssl=context) as server:
        port = server.sockets[0].getsockname()[1]
        heard: "asyncio.Queue[bytes]" = asyncio.Queue()
        connection = Connection(Broker(port=port, tls=Tls(encrypted.folder / "ca.pem")), lambda connected, text: None)
        connection.subscribe("lamp", lambda payload, retained: heard.put_nowait(payload))
        await connection.open()
        got = [await asyncio.wait_for(heard.get(), PATIENCE) for _ in messages]
        await connection.close()
    assert got == [b"000", b"001", b"002"]
