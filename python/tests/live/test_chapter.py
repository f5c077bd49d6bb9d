"""The guide's chapter about running devices: its commands and messages, against a broker, and its device."""

from __future__ import annotations

import json
import re
import shlex
import signal
import threading
import time
from concurrent.futures import ThreadPoolExecutor
from contextlib import AsyncExitStack
from http.server import ThreadingHTTPServer
from typing import Any
from unittest import mock

import paho.mqtt.client as mqtt  # type: ignore[import]
import paho.mqtt.publish as messages  # type: ignore[import]
import pytest

from . import DEMO, ROMAN_LIVE, TOP
from .browser import Demonstrated, Running, wait_until
from .machinery import PATIENCE, call, free_port, loaded, until

GUIDE = (TOP / "docs" / "GUIDE.md").read_text(encoding="utf-8")
CHAPTER = GUIDE[GUIDE.index("## Running your devices") : GUIDE.index("## Samples")]


def block(language: str, word: str = "") -> str:
    """The block of the chapter in a language with a word, without its indentation."""
    blocks = re.findall(r"^( *)```(\w*)\n(.*?)^ *```$", CHAPTER, re.M | re.S)
    ((indent, text),) = ((indent, text) for indent, name, text in blocks if name == language and word in text)
    return str(re.sub(f"^{indent}", "", text, flags=re.M))


def test_the_commands_request_and_make_it_dusk(at_end: AsyncExitStack) -> None:
    home = Demonstrated()
    at_end.callback(home.close)
    home.begin(0)
    answers = Answers(home.broker)
    at_end.callback(answers.close)
    commands = [shlex.split(command) for command in block("sh", "mosquitto_pub").splitlines()]
    assert len(commands) == 2
    for words in commands:
        assert words[:3] == ["mosquitto_pub", "-p", "18830"]
        topic, message = words[words.index("-t") + 1], words[words.index("-m") + 1]
        publish(home, topic, message)
        if topic == "demo/requests":
            wait_until(lambda: answers.heard or publish(home, topic, message), "an answer")
    answer = answers.heard[0]
    assert (answer["id"], answer["status"], answer["action"]) == (1, 200, "brighten")
    wait_until(lambda: home.state()["environment"] == "dusk", "dusk")


def test_all_ends_where_the_terminal_is_closed(at_end: AsyncExitStack) -> None:
    home = Demonstrated()
    at_end.callback(home.close)
    home.begin(0)
    home.end(signal.SIGHUP)
    with pytest.raises(ConnectionRefusedError):
        messages.single("demo/requests", "", hostname="127.0.0.1", port=home.broker)


def publish(home: Demonstrated, topic: str, message: str) -> bool:
    """Publishes a message, and waits a little, because the listener may not be ready yet. Returns False."""
    messages.single(topic, message, qos=1, hostname="127.0.0.1", port=home.broker)
    time.sleep(1)
    return False


class Watched:
    """A lock that shows whether a thread waits for it."""

    def __init__(self) -> None:
        self._lock = threading.Lock()
        self.is_awaited = threading.Event()

    def __enter__(self) -> None:
        if not self._lock.acquire(blocking=False):
            self.is_awaited.set()
            self._lock.acquire()

    def __exit__(self, *words: object) -> None:
        self._lock.release()


def test_it_tells_nothing_while_it_acts(at_end: AsyncExitStack) -> None:
    """Otherwise a home that was killed and restarted would make it act twice."""
    kettle = loaded(DEMO / "kettle.py")
    lock, acts, go_on = Watched(), threading.Event(), threading.Event()
    kettle.Kettle.at_work, kettle.FAILURES = lock, 0.0

    def act(seconds: float) -> None:
        acts.set()
        go_on.wait(PATIENCE)

    kettle.time = mock.Mock(sleep=act)
    server = ThreadingHTTPServer(("127.0.0.1", 0), kettle.Kettle)
    at_end.callback(server.server_close)
    at_end.callback(server.shutdown)
    threading.Thread(target=server.serve_forever, daemon=True).start()
    url = f"http://127.0.0.1:{server.server_port}/kettle"
    with ThreadPoolExecutor(2) as threads:
        boils = threads.submit(call, url, {"id": 7, "action": "boil"})
        assert acts.wait(PATIENCE)
        asks = threads.submit(call, f"{url}?id=7")
        until(lambda: lock.is_awaited.is_set() or asks.done(), "the question")
        go_on.set()
        _, told = asks.result(PATIENCE)
        assert boils.result(PATIENCE)[0] == 200
    assert told["done"]
    assert told["state"] in ("warm", "hot")


def porch(at_end: AsyncExitStack, script: str, more: str = "") -> Porch:
    """A home with a script as the lamp at the porch, which has served."""
    home = Porch(free_port(), script, more)
    at_end.callback(home.close)
    home.begin()
    answer = home.post("requests", {"action": "brighten"})
    assert (answer["served_by"], answer["state"]) == ("porch", "on")
    return home


def test_the_porch_serves(at_end: AsyncExitStack) -> None:
    home = porch(at_end, block("", "#!/"))
    assert (home.folder / "porch.state").read_text() == "on\n"


def test_the_kept_lamp_serves(at_end: AsyncExitStack) -> None:
    home = porch(at_end, block("py"), "lines = true\nnumbered = true\n")
    for action in ("boil", "pour", "dim", "brighten"):
        home.post("requests", {"action": action})
    (found,) = (each for each in home.state()["services"] if each["name"] == "porch")
    assert (found["status"], found["state"], found["last_error"]) == ("ready", "on", None)


class Porch(Running):
    """A home with only the chapter's device and a kettle."""

    def __init__(self, port: int, text: str, more: str) -> None:
        super().__init__(port)
        document = json.loads((DEMO / "home.json").read_text(encoding="utf-8"))
        (service,) = re.findall(r"`(\{\"name\": \"porch\".*?\})`", CHAPTER)
        document["services"] = [json.loads(service), {"name": "kettle", "behaviour": "kettle"}]
        (self.folder / "home.json").write_text(json.dumps(document), encoding="utf-8")
        script = self.folder / "porch"
        script.write_text(text, encoding="utf-8")
        script.chmod(0o755)
        (self.folder / "pots.py").write_text(
            "def kettle(action):\n    return 'hot' if action == 'boil' else 'empty'\n", encoding="utf-8"
        )
        (self.folder / "home.toml").write_text(
            f'document = "home.json"\n[page]\nport = {port}\n{block("toml", "[devices.porch]")}{more}'
            '[devices.kettle]\nreach = "python"\ncall = "pots:kettle"\n',
            encoding="utf-8",
        )

    def begin(self) -> None:
        self.start(str(ROMAN_LIVE), "home.toml")


class Answers:
    """The messages on the topic of answers."""

    def __init__(self, port: int) -> None:
        self.heard: list[dict[str, Any]] = []
        subscribed = threading.Event()
        self._client = mqtt.Client()
        self._client.on_message = lambda client, data, message: self.heard.append(json.loads(message.payload))
        self._client.on_subscribe = lambda *words: subscribed.set()
        self._client.connect("127.0.0.1", port)
        self._client.loop_start()
        self._client.subscribe("demo/answers", qos=1)
        if not subscribed.wait(PATIENCE):
            raise TimeoutError("the broker doesn't answer")

    def close(self) -> None:
        self._client.disconnect()
        self._client.loop_stop()
