"""Simulated devices over HTTP and MQTT, with their calls, their states and their misbehaviour.

Run as a program, this module is a device that is a command: `world.py URL WORD`, or `world.py URL` for one that reads
lines.
"""

import json
import os
import random
import sys
import threading
import urllib.error
import urllib.request
from http.server import BaseHTTPRequestHandler, ThreadingHTTPServer
from typing import Any

if __name__ != "__main__":
    import paho.mqtt.client as mqtt  # type: ignore[import]

    from roman_client import Document

    from .machinery import PATIENCE

Told = dict[str, Any]


class World:
    """The calls that the services of a document carried out, and their states. Each call is carried out once, even if
    it is asked again. `manners` has the misbehaviour of services: `fail`, `hang`, `slow`, `late`, `twice`, `wrong`,
    `junk`, `foreign`. Services in `mute` don't report their states. A service that hangs, is slow, late or mute stays
    so until `release` is set."""

    def __init__(self, document: "Document", seed: int = 0) -> None:
        self.document = document
        self.chance = random.Random(seed)
        self.lock = threading.Lock()
        self.behaviours = {each.name: each.behaviour for each in document.services}
        self.states = {each.name: each.state for each in document.services}
        self.environment = document.environment.start
        self.done: dict[int, Told] = {}
        self.refused: set[int] = set()
        self.played: list[tuple[str, str]] = []
        self.asked: list[tuple[str, str]] = []
        self.wrong: list[str] = []
        self.manners: dict[str, str] = {}
        self.mute: set[str] = set()
        self.failing = 0.0
        self.release = threading.Event()

    def serve(self, service: str, action: str, number: int | None) -> list[Told]:
        """Yields the answers to a call. There are none if the service hangs."""
        manner = self.manners.get(service, "")
        with self.lock:
            self.asked.append((service, action))
            failing = self.chance.random() < self.failing
        if manner == "fail" or failing:
            return [{"id": number, "error": "out of order"}]
        if manner == "junk":
            return [{"id": number, "nonsense": True}]
        if manner == "wrong":
            return [{"id": number, "state": self.states[service], "environment": "nowhere"}]
        if manner == "hang":
            self.release.wait()
            return []
        if manner == "slow":
            self.release.wait()
        told = self.play(service, action, number)
        if manner == "foreign":
            return [{**told, "id": -5}]
        if manner == "late":
            self.release.wait()
        return [told, told] if manner == "twice" else [told]

    def play(self, service: str, action: str, number: int | None) -> Told:
        """Makes a service carry out an action."""
        with self.lock:
            if number is not None and number in self.done:
                self.wrong.append(f"call {number} came twice")
                return self.done[number]
            if number in self.refused:
                return {"id": number, "error": "that call was given up"}
            outcomes = list(
                self.document.outcomes(self.behaviours[service], self.states[service], self.environment, action)
            )
            if not outcomes:
                self.wrong.append(f"{service} can't {action} in {self.states[service]}")
                return {"id": number, "error": "can't"}
            self.states[service], self.environment = self.chance.choice(outcomes)
            told = {
                "id": number,
                "state": self.states[service],
                "environment": self.environment,
            }
            if number is not None:
                self.done[number] = told
            self.played.append((service, action))
            return told

    def tell(self, service: str, number: int | None) -> Told:
        """The state of a service, and whether it carried out a call."""
        if self.manners.get(service) == "hang" or service in self.mute:
            self.release.wait()
        with self.lock:
            told: Told = {"state": self.states[service], "environment": self.environment}
            if number is not None:
                told["done"] = number in self.done
                if number not in self.done:
                    self.refused.add(number)
            return told


class QuietServer(ThreadingHTTPServer):
    """A server that doesn't report clients that go away."""

    daemon_threads = True

    def handle_error(self, request: Any, address: Any) -> None:
        pass


class HttpDevices:
    """All services of a world over HTTP, each at its name, such as `/window`."""

    def __init__(self, world: World) -> None:
        self.server = QuietServer(("127.0.0.1", 0), _handler(world))
        self.url = f"http://127.0.0.1:{self.server.server_address[1]}"
        threading.Thread(target=self.server.serve_forever, daemon=True).start()

    def close(self) -> None:
        """Ends the services."""
        self.server.shutdown()
        self.server.server_close()


def _handler(world: World) -> type:
    class Handler(BaseHTTPRequestHandler):
        protocol_version = "HTTP/1.1"

        def do_POST(self) -> None:
            asked = json.loads(self.rfile.read(int(self.headers["Content-Length"])))
            answers = world.serve(self.path[1:], asked["action"], asked["id"])
            if answers:
                self.answer(answers[0])

        def do_GET(self) -> None:
            service, _, number = self.path[1:].partition("?id=")
            self.answer(world.tell(service, int(number) if number else None))

        def answer(self, told: Told) -> None:
            data = json.dumps(told).encode()
            try:
                self.send_response(200)
                self.send_header("Content-Length", str(len(data)))
                self.end_headers()
                self.wfile.write(data)
            except OSError:
                pass

        def log_message(self, *words: Any) -> None:
            pass

    return Handler


class MqttDevices:
    """Services of a world over MQTT. They are asked on `NAME/ask`, and answer on `NAME/answer`. If `name` is set, they
    have a session that the broker keeps while they are away."""

    def __init__(self, world: World, port: int, services: list[str], name: str = "") -> None:
        self.world = world
        self.services = services
        self.subscribed = threading.Event()
        self.heard: list[Told] = []
        self.client = mqtt.Client(client_id=name, clean_session=not name)
        self.client.reconnect_delay_set(1, 1)
        self.client.on_connect = self._connected
        self.client.on_subscribe = lambda *words: self.subscribed.set()
        self.client.on_message = self._asked
        self.client.will_set(f"{services[0]}/answer", json.dumps({"gone": True}), qos=1)
        self.client.connect("127.0.0.1", port, keepalive=5)
        self.client.loop_start()
        if not self.subscribed.wait(PATIENCE):
            raise TimeoutError("the broker doesn't answer")

    def listen(self, topic: str) -> None:
        """Listens to a further topic, and waits until the broker has confirmed it."""
        self.subscribed.clear()
        self.client.subscribe(topic, 1)
        if not self.subscribed.wait(PATIENCE):
            raise TimeoutError("the broker doesn't answer")

    def _connected(self, client: Any, data: Any, flags: Any, code: int) -> None:
        client.subscribe([(f"{each}/ask", 1) for each in self.services])

    def _asked(self, client: Any, data: Any, message: Any) -> None:
        asked = json.loads(message.payload)
        self.heard.append(asked)
        service = message.topic.rpartition("/")[0]
        threading.Thread(target=self._answer, args=(service, asked), daemon=True).start()

    def _answer(self, service: str, asked: Told) -> None:
        if asked["action"] is None:
            answers = [{**self.world.tell(service, asked.get("about")), "id": asked["id"]}]
        else:
            answers = self.world.serve(service, asked["action"], asked["id"])
        for each in answers:
            self.say(service, each)

    def say(self, service: str, told: Told, retain: bool = False) -> None:
        """Makes a service publish a message."""
        data = json.dumps(told)
        self.client.publish(f"{service}/answer", data, qos=1, retain=retain).wait_for_publish(PATIENCE)

    def close(self, rudely: bool = False) -> None:
        """Disconnects the services. If `rudely`, the broker publishes their last will."""
        if rudely:
            self.client.loop_stop()
            self.client.socket().close()
        else:
            self.client.disconnect()
            self.client.loop_stop()


def command(url: str, word: str) -> str:
    """The line of a command: the answer of the service at a URL."""
    number = os.environ.get("ROMAN_CALL")
    if word == "?":
        request = urllib.request.Request(url)
    else:
        body = json.dumps({"id": None if number is None else int(number), "action": word})
        request = urllib.request.Request(url, body.encode(), {"Content-Type": "application/json"})
    opener = urllib.request.build_opener(urllib.request.ProxyHandler({}))
    with opener.open(request) as response:
        told = json.loads(response.read())
    if "state" not in told:
        raise SystemExit(told.get("error", "no state"))
    return f"{told['state']} {told['environment']}"


if __name__ == "__main__":
    if len(sys.argv) == 3:
        print(command(sys.argv[1], sys.argv[2]))
    else:
        for line in sys.stdin:
            print(command(sys.argv[1], line.strip()), flush=True)
