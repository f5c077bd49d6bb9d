"""A blind, or a lamp, that is reached over MQTT: mqtt_device.py PORT NAME blind|lamp.

It fails now and then: it doesn't answer, says that it can't, or ends, and then its last will says so. Its
state is kept in the file NAME.state.
"""

import json
import os
import random
import sys
import time
from collections.abc import Sequence
from pathlib import Path
from typing import Any

import paho.mqtt.client as mqtt  # type: ignore[import]

Steps = dict[tuple[str, str], Sequence[str]]

BEHAVIOURS: dict[str, Steps] = {
    "blind": {
        ("shut", "brighten"): ("open",),
        ("ajar", "brighten"): ("open",),
        ("open", "dim"): ("shut", "ajar"),
    },
    "lamp": {("off", "brighten"): ("on",), ("on", "dim"): ("off",)},
}
"""Where each action leads from each state, as home.json has it."""

FAILURES = float(os.environ.get("DEMO_FAILURES", "0.1"))
SECONDS = float(os.environ.get("DEMO_SECONDS", "0.8"))


class Device:
    """A device behind a broker, which is asked on NAME/ask, and answers on NAME/answer."""

    def __init__(self, port: int, name: str, steps: Steps) -> None:
        self.steps = steps
        self.file = Path(f"{name}.state")
        self.state, self.last, self.refused = self.remembered()
        self.asks, self.answers = f"demo/{name}/ask", f"demo/{name}/answer"
        paho2 = getattr(mqtt, "CallbackAPIVersion", None)
        self.client = mqtt.Client(paho2.VERSION2) if paho2 else mqtt.Client()
        self.client.will_set(self.answers, json.dumps({"gone": True}), qos=1)
        self.client.on_connect = self.connected
        self.client.on_message = self.asked
        self.client.connect(os.environ.get("DEMO_BROKER", "127.0.0.1"), port)

    def remembered(self) -> tuple[str, int | None, list[int]]:
        """Its state when it ended, the last call that it carried out, and those that it refuses."""
        if not self.file.exists():
            return next(iter(self.steps))[0], None, []
        state, last, refused = json.loads(self.file.read_text(encoding="utf-8"))
        return state, last, refused

    def remember(self) -> None:
        self.file.write_text(json.dumps([self.state, self.last, self.refused]), encoding="utf-8")

    def say(self, **answer: Any) -> None:
        self.client.publish(self.answers, json.dumps(answer), qos=1)

    def connected(self, client: Any, data: Any, flags: Any, code: Any, *more: Any) -> None:
        """Listens, and says where it is without being asked."""
        client.subscribe(self.asks, qos=1)
        self.say(state=self.state)

    def asked(self, client: Any, data: Any, message: Any) -> None:
        asked = json.loads(message.payload)
        number, action = asked["id"], asked["action"]
        if action is None:
            self.tell(number, asked.get("about"))
            return
        if number in self.refused:
            self.say(id=number, error="that call was given up")
            return
        time.sleep(SECONDS)
        if random.random() < FAILURES:
            self.fail(number)
        elif (self.state, action) not in self.steps:
            self.say(id=number, error=f"can't {action}, being {self.state}")
        else:
            self.state, self.last = random.choice(self.steps[self.state, action]), number
            self.remember()
            self.say(id=number, state=self.state)

    def tell(self, number: int, about: int | None) -> None:
        """Tells its state, and whether it did a call. One that it didn't do may still be on its way: it is refused from
        then on."""
        if about is not None and about != self.last and about not in self.refused:
            self.refused.append(about)
            self.remember()
        self.say(id=number, state=self.state, done=about == self.last)

    def fail(self, number: int) -> None:
        """Fails in one of three ways."""
        way = random.choice(("silent", "unable", "dead"))
        if way == "unable":
            self.say(id=number, error="the motor is stuck")
        elif way == "dead":
            os._exit(1)


def main() -> None:
    _, port, name, behaviour = sys.argv
    Device(int(port), name, BEHAVIOURS[behaviour]).client.loop_forever()


if __name__ == "__main__":
    main()
