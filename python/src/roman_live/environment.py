"""The state of the environment, from a sensor."""

from __future__ import annotations

from collections.abc import Callable

from .config import Sensor
from .devices import Answer
from .devices.factory import make_mapped
from .errors import error_text
from .mqtt_api import Connection
from .polling import poll


class EnvironmentSensor:
    """A device that reports the state of the environment. It listens to its reach."""

    def __init__(
        self,
        sensor: Sensor,
        broker: Connection | None,
        moved: Callable[[str], None],
        said: Callable[[str, bool], None],
    ) -> None:
        """`moved` receives each state that the sensor reports. `said` receives a text on other changes of the sensor,
        and whether it is in order."""
        self._seconds = sensor.seconds
        self._moved = moved
        self._said = said
        self.reach = make_mapped("environment", sensor.map, self, broker, lambda call: ())
        self.state: str | None = None
        """The state that it reported last, None if it isn't available."""

    async def ask(self) -> None:
        """Reads the state."""
        try:
            answer = await self._told()
        except Exception as error:
            self._lost(error)
        else:
            if answer is not None:
                self._heard(answer)

    async def watch(self) -> None:
        """Polls the sensor, if it reports nothing by itself."""
        if self.reach.poll is not None:
            await poll(self.reach.poll, self._told, lambda: 0, self._heard, self._lost)

    async def _told(self) -> Answer | None:
        return await self.reach.present(self._seconds)

    def _heard(self, answer: Answer) -> None:
        self.moved("", answer)

    def _lost(self, error: Exception) -> None:
        self.state = None  # It may have moved since.
        self._said(f"the environment's sensor: {error_text(error)}", False)

    # As a listener.

    def moved(self, service: str, answer: Answer) -> None:
        self.state = answer.state
        self._moved(answer.state)

    def answered(self, service: str) -> None:
        """Does nothing: a sensor is never called."""

    def gone(self, service: str) -> None:
        self.state = None
        self._said("the environment's sensor is gone", False)

    def late(self, service: str, text: str) -> None:
        self._said(f"the environment's sensor {text}", True)
