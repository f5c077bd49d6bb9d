"""Makes the reach of a service from its entry in the home file."""

from __future__ import annotations

from ..config import CommandReach, DeviceEntry, HttpReach, MqttReach
from ..mqtt_api import Connection
from ..processes import Processes
from .base import Listener, Reach
from .command import Command, LineCommand
from .http import Http
from .mapped import MappedReach, Outcomes
from .mapped_http import MappedHttp
from .mapped_mqtt import MappedMqtt
from .maps import HttpMap, Map, ModbusMap, MqttMap
from .mqtt import Mqtt
from .python import PythonDevice


def make_reach(
    service: str,
    entry: DeviceEntry,
    listener: Listener,
    broker: Connection | None,
    processes: Processes,
    before: int | None,
    outcomes: Outcomes,
) -> Reach:
    """Makes the reach of a service. Commands hold their locks in `processes`. `before` is the number of the service's
    last call, whose command an earlier run may have left at work. `outcomes` returns the outcomes that the document
    allows for a call."""
    reach = entry.reach
    if isinstance(reach, Map):
        return make_mapped(service, reach, listener, broker, outcomes)
    if isinstance(reach, MqttReach):
        assert broker is not None
        return Mqtt(service, listener, reach, broker)
    if isinstance(reach, HttpReach):
        return Http(service, listener, reach)
    if isinstance(reach, CommandReach):
        return (LineCommand if reach.lines else Command)(service, listener, reach, processes, before)
    return PythonDevice(service, listener, reach)


def make_mapped(
    service: str, found: Map, listener: Listener, broker: Connection | None, outcomes: Outcomes
) -> MappedReach:
    """Makes the reach of a service, or of the environment, from a map."""
    if isinstance(found, MqttMap):
        assert broker is not None
        return MappedMqtt(service, listener, found, outcomes, broker)
    if isinstance(found, HttpMap):
        return MappedHttp(service, listener, found, outcomes)
    assert isinstance(found, ModbusMap)
    from .modbus import Modbus  # Only homes with such machines need its client.

    return Modbus(service, listener, found, outcomes)
