"""Runs the simulated devices that a file lists: `python3 -m simulators DEVICES.toml --broker PORT`.

Each table of the file is a device: `make` names its class, and the other keys are the words of that class. With
--hands each line of the standard input is the name of a device that is moved by hand.
"""

from __future__ import annotations

import argparse
import asyncio
import logging
import signal
import sys
from collections.abc import Callable
from pathlib import Path
from typing import Any

import tomllib

from . import esphome, home_assistant, modbus, shelly, tasmota, zigbee2mqtt
from .base import Settings

MAKES: dict[str, Callable[..., Any]] = {
    "tasmota": tasmota.Plug,
    "zigbee2mqtt": zigbee2mqtt.ZigbeeDevice,
    "shelly-relay": shelly.Relay,
    "shelly-roller": shelly.Roller,
    "shelly-rpc": shelly.Switch,
    "esphome": esphome.Node,
    "home-assistant": home_assistant.Assistant,
    "modbus": modbus.Machine,
}


def words() -> argparse.Namespace:
    parser = argparse.ArgumentParser(prog="simulators", description=__doc__)
    parser.add_argument("devices", type=Path, metavar="DEVICES.toml")
    parser.add_argument("--broker", type=int, default=1883, metavar="PORT")
    parser.add_argument("--failures", type=float, default=0.1, metavar="SHARE")
    parser.add_argument("--pace", type=float, default=0.8, metavar="SECONDS", help="how long an action takes at most")
    parser.add_argument("--late", type=float, default=8.0, metavar="SECONDS", help="when a late action is done")
    parser.add_argument("--seed", type=int, default=1)
    parser.add_argument("--hands", action="store_true", help="read the names of devices that are moved by hand")
    parser.add_argument("--log", type=Path, help="where each state of a device is written")
    return parser.parse_args()


async def follow_hands(devices: dict[str, Any]) -> None:
    """Moves the devices by hand that the standard input names."""
    reader = asyncio.StreamReader()
    loop = asyncio.get_running_loop()
    await loop.connect_read_pipe(lambda: asyncio.StreamReaderProtocol(reader), sys.stdin)
    async for line in reader:
        device = devices.get(line.decode().strip())
        if device is not None:
            device.press()


async def main() -> None:
    given = words()
    logging.getLogger("pymodbus").setLevel(logging.CRITICAL)
    settings = Settings(given.failures, given.pace, given.late, given.seed, given.log, given.broker)
    tables = tomllib.loads(given.devices.read_text(encoding="utf-8"))
    devices = {}
    for name, table in tables.items():
        make = MAKES[table.pop("make")]
        devices[name] = make(name, settings, **table)
    ending = asyncio.Event()
    for each in (signal.SIGTERM, signal.SIGINT):
        asyncio.get_running_loop().add_signal_handler(each, ending.set)
    await asyncio.gather(*(device.start() for device in devices.values()))
    hands = asyncio.ensure_future(follow_hands(devices)) if given.hands else None
    print("ready", flush=True)
    await ending.wait()
    if hands is not None:
        hands.cancel()
    await asyncio.gather(*(device.stop() for device in devices.values()))


if __name__ == "__main__":
    asyncio.run(main())
