"""The same calls as `roman_client`, for asyncio.

    async with aio.Session("home.json") as session:
        async with aio.Dispatcher(session, devices) as dispatcher:
            done = await dispatcher.request("brighten")
"""

from .devices import Act, Back, Device, Policy, device
from .dispatcher import Dispatcher
from .remedies import mend, remedies
from .session import Session

__all__ = ["Act", "Back", "Device", "Dispatcher", "Policy", "Session", "device", "mend", "remedies"]
