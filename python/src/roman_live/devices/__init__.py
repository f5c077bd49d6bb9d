"""Devices of all kinds, by which services are reached."""

from __future__ import annotations

from .base import Answer, Listener, Reach
from .simulated import Simulated

__all__ = ["Answer", "Listener", "Reach", "Simulated"]
