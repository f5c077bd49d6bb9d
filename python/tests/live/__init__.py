"""Tests of roman-live. They run the program that ROMAN names, or ./roman, and a mosquitto of their own. Real devices
use free ports of 127.0.0.1."""

import os
from pathlib import Path

TOP = Path(__file__).resolve().parents[3]
ROMAN_LIVE = TOP / "tools" / "roman-live"
DEMO = TOP / "samples" / "live" / "demo"
PROGRAM = os.environ.get("ROMAN", str(TOP / "roman"))


def sample(name: str) -> str:
    """The path of a sample."""
    return str(TOP / "samples" / name)
