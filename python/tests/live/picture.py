"""Takes the pictures of the page that the guide shows: PYTHONPATH=../src python3 -m live.picture [FOLDER], in
python/tests.

In the first picture the kettle of the demo home is frozen, and the page explains why there is no composition without
it. The second one has the drawing of that home. The third one has the house, whose front door is being repaired.
"""

from __future__ import annotations

import sys
import tempfile
from pathlib import Path
from typing import Any

from . import TOP
from .browser import Demonstrated, browser, wait_until
from .test_samples import Sample

WIDTH = 1080


def save(driver: Any, file: Path) -> None:
    """Saves the whole page."""
    height = driver.execute_script("return document.documentElement.scrollHeight")
    size = {"width": WIDTH, "height": height, "deviceScaleFactor": 1, "mobile": False}
    driver.execute_cdp_cmd("Emulation.setDeviceMetricsOverride", size)
    driver.execute_cdp_cmd("Emulation.setScrollbarsHidden", {"hidden": True})
    driver.save_screenshot(str(file))
    driver.execute_cdp_cmd("Emulation.clearDeviceMetricsOverride", {})


def shown(driver: Any, name: str) -> str:
    """The text of an element."""
    return str(driver.execute_script("return document.getElementById(arguments[0]).textContent", name))


def take_demonstration(driver: Any, folder: Path) -> None:
    """Takes the pictures of the demo home, with and without its drawing."""
    home = Demonstrated()
    try:
        home.begin(0)
        driver.get(home.url)
        for action in ("brighten", "boil", "pour", "dim", "brighten"):
            home.post("requests", {"action": action})
        driver.find_element("css selector", "#drawing summary").click()
        wait_until(lambda: driver.find_elements("css selector", "#drawn .here"), "the drawing")
        drawing = driver.find_element("css selector", "#drawn svg")
        driver.execute_script("arguments[0].scrollIntoView()", drawing)
        drawing.screenshot(str(folder / "live-drawing.png"))
        driver.find_element("css selector", "#drawing summary").click()
        home.post("services/kettle/freeze", {})
        wait_until(lambda: "is back" in shown(driver, "remedies"), "the remedies")
        save(driver, folder / "live.png")
    finally:
        home.close()


def take_house(driver: Any, folder: Path) -> None:
    """Takes the picture of the house with ten devices, without its front door."""
    with tempfile.TemporaryDirectory() as place:
        house = Sample("house", Path(place), failures=0)
        try:
            driver.get(house.live.url)
            for action in ("brighten", "air", "calm", "dim", "leave", "return"):
                house.live.post("/requests", {"action": action})
            house.live.post("/services/front/freeze", {})
            wait_until(lambda: "Front door" in shown(driver, "remedies"), "the remedies")
            save(driver, folder / "live-house.png")
        finally:
            house.stop()


def take(folder: Path) -> None:
    """Takes all pictures."""
    driver = browser()
    try:
        driver.set_window_size(WIDTH, 800)
        take_demonstration(driver, folder)
        take_house(driver, folder)
    finally:
        driver.quit()


if __name__ == "__main__":
    take(Path(sys.argv[1]) if sys.argv[1:] else TOP / "docs")
