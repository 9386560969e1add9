"""The kit in a headless Chromium: what it shows, says and asks for, at any width, in light and dark."""
from __future__ import annotations

import base64
import json
import unittest
from pathlib import Path
from typing import Any

from support import KIT
from tab import CHROMIUM, Tab

NEEDS = unittest.skipUnless(CHROMIUM, "no Chromium is installed: apt-get install chromium")
PAGE = KIT / "ice-kit.html"
DOMAINS = ("Page", "Runtime", "Network", "Log")
CODES = {"Tab": 9, "Enter": 13, " ": 32, "ArrowRight": 39, "ArrowLeft": 37}


class Window(Tab):
    """A tab that keeps what the browser tells of it."""

    def __init__(self) -> None:
        self.events: list[dict[str, Any]] = []
        super().__init__()
        for domain in DOMAINS:
            self.ask(f"{domain}.enable")
        self.ask("Page.bringToFront")
        self.ask("Emulation.setFocusEmulationEnabled", enabled=True)

    def message(self, patience: float) -> dict[str, Any]:
        """The next message; one that answers nothing is kept."""
        found = super().message(patience)
        if "id" not in found:
            self.events.append(found)
        return found

    def open(self, width: int = 1160, dark: bool = False, language: str = "en") -> None:
        """Opens the kit in a window of this width, light or dark, in a language."""
        scheme = {"name": "prefers-color-scheme", "value": "dark" if dark else "light"}
        self.ask("Emulation.setEmulatedMedia", features=[scheme])
        size = {"width": width, "height": 900, "deviceScaleFactor": 1, "mobile": width < 600}
        self.ask("Emulation.setDeviceMetricsOverride", **size)
        self.ask("Emulation.setLocaleOverride", locale=language)
        self.events.clear()
        self.show(PAGE)
        self.wait("document.body.dataset.ready")
        self.run(f"document.querySelector('[data-language={language}]').click()")

    def words(self, place: str = "body") -> str:
        """The words that are shown in an element."""
        return str(self.run(f"document.querySelector({json.dumps(place)}).innerText"))

    def type(self, place: str, text: str) -> None:
        """Puts a text into a field, as one that is typed."""
        self.run(
            f"(field => {{ field.value = {json.dumps(text)};"
            "field.dispatchEvent(new Event('input', { bubbles: true })); })"
            f"(document.querySelector({json.dumps(place)}))"
        )

    def press(self, key: str, text: str = "") -> None:
        """Presses a key."""
        given: dict[str, Any] = {"key": key, "code": key, "windowsVirtualKeyCode": CODES.get(key, 0)}
        down: dict[str, Any] = {"type": "keyDown", "text": text} if text else {"type": "rawKeyDown"}
        self.ask("Input.dispatchKeyEvent", **down, **given)
        self.ask("Input.dispatchKeyEvent", type="keyUp", **given)

    def picture(self, file: Path) -> None:
        """A picture of the whole page."""
        found = self.ask("Page.captureScreenshot", format="png", captureBeyondViewport=True)
        file.write_bytes(base64.b64decode(found["data"]))

    def complaints(self) -> list[str]:
        """What the browser complained of, and what was asked of a network, since it was opened."""
        self.run("0")
        found = []
        for event in self.events:
            told = event.get("params", {})
            if event["method"] == "Log.entryAdded":
                found.append(told["entry"]["text"])
            elif event["method"] == "Runtime.exceptionThrown":
                found.append(json.dumps(told["exceptionDetails"]))
            elif event["method"] == "Network.requestWillBeSent":
                url = told["request"]["url"]
                found += [] if url.startswith(("file:", "blob:")) else [url]
        return found
