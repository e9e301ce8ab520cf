"""A page in Chromium, if that is installed, driven by the protocol of its developer tools over two pipes."""

from __future__ import annotations

import json
import os
import shutil
import subprocess
import tempfile
import time
from typing import Any

WORDS = "--headless=new --no-sandbox --disable-gpu --remote-debugging-pipe about:blank"
# Descriptors that nothing else has.
ASIDE = 190, 191
# How long something on a page may take.
LONGEST = 60.0


class BadPage(Exception):
    """The page doesn't do what is waited for, or its script fails."""


class Browser:
    """A page at an address, for as long as it is entered."""

    def __init__(self, address: str):
        self.address, self.session, self.calls, self.read = address, None, 0, b""

    @staticmethod
    def is_there() -> bool:
        return shutil.which("chromium") is not None

    def __enter__(self) -> Browser:
        self.room = tempfile.TemporaryDirectory(prefix="grove-browser-")
        (asks, self.asks), (self.says, says) = os.pipe(), os.pipe()
        # (It reads from descriptor 3, and writes to 4.)
        aside = f"exec {ASIDE[0]}<&{asks} {ASIDE[1]}>&{says}"
        line = f"{aside} && exec 3<&{ASIDE[0]} 4>&{ASIDE[1]} && exec chromium {WORDS}"
        words = ["bash", "-c", f"{line} --user-data-dir={self.room.name}"]
        self.started = subprocess.Popen(words, pass_fds=(asks, says), stderr=subprocess.DEVNULL)
        os.close(asks)
        os.close(says)
        target = self.call("Target.createTarget", url=self.address)["targetId"]
        self.session = self.call("Target.attachToTarget", targetId=target, flatten=True)["sessionId"]
        return self

    def __exit__(self, *_) -> None:
        self.started.terminate()
        self.started.wait()
        os.close(self.asks)
        os.close(self.says)
        shutil.rmtree(self.room.name, ignore_errors=True)

    def call(self, method: str, **params) -> dict[str, Any]:
        """Calls a method of the protocol; what the browser tells meanwhile is passed over."""
        self.calls += 1
        told = {"id": self.calls, "method": method, "params": params}
        told |= {"sessionId": self.session} if self.session else {}
        os.write(self.asks, json.dumps(told).encode() + b"\0")
        while (came := self.next()).get("id") != self.calls:
            pass
        if "error" in came:
            raise BadPage(f"{method}: {came['error']}")
        return came["result"]

    def next(self) -> dict[str, Any]:
        while b"\0" not in self.read:
            piece = os.read(self.says, 1 << 16)
            if not piece:
                raise BadPage("the browser has ended")
            self.read += piece
        text, _, self.read = self.read.partition(b"\0")
        return json.loads(text)

    def run(self, script: str) -> Any:
        """What the script gives."""
        came = self.call("Runtime.evaluate", expression=script, returnByValue=True, userGesture=True)
        if "exceptionDetails" in came:
            raise BadPage(f"{script}: {came['exceptionDetails']['exception'].get('description')}")
        return came["result"].get("value")

    def press(self, key: str, number: int) -> None:
        """Presses a key and lets it go."""
        for kind in ("keyDown", "keyUp"):
            self.call("Input.dispatchKeyEvent", type=kind, key=key, code=key, windowsVirtualKeyCode=number)

    def until(self, script: str) -> None:
        """Waits until the script gives something that is true."""
        ends = time.monotonic() + LONGEST
        while time.monotonic() < ends:
            try:
                if self.run(script):
                    return
            except BadPage:
                # (The page may not be there yet.)
                pass
            time.sleep(0.02)
        raise BadPage(f"it isn't so after {LONGEST:g} s: {script}")
