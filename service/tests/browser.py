"""A headless Chromium, driven through a pipe, for the tests of the page."""

import base64
import json
import os
import shutil
import subprocess
import time
from collections.abc import Callable
from pathlib import Path
from typing import Any

from kernel import User, become

SECONDS = 30.0
KEYS = {"Enter": 13, "Escape": 27, "ArrowDown": 40, "ArrowUp": 38, "Tab": 9}


class Browser:
    """A browser of a user, with one page."""

    def __init__(self, user: User | None, home: Path, *words: str) -> None:
        to_child, self.writing = os.pipe()
        self.reading, from_child = os.pipe()
        command = [
            shutil.which("chromium") or "chromium", "--headless=new", "--remote-debugging-pipe",
            "--no-sandbox", "--disable-gpu", "--disable-dev-shm-usage", "--no-first-run",
            "--force-color-profile=srgb", "--hide-scrollbars", f"--user-data-dir={home}", *words,
        ]  # fmt: skip

        def begin() -> None:
            if user is not None:
                become(user)
            for theirs, number in ((to_child, 3), (from_child, 4)):
                os.dup2(theirs, number)

        # The descriptors of the pipe are above 4, so that neither takes the place of the other.
        to_child, from_child = _above(to_child), _above(from_child)
        self.child = subprocess.Popen(
            command,
            pass_fds=(3, 4),
            preexec_fn=begin,
            stdin=subprocess.DEVNULL,
            stdout=subprocess.DEVNULL,
            stderr=subprocess.DEVNULL,
            env={"HOME": str(home), "PATH": os.environ.get("PATH", "/usr/bin"), "LANG": "C.UTF-8"},
        )
        os.close(to_child)
        os.close(from_child)
        self.begun = b""
        self.number = 0
        self.session: str | None = None
        self.complaints: list[str] = []
        target = self.send("Target.createTarget", url="about:blank")["targetId"]
        told = self.send("Target.attachToTarget", targetId=target, flatten=True)
        self.session = told["sessionId"]
        for domain in ("Page", "Runtime", "Log"):
            self.send(f"{domain}.enable")

    def send(self, method: str, **values: Any) -> Any:
        """What a command gives."""
        self.number += 1
        message: dict[str, Any] = {"id": self.number, "method": method, "params": values}
        if self.session is not None:
            message["sessionId"] = self.session
        os.write(self.writing, json.dumps(message).encode() + b"\0")
        until = time.monotonic() + SECONDS
        while time.monotonic() < until:
            told = self._next()
            if told.get("id") == self.number:
                if "error" in told:
                    raise RuntimeError(f"{method}: {told['error']}")
                return told["result"]
            self._note(told)
        raise TimeoutError(method)

    def _next(self) -> dict[str, Any]:
        while b"\0" not in self.begun:
            piece = os.read(self.reading, 1 << 16)
            if not piece:
                raise RuntimeError("the browser ended")
            self.begun += piece
        message, _, self.begun = self.begun.partition(b"\0")
        told = json.loads(message)
        assert isinstance(told, dict)
        return told

    def _note(self, told: dict[str, Any]) -> None:
        """Keeps what the browser complains of: errors of scripts, and refusals of its own."""
        method, values = told.get("method"), told.get("params", {})
        if method == "Log.entryAdded":
            self.complaints.append(f"{values['entry']['text']} {values['entry'].get('url')}")
        elif method == "Runtime.exceptionThrown":
            self.complaints.append(str(values["exceptionDetails"]))
        elif method == "Runtime.consoleAPICalled" and values["type"] in ("error", "warning"):
            self.complaints.append(str(values["args"]))

    def visit(self, link: str) -> None:
        """Goes to a page."""
        self.send("Page.navigate", url=link)

    def value(self, expression: str) -> Any:
        """What an expression of the page's own language gives."""
        told = self.send(
            "Runtime.evaluate", expression=expression, returnByValue=True, awaitPromise=True
        )
        if "exceptionDetails" in told:
            raise RuntimeError(f"{expression}: {told['exceptionDetails']}")
        return told["result"].get("value")

    def wait(self, expression: str, seconds: float = SECONDS) -> bool:
        """Waits until an expression holds: whether it did."""
        until = time.monotonic() + seconds
        while time.monotonic() < until:
            try:
                if self.value(expression):
                    return True
            except RuntimeError:
                pass  # the page isn't there yet
            time.sleep(0.03)
        return False

    def type(self, text: str) -> None:
        """Types a text."""
        for letter in text:
            self.send("Input.dispatchKeyEvent", type="keyDown", text=letter, key=letter)
            self.send("Input.dispatchKeyEvent", type="keyUp", key=letter)

    def press(self, key: str) -> None:
        """Presses a key."""
        code = KEYS.get(key)
        if code is None:
            self.type(key)
            return
        for kind in ("keyDown", "keyUp"):
            text = {"text": "\r"} if key == "Enter" and kind == "keyDown" else {}
            self.send(
                "Input.dispatchKeyEvent", type=kind, key=key, code=key,
                windowsVirtualKeyCode=code, **text,
            )  # fmt: skip

    def size(self, width: int, height: int) -> None:
        """Sets the window's size."""
        self.send(
            "Emulation.setDeviceMetricsOverride", width=width, height=height,
            deviceScaleFactor=1, mobile=False,
        )  # fmt: skip

    def scheme(self, name: str) -> None:
        """Wishes for `light` or `dark`."""
        feature = {"name": "prefers-color-scheme", "value": name}
        self.send("Emulation.setEmulatedMedia", features=[feature])

    def picture(self) -> bytes:
        """What is seen, as PNG."""
        return base64.b64decode(self.send("Page.captureScreenshot", format="png")["data"])

    def close(self) -> None:
        """Ends it."""
        os.close(self.writing)
        os.close(self.reading)
        self.child.terminate()
        try:
            self.child.wait(10)
        except subprocess.TimeoutExpired:
            self.child.kill()
            self.child.wait()


def _above(descriptor: int) -> int:
    """The same pipe by a descriptor above those that the browser has its own use for."""
    import fcntl

    other = fcntl.fcntl(descriptor, fcntl.F_DUPFD_CLOEXEC, 10)
    os.close(descriptor)
    return other


def is_there() -> bool:
    """Whether there is a browser."""
    return shutil.which("chromium") is not None


Check = Callable[[], bool]
