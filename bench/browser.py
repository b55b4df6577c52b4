"""Chromium without a window, by its own protocol: opens pages, tells what they log, runs scripts in them, and takes
pictures.

    with Browser() as browser:
        page = browser.open("/tmp/page.html", width=1280, dark=True)
        page.logged                  errors and warnings of the console, and uncaught ones
        page.milliseconds            from the begin of the load to the first frame behind it
        page.run("document.title")
        page.picture("page.png", clip=(0, 0, 800, 600))
"""
from __future__ import annotations

import base64
import json
import os
import shutil
import socket
import subprocess
import tempfile
import time
import urllib.request
from typing import Any, Optional

FLAGS = [
    "--headless",
    "--no-sandbox",
    "--disable-gpu",
    "--hide-scrollbars",
    "--remote-debugging-port=0",
    "--no-first-run",
]
FRAME = "new Promise(done => requestAnimationFrame(() => requestAnimationFrame(() => done(performance.now()))))"

SIDES = ("x", "y", "width", "height")


class Channel:
    """A web socket: texts in masked frames out, and in."""

    def __init__(self, url: str) -> None:
        host, _, path = url[len("ws://") :].partition("/")
        name, port = host.split(":")
        self.socket = socket.create_connection((name, int(port)), timeout=120)
        key = base64.b64encode(os.urandom(16)).decode()
        lines = [f"GET /{path} HTTP/1.1", f"Host: {host}", "Upgrade: websocket", "Connection: Upgrade"]
        self.socket.sendall(
            "\r\n".join(lines + [f"Sec-WebSocket-Key: {key}", "Sec-WebSocket-Version: 13", "", ""]).encode()
        )
        self.bytes = self.socket.makefile("rb")
        while self.bytes.readline().strip():
            pass

    def send(self, text: str) -> None:
        data, mask = text.encode(), os.urandom(4)
        size = len(data)
        if size < 126:
            length = bytes([0x80 | size])
        elif size < 65536:
            length = b"\xfe" + size.to_bytes(2, "big")
        else:
            length = b"\xff" + size.to_bytes(8, "big")
        masked = bytes(byte ^ mask[place % 4] for place, byte in enumerate(data))
        self.socket.sendall(b"\x81" + length + mask + masked)

    def receive(self) -> str:
        whole, last = b"", False
        while not last:
            first, second = self.bytes.read(2)
            size = second & 127
            size = int.from_bytes(self.bytes.read({126: 2, 127: 8}[size]), "big") if size > 125 else size
            data, last = self.bytes.read(size), bool(first & 128)
            whole += data if first & 15 in (0, 1) else b""
        return whole.decode()


class Page:
    def __init__(self, url: str) -> None:
        self.channel, self.count = Channel(url), 0
        self.logged: list[str] = []
        for domain in ("Page", "Runtime", "Log"):
            self.ask(f"{domain}.enable")
        self.ask("Performance.enable", timeDomain="threadTicks")

    def ask(self, method: str, **params: Any) -> Any:
        """A command's answer; what the page logs meanwhile is kept."""
        self.count += 1
        self.channel.send(json.dumps({"id": self.count, "method": method, "params": params}))
        while True:
            said = json.loads(self.channel.receive() or "{}")
            if said.get("id") == self.count:
                if "error" in said:
                    raise RuntimeError(f"{method}: {said['error']['message']}")
                return said["result"]
            self.note(said)

    def note(self, said: Any) -> None:
        params = said.get("params", {})
        if said.get("method") == "Runtime.exceptionThrown":
            details = params["exceptionDetails"]
            self.logged.append(details.get("exception", {}).get("description") or details["text"])
        if said.get("method") == "Runtime.consoleAPICalled" and params["type"] in ("error", "warning", "assert"):
            self.logged.append(" ".join(str(arg.get("value", "")) for arg in params["args"]))
        if said.get("method") == "Log.entryAdded" and params["entry"]["level"] in ("error", "warning"):
            self.logged.append(params["entry"]["text"])

    def load(self, path: str, width: int, height: int, dark: bool) -> None:
        self.ask("Emulation.setDeviceMetricsOverride", width=width, height=height, deviceScaleFactor=1, mobile=False)
        scheme = {"name": "prefers-color-scheme", "value": "dark" if dark else "light"}
        self.ask("Emulation.setEmulatedMedia", features=[scheme])
        self.ask("Page.navigate", url="file://" + os.path.abspath(path))
        while self.run("document.readyState") != "complete" or self.run("location.href") == "about:blank":
            time.sleep(0.05)
        self.milliseconds = float(self.run(FRAME))
        # processor time of the page's thread: load beside it doesn't change that
        metrics = self.ask("Performance.getMetrics")["metrics"]
        self.work = {one["name"]: one["value"] * 1000 for one in metrics if one["name"].endswith("Duration")}

    def run(self, script: str) -> Any:
        """The value of a script in the page."""
        done = self.ask("Runtime.evaluate", expression=script, returnByValue=True, awaitPromise=True)
        if "exceptionDetails" in done:
            raise RuntimeError(done["exceptionDetails"]["exception"].get("description", script))
        return done["result"].get("value")

    def picture(self, name: str, clip: Optional[tuple[float, float, float, float]] = None) -> None:
        """A picture of the page, or of (left, top, width, height) of it."""
        area: dict[str, Any] = {"clip": {**dict(zip(SIDES, clip)), "scale": 1.0}} if clip else {}
        given = {"format": "png", "captureBeyondViewport": True, **area}
        with open(name, "wb") as file:
            file.write(base64.b64decode(self.ask("Page.captureScreenshot", **given)["data"]))


def line_of(path: str) -> str:
    """The first line of a file, nothing where there is none yet."""
    if not os.path.exists(path):
        return ""
    with open(path, encoding="ascii") as file:
        return file.readline()


class Browser:
    def __enter__(self) -> Browser:
        self.folder = tempfile.mkdtemp()
        program = shutil.which("chromium") or shutil.which("chromium-browser")
        if program is None:
            raise SystemExit("there is no chromium: apt-get install chromium")
        words = [program, *FLAGS, f"--user-data-dir={self.folder}", "about:blank"]
        self.process = subprocess.Popen(words, stdout=subprocess.DEVNULL, stderr=subprocess.DEVNULL)
        port = os.path.join(self.folder, "DevToolsActivePort")
        while not line_of(port).strip():
            time.sleep(0.1)
        self.port = int(line_of(port))
        return self

    def open(self, path: str, width: int = 1280, height: int = 900, dark: bool = False) -> Page:
        request = urllib.request.Request(f"http://127.0.0.1:{self.port}/json/new?about:blank", method="PUT")
        with urllib.request.urlopen(request) as answer:
            target = json.load(answer)
        page = Page(target["webSocketDebuggerUrl"])
        page.load(path, width, height, dark)
        return page

    def __exit__(self, *_: object) -> None:
        self.process.terminate()
        self.process.wait()
        shutil.rmtree(self.folder, ignore_errors=True)
