"""Firefox without a screen, driven by Marionette, its own protocol."""
from __future__ import annotations

import base64
import contextlib
import json
import socket
import subprocess
import time
from pathlib import Path

SECONDS = 120


class Firefox:
    """A window of the browser, whose profile is a folder of this run."""

    def __init__(self, room: Path):
        profile = room / "profile"
        profile.mkdir(exist_ok=True)
        (profile / "user.js").write_text(
            'user_pref("marionette.port", 0);\n'
            'user_pref("datareporting.policy.dataSubmissionEnabled", false);\n',
            encoding="ascii",
        )
        words = [
            "firefox-esr",
            "--headless",
            "--marionette",
            "--no-remote",
            "--profile",
            str(profile),
        ]
        quiet = {"stdout": subprocess.DEVNULL, "stderr": subprocess.DEVNULL}
        self.process = subprocess.Popen(words, **quiet)
        try:
            self.line = self.connected(profile / "MarionetteActivePort")
            self.take()
            made = self.ask("WebDriver:NewSession", capabilities={})
        except BaseException:
            self.end()
            raise
        self.version = made["capabilities"]["browserVersion"]
        self.ask("WebDriver:SetTimeouts", script=600_000)

    def __enter__(self) -> Firefox:
        return self

    def __exit__(self, *_: object) -> None:
        self.end()

    def end(self) -> None:
        self.process.terminate()
        with contextlib.suppress(subprocess.TimeoutExpired):
            self.process.wait(20)
        if self.process.poll() is None:
            self.process.kill()
            self.process.wait()

    def connected(self, file: Path) -> socket.socket:
        """A connection to the port that Firefox has chosen and written into a file."""
        end = time.monotonic() + SECONDS
        while time.monotonic() < end:
            with contextlib.suppress(OSError, ValueError):
                port = int(file.read_text(encoding="ascii"))
                return socket.create_connection(("127.0.0.1", port), 600)
            time.sleep(0.2)
        raise RuntimeError("Firefox does not answer")

    def take(self) -> list:
        """A message: its length, a colon, and JSON."""
        head = b""
        while not head.endswith(b":"):
            head += self.line.recv(1)
        size, body = int(head[:-1]), b""
        while len(body) < size:
            body += self.line.recv(min(1 << 16, size - len(body)))
        return json.loads(body)

    def ask(self, name: str, **words: object) -> dict:
        sent = json.dumps([0, 1, name, words]).encode()
        self.line.sendall(b"%d:%s" % (len(sent), sent))
        _, _, fault, said = self.take()
        if fault:
            raise RuntimeError(str(fault)[:1000])
        return said

    def open(self, url: str) -> None:
        self.ask("WebDriver:Navigate", url=url)

    def later(self, text: str, *words: object) -> object:
        return self.ask("WebDriver:ExecuteAsyncScript", script=text, args=list(words))["value"]

    def picture(self, file: Path) -> None:
        said = self.ask("WebDriver:TakeScreenshot", full=False)["value"]
        file.write_bytes(base64.b64decode(said))
