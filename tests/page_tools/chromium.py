"""Chromium without a screen, driven by chromedriver and the protocol of WebDriver (W3C, 2018)."""
from __future__ import annotations

import base64
import json
import re
import subprocess
import time
import urllib.error
import urllib.request
from collections.abc import Callable
from pathlib import Path

FLAGS = ["--headless=new", "--no-sandbox", "--disable-gpu", "--disable-dev-shm-usage"]
# What a step may take on a machine that is busy.
SECONDS = 180
ELEMENT = "element-6066-11e4-a52e-4f735466cecf"


class Chromium:
    """A window of the browser. Requests and messages of the page are kept in its logs."""

    def __init__(self, width: int = 1280, height: int = 1000):
        pipes = {"stdout": subprocess.PIPE, "stderr": subprocess.DEVNULL, "text": True}
        self.driver = subprocess.Popen(["chromedriver", "--port=0"], **pipes)
        self.at = ""
        try:
            self.port = self.port_of_driver()
            args = [*FLAGS, f"--window-size={width},{height}"]
            logs = {"browser": "ALL", "performance": "ALL"}
            wanted = {"browserName": "chrome", "goog:chromeOptions": {"args": args}}
            wanted["goog:loggingPrefs"] = logs
            made = self.ask("POST", "/session", {"capabilities": {"alwaysMatch": wanted}})
        except BaseException:
            self.end()
            raise
        self.at = f"/session/{made['sessionId']}"
        self.version = made["capabilities"]["browserVersion"]
        self.ask("POST", f"{self.at}/timeouts", {"script": 600_000})

    def __enter__(self) -> Chromium:
        return self

    def __exit__(self, *_: object) -> None:
        self.end()

    def end(self) -> None:
        """A browser whose session is not closed stays when its driver ends."""
        try:
            if self.at:
                self.ask("DELETE", self.at)
        finally:
            self.driver.terminate()
            self.driver.wait()

    def port_of_driver(self) -> int:
        """The port that chromedriver has chosen, which it says on its output."""
        for line in self.driver.stdout:
            found = re.search(r"started successfully on port (\d+)", line)
            if found:
                return int(found[1])
        raise RuntimeError("chromedriver does not start")

    def ask(self, way: str, path: str, body: dict | None = None) -> object:
        data = None if way == "GET" else json.dumps(body or {}).encode()
        head = {"Content-Type": "application/json"}
        url = f"http://127.0.0.1:{self.port}{path}"
        request = urllib.request.Request(url, data, head, method=way)
        try:
            with urllib.request.urlopen(request, timeout=600) as said:
                return json.load(said)["value"]
        except urllib.error.HTTPError as fault:
            raise RuntimeError(fault.read().decode()[:1500]) from fault

    # ---- What a test does with it

    def do(self, text: str, *words: object) -> object:
        body = {"script": text, "args": list(words)}
        return self.ask("POST", f"{self.at}/execute/sync", body)

    def later(self, text: str, *words: object) -> object:
        """Runs a script that calls the last of its arguments with what it answers."""
        body = {"script": text, "args": list(words)}
        return self.ask("POST", f"{self.at}/execute/async", body)

    def cdp(self, command: str, **words: object) -> object:
        return self.ask("POST", f"{self.at}/goog/cdp/execute", {"cmd": command, "params": words})

    def open(self, url: str) -> None:
        self.ask("POST", f"{self.at}/url", {"url": url})

    def wait(self, holds: Callable[[], object], said: str, seconds: float = SECONDS) -> object:
        end = time.monotonic() + seconds
        while time.monotonic() < end:
            found = holds()
            if found:
                return found
            time.sleep(0.03)
        raise RuntimeError(said)

    def press(self, *keys: str) -> None:
        """Presses keys one after another, as on a keyboard."""
        actions = [{"type": it, "value": key} for key in keys for it in ("keyDown", "keyUp")]
        body = {"actions": [{"type": "key", "id": "keys", "actions": actions}]}
        self.ask("POST", f"{self.at}/actions", body)

    def picture(self, file: Path, width: int, height: int = 0) -> None:
        """A picture of the whole page at a width."""
        tall = height or min(int(self.do("return document.documentElement.scrollHeight")), 4000)
        size = {"width": width, "height": tall, "deviceScaleFactor": 1, "mobile": width < 600}
        self.cdp("Emulation.setDeviceMetricsOverride", **size)
        time.sleep(0.3)
        file.write_bytes(base64.b64decode(str(self.ask("GET", f"{self.at}/screenshot"))))
        self.cdp("Emulation.clearDeviceMetricsOverride")

    def log(self, kind: str) -> list[dict]:
        return list(self.ask("POST", f"{self.at}/se/log", {"type": kind}))

    def requests(self) -> list[str]:
        """The addresses that were asked for since the last call."""
        found = [json.loads(it["message"])["message"] for it in self.log("performance")]
        sent = [it for it in found if it["method"] == "Network.requestWillBeSent"]
        return [it["params"]["request"]["url"] for it in sent]
