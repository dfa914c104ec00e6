"""A browser without a window, by Chromium's driver and the standard library."""

import base64
import json
import shutil
import subprocess
import time
from pathlib import Path
from typing import Any
from urllib.request import Request, urlopen

from engines import LOOPBACK, free_port

CHROMIUM, DRIVER = shutil.which("chromium"), shutil.which("chromedriver")
SECONDS = 60.0


class Browser:
    """A page of a browser. It ends with a `with`."""

    def __init__(self, width: int, height: int) -> None:
        self._address = f"http://{LOOPBACK}:{free_port()}"
        words = [str(DRIVER), f"--port={self._address.rpartition(':')[2]}"]
        self._driver = subprocess.Popen(words, stdout=subprocess.DEVNULL, stderr=subprocess.DEVNULL)
        options = {
            "binary": CHROMIUM,
            "args": ["--headless=new", "--no-sandbox", "--disable-gpu", "--hide-scrollbars", "--disable-dev-shm-usage"],
        }
        try:
            self._wait_for_driver()
            answer = self._ask("POST", "/session", {"capabilities": {"alwaysMatch": {"goog:chromeOptions": options}}})
            self._session = f"/session/{answer['sessionId']}"
            self.resize(width, height)
        except BaseException:
            self._driver.kill()
            self._driver.wait()
            raise

    def resize(self, width: int, height: int) -> None:
        """Has the page this size, as if on a screen of it."""
        metrics = {"width": width, "height": height, "deviceScaleFactor": 1, "mobile": False}
        command = {"cmd": "Emulation.setDeviceMetricsOverride", "params": metrics}
        self._ask("POST", f"{self._session}/goog/cdp/execute", command)

    def go(self, url: str) -> None:
        self._ask("POST", f"{self._session}/url", {"url": url})

    def run(self, script: str) -> Any:
        """What a script returns in the page."""
        return self._ask("POST", f"{self._session}/execute/sync", {"script": script, "args": []})

    def wait_for(self, script: str) -> None:
        """Waits until the script returns what holds."""
        end = time.monotonic() + SECONDS
        while not self.run(f"return {script}"):
            assert time.monotonic() < end, (script, self.run("return document.body.innerText"))
            time.sleep(0.05)

    def type(self, where: str, text: str) -> None:
        """Types into what a selector finds."""
        found = self._ask("POST", f"{self._session}/element", {"using": "css selector", "value": where})
        (element,) = found.values()
        self._ask("POST", f"{self._session}/element/{element}/value", {"text": text})

    def picture(self, path: Path) -> None:
        path.write_bytes(base64.b64decode(self._ask("GET", f"{self._session}/screenshot")))

    def __enter__(self) -> "Browser":
        return self

    def __exit__(self, *_: object) -> None:
        try:
            self._ask("DELETE", self._session)
        finally:
            self._driver.kill()
            self._driver.wait()

    def _wait_for_driver(self) -> None:
        end = time.monotonic() + SECONDS
        while True:
            try:
                if self._ask("GET", "/status")["ready"]:
                    return
            except OSError:
                if time.monotonic() > end:
                    raise
            time.sleep(0.05)

    def _ask(self, method: str, path: str, value: object = None) -> Any:
        data = None if value is None else json.dumps(value).encode()
        request = Request(self._address + path, data, {"Content-Type": "application/json"}, method=method)
        with urlopen(request, timeout=SECONDS) as answer:
            return json.load(answer)["value"]
