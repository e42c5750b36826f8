"""A real browser, driven over WebDriver by plain HTTP."""

import base64
import json
import os
import shutil
import socket
import subprocess
import tempfile
import time
import urllib.error
import urllib.request
from pathlib import Path

ELEMENT = "element-6066-11e4-a52e-4f735466cecf"
DRIVERS = ("chromedriver",)
BROWSERS = ("chromium", "chromium-browser", "google-chrome")
WAIT_SECONDS = 20
KEYS = {
    "enter": "\ue007",
    "delete": "\ue017",
    "right": "\ue014",
    "left": "\ue012",
    "up": "\ue013",
    "down": "\ue015",
    "tab": "\ue004",
}


def find_browser():
    """The paths of the driver and of the browser, or None where one of them is not there."""
    driver = next(filter(None, map(shutil.which, DRIVERS)), None)
    browser = next(filter(None, map(shutil.which, BROWSERS)), None)
    return (driver, browser) if driver and browser else None


def free_port():
    with socket.socket() as found:
        found.bind(("127.0.0.1", 0))
        return found.getsockname()[1]


class Fault(Exception):
    """What the driver refused."""


class Browser:
    """A headless browser with its driver."""

    def __init__(self, width=1280, height=900):
        driver, browser = find_browser()
        self._port = free_port()
        self._folder = tempfile.TemporaryDirectory(prefix="page-browser-", ignore_cleanup_errors=True)
        self._driver = subprocess.Popen(
            [driver, f"--port={self._port}"],
            stdout=subprocess.DEVNULL,
            stderr=subprocess.DEVNULL,
            start_new_session=True,
        )
        self._session = ""
        arguments = [
            "--headless=new",
            "--disable-gpu",
            "--no-first-run",
            "--disable-dev-shm-usage",
            f"--window-size={width},{height}",
            f"--user-data-dir={self._folder.name}",
            "--force-color-profile=srgb",
            "--disable-background-networking",
        ]
        if os.geteuid() == 0:
            arguments.append("--no-sandbox")
        options = {"binary": browser, "args": arguments, "prefs": {"download.default_directory": self._folder.name}}
        wanted = {"alwaysMatch": {"goog:chromeOptions": options, "goog:loggingPrefs": {"browser": "ALL"}}}
        self._wait_for_driver()
        answer = self._call("POST", "/session", {"capabilities": wanted})
        self._session = f"/session/{answer['sessionId']}"

    @property
    def process(self):
        """The number of the driver's process, which has those of the browser below it."""
        return self._driver.pid

    @property
    def downloads(self):
        return Path(self._folder.name)

    def _wait_for_driver(self):
        for _ in range(100):
            try:
                if self._call("GET", "/status")["ready"]:
                    return
            except OSError:
                time.sleep(0.1)
        raise Fault("the driver did not start")

    def _call(self, method, path, body=None):
        data = json.dumps(body if body is not None else {}).encode() if method == "POST" else None
        request = urllib.request.Request(f"http://127.0.0.1:{self._port}{path}", data, method=method)
        try:
            with urllib.request.urlopen(request, timeout=900) as response:
                return json.load(response)["value"]
        except urllib.error.HTTPError as fault:
            raise Fault(json.load(fault)["value"]["message"]) from None

    def call(self, method, path, body=None):
        return self._call(method, self._session + path, body)

    def close(self):
        try:
            self.call("DELETE", "")
        except (OSError, Fault):
            pass
        self._driver.terminate()
        self._driver.wait()
        self._folder.cleanup()

    # Pages.

    def open(self, address):
        self.call("POST", "/url", {"url": address})

    def address(self):
        return self.call("GET", "/url")

    def reload(self):
        self.call("POST", "/refresh")

    def back(self):
        self.call("POST", "/back")

    def resize(self, width, height):
        self.call("POST", "/window/rect", {"width": width, "height": height})

    def new_tab(self):
        """Opens a tab and goes to it. Gives the handle of the one before."""
        before = self.call("GET", "/window")
        self.go_to(self.call("POST", "/window/new", {"type": "tab"})["handle"])
        return before

    def go_to(self, tab):
        self.call("POST", "/window", {"handle": tab})

    def close_tab(self, back_to):
        self.call("DELETE", "/window")
        self.go_to(back_to)

    def run(self, script, *arguments):
        """What a script gives. It may wait."""
        return self.call("POST", "/execute/sync", {"script": script, "args": list(arguments)})

    def wait(self, script, *arguments, seconds=WAIT_SECONDS):
        """Waits until a script gives something true, and gives it."""
        end = time.monotonic() + seconds
        while True:
            found = self.run(script, *arguments)
            if found:
                return found
            if time.monotonic() > end:
                raise Fault(f"waited in vain for: {script} {arguments}")
            time.sleep(0.02)

    def console(self):
        """What the browser complained of since it was asked last."""
        return [entry["message"] for entry in self.call("POST", "/se/log", {"type": "browser"})]

    # Elements.

    def find(self, selector):
        return self.call("POST", "/element", {"using": "css selector", "value": selector})[ELEMENT]

    def all(self, selector):
        return [
            found[ELEMENT] for found in self.call("POST", "/elements", {"using": "css selector", "value": selector})
        ]

    def click(self, element):
        self.call("POST", f"/element/{element}/click")

    def type(self, element, text):
        self.call("POST", f"/element/{element}/value", {"text": text})

    def role(self, element):
        return self.call("GET", f"/element/{element}/computedrole")

    def is_shown(self, element):
        return self.run("return arguments[0].checkVisibility()", {ELEMENT: element})

    def label(self, element):
        return self.call("GET", f"/element/{element}/computedlabel")

    def press(self, *keys):
        """Presses keys one after another, wherever the page has its focus."""
        actions = []
        for key in keys:
            value = KEYS.get(key, key)
            actions += [{"type": "keyDown", "value": value}, {"type": "keyUp", "value": value}]
        self.call("POST", "/actions", {"actions": [{"type": "key", "id": "keys", "actions": actions}]})

    def picture(self, path, whole=False):
        """Writes a picture of the window, or of the whole page."""
        if whole:
            size = self.run("return [document.documentElement.scrollWidth, document.documentElement.scrollHeight]")
            shot = {
                "format": "png",
                "captureBeyondViewport": True,
                "clip": {"x": 0, "y": 0, "width": size[0], "height": size[1], "scale": 1},
            }
            data = self.call("POST", "/goog/cdp/execute", {"cmd": "Page.captureScreenshot", "params": shot})["data"]
        else:
            data = self.call("GET", "/screenshot")
        Path(path).write_bytes(base64.b64decode(data))
