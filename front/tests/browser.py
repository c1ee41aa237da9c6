"""A headless Chromium for tests, driven through chromedriver's HTTP protocol.

`found` says whether both programs are here. A Browser starts its own driver, at a free port of 127.0.0.1, with a
profile of its own that is removed at the end; it ends only what it started. Elements are named by CSS selectors. Times
are in seconds.
"""

import base64
import json
import os
import shutil
import socket
import subprocess
import tempfile
import time
import urllib.error
import urllib.request
from typing import Any, Callable, Dict, List, Optional, Tuple

BROWSERS = ("chromium", "chromium-browser", "google-chrome")
DRIVER = "chromedriver"
ELEMENT = "element-6066-11e4-a52e-4f735466cecf"
LONGEST_START = 30.0
LONGEST_WAIT = 40.0

ENTER, ESCAPE, TAB = "\ue007", "\ue00c", "\ue004"
UP, DOWN, LEFT, RIGHT = "\ue013", "\ue015", "\ue012", "\ue014"
CONTROL, NO_KEY = "\ue009", "\ue000"


class Failed(Exception):
    """What the driver said, or what didn't come in time."""


def found() -> Optional[Tuple[str, str]]:
    """The paths of the browser and of its driver; None where one isn't here."""
    browser = next((path for path in map(shutil.which, BROWSERS) if path), None)
    driver = shutil.which(DRIVER)
    return (browser, driver) if browser and driver else None


def _free_port() -> int:
    with socket.socket() as listener:
        listener.bind(("127.0.0.1", 0))
        return int(listener.getsockname()[1])


class Browser:
    """A window of a headless browser. `url`, `click`, `type` and so on act in the tab that is chosen."""

    def __init__(self, size: Tuple[int, int] = (1280, 900), dark: bool = False) -> None:
        """Starts the driver and the browser. Raises Failed where that can't be done."""
        programs = found()
        if programs is None:
            raise Failed("there is no browser with a driver here")
        self._folder = tempfile.mkdtemp(prefix="browser-")
        port = _free_port()
        self._base = "http://127.0.0.1:%d" % port
        log = open(os.path.join(self._folder, "driver.log"), "wb")
        with log:
            self._driver = subprocess.Popen([programs[1], "--port=%d" % port], stdout=log, stderr=log,
                                            stdin=subprocess.DEVNULL, env={**os.environ, "TMPDIR": self._folder})
        self._session = ""
        try:
            self._wait_for_driver()
            self._open(programs[0], size, dark)
        except BaseException:
            self.close()
            raise

    def _wait_for_driver(self) -> None:
        end = time.monotonic() + LONGEST_START
        while time.monotonic() < end:
            try:
                self._call("GET", "/status")
                return
            except (OSError, Failed):
                time.sleep(0.05)
        raise Failed("the driver doesn't answer")

    def _open(self, browser: str, size: Tuple[int, int], dark: bool) -> None:
        words = ["--headless=new", "--no-sandbox", "--disable-gpu", "--disable-dev-shm-usage", "--no-first-run",
                 "--window-size=%d,%d" % size, "--user-data-dir=" + os.path.join(self._folder, "profile"),
                 "--hide-scrollbars", "--disable-background-networking", "--disable-sync", "--no-proxy-server"]
        words += ["--force-dark-mode"] if dark else []
        options = {"binary": browser, "args": words, "prefs": {"download.default_directory": self.downloads}}
        wanted = {"capabilities": {"alwaysMatch": {
            "goog:chromeOptions": options, "unhandledPromptBehavior": "ignore",
            "goog:loggingPrefs": {"browser": "ALL"}}}}
        os.makedirs(self.downloads)
        self._session = "/session/" + self._call("POST", "/session", wanted)["sessionId"]

    @property
    def downloads(self) -> str:
        """The folder of what is downloaded."""
        return os.path.join(self._folder, "downloads")

    def close(self) -> None:
        """Ends the browser and the driver, and removes what they wrote."""
        if self._session:
            try:
                self._call("DELETE", self._session)
            except (OSError, Failed):
                pass
        self._driver.terminate()
        try:
            self._driver.wait(5)
        except subprocess.TimeoutExpired:
            self._driver.kill()
            self._driver.wait()
        shutil.rmtree(self._folder, ignore_errors=True)

    def _call(self, method: str, path: str, body: Optional[Dict[str, Any]] = None) -> Any:
        data = json.dumps(body if body is not None else {}).encode() if method == "POST" else None
        request = urllib.request.Request(self._base + path, data, {"Content-Type": "application/json"}, method=method)
        opener = urllib.request.build_opener(urllib.request.ProxyHandler({}))
        try:
            with opener.open(request, timeout=60) as reply:
                return json.load(reply)["value"]
        except urllib.error.HTTPError as error:
            said = json.load(error)["value"]
            raise Failed("%s: %s" % (said.get("error"), said.get("message", "").split("\n")[0])) from None

    def _ask(self, method: str, path: str, body: Optional[Dict[str, Any]] = None) -> Any:
        return self._call(method, self._session + path, body)

    def go(self, address: str) -> None:
        """Opens an address, and waits until it is there."""
        self._ask("POST", "/url", {"url": address})

    def run(self, script: str, *args: object) -> Any:
        """The value of JavaScript that is run in the page, such as `return document.title`."""
        return self._ask("POST", "/execute/sync", {"script": script, "args": list(args)})

    def wait(self, what: str, holds: Callable[[], Any], seconds: float = LONGEST_WAIT) -> Any:
        """Waits until it holds, and gives its value. Raises Failed, with the words, where it doesn't in time."""
        end = time.monotonic() + seconds
        while True:
            try:
                value = holds()
            except Failed:
                value = None
            if value:
                return value
            if time.monotonic() > end:
                raise Failed("it didn't come in time: " + what)
            time.sleep(0.03)

    def _element(self, selector: str) -> str:
        found_one = self._ask("POST", "/element", {"using": "css selector", "value": selector})
        return "/element/" + str(found_one[ELEMENT])

    def click(self, selector: str) -> None:
        """Clicks an element, as a mouse does, once it is there."""
        self.wait("a click on " + selector, lambda: self._clicked(selector))

    def _clicked(self, selector: str) -> bool:
        self._ask("POST", self._element(selector) + "/click")
        return True

    def type(self, selector: str, keys: str) -> None:
        """Sends keys to an element, as a keyboard does."""
        self._ask("POST", self._element(selector) + "/value", {"text": keys})

    def retype(self, selector: str, keys: str) -> None:
        """Sends keys to an input, in the place of what stands there."""
        self.type(selector, CONTROL + "a" + NO_KEY + keys)

    def keys(self, *keys: str) -> None:
        """Presses keys one after the other, wherever the focus is."""
        steps: List[Dict[str, str]] = []
        for key in keys:
            steps += [{"type": "keyDown", "value": key}, {"type": "keyUp", "value": key}]
        self._ask("POST", "/actions", {"actions": [{"type": "key", "id": "keyboard", "actions": steps}]})

    def write(self, selector: str, text: str) -> None:
        """Puts a text in the place of an input's, as typing does: the page hears of it."""
        self.run("const e = document.querySelector(arguments[0]); e.focus(); e.value = arguments[1];"
                 "e.dispatchEvent(new Event('input', {bubbles: true}))", selector, text)

    def text(self, selector: str) -> str:
        """The text of the first element, as it can be seen."""
        return str(self.run("const e = document.querySelector(arguments[0]); return e ? e.innerText : ''", selector))

    def value(self, selector: str) -> str:
        """The value of an input."""
        return str(self.run("return document.querySelector(arguments[0]).value", selector))

    def attribute(self, selector: str, name: str) -> Optional[str]:
        """An attribute of the first element."""
        given = self.run("return document.querySelector(arguments[0]).getAttribute(arguments[1])", selector, name)
        return None if given is None else str(given)

    def has(self, selector: str) -> bool:
        """Whether there is such an element that can be seen."""
        script = "const e = document.querySelector(arguments[0]); return e && e.offsetParent !== null"
        return bool(self.run(script, selector))

    def tabs(self) -> List[str]:
        """The handles of the tabs."""
        return list(self._ask("GET", "/window/handles"))

    def new_tab(self) -> str:
        """Opens a tab, and chooses it."""
        handle = str(self._ask("POST", "/window/new", {"type": "tab"})["handle"])
        self.choose(handle)
        return handle

    def choose(self, handle: str) -> None:
        """Goes on in this tab."""
        self._ask("POST", "/window", {"handle": handle})

    def answer_question(self, yes: bool) -> str:
        """Answers the question that the page asks in a box of the browser, and gives its text."""
        text = str(self.wait("a question", lambda: self._ask("GET", "/alert/text")))
        self._ask("POST", "/alert/accept" if yes else "/alert/dismiss")
        return text

    def resize(self, width: int, height: int) -> None:
        """Another size of the window; less than 500 pixels of width by the size of the screen that is told."""
        self._ask("POST", "/goog/cdp/execute", {"cmd": "Emulation.setDeviceMetricsOverride", "params": {
            "width": width, "height": height, "deviceScaleFactor": 1, "mobile": width < 600}})

    def scheme(self, name: str) -> None:
        """Tells the page that people like it `dark` or `light`."""
        features = [{"name": "prefers-color-scheme", "value": name}]
        self._ask("POST", "/goog/cdp/execute", {"cmd": "Emulation.setEmulatedMedia", "params": {"features": features}})

    def picture(self, path: str) -> None:
        """Writes a picture of the window."""
        with open(path, "wb") as file:
            file.write(base64.b64decode(self._ask("GET", "/screenshot")))

    def complaints(self) -> List[str]:
        """What the page wrote on the console as errors since the last call."""
        entries = self._ask("POST", "/se/log", {"type": "browser"})
        return [str(entry["message"]) for entry in entries if entry["level"] == "SEVERE"]
