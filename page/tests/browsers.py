# SPDX-License-Identifier: BSD-3-Clause
"""Browsers without a window, each driven by its own protocol: Chromium by the DevTools protocol over a pipe, Firefox by
WebDriver BiDi over a web socket.

A browser opens pages, evaluates expressions in them, presses keys, chooses files and takes pictures. It notes each message
of the console, each fault of a script, and each request but those for the page itself.
"""
import base64
import json
import os
import re
import select
import shutil
import subprocess
import tempfile
import time
from pathlib import Path

from sockets import Socket

CHROMIUM = ("chromium", "chromium-browser", "google-chrome")
FIREFOX = ("firefox-esr", "firefox")
WAIT = 60


def found(names):
    """The path of an installed browser, or None."""
    return next(filter(None, map(shutil.which, names)), None)


class Failed(Exception):
    """What a browser refused, or a fault of the page's script."""


class Browser:
    """What both have in common."""

    def __init__(self, size=(1280, 860), dark=False):
        self.folder = tempfile.TemporaryDirectory(ignore_cleanup_errors=True)
        self.size, self.dark = size, dark
        self.messages, self.requests, self.next, self.answers = [], [], 0, {}
        self.process = None

    def __enter__(self):
        self.start()
        return self

    def __exit__(self, *_):
        try:
            self.end()
        finally:
            self.process.terminate()
            try:
                self.process.wait(20)
            except subprocess.TimeoutExpired:
                self.process.kill()
                self.process.wait()
            self.folder.cleanup()

    def ask(self, method, params=None, **more):
        """Sends a command, and waits for its answer; what comes meanwhile is noted."""
        self.next += 1
        own = self.next
        self.send(json.dumps({"id": own, "method": method, "params": params or {}, **more}))
        while own not in self.answers:
            told = json.loads(self.receive())
            if "id" in told and told["id"] is not None:
                self.answers[told["id"]] = told
            elif "method" in told:
                self.note(told["method"], told["params"])
        answer = self.answers.pop(own)
        if "error" in answer:
            raise Failed(f"{method}: {answer.get('message') or answer['error']}")
        return answer["result"]

    def open(self, url):
        """Opens a page, and waits until it says that it is shown."""
        self.messages.clear()
        self.requests.clear()
        self.go(url)
        self.until("document.documentElement?.dataset.ready === 'yes'", url)

    def until(self, expression, what):
        """Waits until an expression is true."""
        end = time.monotonic() + WAIT
        while not self.evaluate(expression):
            if time.monotonic() > end or self.messages:
                raise Failed(f"{what}: waited for {expression}; the page says: {self.messages}")
            time.sleep(0.1)

    def others(self, url):
        """The requests but that for the page."""
        return [it for it in self.requests if it != url and not it.startswith(("data:", "about:", "blob:"))]


class Chromium(Browser):
    """Debian's chromium, or another one."""

    name = "chromium"
    path = found(CHROMIUM)

    def start(self):
        to_browser, self.to = os.pipe()
        self.back, from_browser = os.pipe()
        # The browser reads from 3 and writes to 4.
        words = [self.path, "--headless=new", "--no-sandbox", "--disable-gpu", "--remote-debugging-pipe", "--no-first-run",
                 "--disable-background-networking", "--disable-component-update", "--disable-sync", "--disable-dev-shm-usage",
                 f"--window-size={self.size[0]},{self.size[1]}", f"--user-data-dir={self.folder.name}", "about:blank"]
        shell = f'exec 3<&{to_browser} 4>&{from_browser}; exec "$@"'
        self.process = subprocess.Popen(["bash", "-c", shell, "sh", *words], pass_fds=(to_browser, from_browser),
                                        stdout=subprocess.DEVNULL, stderr=subprocess.DEVNULL)
        os.close(to_browser)
        os.close(from_browser)
        self.rest, self.session = b"", None
        target = self.ask("Target.createTarget", {"url": "about:blank"})["targetId"]
        self.session = self.ask("Target.attachToTarget", {"targetId": target, "flatten": True})["sessionId"]
        for domain in ("Page", "Runtime", "Log", "DOM", "Network"):
            self.do(f"{domain}.enable")
        self.do("Emulation.setDeviceMetricsOverride", {"width": self.size[0], "height": self.size[1],
                                                       "deviceScaleFactor": 1, "mobile": False})
        self.do("Emulation.setEmulatedMedia", {"features": [{"name": "prefers-color-scheme",
                                                             "value": "dark" if self.dark else "light"}]})

    def end(self):
        os.close(self.to)
        os.close(self.back)

    def send(self, text):
        """Sends a command."""
        os.write(self.to, text.encode() + b"\0")

    def receive(self):
        """The next message."""
        while b"\0" not in self.rest:
            if not select.select([self.back], [], [], WAIT)[0]:
                raise Failed(f"chromium says nothing for {WAIT} s")
            part = os.read(self.back, 1 << 20)
            if not part:
                raise Failed("chromium ended")
            self.rest += part
        text, _, self.rest = self.rest.partition(b"\0")
        return text.decode()

    def do(self, method, params=None):
        """A command about the page."""
        return self.ask(method, params, sessionId=self.session)

    def note(self, method, params):
        """Notes messages, faults and requests."""
        if method == "Runtime.consoleAPICalled":
            self.messages.append(str(params["args"])[:300])
        elif method == "Runtime.exceptionThrown":
            self.messages.append(str(params["exceptionDetails"])[:600])
        elif method == "Log.entryAdded":
            self.messages.append(params["entry"]["text"][:300])
        elif method == "Network.requestWillBeSent":
            self.requests.append(params["request"]["url"])

    def go(self, url):
        """Goes to a page."""
        self.do("Page.navigate", {"url": url})

    def evaluate(self, expression):
        """The value of an expression in the page."""
        told = self.do("Runtime.evaluate", {"expression": expression, "awaitPromise": True, "returnByValue": True})
        if "exceptionDetails" in told:
            raise Failed(f"{expression}: {told['exceptionDetails'].get('exception', {}).get('description')}")
        return told["result"].get("value")

    def press(self, *names):
        """Presses keys by their names."""
        codes = {"ArrowDown": 40, "ArrowUp": 38, "ArrowRight": 39, "ArrowLeft": 37, "Enter": 13, "Escape": 27, "End": 35,
                 "Home": 36, "PageDown": 34, "Tab": 9}
        for name in names:
            for kind in ("rawKeyDown", "keyUp"):
                self.do("Input.dispatchKeyEvent", {"type": kind, "key": name, "code": name,
                                                   "windowsVirtualKeyCode": codes[name]})

    def choose_files(self, selector, *paths):
        """Chooses files in an input."""
        root = self.do("DOM.getDocument")["root"]["nodeId"]
        node = self.do("DOM.querySelector", {"nodeId": root, "selector": selector})["nodeId"]
        self.do("DOM.setFileInputFiles", {"nodeId": node, "files": [str(Path(it).resolve()) for it in paths]})

    def printed(self):
        """What the page is on paper, as PDF."""
        return base64.b64decode(self.do("Page.printToPDF", {"printBackground": False})["data"])

    def picture(self, path):
        """Takes a picture of what is seen."""
        shot = self.do("Page.captureScreenshot", {"format": "png"})
        Path(path).write_bytes(base64.b64decode(shot["data"]))


class Firefox(Browser):
    """Debian's firefox-esr, or another one."""

    name = "firefox"
    path = found(FIREFOX)
    KEYS = {"ArrowDown": "\ue015", "ArrowUp": "\ue013", "ArrowRight": "\ue014", "ArrowLeft": "\ue012", "Enter": "\ue007",
            "Escape": "\ue00c", "End": "\ue010", "Home": "\ue011", "PageDown": "\ue00f", "Tab": "\ue004"}

    def start(self):
        profile = Path(self.folder.name)
        settings = {"ui.systemUsesDarkTheme": int(self.dark), "datareporting.policy.dataSubmissionEnabled": False,
                    "browser.shell.checkDefaultBrowser": False, "toolkit.telemetry.reportingpolicy.firstRun": False,
                    "app.update.enabled": False, "network.captive-portal-service.enabled": False,
                    "network.connectivity-service.enabled": False, "layout.css.devPixelsPerPx": "1.0"}
        (profile / "user.js").write_text("".join(f'user_pref("{name}", {json.dumps(value)});\n' for name, value in settings.items()))
        self.log = open(profile / "said", "w+b")
        words = [self.path, "--headless", "--no-remote", "--profile", str(profile), f"--width={self.size[0]}",
                 f"--height={self.size[1]}", "--remote-debugging-port", "0", "about:blank"]
        self.process = subprocess.Popen(words, stdout=self.log, stderr=self.log,
                                        env={**os.environ, "HOME": self.folder.name, "MOZ_HEADLESS": "1"})
        self.socket = Socket(self.port(), "/session")
        self.ask("session.new", {"capabilities": {}})
        self.ask("session.subscribe", {"events": ["log.entryAdded", "network.beforeRequestSent"]})
        self.context = self.ask("browsingContext.getTree")["contexts"][0]["context"]
        self.ask("browsingContext.setViewport", {"context": self.context, "viewport": {"width": self.size[0],
                                                                                      "height": self.size[1]}})

    def port(self):
        """The port at which the browser listens, once it says so."""
        end = time.monotonic() + WAIT
        while time.monotonic() < end:
            said = re.search(rb"WebDriver BiDi listening on ws://127\.0\.0\.1:(\d+)", Path(self.log.name).read_bytes())
            if said:
                return int(said[1])
            if self.process.poll() is not None:
                break
            time.sleep(0.1)
        raise Failed(f"firefox doesn't listen: {Path(self.log.name).read_bytes()[-300:]}")

    def end(self):
        self.socket.close()
        self.log.close()

    def send(self, text):
        """Sends a command."""
        self.socket.send(text)

    def receive(self):
        """The next message."""
        return self.socket.receive()

    def note(self, method, params):
        """Notes messages, faults and requests."""
        if method == "log.entryAdded":
            self.messages.append(f"{params.get('level')}: {params.get('text')}"[:600])
        elif method == "network.beforeRequestSent":
            self.requests.append(params["request"]["url"])

    def go(self, url):
        """Goes to a page."""
        self.ask("browsingContext.navigate", {"context": self.context, "url": url, "wait": "complete"})

    def evaluate(self, expression):
        """The value of an expression in the page."""
        told = self.ask("script.evaluate", {"expression": f"Promise.resolve({expression}).then(JSON.stringify)", "awaitPromise": True,
                                            "target": {"context": self.context}})
        if told["type"] == "exception":
            raise Failed(f"{expression}: {told['exceptionDetails']['text']}")
        return json.loads(told["result"]["value"]) if "value" in told["result"] else None

    def press(self, *names):
        """Presses keys by their names."""
        keys = [{"type": kind, "value": self.KEYS[name]} for name in names for kind in ("keyDown", "keyUp")]
        self.ask("input.performActions", {"context": self.context, "actions": [{"type": "key", "id": "keys", "actions": keys}]})

    def choose_files(self, selector, *paths):
        """Chooses files in an input."""
        told = self.ask("browsingContext.locateNodes", {"context": self.context, "locator": {"type": "css", "value": selector}})
        self.ask("input.setFiles", {"context": self.context, "element": {"sharedId": told["nodes"][0]["sharedId"]},
                                    "files": [str(Path(it).resolve()) for it in paths]})

    def printed(self):
        """What the page is on paper, as PDF."""
        return base64.b64decode(self.ask("browsingContext.print", {"context": self.context})["data"])

    def picture(self, path):
        """Takes a picture of what is seen."""
        shot = self.ask("browsingContext.captureScreenshot", {"context": self.context})
        Path(path).write_bytes(base64.b64decode(shot["data"]))


BROWSERS = [it for it in (Chromium, Firefox) if it.path]
