"""The browsers that browsers.py and the tests drive, each in a profile of its own and without a window: Chromium over
its debugging pipe, Firefox by Marionette, which is its own."""
import contextlib
import json
import os
import shutil
import signal
import socket
import subprocess
import sys
import tempfile
from pathlib import Path

CLIENTS = Path(__file__).resolve().parent
sys.path.insert(0, str(CLIENTS / "tests"))

import kit  # noqa: E402

# How long an answer of a page may take, in seconds.
PATIENCE = 300


class NotDriven(Exception):
    """The browser is not here, or does not answer; the text says so."""


class Chromium:
    name = "Chromium"

    def __init__(self, small_quota=False):
        try:
            self.browser = kit.Browser(["--mse-video-buffer-size-limit-mb=1"] if small_quota else [])
        except kit.Skip as skip:
            raise NotDriven(str(skip)) from skip
        self.version = self.browser.version.replace("Chrome/", "Chromium ")
        self.opened = None

    def page(self, address):
        """The page at an address, or of a file, loaded anew unless it is the one that is open."""
        if isinstance(address, Path):
            address = address.resolve().as_uri()
        if not self.opened or self.opened[0] != address:
            self.leave()
            self.opened = address, ChromiumPage(self.browser.open(address))
        return self.opened[1]

    def leave(self):
        """Closes the page that is open."""
        if self.opened:
            self.opened[1].page.close()
            self.opened = None

    def close(self):
        self.browser.close()


class ChromiumPage:
    def __init__(self, page):
        self.page = page

    def call(self, function, *values):
        """What a function of the page answers, given as text, with values that JSON has; a promise is waited for."""
        return self.page.call(function, *values, timeout=PATIENCE)


class Firefox:
    """Marionette is a line of JSON texts over a local socket, each with its length before it."""

    name = "Firefox"
    SETTINGS = {"marionette.port": 0, "media.autoplay.default": 0, "media.autoplay.blocking_policy": 0,
                "datareporting.policy.dataSubmissionEnabled": False, "app.update.enabled": False,
                "browser.shell.checkDefaultBrowser": False, "media.gmp-manager.updateEnabled": False,
                # times are told to a part of a millisecond, and timers do not wait longer than they ask
                "privacy.reduceTimerPrecision": False,
                "dom.min_background_timeout_value": 4, "dom.timeout.enable_budget_timer_throttling": False}

    def __init__(self, small_quota=False):
        path = next(filter(None, map(shutil.which, ("firefox-esr", "firefox"))), None)
        if not path:
            raise NotDriven("no firefox here: it is in the Debian package firefox-esr")
        self.profile = tempfile.mkdtemp(prefix="clients-firefox-")
        settings = dict(self.SETTINGS)
        if small_quota:
            settings["media.mediasource.eviction_threshold.video"] = 1 << 20
        lines = [f"user_pref({json.dumps(name)}, {json.dumps(value)});" for name, value in settings.items()]
        Path(self.profile, "user.js").write_text("\n".join(lines) + "\n")
        self.process = subprocess.Popen(
            [path, "--marionette", "--headless", "--no-remote", "--profile", self.profile], start_new_session=True,
            env={**os.environ, "HOME": self.profile}, stdout=subprocess.DEVNULL, stderr=subprocess.DEVNULL)
        self.opened = None
        try:
            self.connect()
        except (OSError, AssertionError) as error:
            self.close()
            raise NotDriven(f"it did not answer: {error}") from error

    def connect(self):
        place = Path(self.profile, "MarionetteActivePort")
        kit.wait_until(lambda: place.exists() and place.read_text().strip(), "Firefox", 120)
        self.socket = socket.create_connection(("127.0.0.1", int(place.read_text())), timeout=PATIENCE)
        self.stream = self.socket.makefile("rb")
        self.last_id = 0
        self.read()
        facts = self.ask("WebDriver:NewSession", {})["capabilities"]
        self.version = f"Firefox {facts['browserVersion']}"
        self.ask("WebDriver:SetTimeouts", {"script": PATIENCE * 1000, "pageLoad": PATIENCE * 1000})

    def read(self):
        length = b""
        while not length.endswith(b":"):
            byte = self.stream.read(1)
            if not byte:
                raise ConnectionError("Firefox has ended")
            length += byte
        return json.loads(self.stream.read(int(length[:-1])))

    def ask(self, command, values):
        self.last_id += 1
        text = json.dumps([0, self.last_id, command, values]).encode()
        self.socket.sendall(b"%d:%s" % (len(text), text))
        _, _, error, answer = self.read()
        if error:
            raise RuntimeError(f"{command}: {error.get('message')}")
        return answer

    def page(self, address):
        """The page at an address, or of a file, loaded anew unless it is the one that is open."""
        if isinstance(address, Path):
            address = address.resolve().as_uri()
        if self.opened != address:
            self.ask("WebDriver:Navigate", {"url": address})
            self.opened = address
        return self

    def leave(self):
        self.ask("WebDriver:Navigate", {"url": "about:blank"})
        self.opened = None

    def call(self, function, *values):
        """What a function of the page answers, given as text, with values that JSON has; a promise is waited for."""
        script = """
            const [source, values, done] = arguments;
            const page = window.wrappedJSObject || window;
            page.eval(`(async () => JSON.stringify({told: await (${source})(...${values})}))()`)
              .then(done, (error) => done(JSON.stringify({problem: `${error.message} ${error.stack}`})));
        """
        words = {"script": script, "args": [function, json.dumps(values)]}
        told = json.loads(self.ask("WebDriver:ExecuteAsyncScript", words)["value"])
        if "problem" in told:
            raise RuntimeError(told["problem"])
        return told.get("told")

    def close(self):
        with contextlib.suppress(Exception):
            self.ask("Marionette:Quit", {"flags": ["eForceQuit"]})
            self.process.wait(timeout=5)
        if self.process.poll() is None:
            os.killpg(self.process.pid, signal.SIGKILL)
            self.process.wait()
        shutil.rmtree(self.profile, ignore_errors=True)


BROWSERS = (Chromium, Firefox)
