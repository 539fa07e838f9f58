"""What the tests of the clients share.

- `Skip`: raised by a test that cannot run; its text says what is missing.
- `program()`, `run(...)`: the program `mseplay`.
- `tool(...)`: the path of an installed command, or a skip.
- `busy()`: whether the machine does too much else for times to be measured.
- `serve(folder)`: a web server on 127.0.0.1, for pages that file:// does not do for.
- `open_page(url)`: a page in headless Chromium, driven over its debugging pipe.

A test that shows a page:

    page = kit.open_page(kit.CLIENTS / "mseplay.html")
    page.evaluate("1 + 1")                    # 2, anything that JSON can say
    page.press("ArrowRight")                  # a key, as a person presses it
    page.press("Tab", shift=True)
    page.media(scheme="dark", medium="print") # what CSS media queries see
    page.screenshot("/tmp/picture.png")
    assert not page.errors                    # uncaught errors and console.error
    page.close()

All of them use one Chromium, which ends with the tests.
"""

import base64
import contextlib
import fcntl
import functools
import http.server
import json
import os
import select
import shutil
import signal
import subprocess
import tempfile
import threading
import time
from pathlib import Path

TESTS = Path(__file__).resolve().parent
CLIENTS = TESTS.parent
REPOSITORY = CLIENTS.parent
EXAMPLES = REPOSITORY / "crates/case_runs/data"
# Where the program is looked for: proved, else unproved.
BUILT = [REPOSITORY / "crates/mseplay/out/mseplay", REPOSITORY / "mseplay-unproved"]


class Skip(Exception):
    """A test cannot run here; the text says what is missing."""


# The program and other commands.


def program():
    """The path of `mseplay`, or a skip that says how to get one."""
    named = os.environ.get("MSEPLAY")
    path = Path(named or next(filter(Path.is_file, BUILT), BUILT[0])).resolve()
    if not (path.is_file() and os.access(path, os.X_OK)):
        raise Skip(f"no program at {path}: build it with `rt run` in crates/mseplay or by bench/unproved.py, "
                   "or give its path in MSEPLAY")
    return str(path)


def run(*words, folder=EXAMPLES, timeout=120):
    """What `mseplay` prints in a folder, with `.status`, `.stdout` and `.stderr`."""
    done = subprocess.run([program(), *map(str, words)], cwd=folder,
                          capture_output=True, timeout=timeout)
    done.status = done.returncode
    done.stdout = done.stdout.decode("utf-8", "replace")
    return done


def tool(*names, package):
    """The path of the first command that is installed, or a skip."""
    for name in names:
        path = shutil.which(name)
        if path:
            return path
    raise Skip(f"no {names[0]} here: it is in the Debian package {package}")


@contextlib.contextmanager
def serve(folder, handler=http.server.SimpleHTTPRequestHandler):
    """A web server over a folder; gives the front of its addresses."""

    class Quiet(handler):
        def log_message(self, *_):
            pass

    server = http.server.ThreadingHTTPServer(
        ("127.0.0.1", 0), functools.partial(Quiet, directory=str(folder)))
    thread = threading.Thread(target=server.serve_forever, daemon=True)
    thread.start()
    try:
        yield f"http://127.0.0.1:{server.server_address[1]}"
    finally:
        server.shutdown()
        server.server_close()
        thread.join()


def busy():
    """Whether the machine has more to do than processors for it, so that times by the clock say nothing."""
    return os.getloadavg()[0] > len(os.sched_getaffinity(0))


def wait_until(is_so, what, seconds=120.0):
    """Asks again until the answer is true, which it returns."""
    end = time.monotonic() + seconds
    while True:
        answer = is_so()
        if answer:
            return answer
        if time.monotonic() > end:
            raise AssertionError(f"waited {seconds:g} s in vain for {what}")
        time.sleep(0.02)


# Chromium. The messages of the DevTools protocol are JSON texts that end with
# NUL; Chromium reads them from its file 3 and writes them to its file 4.


class PageError(AssertionError):
    """Chromium refused a command, or the JavaScript of an evaluation threw."""


def pipe_above(lowest):
    """A pipe whose two ends have numbers from `lowest` on."""
    ends = os.pipe()
    moved = [fcntl.fcntl(end, fcntl.F_DUPFD_CLOEXEC, lowest) for end in ends]
    for end in ends:
        os.close(end)
    return moved


class Browser:
    """One headless Chromium with a profile of its own."""

    def __init__(self, flags=()):
        path = tool("chromium", "chromium-browser", "google-chrome", package="chromium")
        self.flags = flags
        self.profile = tempfile.mkdtemp(prefix="clients-chromium-")
        self.last_id = 0
        self.unread = b""
        self.answers = {}
        self.pages = {}
        self.start(path)

    def start(self, path):
        words = [
            path, "--headless=new", "--remote-debugging-pipe", "--disable-gpu",
            "--disable-dev-shm-usage", "--no-first-run", "--no-default-browser-check",
            "--disable-background-networking", "--disable-component-update",
            "--disable-extensions", "--mute-audio", "--hide-scrollbars",
            "--disable-renderer-backgrounding", "--disable-backgrounding-occluded-windows",
            "--disable-background-timer-throttling",
            "--force-device-scale-factor=1", "--autoplay-policy=no-user-gesture-required",
            f"--user-data-dir={self.profile}", *self.flags,
        ]
        if os.geteuid() == 0:
            words.append("--no-sandbox")
        theirs_in, self.writes = pipe_above(10)
        self.reads, theirs_out = pipe_above(10)
        self.process = os.posix_spawn(
            path, words, {**os.environ, "HOME": self.profile},
            file_actions=[
                (os.POSIX_SPAWN_OPEN, 1, "/dev/null", os.O_WRONLY, 0),
                (os.POSIX_SPAWN_OPEN, 2, "/dev/null", os.O_WRONLY, 0),
                (os.POSIX_SPAWN_DUP2, theirs_in, 3),
                (os.POSIX_SPAWN_DUP2, theirs_out, 4),
            ],
            setpgroup=0)
        os.close(theirs_in)
        os.close(theirs_out)
        try:
            self.version = self.ask("Browser.getVersion", timeout=120)["product"]
        except Exception:
            self.close()
            raise

    # Messages.

    def send(self, method, params, session):
        self.last_id += 1
        message = {"id": self.last_id, "method": method, "params": params}
        if session:
            message["sessionId"] = session
        data = json.dumps(message).encode() + b"\0"
        while data:
            data = data[os.write(self.writes, data):]
        return self.last_id

    def ask(self, method, session=None, timeout=120, **params):
        """Sends a command and gives its result."""
        number = self.send(method, params, session)
        end = time.monotonic() + timeout
        while number not in self.answers:
            left = end - time.monotonic()
            if left <= 0:
                raise PageError(f"{method}: no answer in {timeout} s")
            self.listen(left)
        answer = self.answers.pop(number)
        if "error" in answer:
            raise PageError(f"{method}: {answer['error'].get('message')}")
        return answer["result"]

    def listen(self, seconds):
        """Reads what has come, for at most so long."""
        ready, _, _ = select.select([self.reads], [], [], seconds)
        if not ready:
            return
        data = os.read(self.reads, 1 << 20)
        if not data:
            raise PageError("Chromium has ended")
        *whole, self.unread = (self.unread + data).split(b"\0")
        for text in whole:
            self.take(json.loads(text))

    def take(self, message):
        if "id" in message:
            self.answers[message["id"]] = message
        elif message.get("sessionId") in self.pages:
            self.pages[message["sessionId"]].hear(message["method"], message["params"])

    # Pages.

    def open(self, url, width=1280, height=800, before=""):
        """A page in a context of its own, so that none knows of another's storage."""
        context = self.ask("Target.createBrowserContext")["browserContextId"]
        target = self.ask("Target.createTarget", url="about:blank",
                          browserContextId=context)["targetId"]
        session = self.ask("Target.attachToTarget", targetId=target, flatten=True)["sessionId"]
        page = Page(self, session, context)
        self.pages[session] = page
        page.set_up(width, height, before)
        page.go(url)
        return page

    def close(self):
        with contextlib.suppress(Exception):
            self.ask("Browser.close", timeout=5)
        end = time.monotonic() + 5
        while time.monotonic() < end:
            ended, _ = os.waitpid(self.process, os.WNOHANG)
            if ended:
                break
            time.sleep(0.02)
        else:
            with contextlib.suppress(ProcessLookupError):
                os.killpg(self.process, signal.SIGKILL)
            os.waitpid(self.process, 0)
        os.close(self.reads)
        os.close(self.writes)
        shutil.rmtree(self.profile, ignore_errors=True)


# The keys that are not one character: their code, their number, their text.
KEYS = {
    "Enter": ("Enter", 13, "\r"), "Tab": ("Tab", 9, ""), "Escape": ("Escape", 27, ""),
    "Backspace": ("Backspace", 8, ""), "Delete": ("Delete", 46, ""), " ": ("Space", 32, " "),
    "PageUp": ("PageUp", 33, ""), "PageDown": ("PageDown", 34, ""),
    "End": ("End", 35, ""), "Home": ("Home", 36, ""),
    "ArrowLeft": ("ArrowLeft", 37, ""), "ArrowUp": ("ArrowUp", 38, ""),
    "ArrowRight": ("ArrowRight", 39, ""), "ArrowDown": ("ArrowDown", 40, ""),
}


def key_facts(key):
    """What the protocol wants to know of a key: its code, number and text."""
    if key in KEYS:
        return KEYS[key]
    if key.isalpha():
        return f"Key{key.upper()}", ord(key.upper()), key
    if key.isdigit():
        return f"Digit{key}", ord(key), key
    return "", ord(key), key


class Page:
    """A page of the browser."""

    def __init__(self, browser, session, context):
        self.browser = browser
        self.session = session
        self.context = context
        self.errors = []
        self.loaded = False

    def ask(self, method, timeout=120, **params):
        return self.browser.ask(method, session=self.session, timeout=timeout, **params)

    def set_up(self, width, height, before):
        self.ask("Page.enable")
        self.ask("Runtime.enable")
        self.size(width, height)
        if before:
            self.ask("Page.addScriptToEvaluateOnNewDocument", source=before)

    def hear(self, method, params):
        if method == "Page.loadEventFired":
            self.loaded = True
        elif method == "Runtime.exceptionThrown":
            self.errors.append(thrown(params["exceptionDetails"]))
        elif method == "Runtime.consoleAPICalled" and params["type"] == "error":
            parts = [part.get("value", part.get("description", "")) for part in params["args"]]
            self.errors.append("console.error: " + " ".join(map(str, parts)))

    def go(self, url, timeout=120):
        """Loads a page, given by its address or by the path of its file."""
        if isinstance(url, Path):
            url = url.resolve().as_uri()
        self.loaded = False
        answer = self.ask("Page.navigate", url=url, timeout=timeout)
        if answer.get("errorText"):
            raise PageError(f"{url}: {answer['errorText']}")
        end = time.monotonic() + timeout
        while not self.loaded:
            left = end - time.monotonic()
            if left <= 0:
                raise PageError(f"{url} did not load in {timeout} s")
            self.browser.listen(left)

    def evaluate(self, code, timeout=120):
        """The value of an expression, through JSON; a promise is waited for."""
        answer = self.ask("Runtime.evaluate", expression=code, awaitPromise=True,
                          returnByValue=True, userGesture=True, timeout=timeout)
        if "exceptionDetails" in answer:
            raise PageError(thrown(answer["exceptionDetails"]) + "\n  in " + code[:200])
        return answer["result"].get("value")

    def call(self, function, *values, timeout=120):
        """Calls a function of the page, given as text, with values that JSON can say."""
        words = ", ".join(json.dumps(value) for value in values)
        return self.evaluate(f"({function})({words})", timeout)

    def wait_for(self, code, seconds=120.0):
        """Evaluates again until the value is true, and returns it."""
        return wait_until(lambda: self.evaluate(code), code, seconds)

    # What a person does.

    def press(self, key, shift=False, control=False, alt=False, times=1):
        """Presses a key and lets it go: a character, or a name of KEYS."""
        code, number, text = key_facts(key)
        held = (1 if alt else 0) | (2 if control else 0) | (8 if shift else 0)
        facts = {"key": key, "code": code, "windowsVirtualKeyCode": number,
                 "nativeVirtualKeyCode": number, "modifiers": held}
        typed = {} if control or alt or not text else {"text": text}
        for _ in range(times):
            self.ask("Input.dispatchKeyEvent", type="keyDown" if typed else "rawKeyDown",
                     **facts, **typed)
            self.ask("Input.dispatchKeyEvent", type="keyUp", **facts)

    def type(self, text):
        """Puts a text in where the focus is, as a paste does without its event."""
        self.ask("Input.insertText", text=text)

    def click(self, selector):
        """Clicks the middle of the first element of a CSS selector."""
        place = self.call("""selector => {
            const element = document.querySelector(selector);
            if (!element) return null;
            element.scrollIntoView({block: "center"});
            const box = element.getBoundingClientRect();
            return [box.x + box.width / 2, box.y + box.height / 2];
        }""", selector)
        if place is None:
            raise PageError(f"there is no {selector}")
        for kind in ("mouseMoved", "mousePressed", "mouseReleased"):
            button = {} if kind == "mouseMoved" else {"button": "left", "clickCount": 1}
            self.ask("Input.dispatchMouseEvent", type=kind, x=place[0], y=place[1], **button)

    def drop(self, selector, *paths):
        """Lets files fall on an element: dragenter, dragover and drop, as from a folder."""
        place = self.call("""selector => {
            const box = document.querySelector(selector).getBoundingClientRect();
            return [box.x + box.width / 2, box.y + box.height / 2];
        }""", selector)
        data = {"items": [], "files": [str(Path(path).resolve()) for path in paths],
                "dragOperationsMask": 1}
        for kind in ("dragEnter", "dragOver", "drop"):
            self.ask("Input.dispatchDragEvent", type=kind, x=place[0], y=place[1], data=data)

    def choose(self, selector, *paths):
        """Chooses files in an <input type="file">."""
        found = self.ask("Runtime.evaluate",
                         expression=f"document.querySelector({json.dumps(selector)})")
        self.ask("DOM.setFileInputFiles", objectId=found["result"]["objectId"],
                 files=[str(Path(path).resolve()) for path in paths])

    # How the page is seen.

    def size(self, width, height):
        self.ask("Emulation.setDeviceMetricsOverride", width=width, height=height,
                 deviceScaleFactor=1, mobile=False)

    def media(self, scheme=None, medium="", motion=None):
        """Sets what media queries see: "dark" or "light", and "print" or "screen"."""
        features = []
        if scheme:
            features.append({"name": "prefers-color-scheme", "value": scheme})
        if motion:
            features.append({"name": "prefers-reduced-motion", "value": motion})
        self.ask("Emulation.setEmulatedMedia", media=medium, features=features)

    def screenshot(self, path=None, whole=False):
        """A PNG of what is seen, or of the whole page; its bytes, also written to a path."""
        answer = self.ask("Page.captureScreenshot", format="png",
                          captureBeyondViewport=whole)
        data = base64.b64decode(answer["data"])
        if path:
            Path(path).write_bytes(data)
        return data

    def pdf(self, path=None):
        """The page as it prints, a PDF."""
        answer = self.ask("Page.printToPDF", printBackground=False)
        data = base64.b64decode(answer["data"])
        if path:
            Path(path).write_bytes(data)
        return data

    def close(self):
        self.browser.pages.pop(self.session, None)
        with contextlib.suppress(PageError):
            self.browser.ask("Target.disposeBrowserContext", browserContextId=self.context)


def thrown(details):
    """The text of an error that JavaScript threw."""
    value = details.get("exception", {})
    return value.get("description") or str(value.get("value", details.get("text")))


shared = None


def browser():
    """The one Chromium of the tests, or a skip where it is not installed."""
    global shared
    if shared is None:
        shared = Browser()
    return shared


def open_page(url, width=1280, height=800, before=""):
    """A page at an address or of a file; `before` is run before its own scripts."""
    return browser().open(url, width, height, before)


def close_all():
    """Ends Chromium."""
    global shared
    if shared is not None:
        shared.close()
        shared = None
