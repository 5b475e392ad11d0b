"""WebKit without a window, by WebKitWebDriver of Debian's webkit2gtk-driver, on a screen of Xvfb."""
import base64
import json
import os
import pathlib
import subprocess
import time
import urllib.error
import urllib.request

DRIVER = "WebKitWebDriver"
BROWSER = "/usr/lib/x86_64-linux-gnu/webkit2gtk-4.1/MiniBrowser"
PORT, DISPLAY = 4481, ":97"
AWAIT = """const done = arguments[arguments.length - 1];
(async () => (EXPRESSION))().then((value) => done([JSON.stringify(value ?? null)]), (error) => done(String(error)));"""


class WebKit:
    """A browser, which is asked as those of browsers.py are."""

    def __init__(self):
        screen = ["Xvfb", DISPLAY, "-screen", "0", "1280x1000x24"]
        quiet = {"stdout": subprocess.DEVNULL, "stderr": subprocess.DEVNULL}
        self.running = [subprocess.Popen(screen, **quiet)]
        environment = {**os.environ, "DISPLAY": DISPLAY, "LIBGL_ALWAYS_SOFTWARE": "1"}
        self.running.append(subprocess.Popen([DRIVER, f"--port={PORT}"], env=environment, **quiet))
        options = {"binary": BROWSER, "args": ["--automation"]}
        wanted = {"browserName": "MiniBrowser", "webkitgtk:browserOptions": options}
        told = self.begun({"capabilities": {"alwaysMatch": wanted}})
        self.session = f"/session/{told['sessionId']}"
        self.name = f"WebKit/{told['capabilities']['browserVersion']}"
        self.ask("POST", f"{self.session}/timeouts", {"script": 600_000})

    def begun(self, wanted):
        """A session, as soon as the driver gives one."""
        for _ in range(100):
            try:
                return self.ask("POST", "/session", wanted)
            except (urllib.error.URLError, ConnectionError):
                time.sleep(0.1)
        raise TimeoutError(f"{DRIVER} does not answer")

    def ask(self, method, path, words=None):
        """What the driver answers."""
        body = None if words is None else json.dumps(words).encode()
        request = urllib.request.Request(f"http://127.0.0.1:{PORT}{path}", body, method=method)
        with urllib.request.urlopen(request, timeout=900) as answer:
            return json.load(answer)["value"]

    def open(self, address):
        """Goes to an address, or to a file."""
        self.ask("POST", f"{self.session}/url", {"url": address})

    def value(self, expression):
        """The value of an expression in the page; what is promised is waited for."""
        script = AWAIT.replace("EXPRESSION", expression)
        told = self.ask("POST", f"{self.session}/execute/async", {"script": script, "args": []})
        if isinstance(told, str):
            raise RuntimeError(f"{expression}: {told}")
        return json.loads(told[0])

    def wait(self, expression, seconds=60):
        """Waits until an expression is true in the page."""
        end = time.monotonic() + seconds
        while not self.value(expression):
            if time.monotonic() > end:
                raise TimeoutError(expression)
            time.sleep(0.05)

    def choose(self, identity, paths):
        """Chooses files for an input."""
        found = self.ask("POST", f"{self.session}/element", {"using": "css selector", "value": f"#{identity}"})
        names = "\n".join(str(path) for path in paths)
        self.ask("POST", f"{self.session}/element/{next(iter(found.values()))}/value", {"text": names})

    def look(self, width, height):
        """Makes the window so large."""
        self.ask("POST", f"{self.session}/window/rect", {"width": width, "height": height})

    def take_picture(self, path):
        """Writes what is shown as a PNG."""
        pathlib.Path(path).write_bytes(base64.b64decode(self.ask("GET", f"{self.session}/screenshot")))

    def close(self):
        """Ends it."""
        try:
            self.ask("DELETE", self.session)
        finally:
            for each in reversed(self.running):
                each.terminate()
                each.wait()
