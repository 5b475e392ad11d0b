"""Chromium and Firefox without a window, each driven by its own protocol."""
import base64
import json
import pathlib
import shutil
import subprocess
import tempfile
import time
import urllib.request

from websocket import WebSocket

START_SECONDS = 60
KEYS = {"Enter": ("\r", 13, "\ue006"), "Tab": ("", 9, "\ue004"), " ": (" ", 32, " "), "End": ("", 35, "\ue010"),
        "Home": ("", 36, "\ue011"), "ArrowUp": ("", 38, "\ue013"), "ArrowDown": ("", 40, "\ue015"),
        "n": ("n", 78, "n"), "p": ("p", 80, "p")}


def downloads_of(profile):
    """Where a browser with this profile puts what is saved."""
    return pathlib.Path(profile, "saved")


class Browser:
    """What both have in common: a process, a profile of its own, and numbered commands."""

    def __init__(self, program, words, profile):
        self.profile = profile
        self.downloads = downloads_of(profile)
        self.downloads.mkdir()
        self.number = 0
        self.events = []
        self.process = subprocess.Popen([program, *words], stdout=subprocess.DEVNULL, stderr=subprocess.DEVNULL)

    def wait_for_file(self, name):
        """The text of a file that the browser writes when it has begun."""
        path, end = pathlib.Path(self.profile, name), time.monotonic() + START_SECONDS
        while time.monotonic() < end:
            if path.exists() and path.read_text():
                return path.read_text()
            time.sleep(0.1)
        raise TimeoutError(f"{name} did not come")

    def call(self, method, **parameters):
        """The result of a command. Events that come before it are kept."""
        self.number += 1
        self.socket.send(json.dumps({"id": self.number, "method": method, "params": parameters, **self.session}))
        while True:
            message = json.loads(self.socket.receive())
            if message.get("id") == self.number:
                if "error" in message:
                    raise RuntimeError(f"{method}: {message}")
                return message["result"]
            self.events.append(message)

    def value(self, expression):
        """What an expression is in the page, awaited."""
        return json.loads(self.text_of(f"(async () => JSON.stringify(await ({expression}) ?? null))()"))

    def wait(self, expression, seconds=60, pause=0.02):
        """Waits until an expression is true in the page, and looks again after each pause."""
        end = time.monotonic() + seconds
        while not self.value(expression):
            if time.monotonic() > end:
                raise TimeoutError(expression)
            time.sleep(pause)

    def close(self):
        """Ends the browser."""
        self.socket.close()
        self.process.terminate()
        self.process.wait(30)
        shutil.rmtree(self.profile, ignore_errors=True)


class Chromium(Browser):
    """Chromium, by the DevTools protocol."""

    def __init__(self, is_dark=False, program="chromium"):
        self.is_dark = is_dark
        profile = tempfile.mkdtemp()
        super().__init__(program, [
            "--headless=new", "--no-sandbox", "--disable-gpu", "--no-first-run", "--remote-debugging-port=0",
            "--force-color-profile=srgb", f"--user-data-dir={profile}", "about:blank"], profile)
        port = self.wait_for_file("DevToolsActivePort").split()[0]
        with urllib.request.urlopen(f"http://127.0.0.1:{port}/json/list") as answer:
            pages = [each for each in json.load(answer) if each["type"] == "page"]
        self.session = {}
        self.socket = WebSocket(pages[0]["webSocketDebuggerUrl"])
        for domain in ("Page", "Runtime", "Network", "Log", "DOM"):
            self.call(f"{domain}.enable")
        self.call("Browser.setDownloadBehavior", behavior="allow", downloadPath=str(self.downloads))
        self.name = self.call("Browser.getVersion")["product"]

    def before(self, script):
        """Runs a script before those of the next page."""
        self.call("Page.addScriptToEvaluateOnNewDocument", source=script)

    def open(self, address):
        self.call("Page.navigate", url=address)
        self.wait("document.readyState === 'complete'")

    def text_of(self, expression):
        result = self.call("Runtime.evaluate", expression=expression, awaitPromise=True, returnByValue=True)
        if "exceptionDetails" in result:
            raise RuntimeError(f"{expression}: {result['exceptionDetails']}")
        return result["result"]["value"]

    def choose(self, identity, paths):
        """Sets the files of an input."""
        root = self.call("DOM.getDocument")["root"]["nodeId"]
        node = self.call("DOM.querySelector", nodeId=root, selector=f"#{identity}")["nodeId"]
        self.call("DOM.setFileInputFiles", files=[str(path) for path in paths], nodeId=node)

    def drop(self, paths, x, y):
        """Drops files or folders at a place."""
        data = {"items": [], "files": [str(path) for path in paths], "dragOperationsMask": 1}
        for kind in ("dragEnter", "dragOver", "drop"):
            self.call("Input.dispatchDragEvent", type=kind, x=x, y=y, data=data)

    def press(self, key):
        text, code, _ = KEYS[key]
        for kind in ("keyDown", "keyUp"):
            self.call("Input.dispatchKeyEvent", type=kind, key=key, code=key, text=text if kind == "keyDown" else "",
                      windowsVirtualKeyCode=code)

    def tap(self, x, y):
        """Touches a place."""
        self.call("Input.dispatchTouchEvent", type="touchStart", touchPoints=[{"x": x, "y": y}])
        self.call("Input.dispatchTouchEvent", type="touchEnd", touchPoints=[])

    def look(self, width, height, is_touch=False):
        self.call("Emulation.setDeviceMetricsOverride", width=width, height=height, deviceScaleFactor=1,
                  mobile=is_touch)
        self.call("Emulation.setTouchEmulationEnabled", enabled=is_touch)
        self.call("Emulation.setEmulatedMedia", features=[
            {"name": "prefers-color-scheme", "value": "dark" if self.is_dark else "light"},
            {"name": "prefers-reduced-motion", "value": "reduce"}])

    def take_picture(self, path):
        data = self.call("Page.captureScreenshot", format="png")["data"]
        pathlib.Path(path).write_bytes(base64.b64decode(data))

    def complaints(self):
        """What went wrong in the page, and each request but the page's own."""
        found = []
        for event in self.events:
            parameters = event.get("params", {})
            if event.get("method") == "Log.entryAdded":
                found.append(parameters["entry"]["text"])
            elif event.get("method") == "Runtime.exceptionThrown":
                found.append(parameters["exceptionDetails"]["text"])
            elif event.get("method") == "Network.requestWillBeSent":
                address = parameters["request"]["url"]
                if not address.startswith(("file:", "blob:", "data:", "about:")):
                    found.append(address)
        return found


class Firefox(Browser):
    """Firefox, by WebDriver BiDi."""

    PREFERENCES = {
        "ui.prefersReducedMotion": 1, "gfx.color_management.mode": 0, "browser.shell.checkDefaultBrowser": False,
        "datareporting.policy.dataSubmissionEnabled": False, "app.update.enabled": False,
        "toolkit.telemetry.reportingpolicy.firstRun": False,
        "dom.w3c_touch_events.enabled": 1,
    }

    def __init__(self, is_dark=False, program="firefox-esr"):
        profile = tempfile.mkdtemp()
        preferences = {**self.PREFERENCES, "layout.css.prefers-color-scheme.content-override": 0 if is_dark else 1,
                       "browser.download.folderList": 2, "browser.download.alwaysOpenPanel": False,
                       "browser.download.dir": str(downloads_of(profile))}
        lines = [f"user_pref({json.dumps(key)}, {json.dumps(value)});" for key, value in preferences.items()]
        pathlib.Path(profile, "user.js").write_text("\n".join(lines))
        super().__init__(program, ["--headless", "--no-remote", "--remote-debugging-port", "0", "--profile", profile,
                                   "about:blank"], profile)
        server = json.loads(self.wait_for_file("WebDriverBiDiServer.json"))
        self.session = {}
        self.socket = WebSocket(f"ws://{server['ws_host']}:{server['ws_port']}/session")
        found = self.call("session.new", capabilities={})["capabilities"]
        self.name = f"{found['browserName']}/{found['browserVersion']}"
        # The first tab has no focus.
        self.context = self.call("browsingContext.create", type="tab", background=False)["context"]
        self.call("session.subscribe", events=["log.entryAdded", "network.beforeRequestSent"])

    def before(self, script):
        self.call("script.addPreloadScript", functionDeclaration="() => {" + script + "}")

    def open(self, address):
        self.call("browsingContext.navigate", context=self.context, url=address, wait="complete")

    def text_of(self, expression):
        result = self.call("script.evaluate", expression=expression, awaitPromise=True,
                           target={"context": self.context})
        if result["type"] != "success":
            raise RuntimeError(f"{expression}: {result['exceptionDetails']['text']}")
        return result["result"]["value"]

    def choose(self, identity, paths):
        found = self.call("browsingContext.locateNodes", context=self.context,
                          locator={"type": "css", "value": f"#{identity}"})
        self.call("input.setFiles", context=self.context, element={"sharedId": found["nodes"][0]["sharedId"]},
                  files=[str(path) for path in paths])

    def act(self, kind, actions, **more):
        self.call("input.performActions", context=self.context,
                  actions=[{"type": kind, "id": kind, "actions": actions, **more}])

    def press(self, key):
        value = KEYS[key][2]
        self.act("key", [{"type": "keyDown", "value": value}, {"type": "keyUp", "value": value}])

    def tap(self, x, y):
        self.act("pointer", [{"type": "pointerMove", "x": int(x), "y": int(y)}, {"type": "pointerDown", "button": 0},
                             {"type": "pointerUp", "button": 0}], parameters={"pointerType": "touch"})

    def look(self, width, height, is_touch=False):
        self.call("browsingContext.setViewport", context=self.context, viewport={"width": width, "height": height})

    def take_picture(self, path):
        data = self.call("browsingContext.captureScreenshot", context=self.context)["data"]
        pathlib.Path(path).write_bytes(base64.b64decode(data))

    def complaints(self):
        found = []
        for event in self.events:
            parameters = event.get("params", {})
            if event.get("method") == "log.entryAdded" and parameters["level"] in ("warn", "error"):
                found.append(parameters["text"])
            elif event.get("method") == "network.beforeRequestSent":
                address = parameters["request"]["url"]
                if not address.startswith(("file:", "blob:", "data:", "about:", "chrome:", "resource:")):
                    found.append(address)
        return found
