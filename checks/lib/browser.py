"""Chromium without a window, driven by its DevTools protocol over a pipe."""
import base64
import json
import os
import select
import shutil
import subprocess
import tempfile
import time

SECONDS = 60
# No window, no name that is looked up, nothing beside the page, and no memory of the system that is shared.
FLAGS = ["--headless=new", "--remote-debugging-pipe", "--no-first-run", "--disable-gpu", "--hide-scrollbars",
         "--host-resolver-rules=MAP * ~NOTFOUND", "--disable-background-networking", "--disable-component-update",
         "--disable-sync", "--disable-extensions", "--disable-default-apps", "--disable-dev-shm-usage"]


def program():
    """The path of Chromium, or none."""
    return shutil.which("chromium")


class Browser:
    """A running Chromium with one page. Use it in `with`."""

    def __init__(self):
        self.events = []
        self.sent = 0
        self.rest = b""
        self.session = None
        self.width = self.medium = None

    def __enter__(self):
        self.folder = tempfile.TemporaryDirectory(prefix="site-browser-")
        to_read, self.to_write = os.pipe()
        self.to_read, to_write = os.pipe()
        words = [program(), *FLAGS, f"--user-data-dir={self.folder.name}", "about:blank"]
        if os.geteuid() == 0:
            words.insert(1, "--no-sandbox")
        # The protocol wants what it reads at descriptor 3, and what it writes at 4.
        shell = ["bash", "-c", 'exec 3<&"$1" 4>&"$2"; shift 2; exec "$@"', "bash", str(to_read), str(to_write), *words]
        self.child = subprocess.Popen(shell, pass_fds=(to_read, to_write), stdin=subprocess.DEVNULL, stdout=subprocess.DEVNULL,
                                      stderr=subprocess.DEVNULL, env={**os.environ, "HOME": self.folder.name})
        os.close(to_read)
        os.close(to_write)
        try:
            target = self.call("Target.createTarget", url="about:blank")["targetId"]
            self.session = self.call("Target.attachToTarget", targetId=target, flatten=True)["sessionId"]
            for domain in ("Page", "Runtime", "Log", "Network"):
                self.call(domain + ".enable")
        except OSError:
            self.__exit__()
            raise
        return self

    def __exit__(self, *_):
        self.session = None
        try:
            self.call("Browser.close")
            self.child.wait(10)
        except (OSError, subprocess.TimeoutExpired, TimeoutError):
            self.child.kill()
            self.child.wait()
        for end in (self.to_read, self.to_write):
            os.close(end)
        shutil.rmtree(self.folder.name, ignore_errors=True)

    def message(self, until):
        """The next message, before a time."""
        while b"\0" not in self.rest:
            ready, _, _ = select.select([self.to_read], [], [], max(0, until - time.monotonic()))
            found = os.read(self.to_read, 1 << 20) if ready else b""
            if not found:
                raise TimeoutError("Chromium does not answer")
            self.rest += found
        text, _, self.rest = self.rest.partition(b"\0")
        return json.loads(text)

    def call(self, method, **params):
        """What a call answers; events that come before are kept."""
        self.sent += 1
        message = {"id": self.sent, "method": method, "params": params}
        if self.session:
            message["sessionId"] = self.session
        data = json.dumps(message).encode() + b"\0"
        while data:
            data = data[os.write(self.to_write, data):]
        until = time.monotonic() + SECONDS
        while True:
            answer = self.message(until)
            if answer.get("id") == self.sent:
                if "error" in answer:
                    raise OSError(f"{method}: {answer['error']['message']}")
                return answer["result"]
            self.events.append(answer)

    def open(self, url):
        """Loads a page, and waits until it is loaded."""
        self.events = []
        self.call("Page.navigate", url=url)
        until = time.monotonic() + SECONDS
        while not any(event.get("method") == "Page.loadEventFired" for event in self.events):
            self.events.append(self.message(until))

    def value(self, script):
        """What an expression of JavaScript is in the page; a promise is waited for."""
        answer = self.call("Runtime.evaluate", expression=script, returnByValue=True, awaitPromise=True)
        if "exceptionDetails" in answer:
            raise OSError("in the page: " + answer["exceptionDetails"].get("exception", {}).get("description", "an error"))
        return answer["result"].get("value")

    def until(self, script):
        """Waits until an expression is true, and returns whether it came to be."""
        end = time.monotonic() + SECONDS / 4
        while time.monotonic() < end:
            try:
                if self.value(f"Boolean({script})"):
                    return True
            except OSError:
                pass  # The page is being replaced.
            time.sleep(0.05)
        return False

    def show(self, width, dark=False, media="screen"):
        """Sets the window's width, the colours and the medium, where they are not so yet."""
        if self.width != width:
            self.call("Emulation.setDeviceMetricsOverride", width=width, height=900, deviceScaleFactor=1, mobile=width < 600)
        if self.medium != (dark, media):
            colours = {"name": "prefers-color-scheme", "value": "dark" if dark else "light"}
            self.call("Emulation.setEmulatedMedia", media=media, features=[colours])
        self.width, self.medium = width, (dark, media)

    def press(self, key, code=0):
        """Presses a key: a character, or a name such as ArrowDown with its code."""
        text = {"text": key} if len(key) == 1 else {}
        text.update({"text": "\r"} if key == "Enter" else {})
        self.call("Input.dispatchKeyEvent", type="keyDown", key=key, windowsVirtualKeyCode=code, **text)
        self.call("Input.dispatchKeyEvent", type="keyUp", key=key, windowsVirtualKeyCode=code)

    def picture(self, path, most=None):
        """Writes what the page shows, the whole page or its first pixels."""
        height = self.value("document.documentElement.scrollHeight")
        width = self.value("innerWidth")
        clip = {"x": 0, "y": 0, "width": width, "height": min(height, most or height), "scale": 1}
        data = self.call("Page.captureScreenshot", format="png", captureBeyondViewport=True, clip=clip)["data"]
        with open(path, "wb") as file:
            file.write(base64.b64decode(data))

    def errors(self):
        """What the console says of the page that is wrong, since it was opened."""
        found = []
        for event in self.events:
            method, params = event.get("method"), event.get("params", {})
            if method == "Runtime.exceptionThrown":
                found.append(params["exceptionDetails"].get("exception", {}).get("description", "an exception").split("\n")[0])
            elif method == "Runtime.consoleAPICalled" and params["type"] in ("error", "warning", "assert"):
                found.append(" ".join(str(it.get("value", it.get("description", ""))) for it in params["args"]))
            elif method == "Log.entryAdded" and params["entry"]["level"] in ("error", "warning"):
                found.append(params["entry"]["text"] + " " + params["entry"].get("url", ""))
        return found

    def requests(self):
        """What the page asked for since it was opened."""
        asked = [event["params"] for event in self.events if event.get("method") == "Network.requestWillBeSent"]
        return [params["request"]["url"] for params in asked]
