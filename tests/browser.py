"""Pages in a headless Chromium, by its own protocol over a pipe; nothing goes over a network."""
import json
import os
import shutil
import subprocess
import tempfile

NAMES = ("chromium", "chromium-browser")
FLAGS = [
    "--headless=new",
    "--no-sandbox",
    "--disable-gpu",
    "--disable-dev-shm-usage",
    "--no-first-run",
    "--remote-debugging-pipe",
]
SECONDS = 120


def installed():
    """Where Chromium is, if it is installed."""
    return next((path for path in map(shutil.which, NAMES) if path), None)


class Browser:
    """A browser with one page. What the page complains of is in `faults`."""

    def __init__(self):
        self.home = tempfile.TemporaryDirectory(prefix="browser-")
        there, to = os.pipe()
        back, here = os.pipe()
        # (the browser reads its descriptor 3 and writes its descriptor 4)
        line = f'exec "$@" 3<&{there} 4>&{here}'
        words = [installed(), *FLAGS, f"--user-data-dir={self.home.name}", "about:blank"]
        self.child = subprocess.Popen(
            ["bash", "-c", line, "bash", *words],
            pass_fds=(there, here),
            stdin=subprocess.DEVNULL,
            stdout=subprocess.DEVNULL,
            stderr=subprocess.DEVNULL,
        )
        os.close(there)
        os.close(here)
        self.to, self.back = os.fdopen(to, "wb"), os.fdopen(back, "rb")
        self.kept, self.number, self.session, self.faults, self.loaded = b"", 0, None, [], 0
        target = self.ask("Target.createTarget", url="about:blank")["targetId"]
        attached = self.ask("Target.attachToTarget", targetId=target, flatten=True)
        self.session = attached["sessionId"]
        for domain in ("Page", "Runtime", "Log"):
            self.ask(f"{domain}.enable")

    def __enter__(self):
        return self

    def __exit__(self, *_):
        self.to.close()
        try:
            self.child.wait(20)
        except subprocess.TimeoutExpired:
            self.child.kill()
            self.child.wait()
        self.back.close()
        self.home.cleanup()

    def message(self):
        """The next message of the browser."""
        while b"\0" not in self.kept:
            part = os.read(self.back.fileno(), 65536)
            if not part:
                raise EOFError("the browser has ended")
            self.kept += part
        line, self.kept = self.kept.split(b"\0", 1)
        return json.loads(line)

    def hear(self, message):
        """What the page tells of itself."""
        method, said = message.get("method"), message.get("params", {})
        if method == "Runtime.exceptionThrown":
            details = said["exceptionDetails"]
            self.faults.append(details.get("exception", {}).get("description", details["text"]))
        elif method == "Runtime.consoleAPICalled" and said["type"] in ("error", "warning"):
            self.faults.append(str(said["args"]))
        elif method == "Log.entryAdded":
            self.faults.append(said["entry"]["text"])
        elif method == "Page.loadEventFired":
            self.loaded += 1

    def ask(self, method, **params):
        """What the browser answers to a call."""
        self.number += 1
        call = {"id": self.number, "method": method, "params": params}
        if self.session:
            call["sessionId"] = self.session
        self.to.write(json.dumps(call).encode() + b"\0")
        self.to.flush()
        while True:
            message = self.message()
            if message.get("id") == self.number:
                if "error" in message:
                    raise ValueError(f'{method}: {message["error"]}')
                return message["result"]
            self.hear(message)

    def open(self, address):
        """Goes to an address, and waits until its page is there."""
        before = self.loaded
        self.ask("Page.navigate", url="about:blank")
        while self.loaded == before:
            self.hear(self.message())
        before = self.loaded
        self.ask("Page.navigate", url=address)
        while self.loaded == before:
            self.hear(self.message())

    def value(self, expression):
        """What an expression is on the page."""
        told = self.ask("Runtime.evaluate", expression=expression, returnByValue=True)
        if "exceptionDetails" in told:
            raise ValueError(f'{expression}: {told["exceptionDetails"]}')
        return told["result"].get("value")

    def press(self, key):
        """Presses a key, and lets it go."""
        text = {"text": key} if len(key) == 1 else {}
        self.ask("Input.dispatchKeyEvent", type="keyDown", key=key, **text)
        self.ask("Input.dispatchKeyEvent", type="keyUp", key=key)
