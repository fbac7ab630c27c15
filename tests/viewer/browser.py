"""A browser without a window, led through a pipe. It is Chromium, by its DevTools protocol."""

import json
import os
import select
import subprocess
import tempfile
import time

SECONDS = 10

WORDS = (
    "--headless",
    "--no-sandbox",
    "--disable-gpu",
    "--no-first-run",
    "--disable-background-networking",
    "--host-resolver-rules=MAP * ~NOTFOUND",
    "--remote-debugging-pipe",
)


class Browser:
    """One page in a browser of its own. Its log and its requests are kept in `events`."""

    def __init__(self, program):
        self.room = tempfile.TemporaryDirectory(prefix="viewer-browser-", ignore_cleanup_errors=True)
        read_here, write_there = os.pipe()
        read_there, write_here = os.pipe()
        # The browser reads from its file 3 and writes to its file 4.
        words = ["sh", "-c", f'exec "$@" 3<&{read_there} 4>&{write_there}', "", program, *WORDS, f"--user-data-dir={self.room.name}"]
        quiet = {"stdin": subprocess.DEVNULL, "stdout": subprocess.DEVNULL, "stderr": subprocess.DEVNULL}
        self.process = subprocess.Popen(words, pass_fds=(read_there, write_there), **quiet)
        os.close(read_there)
        os.close(write_there)
        self.read, self.write = read_here, write_here
        self.events, self.answers, self.left, self.number, self.session = [], {}, b"", 0, None
        target = self.call("Target.createTarget", url="about:blank")["targetId"]
        self.session = self.call("Target.attachToTarget", targetId=target, flatten=True)["sessionId"]
        for part in ("Page", "Runtime", "Log", "Network"):
            self.call(f"{part}.enable")

    def __enter__(self):
        return self

    def __exit__(self, *_):
        try:
            self.session = None
            self.call("Browser.close")
            self.process.wait(SECONDS)
        except (OSError, EOFError, TimeoutError, subprocess.TimeoutExpired):
            self.process.kill()
            self.process.wait()
        os.close(self.write)
        os.close(self.read)
        self.room.cleanup()

    def take(self):
        """Takes in one batch of messages."""
        if not select.select([self.read], [], [], SECONDS)[0]:
            raise TimeoutError("the browser is silent")
        came = os.read(self.read, 1 << 20)
        if not came:
            raise EOFError("the browser has ended")
        *whole, self.left = (self.left + came).split(b"\0")
        for text in whole:
            message = json.loads(text)
            if "id" in message:
                self.answers[message["id"]] = message
            else:
                self.events.append(message)

    def call(self, method, **params):
        """Calls a method of the protocol. Its answer."""
        self.number += 1
        message = {"id": self.number, "method": method, "params": params}
        if self.session:
            message["sessionId"] = self.session
        os.write(self.write, json.dumps(message).encode() + b"\0")
        while self.number not in self.answers:
            self.take()
        answer = self.answers.pop(self.number)
        if "error" in answer:
            raise ValueError(f"{method}: {answer['error']}")
        return answer["result"]

    def open(self, address):
        """Opens an address, and waits until it is loaded. The log and the requests of the last page are
        forgotten."""
        self.call("Page.navigate", url="about:blank")
        self.wait("about:blank")
        self.events.clear()
        self.call("Page.navigate", url=address)
        self.wait(address)

    def wait(self, address):
        """Waits until the address is loaded."""
        ends = time.monotonic() + SECONDS
        while self.value("document.readyState + ' ' + document.URL.split('#')[0]") != f"complete {address.partition('#')[0]}":
            if time.monotonic() > ends:
                raise TimeoutError(f"{address} isn't loaded")

    def value(self, expression):
        """The value of an expression in the page."""
        answer = self.call("Runtime.evaluate", expression=expression, returnByValue=True)
        if "exceptionDetails" in answer:
            raise ValueError(f"{expression}: {answer['exceptionDetails']}")
        return answer["result"].get("value")

    def press(self, key):
        """Presses a key."""
        text = {"text": key} if len(key) == 1 else {}
        for kind in ("keyDown", "keyUp"):
            self.call("Input.dispatchKeyEvent", type=kind, key=key, code=key, **(text if kind == "keyDown" else {}))
