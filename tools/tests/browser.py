"""Chromium without a window, over two pipes by its DevTools protocol: a page has the focus from its first script on, whatever else runs.

A browser gives a page the focus some time after it is loaded, which on a busy machine is behind the page's scripts.
"""

from __future__ import annotations

import contextlib
import fcntl
import json
import os
import shutil
import subprocess
import tempfile
import threading
from collections.abc import Iterator

from .frame import OTHER_NAMES

SECONDS = 300  # after which a browser is ended
LEAST = 10  # of the numbers of pipes, so that they aren't 3 or 4, which the browser reads and writes
ENDED = b"\0"  # behind each message


def program() -> str:
    return next(path for name in OTHER_NAMES["chromium"] if (path := shutil.which(name)))


def command(profile: str) -> list[str]:
    return [program(), "--headless", "--no-sandbox", "--disable-gpu", "--disable-dev-shm-usage", f"--user-data-dir={profile}"]


class Page:
    """A page of a browser."""

    def __init__(self, reads: int, writes: int):
        self.reads, self.writes, self.rest = reads, writes, b""
        self.session: dict[str, str] = {}
        self.asked = 0
        target = self.ask("Target.createTarget", url="about:blank")["targetId"]
        self.session = {"sessionId": self.ask("Target.attachToTarget", targetId=target, flatten=True)["sessionId"]}
        self.ask("Emulation.setFocusEmulationEnabled", enabled=True)
        self.ask("Emulation.setDeviceMetricsOverride", width=1000, height=800, deviceScaleFactor=1, mobile=False)
        self.ask("Page.enable")

    def message(self) -> dict:
        while ENDED not in self.rest:
            read = os.read(self.reads, 1 << 16)
            if not read:
                raise EOFError("the browser has ended")
            self.rest += read
        text, _, self.rest = self.rest.partition(ENDED)
        return json.loads(text)

    def ask(self, method: str, **words) -> dict:
        """What the browser answers."""
        self.asked += 1
        os.write(self.writes, json.dumps({"id": self.asked, "method": method, "params": words, **self.session}).encode() + ENDED)
        while (answer := self.message()).get("id") != self.asked:
            pass
        if "error" in answer:
            raise ValueError(f"{method}: {answer['error']}")
        return answer["result"]

    def open(self, address: str, scheme: str = "light") -> None:
        """Loads a page in light or dark colours."""
        self.ask("Emulation.setEmulatedMedia", features=[{"name": "prefers-color-scheme", "value": scheme}])
        self.ask("Page.navigate", url=address)
        while self.message().get("method") != "Page.loadEventFired":
            pass

    def value(self, script: str) -> object:
        """What a script comes to, or what it throws as text."""
        answer = self.ask("Runtime.evaluate", expression=script, returnByValue=True)
        return answer["exceptionDetails"]["exception"]["description"] if "exceptionDetails" in answer else answer["result"].get("value")


@contextlib.contextmanager
def opened() -> Iterator[Page]:
    """A page of a browser, which ends with the block: a browser ends when its pipes are closed."""
    pipes = [number for _ in range(2) for number in os.pipe()]
    reads, ours, theirs, writes = (fcntl.fcntl(number, fcntl.F_DUPFD_CLOEXEC, LEAST) for number in pipes)
    for number in pipes:
        os.close(number)
    with tempfile.TemporaryDirectory(ignore_cleanup_errors=True) as profile:
        words = ["bash", "-c", f'exec "$@" 3<&{reads} 4>&{writes} {reads}<&- {writes}>&-', "bash", *command(profile), "--remote-debugging-pipe"]
        quiet = {"stdin": subprocess.DEVNULL, "stdout": subprocess.DEVNULL, "stderr": subprocess.DEVNULL}
        with subprocess.Popen(words, pass_fds=(reads, writes), **quiet) as started:
            watch = threading.Timer(SECONDS, started.kill)
            watch.start()
            os.close(reads)
            os.close(writes)
            try:
                yield Page(theirs, ours)
            finally:
                os.close(theirs)
                os.close(ours)
                started.wait()
                watch.cancel()
