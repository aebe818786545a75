"""Plays event files on an image, each by a process of the program; a start that all runs share is played once."""

from __future__ import annotations

import os
import pathlib
import subprocess
from dataclasses import dataclass

from ..errors import Refusal
from ..files import MOST_EVENT_BYTES, read_file, why
from ..images.named import read_image
from ..machine import MOST_FRAMES, TABLE_FRAMES
from ..runs import events
from ..states import state
from .outcomes import Outcome, Reader, last_of

DONE, STEP_LIMIT = 0, 7
RUNNING: list[subprocess.Popen] = []  # what this process plays now
TURN = 10_000  # steps of a turn behind a schedule, so that no thread that spins keeps the others off


@dataclass
class Start:
    """What is played before each run: its events, and the steps that they do."""

    events: list[events.Event]
    steps: int = 0


class Player:
    """An image, or the state behind a start, and the program that plays it."""

    def __init__(self, program: str, image: str, steps: int, folder: str, first: str | None = None):
        self.program, self.image, self.steps, self.folder = program, image, steps, folder
        self.processes = len(read_image(image).processes)
        self.start = Start(read_start(first))
        self.command, self.subject = "trace", image
        self.slots: list[str] = []
        self.told = self.play_start(first) if first is not None else b""
        self.reader = Reader(self.processes, self.told)

    def play_start(self, first: str) -> bytes:
        """Keeps the state behind the start, from which each run goes on. Its transcript."""
        text = events.spelled(self.start.events)
        told = self.run("trace", self.image, text, "start")
        last = last_of(told)
        if last.what != "done":
            raise Refusal(f"--from {first}: it meets the step limit of {self.steps} already; give more by --steps, or a shorter start")
        self.start.steps = last.step
        data = self.run("suspend", self.image, text, "start")
        path = os.path.join(self.folder, "state")
        pathlib.Path(path).write_bytes(data)
        known = state.read(data)
        frames = TABLE_FRAMES * len(known.processes) + 1 + known.capacity
        self.slots = [str(max(frames - MOST_FRAMES, 0))]
        self.command, self.subject = "resume", path
        return told

    def run(self, command: str, subject: str, text: bytes, name: str, slots: list[str] | None = None) -> bytes:
        """What a command of the program writes of these events."""
        path = os.path.join(self.folder, f"{name}.events")
        with open(path, "wb") as file:
            file.write(text)
        words = [self.program, command, subject, path, str(self.steps), *(slots or [])]
        try:
            with subprocess.Popen(words, stdin=subprocess.DEVNULL, stdout=subprocess.PIPE, stderr=subprocess.PIPE) as process:
                RUNNING[:] = [process]
                told, said = process.communicate()
                RUNNING.clear()
        except OSError as error:
            raise Refusal(f"{self.program}: {why(error)}; XOUSIM names the program xousim") from None
        if process.returncode not in (DONE, STEP_LIMIT) or not told:
            raise Refusal(refusal_text(self.image, process.returncode, said))
        return told

    def play(self, text: bytes) -> bytes:
        """The transcript of these events, behind the start."""
        return self.run(self.command, self.subject, text, str(os.getpid()), self.slots)

    def outcome(self, text: bytes) -> Outcome:
        return self.reader.outcome(self.play(text))

    def left(self) -> int:
        """The steps that a run may do behind the start."""
        return self.steps - self.start.steps

    def tail(self) -> bytes:
        """Turns up to the step limit. If no thread is ready they do nothing."""
        return b"tick %d\n" % TURN * (self.left() // TURN + 1)

    def whole(self, text: bytes) -> bytes:
        """The event file that plays a run from the image's start."""
        return events.spelled(self.start.events) + text


def read_start(first: str | None) -> list[events.Event]:
    if first is None:
        return []
    found, bad_line = events.read(read_file(first, MOST_EVENT_BYTES))
    if bad_line is not None:
        raise Refusal(f"--from {first}: line {bad_line} is none of an event file (docs/output.md)")
    return found


def refusal_text(image: str, status: int, said: bytes) -> str:
    """Why the program plays nothing."""
    told = said.decode(errors="replace").strip()
    if status < 0:
        return f"{image}: the program was ended by signal {-status}"
    if told.startswith("usage:") or not told:
        return f"{image}: the program ended with {status} and wrote no transcript; XOUSIM has to name xousim"
    return f"{image}: {told}"
