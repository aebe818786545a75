"""The events of a run that did nothing: a pick of a thread that isn't there or isn't Ready, a kill of a process that isn't there.

An event file that was made for another build of a program names threads at other moments, and nothing else tells so. Who is
Ready follows from the transcript (`Played`), so no state is asked for.
"""

from __future__ import annotations

from dataclasses import dataclass

from ..machine import FIRST_PID, HANDLER_TID
from ..names import call_name
from ..transcripts.turns import Played
from .events import Event


@dataclass
class Idle:
    """An event that did nothing, how many steps were done before it, and why."""

    event: Event
    step: int
    why: str

    def text(self) -> str:
        return f"line {self.event.line}: {self.event.text()} at step {self.step}: {self.why}"

    def tree(self) -> dict[str, object]:
        return {"line": self.event.line, "event": self.event.text(), "step": self.step, "why": self.why}


class IdleEvents(Played):
    """A history whose events are known, and which of them did nothing."""

    def __init__(self, records, events, processes, limit):
        super().__init__(records, events, processes, limit)
        self.found: list[Idle] = []

    def note(self, why: str | None) -> None:
        if why is not None:
            self.found.append(Idle(self.events[self.place], self.steps, why))

    def missing(self, pid: int) -> str | None:
        if pid in self.gone:
            return f"process {pid} is gone"
        if (pid, HANDLER_TID) not in self.calls:
            return f"there is no process {pid}; the image has {FIRST_PID} to {FIRST_PID + self.most - 1}"
        return None

    def not_ready(self, pid: int, tid: int) -> str | None:
        if (pid, tid) not in self.calls:
            return self.missing(pid) or f"process {pid} has no thread {tid}"
        if (pid, tid) in self.idle:
            return "no interrupt has started this handler"
        call = self.calls[pid, tid]
        return None if call is None else f"it waits: its {call_name(call.words[0])} of step {call.step} has no answer"

    def play_pick(self, pid, tid):
        self.note(self.not_ready(pid, tid))
        super().play_pick(pid, tid)

    def play_kill(self, pid):
        self.note(self.missing(pid))
        super().play_kill(pid)

    def play_irq(self, number):
        self.note(None if number in self.claims else f"no process has claimed interrupt {number}")
        super().play_irq(number)

    def play_tick(self, count):
        self.note("no thread is ready" if count and not self.ready() else None)
        return super().play_tick(count)
