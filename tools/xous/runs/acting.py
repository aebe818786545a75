"""Which thread did each step of a run, by the transcript and the events that made it."""

from __future__ import annotations

from dataclasses import dataclass

from ..errors import Refusal
from ..machine import MOST_STEPS
from ..transcripts import decode
from ..transcripts.laws import Broken
from ..transcripts.turns import Played


@dataclass
class Stretch:
    """Steps in a row of one thread."""

    thread: tuple[int, int]
    first: int
    last: int


class Acting(Played):
    """A history whose events are known, and who did each step."""

    def __init__(self, records, events, processes, limit):
        super().__init__(records, events, processes, limit)
        self.stretches: list[Stretch] = []

    def do_steps(self, actor):
        first = self.steps + 1
        super().do_steps(actor)
        if self.stretches and self.stretches[-1].thread == actor:
            self.stretches[-1].last = self.steps
        else:
            self.stretches.append(Stretch(actor, first, self.steps))


def stretches_of(lines, events, processes: int) -> list[Stretch]:
    """Who did each step, in stretches; a refusal where the events made another transcript."""
    records = [record for record in map(decode.record_of, lines) if record is not None]
    is_limited = records and records[-1].what == decode.LIMIT
    acting = Acting(records, events, processes, records[-1].step if is_limited else MOST_STEPS)
    try:
        acting.play()
    except Broken as broken:
        raise Refusal(f"the events made another transcript than this one: {broken}") from None
    return acting.stretches
