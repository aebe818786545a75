"""The plain run of an image, in long turns: how long it is, which threads it has, and how far their calls are apart."""

from __future__ import annotations

import re
from collections.abc import Iterator
from dataclasses import dataclass, field

from ..machine import FIRST_PID, FIRST_TID
from ..runs import events
from ..runs.acting import Stretch, stretches_of
from ..runs.seen import is_handler
from ..transcripts import decode
from .outcomes import last_of
from .playing import Player

Thread = tuple[int, int]
NAMED = re.compile(r"\S+ \S+ reply 0000000a ([0-9a-f]{8})").match


@dataclass
class Plain:
    """What schedules are made for."""

    steps: int  # behind the start
    threads: list[Thread]  # in ascending order, without handlers
    handlers: list[Thread] = field(default_factory=list)
    apart: dict[Thread, list[int]] = field(default_factory=dict)  # by thread, its own steps up to each of its records

    def span(self) -> int:
        """The steps that a schedule covers: another order may take some more."""
        return self.steps + self.steps // 4 + 64


def plain_of(player: Player) -> Plain:
    """Plays the plain run."""
    tail = player.tail()
    transcript = player.play(tail)
    first = player.start.steps
    last = last_of(transcript).step
    played = [*player.start.events, *events.read(tail)[0]]
    lines = lines_of(player, transcript)
    known = {(pid, FIRST_TID) for pid in range(FIRST_PID, FIRST_PID + player.processes)}
    known |= {who for line in lines for who in threads_of(line)}
    stretches = stretches_of(lines, played, player.processes)
    return Plain(
        max(last - first, 1),
        sorted(who for who in known if not is_handler(who)),
        sorted(who for who in known if is_handler(who)),
        apart_of(stretches, lines, first),
    )


def lines_of(player: Player, transcript: bytes) -> list[str]:
    """The lines of the whole transcript, with those of the start."""
    before = player.told.decode("latin-1").splitlines()
    return before[:-1] + transcript.decode("latin-1").splitlines()


def threads_of(line: str) -> Iterator[Thread]:
    """The thread of a line, and the one that a reply names, which may be a new one."""
    who = decode.THREADS[line.split(" ", 2)[1]]
    if who is not None:
        yield who
        named = NAMED(line)
        if named:
            yield who[0], int(named[1], 16)


def apart_of(stretches: list[Stretch], lines: list[str], first: int) -> dict[Thread, list[int]]:
    """By thread how many steps of its own are between its records, behind the start."""
    acts = {}  # by step, who left a record there
    for line in lines[:-1]:
        step, who, what = line.split(" ", 3)[:3]
        if what.rstrip() in (decode.CALL, decode.BYTE, decode.END) and int(step) > first:
            acts[int(step)] = decode.THREADS[who]
    found: dict[Thread, list[int]] = {}
    own: dict[Thread, int] = {}
    steps = sorted(acts)
    at = 0
    for stretch in stretches:
        begun = max(stretch.first - 1, first)
        while at < len(steps) and steps[at] <= stretch.last:
            found.setdefault(stretch.thread, []).append(own.pop(stretch.thread, 0) + steps[at] - begun)
            begun = steps[at]
            at += 1
        own[stretch.thread] = own.get(stretch.thread, 0) + max(stretch.last - begun, 0)
    return found
