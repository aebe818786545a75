"""The last turns of a run: who ran, the lines of the transcript in words, and the line of the source at which the thread was stopped."""

from __future__ import annotations

import re
from collections.abc import Iterator

from ..images.layout import Image
from ..images.named import names_of
from ..names import Names
from ..programs.symbols import Program
from ..runs.acting import Stretch, stretches_of
from ..runs.run import Run
from ..states import where
from ..transcripts import view

STEP = re.compile(r"\d+")
LEAST = 2  # lines of a turn that isn't told whole


def text_of(played: Run) -> list[str]:
    """The lines of the transcript."""
    return bytes(played.transcript.data).decode("latin-1").splitlines()


def last_turns(played: Run, lines: list[str], image: Image, programs: dict[int, Program], last: int, most: int) -> Iterator[str]:
    """The lines of as many turns up to a step as have room in so many lines; of the one that hasn't room, its last lines."""
    turns = [turn for turn in stretches_of(lines, played.events, len(image.processes)) if turn.first <= last]
    if turns:
        turns[-1].last = min(turns[-1].last, last)
    named = Names(names_of(image), programs)
    blocks: list[list[str]] = []
    room = most
    for turn, words in zip(reversed(turns), reversed(words_of(lines, named, turns[-most:]))):
        block = [turn_text(played, named, programs, turn), *(f"  {each}" for each in words)]
        if len(block) > room:
            block = [block[0], "  ..", *block[2 - room :]] if room > LEAST else []
        blocks.insert(0, block)
        room -= len(block)
        if room < LEAST or not block:
            break
    yield from (line for block in blocks for line in block)


def words_of(lines: list[str], named: Names, turns: list[Stretch]) -> list[list[str]]:
    """For each of these turns, the last ones, what the transcript has of it in words."""
    if not turns:
        return []
    shown: list[str] = []
    reader = view.View(named, view.Filter(first=turns[0].first, last=turns[-1].last))
    for line in lines:
        reader.feed(line, shown)
    shown += reader.flush()
    found: list[list[str]] = [[] for _ in turns]
    for text in shown:
        step = STEP.match(text)
        if step is not None:  # the last line has none
            place = next((at for at, turn in enumerate(turns) if int(step[0]) <= turn.last), len(turns) - 1)
            found[place].append(text)
    return found


def turn_text(played: Run, named: Names, programs: dict[int, Program], turn: Stretch) -> str:
    """Who had the turn, its steps, and where the thread stands behind it."""
    machine = played.state_at(turn.last)
    steps = f"step {turn.first}" if turn.first == turn.last else f"steps {turn.first} to {turn.last}"
    thread = machine.threads.get(turn.thread)
    stands = f", then {where.spot_text(programs, thread)}" if thread is not None else ""
    return f"{named.thread(turn.thread)}, {steps}{stands}"
