"""Event files: their lines, as docs/output.md says what a good line is."""

from __future__ import annotations

import re
from functools import lru_cache
from typing import NamedTuple

LONGEST_LINE = 64
LINE = re.compile(rb" *(?:(tick|irq|kill) +([0-9]{1,10})|(pick) +([0-9]{1,10}) +([0-9]{1,10})) *")
MOST = {"tick": 4_294_967_295, "pick": 255, "irq": 31, "kill": 255}


KEPT_LINES = 4096  # most files say the same few lines over and over
EMPTY = ("", ())


class Event(NamedTuple):
    line: int  # of the file; 0 for an event that stands in none
    name: str
    numbers: tuple

    @property
    def most_steps(self):
        return self.numbers[0] if self.name == "tick" else 0

    def text(self):
        return text_of(self.name, self.numbers)


@lru_cache(KEPT_LINES)
def text_of(name, numbers):
    return " ".join([name, *map(str, numbers)])


def tick(count):
    return Event(0, "tick", (count,))


def is_empty(line):
    text = line.lstrip(b" ")
    return not text or text.startswith(b"#")


@lru_cache(KEPT_LINES)
def read_line(line):
    """The name and the numbers of a line's event; EMPTY if it has none, and None if it is bad."""
    if len(line) > LONGEST_LINE:
        return None
    line = line.removesuffix(b"\r")
    if is_empty(line):
        return EMPTY
    match = LINE.fullmatch(line)
    if match is None:
        return None
    words = [word for word in match.groups() if word is not None]
    name, numbers = words[0].decode(), tuple(map(int, words[1:]))
    return (name, numbers) if max(numbers) <= MOST[name] else None


def is_event_file(beginning: bytes) -> bool:
    """Whether the first bytes of a file are lines of events; the last of them may be cut."""
    lines = beginning.split(b"\n")[:-1] or [beginning]
    return all(read_line(line) for line in lines)


def read(data: bytes) -> tuple[list[Event], int | None]:
    """The events before the first bad line, and the number of that line, or None."""
    events: list[Event] = []
    for number, line in enumerate(data.split(b"\n"), 1):
        found = read_line(line)
        if found is None:
            return events, number
        if found is not EMPTY:
            events.append(Event(number, *found))
    return events, None


def spelled(events):
    return "".join([text_of(name, numbers) + "\n" for _, name, numbers in events]).encode()
