"""The words of test-records: looks whether the laws of records hold of a transcript, by its text."""

from __future__ import annotations

from ..command import Parser
from ..errors import Refusal
from ..files import MOST_EVENT_BYTES, read_file, read_whole
from ..images.named import read_image
from ..runs import events
from ..transcripts import history
from ..transcripts.history import History
from ..transcripts.laws import Broken
from ..transcripts.turns import Played
from . import test

USAGE = "test-records --of TRANSCRIPT [IMAGE EVENTS] | [XOUSIM]"
DESCRIPTION = """Looks whether the laws of records (docs/transcript.md, "What holds of each transcript") hold of a transcript, by its text.

--of takes a transcript that begins with the image's start; turns are looked at where the image and the events are given.
Without --of it runs the tests of this (tools/test -k test_records)."""
LIMIT = 1_000_000_000
MOST_BYTES = 1 << 30


def look_at(transcript: str, image: str | None = None, event_file: str | None = None) -> str:
    """What is said of a transcript of which the laws hold."""
    try:
        followed = list(history.records_of(read_whole(transcript, MOST_BYTES).decode("utf-8", "replace")))
        told = History(followed).follow()
        turns_text = ""
        if image and event_file:
            played, _ = events.read(read_file(event_file, MOST_EVENT_BYTES))
            turns_text = f", {Played(followed, played, len(read_image(image).processes), LIMIT).play().fairness.turns} turns"
    except Broken as broken:
        raise Refusal(f"{transcript}: {broken}") from None
    return f"{transcript}: {len(followed)} lines, {told.accepted} messages{turns_text}: as the laws say"


def main(line: list[str]) -> int:
    known = Parser("test-records", USAGE, DESCRIPTION, "tools/test-records --of examples/lend/expected examples/lend/image examples/lend/events")
    known.add_argument("--of", nargs="+", metavar="FILE", help="a transcript, or a transcript, its image and its events")
    known.add_argument("program", nargs="?", metavar="XOUSIM", help="the program, for runs over generated events")
    given = known.parse_args(line)
    if not given.of:
        return test.main([*([given.program] if given.program else []), "-k", "test_records"])
    if len(given.of) not in (1, 3):
        known.error("--of takes a transcript, or a transcript, its image and its events")
    print(look_at(*given.of))
    return 0
