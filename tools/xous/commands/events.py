"""The words of xous-events: writes a file of events in which some are played over and over."""

from __future__ import annotations

import argparse
import re
import sys

from ..command import Parser, decimal

DESCRIPTION = """Writes a file of events in which some are played over and over.

An EVENT is a line of an event file (docs/output.md), in quotes. Those after --first come once, before all others."""
EXAMPLE = "tools/xous-events 'tick 10000' --times 400 >events"
EVENT = re.compile(r" *(tick +\d{1,10}|pick +\d{1,3} +\d{1,3}|irq +\d{1,2}|kill +\d{1,3}) *")
MOST_TIMES = 100_000_000


def event(text: str) -> str:
    if not EVENT.fullmatch(text):
        raise argparse.ArgumentTypeError(f"{text!r} is no event: tick N, pick P T, irq K or kill P, in quotes")
    return text.strip()


def times(text: str) -> int:
    return decimal(text, "number of times", 1, MOST_TIMES)


def parser() -> Parser:
    words = Parser("xous-events", "xous-events EVENT .. [--times N] [--first EVENT ..]", DESCRIPTION, EXAMPLE)
    words.add_argument("events", metavar="EVENT", type=event, nargs="+", help="such as 'tick 10000'")
    words.add_argument("--times", type=times, default=1, metavar="N", help="how often all of them are played")
    words.add_argument("--first", type=event, nargs="+", default=[], metavar="EVENT", help="played once, before the others")
    return words


def main(line: list[str]) -> int:
    given = parser().parse_args(line)
    sys.stdout.writelines(f"{each}\n" for each in given.first)
    block = "".join(f"{each}\n" for each in given.events)
    for _ in range(given.times):
        sys.stdout.write(block)
    return 0
