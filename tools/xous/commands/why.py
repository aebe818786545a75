"""The words of xous-why: what led to the end of a run, on one screen."""

from __future__ import annotations

import argparse
import contextlib
from collections.abc import Iterable, Iterator

from ..causes import chains, ends, turns
from ..causes.commands import commands_for
from ..command import DONE, Parser
from ..errors import Refusal
from ..files import read_file
from ..images.layout import Image
from ..images.named import names_of, read_image
from ..names import Names
from ..programs.symbols import Program
from ..runs.run import Run
from ..states import where
from .gdb import add_limits
from .where import programs_of

NAME = "xous-why"
USAGE = "xous-why IMAGE EVENTS [STEPS [SLOTS]] [--elf [PID=]PROGRAM.elf ..]"
DESCRIPTION = """Tells what led to the end of a run, on one screen, from an event file such as xousorders --write makes (docs/orders.md).

First come the last turns of the threads: the lines of the transcript in words, and where each thread stands behind its turn. Then
what each process ended with; who waits for whom, from a thread over its message and server to the thread that has it; and the
line at which each living thread stands. Last are the commands for a chart and for gdb. --elf gives functions and lines of the
source; without PID it is for the processes of that name.

The program is run for each state; it is $XOUSIM, else the one that ./xousim builds."""
EXAMPLE = "tools/xous-why examples/fault/image examples/fault/events"
# Lines of each part at most; with titles and commands they fit on a screen.
TURNS, ENDS, WAITS, THREADS = 16, 5, 5, 5


def parser() -> Parser:
    words = Parser(NAME, USAGE, DESCRIPTION, EXAMPLE)
    words.add_argument("image", metavar="IMAGE", help="a boot image")
    words.add_argument("events", metavar="EVENTS", help="an event file")
    add_limits(words)
    words.add_argument("--elf", action="append", default=[], metavar="[PID=]FILE", help="a program with its symbols")
    return words


def cut(lines: Iterable[str], most: int, whole: str) -> list[str]:
    """So many lines at most; the last one then says how many are left out, and what shows them."""
    found = list(lines)
    if len(found) <= most:
        return found
    return [*found[: most - 1], f".. {len(found) - most + 1} more: {whole}"]


def part(title: str, lines: Iterable[str]) -> Iterator[str]:
    found = list(lines)
    if found:
        yield from (title, *(f"  {line}" for line in found))


def told(played: Run, image: Image, known: dict[int, Program], given: argparse.Namespace) -> Iterator[str]:
    """The lines of each part."""
    named, machine = Names(names_of(image), known), played.state_at(played.last)
    summary, places = "xous-view --summary of the transcript", f"xous-where {given.image} {given.events}"
    lines = turns.text_of(played)
    follower = chains.followed(lines)
    yield f"{given.events}: {played.ending()}"
    failure = ends.first_failure(played)
    title = "the last turns" if failure is None else f"the last turns before the first failure, at step {failure}"
    yield from part(title, turns.last_turns(played, lines, image, known, played.last if failure is None else failure, TURNS))
    yield from part("the processes", cut(ends.end_lines(played, named, known, len(image.processes)), ENDS, summary))
    waiting = list(chains.chain_lines(follower, machine, named)) or ["nobody waits for an answer or for a thread"]
    yield from part("who waits for whom", cut(waiting, WAITS, summary))
    yield from part("where the threads stand", cut(where.threads(machine, known), THREADS, places))
    yield "look into it"
    limits = tuple(number for number in (given.steps, given.slots) if number is not None)
    yield from commands_for(given.image, given.events, limits, {pid: program.path for pid, program in known.items()})


def main(line: list[str]) -> int:
    given = parser().parse_intermixed_args(line)
    image = read_image(given.image)
    with contextlib.ExitStack() as opened:
        known = programs_of(given.elf, image, read_file(given.image))
        for program in known.values():
            opened.callback(program.close)
        played = Run(given.image, given.events, given.steps, given.slots)
        opened.callback(played.close)
        if played.bad_line is not None:
            raise Refusal(f"{given.events}: event fault at line {played.bad_line}; give an event file, such as those of xousorders --write")
        for text in told(played, image, known, given):
            print(text)
    return DONE
