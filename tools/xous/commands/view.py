"""The words of xous-view: a transcript in names, as a chart, or summed up."""

from __future__ import annotations

import argparse
import contextlib
import os
import re
import sys
from collections.abc import Iterable, Iterator
from typing import BinaryIO

from .. import names
from ..charts import chart, draw, page, trace
from ..command import Parser, decimal, say
from ..errors import Refusal
from ..files import MOST_EVENT_BYTES, read_file, refuse_inputs, why, write_whole
from ..images.named import names_of, read_image, sections_of
from ..machine import FIRST_PID
from ..programs.symbols import Program
from ..runs import events
from ..runs.acting import Stretch, stretches_of
from ..transcripts import summary, view

NAME = "xous-view"
USAGE = """xous-view [TRANSCRIPT]
       [--image IMAGE] [--elf PID=FILE].. [--only PID[.TID],..] [--from STEP] [--to STEP]
       [--calls NAME,..] [--no-fold | --json] | --chart OUT.svg|OUT.html|OUT.json [--events EVENTS] | --summary"""
DESCRIPTION = """A transcript of xousim in names, as a chart, or summed up (docs/transcript.md).

  xous-view TRANSCRIPT                    each line in words
  xous-view --chart OUT.html TRANSCRIPT   a lane for each thread, with arrows and loans
  xous-view --summary TRANSCRIPT          threads, servers and deaths, and who waits for whom at the end

Addresses and sizes are hexadecimal, numbers decimal. A chart of more than 5,000 marks is written as OUT.json, a trace for Perfetto."""
EXAMPLE = "./xousim trace IMAGE EVENTS | tools/xous-view --image IMAGE"
NOTES = """status 1 is also that of lines that are none of a transcript; they are handed on, and counted"""
BAD_LINES = 1


def threads(text: str) -> list[tuple[int, int | None]]:
    """The processes and threads of a list such as `3,2.1`."""
    found = []
    for part in text.split(","):
        match = re.fullmatch(r"([0-9]{1,9})(?:\.([0-9]{1,9}))?", part)
        if not match:
            raise argparse.ArgumentTypeError(f"{part or 'nothing'} is no PID and no PID.TID, such as 3 or 3.2")
        found.append((int(match[1]), int(match[2]) if match[2] else None))
    return found


def calls(text: str) -> list[int]:
    """The numbers of a list of calls by name."""
    known = {name.lower(): number for name, number in names.NUMBERS.items()}
    found = []
    for part in text.split(","):
        if part.lower() not in known:
            which = ", ".join(names.NUMBERS)
            raise argparse.ArgumentTypeError(f"{part or 'nothing'} is no call; the calls are {which}")
        found.append(known[part.lower()])
    return found


def step(text: str) -> int:
    return decimal(text, "step")


def program(text: str) -> tuple[int, str]:
    pid, mark, path = text.partition("=")
    if not (mark and path):
        raise argparse.ArgumentTypeError(f"{text} isn't PID=FILE, such as 3=examples/out/lend/client.elf")
    return decimal(pid, "pid", FIRST_PID), path


def chart_file(text: str) -> str:
    if not text.endswith((".svg", ".html", ".json")):
        raise argparse.ArgumentTypeError(f"{text} ends with none of .svg, .html and .json")
    return text


def parser() -> Parser:
    words = Parser(NAME, USAGE, DESCRIPTION, EXAMPLE, NOTES)
    add = words.add_argument
    add("transcript", nargs="?", default="-", metavar="TRANSCRIPT", help="a file; - or none for standard input")
    add("--image", metavar="IMAGE", help="name processes as its names tag does")
    elf = "name addresses of this process by the program's symbols and lines"
    add("--elf", type=program, action="append", default=[], metavar="PID=FILE", help=elf)
    only = "these processes and threads alone"
    add("--only", type=threads, action="extend", default=[], metavar="PID[.TID],..", help=only)
    named = "these calls and their replies alone (text)"
    add("--calls", type=calls, action="extend", default=[], metavar="NAME,..", help=named)
    add("--from", type=step, dest="first", metavar="STEP", help="from this step on (text, chart)")
    add("--to", type=step, dest="last", metavar="STEP", help="up to this step (text, chart)")
    folds = "a line for each line, also of Yields, retries and bytes (text)"
    add("--no-fold", action="store_true", help=folds)
    add("--json", action="store_true", help="a JSON object for each line (docs/transcript.md)")
    add("--chart", type=chart_file, metavar="OUT", help="draw a chart, OUT.svg or OUT.html, or a trace for Perfetto, OUT.json")
    who = "the events that made the transcript: the chart shows who ran at each step (with --image)"
    add("--events", metavar="EVENTS", help=who)
    add("--summary", action="store_true", help="sum up threads, servers and deaths, and who waits for whom")
    return words


def names_given(given: argparse.Namespace) -> names.Names:
    programs = {pid: Program(path) for pid, path in given.elf}
    if not given.image:
        return names.Names({}, programs, None)
    image = read_image(given.image)
    return names.Names(names_of(image), programs, sections_of(image))


@contextlib.contextmanager
def source_of(path: str) -> Iterator[BinaryIO]:
    try:
        if path == "-":
            yield sys.stdin.buffer
        else:
            with open(path, "rb") as file:
                yield file
    except IsADirectoryError:
        raise Refusal(f"{path}: a folder; give a transcript") from None
    except FileNotFoundError as error:
        raise Refusal(f"{path}: {why(error)}") from None


def has_colours() -> bool:
    return sys.stdout.isatty() and not os.environ.get("NO_COLOR") and os.environ.get("TERM") != "dumb"


def fed(reader, source: BinaryIO):
    """The reader after all lines of a file."""
    for lines in view.lines_of(source):
        for line in lines:
            reader.feed(line)
    return reader


def title_of(given: argparse.Namespace) -> str:
    name = "transcript" if given.transcript == "-" else given.transcript
    return name.encode("utf-8", "replace").decode()


# Charts.

KINDS = {
    ".svg": ((b"<svg",), "a chart of this tool"),
    ".html": ((b"<!doctype html",), "a page"),
    ".json": ((b'{"traceEvents"',), "a trace of this tool"),
}


def write_chart(path: str, text: str) -> None:
    starts, kind = KINDS[os.path.splitext(path)[1]]
    write_whole(path, text.encode(), lambda beginning: not beginning or beginning.startswith(starts), kind)


def lines_and_runs(given: argparse.Namespace, source: BinaryIO) -> tuple[Iterable[str], list[Stretch]]:
    """The transcript's lines, and who did each step, where the events are given."""
    lines: Iterable[str] = (line for part in view.lines_of(source) for line in part)
    if given.events is None:
        return lines, []
    kept = list(lines)
    played, _ = events.read(read_file(given.events, MOST_EVENT_BYTES))
    return kept, stretches_of(kept, played, len(read_image(given.image).processes))


def make_chart(given: argparse.Namespace, named: names.Names, filtered: view.Filter, source: BinaryIO) -> int:
    """Draws the chart, or writes a trace where it has too many marks."""
    refuse_inputs(given.chart, [path for path in (given.transcript, given.image, given.events, *(path for _, path in given.elf)) if path])
    lines, runs = lines_and_runs(given, source)
    drawn = chart.Chart(named, filtered, runs, keeps_all=True)
    for line in lines:
        drawn.feed(line)
    drawn.finish()
    path = given.chart
    if path.endswith(".json") or drawn.count > chart.MOST_MARKS:
        path = os.path.splitext(path)[0] + ".json"
        write_chart(path, trace.text(drawn, named, title_of(given)))
        if path != given.chart:
            say(NAME, f"{drawn.too_many()}. Wrote {path} in its place, a trace for https://ui.perfetto.dev")
    elif path.endswith(".svg"):
        write_chart(path, draw.svg(drawn, named, title_of(given)))
    else:
        write_chart(path, page.html(drawn, named, title_of(given)))
    return drawn.bad


def show(given: argparse.Namespace, named: names.Names, filtered: view.Filter) -> int:
    """What was asked for; the number of lines that are none of a transcript."""
    with source_of(given.transcript) as source:
        if given.summary:
            summed = fed(summary.Summary(named, filtered), source)
            print("\n".join(summed.report()))
            return summed.bad
        if given.chart:
            return make_chart(given, named, filtered, source)
        if given.json:
            return view.run(view.JsonView(named, filtered), source, sys.stdout.buffer)
        shown = view.View(named, filtered, not given.no_fold, has_colours())
        return view.run(shown, source, sys.stdout.buffer)


def refuse_words(known: Parser, given: argparse.Namespace) -> None:
    if given.chart and given.summary:
        known.error("--chart and --summary are two commands; give one of them")
    if given.summary and (given.first is not None or given.last is not None):
        known.error("--summary sums up the whole transcript; --from and --to are for text and charts")
    if (given.chart or given.summary) and (given.calls or given.no_fold or given.json):
        known.error("--calls, --no-fold and --json are for text alone")
    if given.events and not (given.chart and given.image):
        known.error("--events is for --chart, and needs --image")


def main(line: list[str]) -> int:
    known = parser()
    given = known.parse_args(line)
    refuse_words(known, given)
    filtered = view.Filter(given.only, given.calls, given.first, given.last)
    named = names_given(given)
    try:
        bad = show(given, named, filtered)
    finally:
        for each in named.symbols.values():
            each.close()
    if bad:
        view.warn(bad)
        return BAD_LINES
    return 0
