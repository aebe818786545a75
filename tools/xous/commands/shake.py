"""The words of xous-shake: random orders of an image's threads, and small event files of what they found."""

from __future__ import annotations

import argparse
import hashlib
import os
import pathlib
import re
import sys
import tempfile
import time
from collections.abc import Iterator

from ..causes.commands import commands_for
from ..command import DONE, REFUSED, Parser, decimal, version
from ..errors import Refusal
from ..files import read_file, refuse_inputs, why, write_whole
from ..machine import MOST_STEPS
from ..runs import events, orders
from ..runs.program import find_program
from ..shaking import findings, outcomes, schedules
from ..shaking.findings import Ending, Findings, Seeds, counted
from ..shaking.jobs import Jobs, Shaker
from ..shaking.plain import plain_of
from ..shaking.playing import Player, read_start
from ..shaking.prefixes import leaves_of

NAME = "xous-shake"
USAGE_LINES = """xous-shake IMAGE [--kind KIND].. [--depth D] [--runs N] [--seconds N] [--seed N] [--share K/N] [--jobs N]
       [--steps N] [--from EVENTS] [--see WHAT,..] [--fails WHAT].. [--write DIR] [--json FILE]
       xous-shake --merge FILE.. [--write DIR] [--json FILE]
       xous-shake IMAGE --prefixes N --write DIR [--quantum N] [--steps N] [--from EVENTS]"""
DESCRIPTION = """Tries random orders of an image's threads, for services that are too large for a search of all (docs/orders.md).

Each run is an event file of a seed, and one process of xousim. An ending is printed when it is first found; a table at the end
says how often each came. With --write there is a small event file for each, made by delta debugging, that xousim replays.

--merge joins what --json wrote on several machines. --prefixes writes event files that together begin all orders: xousorders
with --from each of them does a part of a search.

The program is run for each seed; it is $XOUSIM, else the one that ./xousim builds."""
STATUSES = """statuses:
  0   done, and no run failed
  1   a run failed, or an input has a fault; the sentence says which
  2   the words make no sense
  4   the output is closed, or its disk is full
  9   memory has run out
  130 interrupted by Control-C, after what was found is printed"""
NOTES = """kinds:
  turns  turns of random lengths
  picks  a random thread up to its next call, as far apart as the calls of a run in long turns are
  pct    probabilistic concurrency testing: random priorities with D - 1 changes at random steps. With n threads and k steps, each
         run finds a bug of depth D with probability at least 1/(n k^(D-1)) (Burckhardt, Kothari, Musuvathi and Nagarakatte,
         ASPLOS 2010). In long runs it looks at priorities only every few steps, and the bound doesn't hold."""
USUAL_RUNS, USUAL_STEPS, USUAL_DEPTH = 1_000, 2_000_000, 3
MOST_SEED, MOST_JOBS, MOST_DEPTH, MOST_PREFIXES = 1 << 62, 1_024, 64, 100_000
SHARE = re.compile(r"([0-9]{1,9})/([0-9]{1,9})")


# The words.


def share_of(text: str) -> tuple[int, int]:
    found = SHARE.fullmatch(text)
    if not found or not 1 <= int(found[1]) <= int(found[2]):
        raise argparse.ArgumentTypeError(f"{text} is no share; give K/N, such as 2/8 for the second of eight parts")
    return int(found[1]), int(found[2])


def see_of(text: str) -> tuple[str, ...]:
    chosen = text.split(",")
    if any(word not in outcomes.SEE for word in chosen):
        raise argparse.ArgumentTypeError(f"{text}: say one or more of {','.join(outcomes.SEE)}")
    return tuple(word for word in outcomes.SEE if word in chosen)


def parser() -> Parser:
    example = "tools/xous-shake examples/orders/store.image --seconds 10 --write ."
    words = Parser(NAME, USAGE_LINES, DESCRIPTION, example, NOTES, STATUSES)

    def number(what: str, least: int, most: int):
        return lambda text: decimal(text, what, least, most)

    words.add_argument("image", metavar="IMAGE", nargs="?", help="a boot image")
    kind = "turns, picks or pct; may be given several times; all by default"
    words.add_argument("--kind", choices=schedules.KINDS, action="append", metavar="KIND", help=kind)
    words.add_argument("--depth", type=number("depth", 1, MOST_DEPTH), default=USUAL_DEPTH, metavar="D", help="of pct; 3 by default")
    runs = "so many runs; 1,000 by default, or with --seconds any number"
    words.add_argument("--runs", type=number("number of runs", 1, MOST_SEED), metavar="N", help=runs)
    words.add_argument("--seconds", type=number("number of seconds", 1, MOST_SEED), metavar="N", help="begins no run after so many seconds")
    words.add_argument("--seed", type=number("seed", 0, MOST_SEED), default=1, metavar="N", help="of the first run, 1 by default; the next has the next")
    words.add_argument("--share", type=share_of, default=(1, 1), metavar="K/N", help="the K-th of N parts of the seeds alone")
    words.add_argument("--jobs", type=number("number of jobs", 1, MOST_JOBS), metavar="N", help="runs at a time; as many as there are processors by default")
    words.add_argument("--steps", type=number("step limit", 1, MOST_STEPS), default=None, metavar="N", help="the step limit of a run, 2,000,000 by default")
    words.add_argument("--from", dest="first", metavar="EVENTS", help="events that are played once, before all runs")
    see = "what is seen of an ending, of console,exits,waits,servers,numbers; the first three by default"
    words.add_argument("--see", type=see_of, default=outcomes.USUAL_SEE, metavar="WHAT", help=see)
    fails = "a run with it fails: exit, fault, waits, waits=PID.TID, limit, console=TEXT, console-not=TEXT or none; the first three by default"
    words.add_argument("--fails", action="append", metavar="WHAT", help=fails)
    words.add_argument("--write", metavar="DIR", help="a folder for an event file of each ending")
    words.add_argument("--json", metavar="FILE", help="a file for what was found")
    words.add_argument("--merge", nargs="+", metavar="FILE", help="findings that are joined")
    words.add_argument("--prefixes", type=number("number of prefixes", 1, MOST_PREFIXES), metavar="N", help="writes at least so many event files that begin all orders")
    words.add_argument("--quantum", type=number("quantum", 1, MOST_STEPS), default=orders.Asked.quantum, metavar="N", help="of the slices of prefixes, 1,000 by default")
    return words


def check_words(known: Parser, given: argparse.Namespace) -> None:
    if given.merge and (given.image or given.prefixes):
        known.error("--merge stands without an image and without --prefixes")
    if not given.merge and not given.image:
        known.error("name an image, or give findings to --merge")
    if given.prefixes and not given.write:
        known.error("--prefixes goes with --write DIR, where the event files come to be")


# Files.


def open_folder(path: str | None) -> None:
    """Makes the folder if it is missing, and sees that files can be written there."""
    if path is None:
        return
    try:
        os.makedirs(path, exist_ok=True)
        with tempfile.NamedTemporaryFile(dir=path, prefix=".xous-shake."):
            pass
    except OSError as error:
        raise Refusal(f"--write {path}: {why(error)}; name a folder that can be written") from None


def write_events(folder: str, name: str, text: bytes) -> str:
    target = os.path.join(folder, name)
    write_whole(target, text, events.is_event_file, "an event file")
    return target


def save(found: Findings, path: str | None) -> None:
    if path is not None:
        write_whole(path, found.to_json(), findings.is_findings, "findings of xous-shake")


# What is told at the end.


def told_of_files(found: Findings, folder: str | None, image: str | None) -> Iterator[str]:
    """How many lines each event file has, and the commands that look into one."""
    if folder is None:
        return
    chosen = None
    for number, ending in enumerate(found.endings.values(), 1):
        path = os.path.join(folder, f"ending-{number}.events")
        if not ending.events:
            yield f"{path}: not written; the findings have no events of it"
            continue
        yield f"{path}: {counted(ending.events.count(chr(10)), 'line')}{', fails' if ending.fails else ''}"
        chosen = path if chosen is None or (ending.fails and not is_failing(found, chosen)) else chosen
    if chosen is not None and image is not None:
        yield from commands_for(image, chosen)


def is_failing(found: Findings, path: str) -> bool:
    number = int(re.findall(r"\d+", os.path.basename(path))[0])
    return bool(list(found.endings.values())[number - 1].fails)


# A search.


class Progress:
    """A line on a terminal that says how far the runs are."""

    def __init__(self) -> None:
        self.began = self.last = time.monotonic()
        self.is_shown = sys.stderr.isatty()

    def show(self, text: str) -> None:
        now = time.monotonic()
        if self.is_shown and now > self.last + 0.5:
            self.last = now
            print(f"\r\x1b[K{text}", end="", file=sys.stderr, flush=True)

    def clear(self) -> None:
        if self.is_shown:
            print("\r\x1b[K", end="", file=sys.stderr, flush=True)

    def rate(self, count: int) -> float:
        return count / max(time.monotonic() - self.began, 0.001)


class Search:
    """Runs by seeds, and what was found."""

    def __init__(self, given: argparse.Namespace, shaker: Shaker, about: dict[str, object]):
        self.given, self.shaker = given, shaker
        part, parts = given.share
        self.found = Findings(about, [Seeds(given.seed + part - 1, parts)])
        self.progress = Progress()

    def seeds(self) -> Iterator[tuple[int]]:
        """The seeds of this share."""
        part, parts = self.given.share
        runs = self.given.runs or (None if self.given.seconds else USUAL_RUNS)
        index = part - 1
        while runs is None or index < runs:
            yield (self.given.seed + index,)
            index += parts

    def is_over(self) -> bool:
        return self.given.seconds is not None and time.monotonic() > self.progress.began + self.given.seconds

    def run(self, jobs: Jobs) -> None:
        for result in jobs.each("shake", self.seeds(), self.is_over):
            ending = self.found.take(result)
            runs = self.found.runs()
            if ending is not None:
                if self.keeps_events():
                    self.keep(ending, result.events)  # as they came, so that they are there whatever comes
                self.progress.clear()
                print(ending.line(len(self.found.endings)), flush=True)
            self.progress.show(f"{runs:,} runs, {counted(len(self.found.endings), 'ending')}, {self.progress.rate(runs):,.0f} runs a second")
        self.progress.clear()

    def keeps_events(self) -> bool:
        return bool(self.given.write or self.given.json)

    def keep(self, ending: Ending, text: bytes) -> None:
        whole = self.shaker.player.whole(text)
        ending.events = whole.decode()
        if self.given.write:
            number = list(self.found.endings).index(ending.seen) + 1
            write_events(self.given.write, f"ending-{number}.events", whole)

    def make_small(self, jobs: Jobs) -> None:
        """Takes a small event file for each ending, those that fail first."""
        if not self.keeps_events():
            return
        endings = sorted(self.found.endings.values(), key=lambda ending: (not ending.fails, ending.met_limit))
        for number, text in enumerate(jobs.each("small", [(ending.seed, ending.seen) for ending in endings])):
            self.keep(endings[number], text)
            self.progress.show(f"{number + 1} of {len(endings)} event files are small")
        self.progress.clear()

    def told(self) -> int:
        save(self.found, self.given.json)
        for line in [*self.found.lines(), *told_of_files(self.found, self.given.write, self.given.image)]:
            print(line)
        return REFUSED if self.found.failing() else DONE


def about_of(given: argparse.Namespace, kinds: tuple[str, ...], rules: tuple[outcomes.Rule, ...], steps: int) -> dict[str, object]:
    """What findings that are joined have in common."""

    def digest(path: str) -> str:
        return hashlib.sha256(read_file(path)).hexdigest()

    return {
        "image": digest(given.image),
        "start": digest(given.first) if given.first else None,
        "kinds": list(kinds),
        "depth": given.depth,
        "steps": steps,
        "see": list(given.see),
        "fails": [rule.spelled() for rule in rules],
        "version": version(),
    }


def shake(given: argparse.Namespace) -> int:
    rules = outcomes.rules_of(given.fails)
    kinds = tuple(kind for kind in schedules.KINDS if kind in (given.kind or schedules.KINDS))
    steps = given.steps or USUAL_STEPS
    inputs = [path for path in (given.image, given.first) if path]
    open_folder(given.write)
    about = about_of(given, kinds, rules, steps)
    if given.json:
        refuse_inputs(given.json, inputs)
    save(Findings(about, []), given.json)
    count = given.jobs or len(os.sched_getaffinity(0))
    with tempfile.TemporaryDirectory(prefix="xous-shake-") as folder:
        player = Player(find_program(), given.image, steps, folder, given.first)
        shaker = Shaker(player, plain_of(player), kinds, given.depth, given.see, rules)
        search = Search(given, shaker, about)
        try:
            with Jobs(shaker, count) as jobs:
                search.run(jobs)
                search.make_small(jobs)
        except KeyboardInterrupt:
            search.progress.clear()
            search.told()
            raise
        return search.told()


# The other forms.


def merge(given: argparse.Namespace) -> int:
    open_folder(given.write)
    if given.json:
        refuse_inputs(given.json, given.merge)
    found = findings.merged(given.merge)
    save(found, given.json)
    for number, ending in enumerate(found.endings.values(), 1):
        print(ending.line(number))
        if given.write and ending.events:
            write_events(given.write, f"ending-{number}.events", ending.events.encode())
    print("\n".join([*found.lines(), *told_of_files(found, given.write, None)]))
    return REFUSED if found.failing() else DONE


def write_prefixes(given: argparse.Namespace) -> int:
    open_folder(given.write)
    steps = given.steps or orders.Asked.steps
    asked = orders.Asked(given.quantum, steps, MOST_PREFIXES, (), read_start(given.first))
    with tempfile.TemporaryDirectory(prefix="xous-shake-") as folder:
        leaves = leaves_of(orders.Search(find_program(), given.image, asked, folder), given.prefixes)
    for number, node in enumerate(leaves, 1):
        write_events(given.write, f"prefix-{number}.events", events.spelled(node.path))
    few = "" if len(leaves) >= given.prefixes else "; there are no more"
    print(f"{counted(len(leaves), 'prefix').replace('prefixs', 'prefixes')} in {pathlib.Path(given.write)}{few}")
    return DONE


def main(line: list[str]) -> int:
    known = parser()
    given = known.parse_args(line)
    check_words(known, given)
    if given.merge:
        return merge(given)
    return write_prefixes(given) if given.prefixes else shake(given)
