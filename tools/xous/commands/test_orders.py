"""The words of test-orders: searches every order of an image's threads, slowly."""

from __future__ import annotations

import argparse
import os
import pathlib
import tempfile
from collections.abc import Iterator

from ..command import USAGE as USAGE_STATUS
from ..command import Parser, decimal, say
from ..errors import Refusal
from ..files import MOST_EVENT_BYTES, read_file
from ..runs import events, fails, orders, seen
from ..runs.found import CUT, Found
from . import test

MOST_PREEMPTIONS = 255
USAGE = """test-orders XOUSIM --search IMAGE [--quantum N] [--steps N] [--states N] [--from EVENTS] [--irq K].. [--kill PID].. [--write DIR]
                   [--see WHAT,..] [--hex] [--fails WHAT].. [--first] [--one] [--preemptions P]
       test-orders [XOUSIM [XOUSORDERS]] [--long]"""
DESCRIPTION = """Searches every order of an image's threads, slowly, over runs of xousim, and prints the reports of xousorders (docs/orders.md).
It searches breadth first, with --preemptions too, and leaves out the lines of endings as they are found.

Without --search it runs the tests of such searches (tools/test -k test_orders), with --long those of many states too."""
STATUSES = """statuses:
  0   done; if it is asked for failures, no order fails
  1   orders fail, an input has a fault, or a test failed
  2   the words make no sense
  10  nodes were left out, and no failure was found among the others"""


def sights_of(text: str) -> tuple[str, ...]:
    """What is seen, from words with commas between them, each at most once."""
    chosen = text.split(",")
    if any(word not in seen.SIGHTS for word in chosen) or len(set(chosen)) < len(chosen):
        raise argparse.ArgumentTypeError(f"{text}: say one or more of {','.join(seen.SIGHTS)}, each once")
    return tuple(word for word in seen.SIGHTS if word in chosen)


def parser() -> Parser:
    example = "tools/test-orders ./xousim --search examples/orders/lost.image --quantum 1"
    words = Parser("test-orders", USAGE, DESCRIPTION, example, statuses=STATUSES)

    def number(what: str, most: int | None = None):
        return lambda text: decimal(text, what, 0, most)

    words.add_argument("program", metavar="XOUSIM", nargs="?", help="the program xousim")
    words.add_argument("searcher", metavar="XOUSORDERS", nargs="?", help="the program xousorders, for its tests")
    words.add_argument("--long", action="store_true", help="the searches of many states too")
    words.add_argument("--search", metavar="IMAGE", help="the image that is searched")
    words.add_argument("--quantum", type=number("quantum"), default=orders.Asked.quantum, help="steps of a slice at most")
    words.add_argument("--steps", type=number("bound of steps"), default=orders.Asked.steps, help="where steps count, so many at most")
    words.add_argument("--states", type=number("bound of states"), default=orders.Asked.states, help="so many at most")
    words.add_argument("--from", dest="first", metavar="EVENTS", help="events that are played before")
    words.add_argument("--irq", type=number("interrupt"), action="append", default=[], metavar="K", help="an interrupt that may come once")
    words.add_argument("--kill", type=number("pid"), action="append", default=[], metavar="PID", help="a death that may come once")
    words.add_argument("--write", metavar="DIR", help="a folder for event files, one for each ending")
    words.add_argument("--see", type=sights_of, action="append", default=[], metavar="WHAT,..", help="what is seen of endings; all by default")
    words.add_argument("--hex", action="store_true", help="the console as hexadecimal digits")
    fail = "an ending with it fails: exit, fault, waits, waits=PID.TID, console=TEXT, console-not=TEXT or differ"
    words.add_argument("--fails", action="append", default=[], metavar="WHAT", help=fail)
    words.add_argument("--first", dest="stops", action="store_true", help="stop at the first that fails")
    words.add_argument("--one", action="store_true", help="the same as --fails differ")
    preempted = "so many slices of an order may be preempted at most; 0, 1 and so on are searched one after another"
    words.add_argument("--preemptions", type=number("bound of preemptions", MOST_PREEMPTIONS), metavar="P", help=preempted)
    return words


def failures_of(given: argparse.Namespace, sights: tuple[str, ...]) -> tuple[fails.Failing, ...]:
    """What makes an ending fail, but for `differ`."""
    failing = tuple(fails.failing_of(word) for word in given.fails if word != fails.DIFFER)
    unseen = [each.kind for each in failing if each.kind in (fails.EXIT, fails.FAULT)]
    if unseen and seen.EXITS not in sights:
        raise Refusal(f"--fails {unseen[0]}: exits aren't seen; add them to --see", USAGE_STATUS)
    if len(failing) > fails.MOST_FAILS:
        raise Refusal(f"--fails is given {len(failing)} times; at most {fails.MOST_FAILS}", USAGE_STATUS)
    return failing


def asked_of(given: argparse.Namespace) -> orders.Asked:
    if len(given.see) > 1:
        raise Refusal("--see is given more than once; name what is seen with commas", USAGE_STATUS)
    sights = given.see[0] if given.see else seen.SIGHTS
    once = [events.Event(0, name, (number,)) for name, numbers in (("irq", given.irq), ("kill", given.kill)) for number in numbers]
    first, _ = events.read(read_file(given.first, MOST_EVENT_BYTES)) if given.first else ([], None)
    differ = given.one or fails.DIFFER in given.fails
    bounds = given.quantum, given.steps, given.states
    failing = failures_of(given, sights)
    return orders.Asked(*bounds, tuple(once), first, sights, given.hex, failing, differ, given.stops, given.preemptions)


def search_levels(program: str, image: str, asked: orders.Asked) -> Iterator[tuple[Found, list[orders.Node]]]:
    """What is found at each level, and of each ending a node with the shortest order; the last level decides."""
    for level in orders.levels(asked):
        with tempfile.TemporaryDirectory() as folder:
            told, nodes = orders.Search(program, image, asked, folder, level=level).search().told()
        yield told, nodes
        if not told.is_whole:
            return


def search(program: str, image: str, asked: orders.Asked) -> tuple[Found, list[orders.Node]]:
    """What the last level finds, or a search without levels."""
    return list(search_levels(program, image, asked))[-1]


def write_orders(folder: str, endings: list[orders.Node]) -> None:
    for number, node in enumerate(endings, 1):
        pathlib.Path(folder, f"ending-{number}.events").write_bytes(events.spelled(node.path))


def main(line: list[str]) -> int:
    known = parser()
    given = known.parse_args(line)
    if not given.search:
        programs = [path for path in (given.program, given.searcher) if path]
        return test.main([*programs, *["--long"] * given.long, "-k", "test_orders"])
    if not given.program or given.searcher:
        known.error("--search goes with the program xousim alone")
    program = os.path.abspath(given.program)
    if not os.access(program, os.X_OK):
        raise Refusal(f"{given.program}: no program that can be started")
    asked = asked_of(given)
    levels = []
    for told, endings in search_levels(program, given.search, asked):
        print("\n".join(told.lines()), flush=True)
        levels.append((told, endings))
    told, endings = levels[-1]
    if given.write:
        write_orders(given.write, endings)
    status = told.status(asked.asks_for_failures())
    if status == CUT:
        say("test-orders", "cut: nodes were left out; give --states more, or narrow the search")
    return status
