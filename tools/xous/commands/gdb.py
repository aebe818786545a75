"""The words of xous-gdb: serves a run to gdb, forwards and backwards."""

from __future__ import annotations

import argparse
import contextlib
import os
import socket
import sys

from .. import command
from ..command import Parser, decimal
from ..errors import Refusal
from ..gdb.packets import Packets
from ..gdb.server import Server
from ..machine import FIRST_PID, MOST_SLOTS, MOST_STEPS
from ..runs.run import Run

NAME = "xous-gdb"
USAGE = "xous-gdb IMAGE EVENTS [STEPS [SLOTS]] [--elf PID=FILE].. [--pid PID] [--listen PORT]"
DESCRIPTION = """Serves a run of xousim to gdb, forwards and backwards (docs/debugging.md).

gdb starts this command by `target remote | xous-gdb ..`, and speaks with it over the pipe. With --listen PORT it waits for one
debugger at that port of 127.0.0.1 instead; 0 takes any free port, and prints it.

The program that plays the run is $XOUSIM, else the one that ./xousim builds."""
EXAMPLE = """gdb-multiarch -ex 'set osabi none' -ex 'target remote | tools/xous-gdb IMAGE EVENTS --elf 2=service.elf'
  tools/xous-gdb IMAGE EVENTS --listen 3333, and in gdb `target remote :3333`"""


def program_of(text: str) -> tuple[int, str]:
    pid, _, path = text.partition("=")
    if not path:
        raise argparse.ArgumentTypeError(f"{text} isn't PID=FILE, such as 3=client.elf")
    number = decimal(pid, "pid", FIRST_PID)
    if not os.path.isfile(path):
        raise argparse.ArgumentTypeError(f"{path}: no such file")
    return number, os.path.abspath(path)


def parser() -> Parser:
    words = Parser(NAME, USAGE, DESCRIPTION, EXAMPLE)
    words.add_argument("image", metavar="IMAGE", help="a boot image")
    words.add_argument("events", metavar="EVENTS", help="an event file")
    add_limits(words)
    elf = "the program of a process, from which gdb reads its symbols"
    words.add_argument("--elf", metavar="PID=FILE", type=program_of, action="append", default=[], help=elf)
    first = "the process that gdb is told of first, which is that of gdb's own file"
    words.add_argument("--pid", metavar="PID", type=lambda text: decimal(text, "pid"), help=first)
    port = "wait for a debugger at this port of 127.0.0.1"
    words.add_argument("--listen", metavar="PORT", type=lambda text: decimal(text, "port", 0, 65_535), help=port)
    return words


def add_limits(words: Parser) -> None:
    """The words STEPS and SLOTS, as xousim takes them."""
    steps, slots = (lambda text: decimal(text, "step limit", 1, MOST_STEPS)), (lambda text: decimal(text, "number of slots", 0, MOST_SLOTS))
    words.add_argument("steps", metavar="STEPS", nargs="?", type=steps, help="the step limit, as for xousim")
    words.add_argument("slots", metavar="SLOTS", nargs="?", type=slots, help="slots of the swap store, as for xousim")


def refuse_missing(pids: list[int], processes: int) -> None:
    for pid in pids:
        if not FIRST_PID <= pid < FIRST_PID + processes:
            raise Refusal(f"{pid} is no pid of this image, which has 2 to {processes + 1}")


@contextlib.contextmanager
def connection(port: int | None):
    """The descriptors to read from and to write to."""
    if port is None:
        yield sys.stdin.fileno(), sys.stdout.fileno()
        return
    with socket.socket(socket.AF_INET, socket.SOCK_STREAM) as waiting:
        waiting.setsockopt(socket.SOL_SOCKET, socket.SO_REUSEADDR, 1)
        try:
            waiting.bind(("127.0.0.1", port))
        except OSError as error:
            raise Refusal(f"127.0.0.1:{port}: {error.strerror}; name another port, or 0 for a free one") from None
        waiting.listen(1)
        command.say(NAME, f"waits for a debugger; in gdb: target remote 127.0.0.1:{waiting.getsockname()[1]}")
        accepted, _ = waiting.accept()
    with accepted:
        accepted.setsockopt(socket.IPPROTO_TCP, socket.TCP_NODELAY, 1)
        yield accepted.fileno(), accepted.fileno()


def main(line: list[str]) -> int:
    given = parser().parse_intermixed_args(line)
    if given.listen is None and sys.stdin.isatty():
        raise Refusal(f"a terminal is no debugger; start it in gdb by `target remote | {NAME} ..`, or with --listen PORT", 2)
    run = Run(given.image, given.events, given.steps, given.slots)
    try:
        pids = [pid for pid, _ in given.elf] + [given.pid if given.pid is not None else FIRST_PID]
        refuse_missing(pids, len(run.state_at(0).processes))
        with connection(given.listen) as (source, target):
            packets = Packets(source, target)
            run.before = packets.check_interrupt
            Server(packets, run, dict(given.elf), given.pid).serve()
    finally:
        run.close()
    return 0
