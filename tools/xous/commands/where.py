"""The words of xous-where: where each thread of a run is, and what it waits for."""

from __future__ import annotations

import argparse
import json
import os
import re
from collections.abc import Iterator

from ..command import Parser, decimal
from ..errors import Refusal
from ..files import read_file
from ..images.layout import Image
from ..images.named import read_image
from ..machine import FIRST_PID, PAGE, USUAL_STEPS
from ..programs.symbols import Program
from ..runs.idle import IdleEvents
from ..runs.run import Run
from ..states import reach, where
from ..transcripts.decode import Record, spelled
from ..transcripts.laws import Broken
from ..transcripts.stored import record_of
from .gdb import add_limits

USAGE = """xous-where IMAGE EVENTS [STEPS [SLOTS]] [--at STEP .. | --fault [N] | --events]
       [--elf [PID=]PROGRAM.elf ..] [--watch PID:WHAT ..] [--json]"""
DESCRIPTION = """Says where each thread of a run is, and what it waits for (docs/transcript.md).

Without --at and --fault it tells of the end of the run. --at STEP tells of the state just before step STEP + 1, and may be given
several times; --fault tells of the state just before the first fault of the transcript, or the N-th, with the instruction and
what stands at its address. --elf gives the function and the line of the source; without PID it is for the processes of that
name. --watch prints the words of a symbol, or of an address such as 0x60000000, at each of the steps, `2:ADDRESS/page` a page.
--events tells which events did nothing, as a pick of a thread that isn't Ready, and at which step.

The program is run for each state; it is $XOUSIM, else the one that ./xousim builds."""
ROW = 32  # bytes of a page in one line
HEXADECIMAL = re.compile(r"0[xX][0-9a-fA-F]{1,8}|[0-9]{1,10}")


def parser() -> Parser:
    words = Parser("xous-where", USAGE, DESCRIPTION, "xous-where examples/fault/image examples/fault/events --fault")
    words.add_argument("image", metavar="IMAGE", help="a boot image")
    words.add_argument("events", metavar="EVENTS", help="an event file")
    add_limits(words)
    at = "the state after that step"
    words.add_argument("--at", type=lambda text: decimal(text, "step"), action="append", metavar="STEP", help=at)
    fault = "the state just before the N-th fault, or the first"
    words.add_argument("--fault", type=lambda text: decimal(text, "number of a fault", 1), metavar="N", help=fault)
    words.add_argument("--events", action="store_true", dest="idle", help="the events that did nothing, and why")
    words.add_argument("--elf", action="append", default=[], metavar="[PID=]FILE", help="a program with its symbols")
    words.add_argument("--watch", action="append", default=[], metavar="PID:WHAT", help="words of a symbol or an address")
    words.add_argument("--json", action="store_true", help="a JSON object for each state, in a line")
    return words


def with_fault_numbers(line: list[str]) -> list[str]:
    """The words, where a --fault without a number behind it has the number 1."""
    following = [*line[1:], ""]
    return ["--fault=1" if word == "--fault" and not after.isdecimal() else word for word, after in zip(line, following)]


# Programs.


def named(text: str, image: Image) -> tuple[list[int], str]:
    """The pids and the file of a word of --elf."""
    first, equals, path = text.partition("=")
    if equals and first.isdecimal() and first.isascii():
        return [int(first)], path
    name = os.fsencode(os.path.basename(text).removesuffix(".elf"))
    pids = [pid for pid, known in image.names if known == name]
    if not pids:
        raise Refusal(f"{text}: no process of the image is named {os.fsdecode(name)}; say --elf PID={text}")
    return pids, text


def last_pid(image: Image) -> int:
    return FIRST_PID + len(image.processes) - 1


def programs_of(given: list[str], image: Image, data: bytes) -> dict[int, Program]:
    """The programs by pid."""
    found: dict[int, Program] = {}
    for text in given:
        pids, path = named(text, image)
        program = Program(path)
        for pid in pids:
            if not FIRST_PID <= pid <= last_pid(image):
                raise Refusal(f"{path}: the image has no process {pid}; its processes are {FIRST_PID} to {last_pid(image)}")
            if not program.is_of(image.processes[pid - FIRST_PID], data):
                raise Refusal(f"{path}: the code of process {pid} in the image is another one; make the image anew")
            found[pid] = program
    return found


# What is watched.


def watched(text: str, known: dict[int, Program], image: Image) -> tuple[str, int, int, int]:
    """The word of --watch, with its pid, address and size."""
    first, colon, what = text.partition(":")
    what, slash, unit = what.partition("/")
    if not (colon and first.isascii() and first.isdecimal() and what) or (slash and unit != "page"):
        raise Refusal(f"--watch {text}: say PID:SYMBOL, PID:0x60000000 or either with /page")
    pid = int(first)
    if not FIRST_PID <= pid <= last_pid(image):
        raise Refusal(f"--watch {text}: the image has no process {pid}; its processes are {FIRST_PID} to {last_pid(image)}")
    if what[0].isdigit():
        if not HEXADECIMAL.fullmatch(what) or int(what, 0 if what[:2] in ("0x", "0X") else 10) > 0xFFFF_FFFF:
            raise Refusal(f"--watch {text}: {what} is no address, such as 0x60000000")
        address, size = int(what, 0 if what[:2] in ("0x", "0X") else 10), 4
    else:
        found = known[pid].symbol(what) if pid in known else None
        if found is None:
            why = "the program has no such symbol" if pid in known else f"say --elf {pid}=PROGRAM.elf for it"
            raise Refusal(f"--watch {text}: {why}")
        address, size = found
    if slash:
        address, size = address // PAGE * PAGE, PAGE
    return text, pid, address // 4 * 4, min(max(size, 4), PAGE)


def watch_lines(state, text, pid, address, size):
    try:
        data = reach.load(state, pid, address, size + -size % 4)
    except reach.OutOfReach as why:
        yield f"{text}: {why}"
        return
    if size <= ROW:
        yield f"{text} {words_of(data)}"
        return
    yield f"{text}, rows of zeros left out"
    for at in range(0, len(data), ROW):
        if any(data[at : at + ROW]):
            yield f"  {address + at:08x} {words_of(data[at:at + ROW])}"


def watch_tree(state, text, pid, address, size):
    found = {"watch": text, "pid": pid, "address": address}
    try:
        data = reach.load(state, pid, address, size + -size % 4)
    except reach.OutOfReach as why:
        return found | {"words": None, "why": str(why)}
    words = [int.from_bytes(data[at : at + 4], "little") for at in range(0, len(data), 4)]
    return found | {"words": words, "why": None}


def words_of(data: bytes) -> str:
    return " ".join(f"{int.from_bytes(data[at:at + 4], 'little'):08x}" for at in range(0, len(data), 4))


# The states.


def faults_of(played: Run) -> list[Record]:
    return list(played.transcript.each(rb"^\d+ \d+\.\d+ fault ", -1))


def fault_of(played: Run, number: int) -> Record:
    faults = faults_of(played)
    if number > len(faults):
        raise Refusal(f"--fault {number}: the transcript has {len(faults)} faults")
    return faults[number - 1]


def steps_of(played: Run, given: list[int] | None) -> list[int]:
    for step in given or ():
        if step > played.last:
            raise Refusal(f"--at {step}: the run has {played.last} steps")
    return given if given is not None else [played.last]


def told(played, given, known, places):
    """The lines of each state that is asked for."""
    if given.fault is not None:
        record = fault_of(played, given.fault)
        state = played.state_at(record.step - 1)
        yield f"before step {record.step}: {spelled(record)}"
        yield from where.fault_lines(state, record, known)
        yield from rest_of(state, known, places)
        return
    for step in steps_of(played, given.at):
        yield played.ending() if step == played.last else f"after step {step}"
        yield from rest_of(played.state_at(step), known, places)
    faults = len(faults_of(played))
    if given.at is None and faults:
        yield f"faults: {faults}; --fault N tells of the state before one"


def rest_of(state, known, places):
    if places:
        for place in places:
            yield from watch_lines(state, *place)
    else:
        yield from where.threads(state, known)


def trees(played, given, known, places):
    """An object for each state that is asked for."""
    record = fault_of(played, given.fault) if given.fault is not None else None
    steps = steps_of(played, given.at) if record is None else [record.step - 1]
    for step in steps:
        state = played.state_at(step)
        yield {
            "step": step,
            "last": played.last,
            "ending": played.ending() if step == played.last else None,
            "fault": record and where.fault_tree(state, record, known),
            "threads": where.thread_trees(state, known),
            "watched": [watch_tree(state, *place) for place in places],
        }


# The events.


def idle_of(played: Run, image: Image) -> list:
    """The events that did nothing."""
    records = [record_of(line) for line in bytes(played.transcript.data).splitlines()]
    try:
        return IdleEvents(records, played.events, len(image.processes), played.limit or USUAL_STEPS).play().found
    except Broken as broken:
        raise Refusal(f"the transcript and the events don't belong together: {broken}") from None


def idle_lines(played: Run, image: Image) -> Iterator[str]:
    found = idle_of(played, image)
    yield from (idle.text() for idle in found)
    yield f"{len(found)} of {len(played.events)} events did nothing"
    if played.bad_line is not None:
        yield f"line {played.bad_line} is bad, and nothing from there on was played"


def idle_tree(played: Run, image: Image) -> dict[str, object]:
    return {"events": len(played.events), "bad_line": played.bad_line, "idle": [idle.tree() for idle in idle_of(played, image)]}


def shown(given: argparse.Namespace, image: Image, known: dict[int, Program]) -> Iterator[str]:
    """The lines that were asked for."""
    places = [watched(text, known, image) for text in given.watch]
    played = Run(given.image, given.events, given.steps, given.slots)
    try:
        if given.idle:
            yield from [json.dumps(idle_tree(played, image))] if given.json else idle_lines(played, image)
        elif given.json:
            yield from map(json.dumps, trees(played, given, known, places))
        else:
            yield from told(played, given, known, places)
    finally:
        played.close()


def main(line: list[str]) -> int:
    known_words = parser()
    given = known_words.parse_intermixed_args(with_fault_numbers(line))
    if sum((given.at is not None, given.fault is not None, given.idle)) > 1:
        known_words.error("--at, --fault and --events are for different things; give one of them")
    image = read_image(given.image)
    known = programs_of(given.elf, image, read_file(given.image))
    try:
        for text in shown(given, image, known):
            print(text)
    finally:
        for program in known.values():
            program.close()
    return 0
