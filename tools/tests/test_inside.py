"""What a process keeps inside is seen by nobody: two servers with different secrets, and one that tells of its own (examples/keys)."""

import dataclasses
import pathlib
import random
import subprocess

from xous.images import reading
from xous.states import state
from xous.transcripts import decode

from .frame import Case, need_program

KEYS = pathlib.Path(__file__).resolve().parents[2] / "examples" / "keys"
KEEPER = 2  # its pid
SEED, RUNS = 66, 12


def sections_of(name):
    """The address, size and bytes of each section, by process."""
    data = (KEYS / f"{name}.image").read_bytes()
    return [
        [(section.address, section.size, code) for section, code in reading.bytes_of_sections(process, data)]
        for process in reading.read(data).processes
    ]


def checks_of_images():
    first = sections_of("first")
    for other in map(sections_of, ("second", "leaky")):
        yield first[1:] == other[1:], "the images have the same client"
        shapes = [[part[:2] for part in rows[0]] for rows in (first, other)]
        yield shapes[0] == shapes[1] and first[0] != other[0], "the servers differ in bytes of their pages alone"


def outside(machine):
    """A state without what process KEEPER has inside: what its threads have in registers and do next, and the bytes of pages
    that no other process can load."""
    threads = {
        who: dataclasses.replace(thread, pc=0, registers=[]) if who[0] == KEEPER else thread
        for who, thread in machine.threads.items()
    }
    pages = {}
    for place, page in machine.pages.items():
        lender, holder = place[0], page.holder and page.holder[0]
        is_inside = (holder or lender) == KEEPER and (lender == KEEPER or page.loan == state.EXCLUSIVE)
        pages[place] = dataclasses.replace(page, data=b"") if is_inside else page
    orphans = {
        place: dataclasses.replace(orphan, data=b"") if place[0] == KEEPER else orphan for place, orphan in machine.orphans.items()
    }
    is_reserved = machine.reserved and machine.reserved[0] == KEEPER
    return dataclasses.replace(
        machine, threads=threads, pages=pages, orphans=orphans, reserved=None if is_reserved else machine.reserved
    )


def played(program, command, name, event_file):
    words = [program, command, KEYS / f"{name}.image", event_file]
    return subprocess.run(words, capture_output=True, check=True).stdout


def parting(one, other):
    """The first lines in which two transcripts differ, as records."""
    for lines in zip(one.decode().splitlines(), other.decode().splitlines()):
        if lines[0] != lines[1]:
            return [decode.record_of(line) for line in lines]
    return None


def some_events(rng):
    for _ in range(40):
        yield rng.choice((f"tick {rng.choice((1, 7, 50, 200))}", f"pick {rng.choice((2, 3))} 2", "irq 3", "tick 90"))
    yield rng.choice(("kill 2", "kill 3", "tick 1000"))


def checks_of_runs(program, folder):
    rng, path = random.Random(SEED), pathlib.Path(folder, "events")
    for run in range(RUNS):
        path.write_bytes((KEYS / "events").read_bytes() if run == 0 else "".join(f"{event}\n" for event in some_events(rng)).encode())
        told = {name: played(program, "trace", name, path) for name in ("first", "second", "leaky")}
        yield told["first"] == told["second"], f"run {run}: two secrets, and one transcript"
        first, second = (state.read(played(program, "suspend", name, path)) for name in ("first", "second"))
        yield outside(first) == outside(second), f"run {run}: the last states are the same but for the inside of {KEEPER}"
        yield run or first != second, "what is inside differs"
        lines = parting(told["first"], told["leaky"])
        is_told = lines and lines[0][:3] == lines[1][:3] == (lines[0].step, (KEEPER, 2), decode.CALL)
        yield is_told or lines is None and b" call 00000014" not in told["first"], f"run {run}: they part where the call's words differ"


class Inside(Case):
    def test_images(self):
        self.hold(checks_of_images())

    def test_runs(self):
        self.hold(checks_of_runs(need_program(), self.folder))
