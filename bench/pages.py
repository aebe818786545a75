#!/usr/bin/env python3
"""What pages that are out cost: steps a second, and how many pages go out and come in.

The program of the machine goes over 64 pages again and again, and adds one to a word of each. It is
run with frames for all its pages, for 64, for 32, for 8 and for 2 of them, and with slots of the swap store
for the rest, so that the capacity is the same. Which page goes out isn't promised by the program; it
is counted here. The bytes that `ledger` writes are the same in each run, which is checked.

The store is in memory, and then a file, of which the kernel counts what is read and written: a run
without events, whose boot already puts pages out, is subtracted. Each time is that of the whole
program, the best of five runs.
"""

import os
import pathlib
import subprocess
import tempfile
import time

import measure
from steps import COUNT, PAGE, PRODUCT, ZERO, ZEROS, addi, bne, image, jal, lui, lw, put_files, sw

STEPS = 2_000_000
LOOP_PAGES = 64
OWN_PAGES = 10  # the code, eight of the stack and one for interrupts
ALL_PAGES = LOOP_PAGES + OWN_PAGES
TABLE_FRAMES = 21
FREE_FRAMES = 1  # through which pages are exchanged
SPLITS = (ALL_PAGES, 64, 32, 8, 2)  # frames for pages; the others have slots
AT, STRIDE = 10, 11


def add(rd, rs1, rs2):
    return rs2 << 20 | rs1 << 15 | rd << 7 | 0x33


def over_pages(*counting):
    """Adds one to a word of each page from ZEROS on, again and again. The instructions given load how many pages these are."""
    begin = [*counting, lui(AT, ZEROS)]
    one_page = [
        lw(PRODUCT, AT, 0),
        addi(PRODUCT, PRODUCT, 1),
        sw(PRODUCT, AT, 0),
        add(AT, AT, STRIDE),
        addi(COUNT, COUNT, -1),
        bne(COUNT, ZERO, -20),
    ]
    return [lui(STRIDE, PAGE), *begin, *one_page, jal(ZERO, -4 * len(begin + one_page))]


CODE = over_pages(addi(COUNT, ZERO, LOOP_PAGES))


class Run:
    """A folder with the image of a split and an event file, in which the program is run."""

    def __init__(self, program, folder, frames, store):
        self.program, self.folder = program, folder
        ram_bytes = PAGE * (TABLE_FRAMES + frames + FREE_FRAMES)
        put_files(folder, image(CODE, zero_pages=LOOP_PAGES, ram_bytes=ram_bytes), b"tick 4294967295\n")
        pathlib.Path(folder, "no_events").write_bytes(b"")
        self.words = [str(STEPS), str(ALL_PAGES - frames)] + ["store"] * store

    def play(self, command, events):
        """What the program wrote, its seconds, and the bytes that it read and wrote."""
        start = time.perf_counter()
        program = subprocess.Popen(
            [self.program, command, "image", events] + self.words,
            cwd=self.folder,
            stdout=subprocess.PIPE,
            stderr=subprocess.PIPE,
        )
        with program:
            written, notes = program.stdout.read(), program.stderr.read()
            os.waitid(os.P_PID, program.pid, os.WEXITED | os.WNOWAIT)
            seconds = time.perf_counter() - start
            counts = pathlib.Path(f"/proc/{program.pid}/io").read_text().split()
        if not written.endswith((b" limit\n", b" done\n")):
            raise SystemExit(f"the run failed: {written[-200:]!r} {notes.decode().strip()}")
        return written, seconds, int(counts[1]), int(counts[3])

    def moved(self):
        """How many pages came in and went out while steps were done: of a store that is a file."""
        _, _, read, put = self.play("trace", "events")
        _, _, read_at_boot, put_at_boot = self.play("trace", "no_events")
        return round((read - read_at_boot) / PAGE), round((put - put_at_boot) / PAGE)


def main():
    program = measure.program()
    columns = ["Frames for pages", "Slots", "Store", "Seconds", "Million steps a second", "Pages in", "Pages out"]
    measure.begin_table(columns, what=f", {STEPS:,} steps over {LOOP_PAGES} pages")
    tables = set()
    for frames in SPLITS:
        for store in (False, True):
            with tempfile.TemporaryDirectory() as folder:
                run = Run(program, folder, frames, store)
                took = min(run.play("trace", "events")[1] for _ in range(measure.RUNS))
                came_in, went_out = (f"{n:,}" for n in run.moved()) if store else ("", "")
                tables.add(run.play("ledger", "events")[0])
            kind = "a file" if store else "memory"
            speed = f"{STEPS / took / 1e6:.2f}"
            print(f"| {frames} | {ALL_PAGES - frames} | {kind} | {took:.3f} | {speed} | {came_in} | {went_out} |")
    if len(tables) != 1:
        raise SystemExit("the runs differ in what `ledger` writes")


if __name__ == "__main__":
    main()
