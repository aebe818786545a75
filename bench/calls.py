#!/usr/bin/env python3
"""What a call costs that looks for something: the next ready thread, and the console's page.

Each row is a run of many such calls or events, less one of a few, so that the boot is left out; the
time is that of the whole program with its transcript in a file, the best of five runs. Where the environment has
BESIDE=PROGRAM, the times of that program stand in one more column.
"""

import tempfile

import measure
from steps import PAGE, ZERO, addi, image, jal, lui, put_files

ECALL = 0x73
A0, A1, A2, A3, A4 = 10, 11, 12, 13, 14
YIELD, MAP_MEMORY, UNMAP_MEMORY = 3, 2, 19
CONSOLE, READ_AND_WRITE = 0xF000_0000, 6
MOST = 32
LIMIT = 4_000_000_000

YIELDS = [addi(A0, ZERO, YIELD), ECALL, jal(ZERO, -8)]
# Maps the console at any place, and unmaps it there.
CONSOLES = [
    addi(A0, ZERO, MAP_MEMORY),
    lui(A1, CONSOLE),
    addi(A2, ZERO, 0),
    lui(A3, PAGE),
    addi(A4, ZERO, READ_AND_WRITE),
    ECALL,
    addi(A0, ZERO, UNMAP_MEMORY),
    lui(A2, PAGE),
    ECALL,
    jal(ZERO, -36),
]


def seconds(program, code, processes, events):
    """The best time of `trace` with these events."""
    with tempfile.TemporaryDirectory() as folder:
        put_files(folder, image(code, processes), events)
        return measure.seconds([program, "trace", "image", "events", str(LIMIT)], folder)


def kills(first):
    return b"".join(b"kill %d\n" % pid for pid in range(first, MOST + 2))


def row(programs, text, code, processes, before, event, times):
    """What the event costs that often, less once."""
    costs = []
    for program in programs:
        many = seconds(program, code, processes, before + event(times))
        few = seconds(program, code, processes, before + event(1))
        costs.append((many - few) / (times - 1))
    beside = "".join(f" {took * 1e6:.2f} |" for took in costs[1:])
    print(f"| {text} | {costs[0] * 1e6:.2f} | {1 / costs[0] / 1e6:.2f} |{beside}", flush=True)


def main():
    programs = measure.programs()
    measure.begin_table(["What", "Microseconds each", "Million a second"], programs)

    def ticks(n):
        return b"tick 1\n" * n

    def yields(n):
        return b"tick %d\n" % (n * len(YIELDS))

    def consoles(n):
        return b"tick %d\n" % (n * len(CONSOLES))

    row(programs, "`tick 1` while nobody is ready, 1 process", YIELDS, 1, b"kill 2\n", ticks, 1_000_000)
    row(programs, "`tick 1` while nobody is ready, 32 processes", YIELDS, MOST, kills(2), ticks, 1_000_000)
    row(programs, "Yield of the one process", YIELDS, 1, b"", yields, 1_000_000)
    row(programs, "Yield of the one living process of 32", YIELDS, MOST, kills(3), yields, 1_000_000)
    row(programs, "the console is mapped and unmapped, 1 process", CONSOLES, 1, b"", consoles, 100_000)
    row(programs, "the console is mapped and unmapped, 32 processes", CONSOLES, MOST, b"", consoles, 1_000)


if __name__ == "__main__":
    main()
