#!/usr/bin/env python3
"""What `trace` costs: steps a second, a boot, and events.

Makes an image and an event file for each row, runs `trace` on them, and prints a table. The loops
make no system call and run up to the step limit of ten million, in an image of one process and in
one of 32, the most of an image of version 1, whose other processes have the same code. Each time is
that of the whole program, the best of five runs. Where the environment has BESIDE=PROGRAM, the times of that program stand
in one more column.
"""

import pathlib
import struct
import sys
import tempfile

import measure

sys.path.insert(0, str(measure.TOP / "tools"))

from xous.images.layout import EXECUTABLE, RAM_START, WRITABLE, ZERO_FILLED, tag  # noqa: E402: behind the path
from xous.machine import PAGE  # noqa: E402

STEPS = 10_000_000
EVENTS = 1_000_000
ENDED = (0, 7)  # the statuses of a run that is done, and of one that met its limit
RAM_BYTES = 0x400_0000
ENTRY = 0x1_0000
ZEROS = 0x2_0000
ZERO, SP, COUNT, FACTOR, PRODUCT = 0, 2, 5, 6, 7


# Instructions, by the formats of the RISC-V Unprivileged ISA, 2.2 and 2.3.


def i_type(opcode, funct3, rd, rs1, imm):
    return (imm & 0xFFF) << 20 | rs1 << 15 | funct3 << 12 | rd << 7 | opcode


def addi(rd, rs1, imm):
    return i_type(0x13, 0, rd, rs1, imm)


def lw(rd, rs1, imm):
    return i_type(0x03, 2, rd, rs1, imm)


def sw(rs2, rs1, imm):
    imm &= 0xFFF
    return imm >> 5 << 25 | rs2 << 20 | rs1 << 15 | 2 << 12 | (imm & 31) << 7 | 0x23


def mul(rd, rs1, rs2):
    return 1 << 25 | rs2 << 20 | rs1 << 15 | rd << 7 | 0x33


def bne(rs1, rs2, offset):
    bits = offset & 0x1FFF
    high = (bits >> 12 & 1) << 6 | bits >> 5 & 63
    low = (bits >> 1 & 15) << 1 | bits >> 11 & 1
    return high << 25 | rs2 << 20 | rs1 << 15 | 1 << 12 | low << 7 | 0x63


def lui(rd, value):
    return value & 0xFFFF_F000 | rd << 7 | 0x37


def jal(rd, offset):
    bits = offset & 0x1F_FFFF
    high = (bits >> 20 & 1) << 19 | (bits >> 1 & 0x3FF) << 9 | (bits >> 11 & 1) << 8
    return (high | bits >> 12 & 0xFF) << 12 | rd << 7 | 0x6F


LOOPS = [
    ("add and jump", [addi(COUNT, COUNT, 1), jal(ZERO, -4)]),
    (
        "load, multiply, store, add, branch",
        [
            addi(FACTOR, ZERO, 3),
            addi(COUNT, ZERO, 1),
            lw(PRODUCT, SP, -4),
            mul(PRODUCT, PRODUCT, FACTOR),
            sw(PRODUCT, SP, -4),
            addi(COUNT, COUNT, 2),
            bne(COUNT, ZERO, -16),
        ],
    ),
]


def packed(words):
    return struct.pack(f"<{len(words)}I", *words)


def image(code, processes=1, zero_pages=0, ram_bytes=RAM_BYTES):
    """So many processes, whose code stands once in the file; each has it in an executable section, and a section of zeros."""
    sections = 2 if zero_pages else 1
    row_bytes = 28 + processes * (8 + 8 + 8 * sections)
    load = row_bytes
    name = int.from_bytes(b"sram", "little")
    row = tag(b"XArg", packed([row_bytes // 4, 1, RAM_START, ram_bytes, name]))
    words = [load, ENTRY, ENTRY, 4 * len(code) | EXECUTABLE << 24]
    if zero_pages:
        words += [ZEROS, zero_pages * PAGE | (WRITABLE | ZERO_FILLED) << 24]
    for _ in range(processes):
        row += tag(b"IniE", packed(words))
    return row + packed(code)


def put_files(folder, image_bytes, events):
    """Writes what the program is run on."""
    pathlib.Path(folder, "image").write_bytes(image_bytes)
    pathlib.Path(folder, "events").write_bytes(events)


def seconds(program, image_bytes, events, last_line):
    """The best time of a run that writes this line alone."""
    with tempfile.TemporaryDirectory() as folder:
        put_files(folder, image_bytes, events)
        words = [program, "trace", "image", "events"]
        return measure.seconds(words, folder, ENDED, wanted=last_line.encode() + b"\n")


def main():
    programs = measure.programs()
    measure.begin_table(["Run", "Seconds", "Million a second"], programs)

    def row(text, image_bytes, events, last_line, count=None, digits=0):
        took, *others = [seconds(program, image_bytes, events, last_line) for program in programs]
        speed = f"{count / took / 1e6:.{digits}f}" if count else ""
        beside = "".join(f" {other:.3f} |" for other in others)
        print(f"| {text} | {took:.3f} | {speed} |{beside}", flush=True)

    for name, code in LOOPS:
        for processes in (1, 32):
            text = f"{STEPS:,} steps: {name}, {counted(processes)}"
            row(text, image(code, processes), b"tick 4294967295\n", f"end {STEPS} limit", STEPS)
    loop = LOOPS[0][1]
    for processes, zero_pages in ((1, 0), (32, 391)):
        pages = processes * (1 + 9 + zero_pages)
        row(f"boot of {counted(processes)} with {pages:,} pages", image(loop, processes, zero_pages), b"", "end 0 done")
    for processes in (1, 32):
        text = f"{EVENTS:,} events `tick 1`, {counted(processes)}"
        row(text, image(loop, processes), b"tick 1\n" * EVENTS, f"end {EVENTS} done", EVENTS, 1)


def counted(processes):
    return f"{processes} process{'es' * (processes > 1)}"


if __name__ == "__main__":
    main()
