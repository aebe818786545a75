#!/usr/bin/env python3
"""How many machine instructions a step takes, as callgrind counts them.

The two loops of `bench/steps.py` are run by `trace` under callgrind for 1,000,001 steps and for one;
the difference, a million steps, leaves out the boot. Each is run with one process and with 32, and
with one process and slots of the swap store that no page needs.
"""

import tempfile

import measure
from steps import LOOPS, image, put_files

STEPS = 1_000_000
SLOTS = 1000


def counted(program, image_bytes, steps, slots):
    """The instructions of a run of so many steps."""
    with tempfile.TemporaryDirectory() as folder:
        put_files(folder, image_bytes, b"tick %d\n" % steps)
        words = [program, "trace", "image", "events", str(steps + 1), str(slots)]
        return measure.instructions(words, folder, wanted=b"end %d done\n" % steps)


def main():
    program = measure.program()
    measure.begin_table(["Loop", "Processes", "Slots", "Instructions a step"], is_timed=False)
    for name, code in LOOPS:
        for processes, slots in ((1, 0), (32, 0), (1, SLOTS)):
            made = image(code, processes)
            more = counted(program, made, STEPS + 1, slots) - counted(program, made, 1, slots)
            print(f"| {name} | {processes} | {slots} | {more / STEPS:.1f} |", flush=True)


if __name__ == "__main__":
    main()
