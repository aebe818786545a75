#!/usr/bin/env python3
"""What random orders cost: runs a second of four processors, and how long it takes until a race is found by each kind of schedule.

    bench/shake.py [--runs N]

`tools/xous-shake` makes N runs, 300 by default, with four jobs. Rates are of processor time, the tool's own included, so that they don't
depend on what else the machine does; the time to a race is that of the runs up to it. The program is $XOUSIM, else what
./xousim builds.
"""

import argparse
import os
import re
import resource
import subprocess
import sys

import measure

TOOL = measure.TOP / "tools" / "xous-shake"
EXAMPLES = measure.TOP / "examples"
KINDS = ("turns", "picks", "pct")
PROCESSORS = 4
# Of each image, the word of --fails by which its race is known, or none.
SHAKEN = {
    "lend/image": "none",
    "std/hello/image": "none",
    "orders/store.image": "exit",
    "orders/tally.image": "without total 6 of 6",
}


def processor_time():
    used = resource.getrusage(resource.RUSAGE_CHILDREN)
    return used.ru_utime + used.ru_stime


def shaken(image, fails, kind, runs):
    """How many runs there are in a second of the processors, and which run was the first failed one, or none."""
    words = [sys.executable, TOOL, EXAMPLES / image, "--kind", kind, "--runs", str(runs), "--fails", fails, "--jobs", str(PROCESSORS)]
    before = processor_time()
    ran = subprocess.run(words, stdout=subprocess.PIPE, text=True, env={**os.environ, "XOUSIM": measure.program()}, check=False)
    took = processor_time() - before
    if ran.returncode not in (0, 1):
        raise SystemExit(f"xous-shake ended with {ran.returncode}: {ran.stdout[-200:]}")
    seeds = [int(seed) for seed in re.findall(r"^ending .*; first by seed (\d+), \w+; fails: ", ran.stdout, re.M)]
    return PROCESSORS * runs / took, min(seeds, default=None)


def main():
    words = argparse.ArgumentParser(description=__doc__.splitlines()[0])
    words.add_argument("--runs", type=int, default=300, metavar="N", help="so many of each")
    given = words.parse_args()
    measure.begin_table(["Image", "Kind", "Runs a second", "Run with the race", "After"])
    for image, fails in SHAKEN.items():
        for kind in KINDS:
            rate, first = shaken(image, fails, kind, given.runs)
            found = ["none is asked for", "-"] if fails == "none" else ["not found", "-"] if first is None else [str(first), f"{first / rate:.1f} s"]
            print(f"| `{image}` | {kind} | {rate:,.0f} | {' | '.join(found)} |", flush=True)


if __name__ == "__main__":
    main()
