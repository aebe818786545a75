#!/usr/bin/env python3
"""What searches of every order cost: slices a second, memory, and how long it takes until a race is found.

    bench/orders.py [--runs N] [-k PART]

`xousorders` searches images of the examples and of bench/clients, a service of three clients with five calls each. Each time is the
processor's for the whole program, the best of five runs or of N, and the memory is the most that it had at one time. The system
counts what this script has as the program's when it starts it, so of a program that has less than that no more is told. A second
table has searches that end at the first order that fails; one is ended after 200 seconds without any. -k makes only those with PART in their words. The program is $XOUSORDERS,
else what stands in crates/xousorders/out. Without one it says so, and ends. A search with an option that the program doesn't have
is skipped in words.
"""

import argparse
import os
import pathlib
import subprocess
import sys
import tempfile

import measure

sys.path.insert(0, str(measure.TOP / "tools"))

from xous.runs import found  # noqa: E402: behind the path

BUILT = measure.TOP / "crates/xousorders/out/xousorders"
MIB = 1 << 20
USAGE = 2  # the status of a malformed command line
SEARCHES = (
    "examples/lend/image",
    "examples/deaths/image",
    "examples/orders/reply.image --kill 3",
    "examples/orders/lost.image --quantum 1",
    "examples/orders/deadlock.image",
    "examples/threads/image",
    "bench/clients/image",
    "examples/std/lend/image --states 1000",
)
# Searches for a race, which end with 1, or with 10 if they are ended before.
RACES = (
    "examples/orders/sum.image --fails exit --first",
    "examples/orders/deadlock.image --fails waits --first",
    "examples/orders/reply.image --kill 3 --fails waits --first",
    "examples/orders/lost.image --quantum 1 --fails console-not=3 --first",
    "examples/orders/lost.image --preemptions 1 --fails console-not=3 --first",
    "examples/orders/store.image --preemptions 1 --fails waits --first --seconds 200",
)


def searcher():
    """The program, or none."""
    program = pathlib.Path(os.environ.get("XOUSORDERS") or BUILT)
    return program.resolve() if os.access(program, os.X_OK) else None


def run(words, wanted=(0,)):
    """What a program wrote, how long it took, and how many bytes it had at most; nothing if it has no such option."""
    with tempfile.TemporaryFile() as written, tempfile.TemporaryFile() as said:
        process = subprocess.Popen(words, stdout=written, stderr=said)
        _, status, usage = os.wait4(process.pid, 0)
        process.returncode = os.waitstatus_to_exitcode(status)
        written.seek(0)
        said.seek(0)
        told, text = written.read().decode(), said.read().decode()
    if process.returncode == USAGE:
        return None
    if process.returncode not in wanted:
        raise SystemExit(f"the run ended with {process.returncode}: {' '.join(map(str, words))}: {told[-200:]}{text}")
    return told, usage.ru_utime + usage.ru_stime, 1024 * usage.ru_maxrss


def memory_text(most):
    _, _, own = run(["true"])
    return f"{most / MIB:.1f}" if most > own else f"at most {own / MIB:.1f}"


def searched(program, text, runs, wanted=(0,)):
    """What a search told, the best time, and the most memory; nothing, with a sentence, if the program has no such option."""
    image, *options = text.split()
    made = [run([program, measure.TOP / image, *options], wanted) for _ in range(runs)]
    if None in made:
        print(f"skipped: {text}: the program has no such option", flush=True)
        return None
    lines, times, memories = zip(*made)
    return found.read_levels(lines[0].splitlines()), min(times), max(memories)


def measure_searches(program, runs, part):
    measure.begin_table(["Search", "States", "Slices", "Extent", "Seconds", "Slices a second", "MiB"])
    for text in filter(lambda text: part in text, SEARCHES):
        measured = searched(program, text, runs)
        if measured:
            (told,), took, most = measured
            extent = "whole" if told.is_whole else "cut"
            numbers = [f"{told.states:,}", f"{told.slices:,}", extent, f"{took:.3f}", f"{told.slices / took:,.0f}", memory_text(most)]
            print(f"| `{text}` | {' | '.join(numbers)} |", flush=True)


def measure_races(program, runs, part):
    measure.begin_table(["Race", "States", "Slices", "The order that fails", "Seconds", "MiB"], is_timed=False)
    for text in filter(lambda text: part in text, RACES):
        measured = searched(program, text, runs, (found.FAILED, found.CUT))
        if measured:
            levels, took, most = measured
            states, slices = sum(told.states for told in levels), sum(told.slices for told in levels)
            failing = next((ending.length for ending in levels[-1].endings if ending.fails), "none, cut")
            numbers = [f"{states:,}", f"{slices:,}", failing, f"{took:.3f}", memory_text(most)]
            print(f"| `{text}` | {' | '.join(numbers)} |", flush=True)


def main():
    words = argparse.ArgumentParser(description=__doc__.splitlines()[0])
    words.add_argument("--runs", type=int, default=measure.RUNS, metavar="N", help="the best of so many runs")
    words.add_argument("-k", default="", metavar="PART", help="only searches with this part in their words")
    given = words.parse_args()
    program = searcher()
    if not program:
        print("skipped: the program xousorders isn't there; build it, or name it by XOUSORDERS")
        return
    measure_searches(program, given.runs, given.k)
    print()
    measure_races(program, given.runs, given.k)


if __name__ == "__main__":
    main()
