"""Runs of the program, and of a plain one beside it: their times, or the machine instructions that callgrind counts.

The variable BESIDE names a program that takes the same words as xousim, so that its times are printed beside. XOUSIM names
xousim itself; without it ./xousim builds the program where it is out of date.
"""

import os
import pathlib
import re
import subprocess
import time

TOP = pathlib.Path(__file__).resolve().parent.parent
LAUNCHER = TOP / "xousim"
BUILT = TOP / "crates/xousim/out/xousim"
COLLECTED = re.compile(rb"Collected : (\d+)")
RUNS = 5


def program():
    given = os.environ.get("XOUSIM")
    if not given:
        # With no words the launcher does nothing but build.
        subprocess.run([LAUNCHER], stderr=subprocess.DEVNULL, check=False)
    return given or str(BUILT)


def programs():
    """xousim, and the plain program where there is one."""
    return [program(), *filter(None, [os.environ.get("BESIDE")])]


def processor():
    for line in pathlib.Path("/proc/cpuinfo").read_text().splitlines():
        if line.startswith("model name"):
            return line.split(":", 1)[1].strip()
    return "unknown processor"


def begin_table(columns, known=(), what="", is_timed=True):
    """Prints on which processor it was measured, and what, and the head of a table, with a column more for each program beside xousim."""
    if is_timed:
        print(f"One core of {processor()}{what}:\n")
    heads = [*columns, *["Beside"] * (len(known) - 1)]
    print(f"| {' | '.join(heads)} |\n|{'---|' * len(heads)}", flush=True)


def run(words, folder, statuses, wanted=None):
    """How long a run takes whose output goes to a file, or what it counts where it is under callgrind. The output may be wanted."""
    path = pathlib.Path(folder, "written")
    with open(path, "wb") as written:
        start = time.perf_counter()
        ran = subprocess.run(words, cwd=folder, stdout=written, stderr=subprocess.PIPE, check=False)
        took = time.perf_counter() - start
    if ran.returncode not in statuses or wanted is not None and path.read_bytes() != wanted:
        raise SystemExit(f"the run failed: {' '.join(map(str, words))}: {path.read_bytes()[-200:]!r} {ran.stderr[-400:]!r}")
    counted = COLLECTED.search(ran.stderr)
    return int(counted[1]) if counted else took


def seconds(words, folder, statuses=(0,), runs=RUNS, wanted=None):
    """The best time."""
    return min(run(words, folder, statuses, wanted) for _ in range(runs))


def instructions(words, folder, statuses=(0,), wanted=None):
    return run(["valgrind", "--tool=callgrind", "--callgrind-out-file=/dev/null", *words], folder, statuses, wanted)
