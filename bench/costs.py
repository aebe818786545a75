#!/usr/bin/env python3
"""What single things cost at full size: boots, steps, exchanges, events, kills, states.

    bench/costs.py [--count] [--runs N] [GROUP..]

Each row is a run, or a run less a shorter one, so that what both do is left out; the time is that of the whole program with its
output in a file, the best of five runs or of N. With --count it is the machine instructions that callgrind counts, without the
rows that would take minutes so. The groups are tiny, timed, full, waits, deaths, saves and resumes. Where the environment has
BESIDE=PROGRAM, the times of that program stand in one more column.
"""

import argparse
import pathlib
import struct
import sys
import tempfile
from dataclasses import dataclass

import measure
from calls import A0, A1, A2, A3, A4, ECALL, MOST, kills
from pages import over_pages
from steps import COUNT, ENTRY, PAGE, PRODUCT, RAM_BYTES, ZERO, addi, bne, image, jal, lui

sys.path.insert(0, str(measure.TOP / "tools"))

from xous.states import state  # noqa: E402: behind the path

LIMIT = "4000000000"
S0, S1, S2, S3 = 8, 9, 18, 19
PROCESS_ID, NEW_SERVER, RECEIVE, SEND, NEW_THREAD, CLAIM, DESTROY = 43, 14, 15, 16, 18, 5, 41
SCALAR, TIMER_INTERRUPT = 4, 20
TABLE_FRAMES, MOST_SLOTS = 21, 16_384
LOOP_STEPS = 1_000_000
SERVERS, SLOTS = 32, 128  # of a process, and of a server
THREADS = 31  # of a process
SERVER_ROW = struct.Struct("<8I")


@dataclass
class Row:
    """What is measured: the words of a run, those of a shorter one or none, how often what costs is done between, and the unit."""

    text: str
    words: list
    fewer: list | None
    times: int
    unit: str
    statuses: tuple = (0,)
    runs: int | None = None  # where it takes long
    is_counted: bool = True


class Files:
    """The folder of the runs, and the files in it."""

    def __init__(self, folder):
        self.folder = pathlib.Path(folder)

    def put(self, name, data):
        (self.folder / name).write_bytes(data)
        return name

    def ticks(self, name, *counts):
        return self.put(name, b"".join(b"tick %d\n" % count for count in counts))


# Tiny runs.


def tiny_runs(files):
    for size in (2, 16, 64):
        name = files.put(f"tiny{size}", image([jal(ZERO, 0)], ram_bytes=size << 20))
        words = ["trace", name, files.ticks("one", 1)]
        yield Row(f"a tiny run with a RAM of {size} MiB", words, None, 1, "ms")
    words = ["trace", "tiny2", files.ticks("one", 1), LIMIT, str(MOST_SLOTS)]
    yield Row(f"a tiny run with a RAM of 2 MiB and {MOST_SLOTS:,} slots in memory", words, None, 1, "ms")


# Steps of the process that has claimed the timer's interrupt, and of one that hasn't.


def timed_steps(files):
    for text, number in (("has claimed the timer's interrupt", TIMER_INTERRUPT), ("has claimed another one", 3)):
        code = [addi(A0, ZERO, CLAIM), addi(A1, ZERO, number), lui(A2, ENTRY), ECALL, addi(COUNT, COUNT, 1), jal(ZERO, -4)]
        name = files.put(f"claim{number}", image(code))
        more, fewer = (["trace", name, files.ticks(f"claimed{count}", count), LIMIT] for count in (LOOP_STEPS + 5, 5))
        yield Row(f"a step of a process that {text}", more, fewer, LOOP_STEPS, "ns")


# Pages: more of them than frames, so that the pages of eight processes go round.

FULL_PROCESSES, FULL_ZEROS, MORE_ROUNDS = 8, 4_064, 5
FULL_PAGES = FULL_PROCESSES * (FULL_ZEROS + 10)
FULL_FRAMES = RAM_BYTES // PAGE - TABLE_FRAMES * FULL_PROCESSES - 1
GOES_OVER = over_pages(lui(COUNT, PAGE), addi(COUNT, COUNT, FULL_ZEROS - PAGE))
ONE_ROUND = 4 + 6 * FULL_ZEROS


def full_memories(files):
    name = files.put("full", image(GOES_OVER, FULL_PROCESSES, FULL_ZEROS))
    slots = str(FULL_PAGES - FULL_FRAMES)
    rounds = [ONE_ROUND] * FULL_PROCESSES
    # Enough exchanges more that they take as long as the boot.
    more, fewer = (["trace", name, files.ticks(f"rounds{len(ticks)}", *ticks), LIMIT, slots] for ticks in (rounds * MORE_ROUNDS, rounds))
    text = f"an exchange of a page with {FULL_FRAMES:,} frames and {FULL_PAGES - FULL_FRAMES:,} slots in use"
    yield Row(text, more, fewer, (MORE_ROUNDS - 1) * FULL_PROCESSES * FULL_ZEROS, "us")
    none = files.put("none", b"")
    yield Row(f"a boot of {FULL_PAGES:,} pages, {FULL_FRAMES:,} of them in frames", ["trace", name, none, LIMIT, slots], None, 1, "ms")
    fitting = (FULL_FRAMES // FULL_PROCESSES) - 10
    name = files.put("fitting", image(GOES_OVER, FULL_PROCESSES, fitting))
    yield Row(f"a boot of {FULL_PROCESSES * (fitting + 10):,} pages, all in frames", ["trace", name, none], None, 1, "ms")


# Who waits.


def call(number):
    return [addi(A0, ZERO, number), ECALL]


def waiting_code():
    """A server of the process's own name, a thread more for each tid that is left, and all of them receive."""
    head = [*call(PROCESS_ID), addi(S0, A1, 0), addi(A2, ZERO, 0), addi(A3, ZERO, 0), addi(A4, ZERO, 0), *call(NEW_SERVER)]
    head += [addi(S1, ZERO, THREADS - 2)]
    loop = [lui(A1, ENTRY), addi(A1, A1, 0), addi(A2, ZERO, 0), addi(A3, S0, 0), *call(NEW_THREAD), addi(S1, S1, -1)]
    loop.append(bne(S1, ZERO, -4 * len(loop)))
    ends = [addi(A0, S0, 0), jal(ZERO, 4)]
    entry = 4 * (len(head) + len(loop) + 1)
    loop[1] = addi(A1, A1, entry)
    receive = [addi(A1, A0, 0), addi(A2, ZERO, 0), addi(A3, ZERO, 0), addi(A4, ZERO, 0), *call(RECEIVE)]
    return [*head, *loop, ends[0], *receive]


def waits(files):
    name = files.put("waiting", image(waiting_code(), MOST))
    start = b"tick 1000000\n"
    more, fewer = (["trace", name, files.put(f"waits{count}", start + b"tick 1\n" * count)] for count in (1_000_001, 1))
    yield Row(f"`tick 1` while all {MOST} x {THREADS - 1} threads wait", more, fewer, 1_000_000, "ns")


# Deaths.


def destroying_code(is_destroying):
    """Makes a server and ends it, as often as there are connections, or only makes them."""
    head = [*call(PROCESS_ID), addi(S0, A1, 0), addi(S1, ZERO, SERVERS)]
    loop = [addi(A1, S0, 0), addi(A2, S1, 0), addi(A3, ZERO, 0), addi(A4, ZERO, 0), *call(NEW_SERVER)]
    loop += [addi(A1, S0, 0), addi(A2, S1, 0), addi(A3, ZERO, 0), addi(A4, ZERO, 0), *(call(DESTROY) if is_destroying else [])]
    loop.append(addi(S1, S1, -1))
    loop.append(bne(S1, ZERO, -4 * len(loop)))
    return [*head, *loop, jal(ZERO, 0)]


def deaths(files):
    name = files.put("dying", image([jal(ZERO, 0)], MOST))
    more, fewer = (["trace", name, files.put(f"kills{first}", kills(first))] for first in (3, MOST + 2))
    yield Row(f"a kill of one of {MOST} processes with 10 pages", more, fewer, MOST - 1, "us")
    names = [files.put(f"destroys{is_so}", image(destroying_code(is_so))) for is_so in (True, False)]
    more, fewer = (["trace", name, files.ticks("many", 10_000)] for name in names)
    yield Row("a DestroyServer of a process with 10 pages", more, fewer, SERVERS, "us")


# States: how they are written.


def queueing_code():
    """Servers as many as a process has connections for, with as many scalars queued as each has slots for."""
    head = [*call(PROCESS_ID), addi(S0, A1, 0), addi(S1, ZERO, SERVERS + 1)]
    make = [addi(A1, S0, 0), addi(A2, S1, 0), addi(A3, ZERO, 0), addi(A4, ZERO, 0), *call(NEW_SERVER), addi(S2, 15, 0), addi(S3, ZERO, SLOTS)]
    send = [addi(A1, S2, 0), addi(A2, ZERO, SCALAR), addi(A3, ZERO, 1), *call(SEND), addi(S3, S3, -1)]
    send.append(bne(S3, ZERO, -4 * len(send)))
    loop = [*make, *send, addi(S1, S1, -1), addi(PRODUCT, ZERO, 1)]
    loop.append(bne(S1, PRODUCT, -4 * len(loop)))
    return [*head, *loop, jal(ZERO, 0)]


def saves(files):
    small = files.put("small", image([jal(ZERO, 0)], 2))
    few = files.ticks("few", 10)
    yield Row("a state of a small image, written", ["suspend", small, few], ["run", small, few], 1, "us")
    names = [files.put(f"queueing{count}", image(queueing_code() if count else [jal(ZERO, 0)], 2)) for count in (2, 0)]
    long = files.ticks("long", 100_000, 100_000)
    more, fewer = (["suspend", name, long] for name in names)
    yield Row(f"a message of {2 * SERVERS} servers with {SLOTS} queued, sent and written", more, fewer, 2 * SERVERS * SLOTS, "us")
    more, fewer = (["run", name, long] for name in names)
    yield Row("the same, sent alone", more, fewer, 2 * SERVERS * SLOTS, "us")


# States: how they are read. They are made here.


def thread(pid, tid, kind, waits_for=0):
    return state.Thread(pid, tid, ENTRY, kind, waits_for, [0] * 32)


def ready_threads(pids):
    return {(pid, tid): thread(pid, tid, kind) for pid in pids for tid, kind in ((1, state.IDLE), (2, state.READY))}


def state_of(processes, capacity, numbers=1, serials=1, **parts):
    pids = range(2, 2 + processes)
    rows = [state.Process(True, 0, []) for _ in pids]
    given = {"threads": ready_threads(pids), "servers": [], "claims": [], "pages": {}, "orphans": {}, **parts}
    return state.State(capacity, 1_000_000, (2, 2), numbers, serials, None, None, rows, **given)


def many_servers():
    """The bytes of a state with five million servers, at whose last ones all threads of 64 processes receive."""
    processes, servers = 64, 5_000_000
    threads = {}
    for pid in range(2, 2 + processes):
        serial = max(serial for serial in range(servers - processes, servers) if serial % processes == pid - 2)
        for tid in range(1, THREADS + 1):
            threads[pid, tid] = thread(pid, tid, state.RECEIVING, serial)
    made = state_of(processes, 1, serials=servers, threads=threads)
    body = state.packed(state.number_words(made)) + b"".join(state.packed(state.process_words(process)) for process in made.processes)
    body += state.packed([len(threads)]) + b"".join(state.thread_rows(made)) + state.packed([servers])
    body += b"".join(SERVER_ROW.pack(9, 9, 9, serial, serial, 2 + serial % processes, 0, 0) for serial in range(servers))
    body += state.packed([0, 0, 0])  # claims, pages and orphans
    return state.MAGIC + state.packed([state.HEAD + len(body), state.check_number(body)]) + body


def orphans_state(count):
    """Orphans in runs of at most 4,000 at a server of each of eight processes."""
    processes, page = 8, bytes(PAGE)
    servers, orphans = [], {}
    for place in range(processes):
        pages = count // processes
        first, number, pid = 0x4_0000, place + 1, place + 2
        message = state.Message(number, None, state.MUTABLE_LEND, 0, [0x6000_0000, pages * PAGE, 0, 0], first, pages)
        servers.append(state.Server([place, 0, 0, 0], place + 1, pid, [], [message]))
        orphans.update({(pid, at): state.Orphan(pid, at, state.EXCLUSIVE, number, page) for at in range(first, first + pages)})
    return state_of(processes, count + 16, processes + 1, processes + 1, servers=servers, orphans=orphans)


def pages_state(count, is_lent):
    """Pages in the Map windows of four processes, which may be lent to servers of four others."""
    processes, page = 8, bytes(PAGE)
    threads, servers, pages = ready_threads(range(2, 10)), [], {}
    for place in range(4):
        pid, holder, number, size = place + 2, place + 6, place + 1, count // 4
        for at in range(size):
            held = (holder, 0x4_0000 + at) if is_lent else None
            loan = (state.EXCLUSIVE, number) if is_lent else (state.NO_LOAN, 0)
            pages[pid, 0x6_0000 + at] = state.Page(pid, 0x6_0000 + at, state.WRITABLE, held, *loan, page)
        if is_lent:
            threads[pid, 2] = thread(pid, 2, state.WAITING, number)
            message = state.Message(number, (pid, 2), state.MUTABLE_LEND, 0, [0x6000_0000, size * PAGE, 0, 0], 0x4_0000, size)
            servers.append(state.Server([place, 0, 0, 0], number, holder, [], [message]))
    return state_of(processes, count + 16, 5, 5, threads=threads, servers=servers, pages=pages)


def resumes(files):
    none = files.put("none", b"")
    for count, slots in ((16_000, "8000"), (32_000, "16300")):
        name = files.put(f"orphans{count}", orphans_state(count).to_bytes())
        yield Row(f"a resume with {count:,} orphans", ["resume", name, none, LIMIT, slots], None, 1, "ms", runs=2, is_counted=False)
    for count in (8_000, 16_000):
        for text, is_lent in (("pages", False), ("pages on loan", True)):
            name = files.put(f"pages{count}{is_lent}", pages_state(count, is_lent).to_bytes())
            yield Row(f"a resume with {count:,} {text}", ["resume", name, none, LIMIT], None, 1, "ms", runs=2, is_counted=False)
    name = files.put("servers", many_servers())
    text = f"a state with 5,000,000 servers and {64 * THREADS:,} threads that receive, refused"
    yield Row(text, ["resume", name, none], None, 1, "ms", (5,), 1, False)


GROUPS = {
    "tiny": tiny_runs,
    "timed": timed_steps,
    "full": full_memories,
    "waits": waits,
    "deaths": deaths,
    "saves": saves,
    "resumes": resumes,
}
SCALES = {"ms": 1e3, "us": 1e6, "ns": 1e9}


def cost(row, program, folder, given):
    """What a row costs each time, as text, or why it has no number."""
    is_count = given.count
    if is_count and not row.is_counted:
        return "not counted"
    each = []
    for words in filter(None, (row.words, row.fewer)):
        if is_count:
            each.append(measure.instructions([program, *words], folder, row.statuses))
        else:
            each.append(measure.seconds([program, *words], folder, row.statuses, min(row.runs or given.runs, given.runs)))
    took = (each[0] - (each[1] if row.fewer else 0)) / row.times
    return f"{took:,.0f}" if is_count else f"{took * SCALES[row.unit]:,.3g} {row.unit}"


def main():
    words = argparse.ArgumentParser(description=__doc__.splitlines()[0])
    words.add_argument("--count", action="store_true", help="machine instructions in place of times")
    words.add_argument("--runs", type=int, default=measure.RUNS, metavar="N", help="the best of so many runs")
    words.add_argument("groups", nargs="*", metavar="GROUP", help=", ".join(GROUPS))
    given = words.parse_args()
    unknown = set(given.groups) - set(GROUPS)
    if unknown:
        words.error(f"no group {', '.join(sorted(unknown))}")
    programs = measure.programs()
    measure.begin_table(["What", "Instructions" if given.count else "Each"], programs)
    with tempfile.TemporaryDirectory() as folder:
        files = Files(folder)
        for row in (row for name in given.groups or GROUPS for row in GROUPS[name](files)):
            numbers = [cost(row, program, folder, given) for program in programs]
            print(f"| {row.text} | {' | '.join(numbers)} |", flush=True)


if __name__ == "__main__":
    main()
