#!/usr/bin/python3
"""What going over a run costs in `xous-gdb`: single steps, breakpoints and watchpoints, forwards and backwards.

    bench/gdb.py

Makes an image with 1 MiB of code, a loop of ten million steps in it and one store at its end, and speaks with
`xous-gdb` as gdb does. Each time is from the packet that goes to the packet that says where it stopped; the best of
three. On a busy machine that is more than it costs: the second column is the processor time of `xous-gdb` and of the
runs of the program that it waited for, to the hundredth. The program is $XOUSIM, else the one that ./xousim builds.
"""

import os
import pathlib
import subprocess
import tempfile
import time

import measure
import steps

GDB = measure.TOP / "tools" / "xous-gdb"
PROGRAM_BYTES = 1 << 20
RAM_BYTES = 4 << 20
LOOPS = 5_000_000  # of two steps each
RUNS = 3


def code():
    """A loop, then a store to the stack and a jump to itself, in a section of 1 MiB."""
    words = [
        steps.lui(steps.COUNT, LOOPS + 0x800),
        steps.addi(steps.COUNT, steps.COUNT, LOOPS - ((LOOPS + 0x800) >> 12 << 12)),
        steps.addi(steps.COUNT, steps.COUNT, -1),
        steps.bne(steps.COUNT, steps.ZERO, -4),
        steps.addi(steps.FACTOR, steps.ZERO, 7),
        steps.sw(steps.FACTOR, steps.SP, -4),
        steps.jal(steps.ZERO, 0),
    ]
    return words + [0] * (PROGRAM_BYTES // 4 - len(words))


START, LOOP, STORE, WORD = steps.ENTRY, steps.ENTRY + 8, steps.ENTRY + 20, 0x7FFF_FFFC
STORE_STEP = 2 + 2 * LOOPS + 1  # so many steps come before the store


class Session:
    def __init__(self, image, event_file):
        pipes = {"stdin": subprocess.PIPE, "stdout": subprocess.PIPE}
        self.server = subprocess.Popen([GDB, image, event_file, "20000000"], **pipes)
        self.ask("qSupported")
        self.ask("QStartNoAckMode")

    def ask(self, text):
        """The answer that isn't text for the console."""
        self.server.stdin.write(b"$%s#%02x" % (text.encode(), sum(text.encode()) & 0xFF))
        self.server.stdin.flush()
        while True:
            while self.server.stdout.read(1) != b"$":
                pass
            answer = b""
            while (byte := self.server.stdout.read(1)) != b"#":
                answer += byte
            self.server.stdout.read(2)
            if self.server.poll() is None and not answer.startswith(b"O") or answer == b"OK":
                return answer.decode()

    def processor_time(self):
        """Of the server and of its children that have ended, in seconds."""
        fields = pathlib.Path(f"/proc/{self.server.pid}/stat").read_text().rpartition(")")[2].split()
        return sum(map(int, fields[11:15])) / os.sysconf("SC_CLK_TCK")

    def go(self, text, pc):
        start, before = time.perf_counter(), self.processor_time()
        answer = self.ask(text)
        took = time.perf_counter() - start, self.processor_time() - before
        if f"20:{pc.to_bytes(4, 'little').hex()};" not in answer:
            raise SystemExit(f"{text} stopped elsewhere: {answer}")
        return took

    def close(self):
        self.server.stdin.close()
        self.server.wait()


def rows(image, event_file):
    """What is timed, with its times; a session goes there and back."""
    start = time.perf_counter()
    session = Session(image, event_file)
    session.ask("?")
    session.ask("Hgp2.2")
    yield "the start, up to the first stop", (time.perf_counter() - start, session.processor_time())
    yield "a step at the start", session.go("vCont;s:p2.2", START + 4)
    session.ask(f"Z0,{STORE:x},4")
    yield "a breakpoint 10,000,000 steps on", session.go("vCont;c:p2.-1", STORE)
    yield "a step there", session.go("vCont;s:p2.2", STORE + 4)
    yield "a step back, to a state that is kept", session.go("bs", STORE)
    yield "a step back, to one that isn't", session.go("bs", STORE - 4)
    session.ask(f"z0,{STORE:x},4")
    session.ask(f"Z0,{START + 4:x},4")
    yield "a breakpoint 10,000,000 steps back", session.go("bc", START + 4)
    session.ask(f"z0,{START + 4:x},4")
    session.ask(f"Z0,{LOOP:x},4")
    session.ask(f"qRcmd,{f'goto {STORE_STEP}'.encode().hex()}")
    session.go("vCont;c:p2.-1", STORE)
    yield "the last of 5,000,000 hits, backwards", session.go("bc", LOOP)
    session.ask(f"z0,{LOOP:x},4")
    session.ask(f"qRcmd,{b'goto 1'.hex()}")
    session.go("vCont;c:p2.-1", START + 4)
    session.ask(f"Z2,{WORD:x},4")
    yield "a watched store 10,000,000 steps on", session.go("vCont;c:p2.-1", STORE)
    session.ask(f"qRcmd,{f'goto {STORE_STEP + 3}'.encode().hex()}")
    session.go("vCont;c:p2.-1", STORE + 4)
    yield "the watched store three steps back", session.go("bc", STORE + 4)
    session.close()


def main():
    with tempfile.TemporaryDirectory() as folder:
        image, event_file = pathlib.Path(folder, "image"), pathlib.Path(folder, "events")
        steps.put_files(folder, steps.image(code(), ram_bytes=RAM_BYTES), b"tick %d\n" % (STORE_STEP + 1000))
        best = {}
        for _ in range(RUNS):
            for name, took in rows(image, event_file):
                best[name] = tuple(map(min, took, best.get(name, took)))
    measure.begin_table(["What", "Seconds", "Processor seconds"])
    for name, (took, processor) in best.items():
        print(f"| {name} | {took:.3f} | {processor:.2f} |")


if __name__ == "__main__":
    main()
