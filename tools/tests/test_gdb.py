"""The reader of states, states at a step, and xous-gdb by gdb-multiarch itself.

Values come from the sources, the linker's tables and the stored transcripts.
"""

import os
import re
import struct
import subprocess

from xous.checksum import check_number
from xous.errors import Fault
from xous.machine import FIRST_PID
from xous.runs import events
from xous.runs.run import Run
from xous.states import reach, state, telling

from .frame import COMPILER, EXAMPLES, GDB, TOOLS, Case, need, need_program

# Two threads add to one word without a lock. Both lines that are looked at are found by their comments.
LOST = """#include "xous_short.h"

static volatile word total;

static __attribute__((noinline)) word add(word amount)
{
    word seen = total; /* load */

    total = seen + amount; /* store */
    return seen;
}

int main(void)
{
    word stack = increase_heap(PAGE_SIZE).word[1] + PAGE_SIZE;
    word other = create_thread((word)add, stack, 16, 0, 0, 0).word[1];

    add(1);
    join_thread(other);
    return total;
}
"""

# Stores to other words of the page again and again, and once to the one that is watched.
BUSY = """#include "xous_short.h"

static volatile word busy[8], seldom;

int main(void)
{
    for (word i = 0; i < 2000; i++) {
        busy[i % 8] = i;
        if (i == 1500)
            seldom = 7; /* seldom */
    }
    return 0;
}
"""


# The reader of states.


def spelled_state(words_before_pages, pages=b""):
    """A state file of these words and bytes, with its length and check number."""
    body = struct.pack(f"<{len(words_before_pages)}I", *words_before_pages) + pages
    return state.MAGIC + struct.pack("<II", 16 + len(body), check_number(body)) + body


NUMBERS = [100, 1, 7, 2, 2, 1, 1, 0, 0, 0, 0, 0, 0]  # one process, seven steps, the cursor at 2.2
NOTHING = [0, 0, 0]  # a process that isn't alive
EMPTY = [*NUMBERS, *NOTHING, 0, 0, 0, 0, 0]


def with_word(words, place, word):
    return [*words[:place], word, *words[place + 1 :]]


def broken_states():
    """Bytes by name, each with the first fault by docs/state.md."""
    good = spelled_state(EMPTY)
    thread = [2, 2, 0x10000, *[0] * 33]
    one_thread = [*NUMBERS, *NOTHING, 1, *thread, 0, 0, 0, 0]
    yield "a good one", good, None
    yield "a thread", spelled_state(one_thread), None
    yield "fifteen bytes", good[:15], ("NotState", 0)
    yield "another start", b"Y" + good[1:], ("NotState", 0)
    yield "a byte too many", good + b"\0", ("StateLength", 8)
    yield "another check number", good[:12] + bytes([good[12] ^ 1]) + good[13:], ("StateCheck", 12)
    yield "no process", spelled_state(with_word(EMPTY, 1, 0)), ("StateForm", 20)
    yield "too many steps", spelled_state(with_word(EMPTY, 2, 4_000_000_001)), ("StateForm", 24)
    yield "the cursor of no process", spelled_state(with_word(EMPTY, 3, 3)), ("StateForm", 28)
    yield "a compare value that isn't armed", spelled_state(with_word(EMPTY, 8, 5)), ("StateForm", 48)
    yield "a word too many", spelled_state([*EMPTY, 0]), ("StateForm", 100)
    yield "a word that is missing", spelled_state(EMPTY[:-1]), ("StateForm", 96)
    yield "tid 32", spelled_state(with_word(one_thread, 18, 32)), ("StateForm", 88)
    yield "a thread of state 5", spelled_state(with_word(one_thread, 20, 5)), ("StateForm", 96)
    yield "a serial of a ready thread", spelled_state(with_word(one_thread, 21, 1)), ("StateForm", 100)


def fault_of(data):
    try:
        state.read(data)
    except Fault as fault:
        return fault.name, fault.at
    return None


def reader_checks():
    for name, data, fault in broken_states():
        yield fault_of(data) == fault, f"state file: {name}"
    good = spelled_state(EMPTY)
    yield state.read(good).to_bytes() == good, "state file: written as it was read"
    # The check value of CRC-16/X-25 for the digits 1 to 9.
    yield check_number(b"123456789") == 0x906E, "check number of a state"


def program_fault_checks(program, folder):
    """The program's first fault of each broken file is the reader's."""
    nothing = folder / "nothing"
    nothing.write_bytes(b"")
    for name, data, fault in broken_states():
        if fault is not None:
            path = folder / "broken"
            path.write_bytes(data)
            told = subprocess.run([program, "resume", path, nothing], capture_output=True).stderr.decode().strip()
            yield told == f"image fault {fault[0]} at {fault[1]}", f"state file, asked of the program: {name}"


# Event files, and states at a step.


def event_checks():
    rows = [
        (b"tick 5\n\n # no event\npick 2 3\r\nirq 31\nkill 2", ["tick 5", "pick 2 3", "irq 31", "kill 2"], None),
        (b"  tick   007  \n", ["tick 7"], None),
        (b"tick 4294967295\n", ["tick 4294967295"], None),
        (b"tick 1\nirq 32\ntick 2\n", ["tick 1"], 2),
        (b"tick\n", [], 1),
        (b"tick 4294967296\n", [], 1),
        (b"tick 1" + b" " * 60, [], 1),
        (b"# " + b"x" * 63, [], 1),
    ]
    for data, texts, bad in rows:
        found, line = events.read(data)
        yield ([event.text() for event in found], line) == (texts, bad), f"events of {data[:40]!r}"


def resumed(run, step):
    """What the program tells from the state at a step on."""
    with run.resume(run.state_at(step), step) as process:
        return process.communicate()[0]


def step_checks(program):
    """From the state at each step, with its cursor put back, the run goes on as it did."""
    for name, file in (("race", "win.events"), ("threads", "events"), ("driver", "events"), ("deaths", "events")):
        run = Run(EXAMPLES / name / "image", EXAMPLES / name / file, program=program)
        data = run.transcript.data
        wrong = [
            step
            for step in range(run.last)
            if run.state_at(step).steps != step or resumed(run, step) != data[run.transcript.offset(step + 1) :]
        ]
        yield not wrong, f"{name}: states at each step go on as the run does" + (f", but at {wrong[:5]}" if wrong else "")
        run.close()


def reach_checks(program):
    """The page of examples/lend while it is on loan, and after its return; steps 81 and 96 are in docs/transcript.md."""
    run = Run(EXAMPLES / "lend" / "image", EXAMPLES / "lend" / "events", program=program)
    lent, back = run.state_at(95), run.state_at(96)
    run.close()
    yield reach.load(lent, 2, 0x4000_0000, 3) == b"ok\n", "lend: the server reads the page that it has"
    try:
        reach.load(lent, 3, 0x6000_1000, 1)
        yield False, "lend: the client reads a page that is lent mutably"
    except reach.OutOfReach as why:
        yield "message 1" in str(why), "lend: why the client can't reach its page"
    yield reach.load(back, 3, 0x6000_1000, 3) == b"ok\n", "lend: the client has its page back"
    waits = telling.wait_text(lent, lent.threads[3, 2])
    yield waits == "waits for message 1, held at server fill of 2", "lend: what the client waits for"


# xous-gdb, by gdb.


def line_of(source, comment):
    """The number of the line that has the comment."""
    return next(number for number, line in enumerate(source.splitlines(), 1) if f"/* {comment} */" in line)


def line_with(path, text):
    return next(number for number, line in enumerate(path.read_text().splitlines(), 1) if text in line)


class Bench:
    """Programs, images and sessions of gdb in one folder."""

    def __init__(self, program, folder):
        self.program, self.folder = program, folder

    def compile(self, source):
        """A program as the examples are made: by the kit's own Makefile, with its compiler and flags."""
        target = f"out/{source.stem}.elf"
        words = ["make", "-s", "-f", EXAMPLES / "kit" / "kit.mk", f"VPATH={source.parent}", target]
        subprocess.run(words, cwd=self.folder, check=True, stdout=subprocess.DEVNULL)
        return self.folder / target

    def own(self, text, name):
        source = self.folder / f"{name}.c"
        source.write_text(text)
        return self.compile(source)

    def image(self, *programs):
        image = self.folder / f"{programs[0].stem}.img"
        words = [TOOLS / "xous-image", image, "--ram", "1M", *programs]
        subprocess.run(words, check=True, stdout=subprocess.DEVNULL)
        return image

    def events(self, name, text):
        path = self.folder / name
        path.write_text(text)
        return path

    def gdb(self, image, event_file, programs, *commands):
        """What gdb writes; between the commands stand lines with their numbers."""
        elfs = " ".join(f"--elf {pid}={path}" for pid, path in enumerate(programs, FIRST_PID) if path)
        start = ["set confirm off", "set width 0", "set remotetimeout 120", "set osabi none"]
        start += [f"target remote | {TOOLS / 'xous-gdb'} {image} {event_file} {elfs}"]
        numbered = [line for number, text in enumerate(commands) for line in (f"echo \\n=={number}==\\n", text)]
        lines = [*start, *numbered, "echo \\n==end==\\n"]
        words = [GDB, "-nx", "-batch", *(word for line in lines for word in ("-ex", line))]
        environment = {**os.environ, "XOUSIM": self.program}
        streams = {"stdout": subprocess.PIPE, "stderr": subprocess.STDOUT, "stdin": subprocess.DEVNULL}
        done = subprocess.run(words, **streams, text=True, env=environment, timeout=900)
        return Answers(re.split(r"\n==\w+==\n", done.stdout)[1:], done.stdout)


class Answers:
    def __init__(self, parts, whole):
        self.parts, self.whole = parts, whole

    def __getitem__(self, place):
        return self.parts[place] if place < len(self.parts) else ""


def symbol(path, name):
    """The address of a symbol by the linker's table."""
    from elftools.elf.elffile import ELFFile

    with open(path, "rb") as file:
        (found,) = ELFFile(file).get_section_by_name(".symtab").get_symbol_by_name(name)
        return found["st_value"]


def race_checks(bench):
    """Breakpoints in two processes, forwards and backwards, and a backtrace in C."""
    folder = EXAMPLES / "race"
    programs = [bench.compile(folder / f"{name}.c") for name in ("client", "server")]
    same = bench.image(*programs).read_bytes() == (folder / "image").read_bytes()
    yield same, "race: -g leaves the image as it is stored"
    client, server = (symbol(path, "main") for path in programs)
    answers = bench.gdb(
        folder / "image", folder / "win.events", programs,
        "info threads", "break main", "continue", "continue", "monitor step",
        "monitor break-call SendMessage", "continue", "backtrace", "reverse-continue", "reverse-continue",
        "reverse-continue", "continue", "print message.word[1]",
    )  # fmt: skip
    yield "3.2" in answers[0] and "idle, waits for interrupts" in answers[0], "race: threads and what they do"
    yield "(2 locations)" in answers[1], "race: a breakpoint in both programs"
    yield re.search(r"server.*hit Breakpoint", answers[2]), "race: the server comes to its main first"
    yield re.search(r"client.*hit Breakpoint", answers[3]), "race: then the client"
    yield "of 75, 2.2 acts next" in answers[4], "race: the thread that acts"
    yield "step 46: 2.2 calls SendMessage" in answers[6], "race: a stop before a call of the transcript"
    backtrace = re.findall(r"#\d+ +(?:0x\w+ in )?(\w+) \(", answers[7])
    yield backtrace[:3] == ["xous_call", "xous_send_message", "main"], f"race: the backtrace, which is {backtrace}"
    yield re.search(r"client.*hit Breakpoint", answers[8]), "race: back at the client's main"
    yield re.search(r"server.*hit Breakpoint", answers[9]), "race: back at the server's main"
    yield "No more reverse-execution history" in answers[10], "race: the start of the history"
    yield re.search(r"server.*hit Breakpoint", answers[11]), "race: forwards again"
    yield client > 0 and server > 0, "race: mains have addresses"


def fault_checks(bench):
    """From the fault back to its cause, which the README of the example says: a page that is on loan."""
    folder = EXAMPLES / "fault"
    programs = [bench.compile(folder / f"{name}.c") for name in ("server", "client")]
    store, send = (line_with(folder / "client.c", text) for text in ("*page = 1", "send_message("))
    answers = bench.gdb(
        folder / "image", folder / "events", programs,
        "continue", "info threads", "print *page", "monitor who", "set var $a0 = 1",
        "monitor break-call SendMessage", "reverse-continue", "backtrace", "stepi", "reverse-stepi", "monitor step",
        "monitor goto 101", "continue", "info threads", "monitor events", "continue", "monitor transcript 80 80",
        "monitor goto 0", "continue", "info threads",
    )  # fmt: skip
    yield "SIGSEGV" in answers[0] and f"client.c:{store}" in answers[0], "fault: stops at the store"
    yield "fault 15 of 3.3, value 60000000" in answers[0], "fault: cause and value as in the transcript"
    yield "waits for message 1, held at server fill of 2" in answers[1], "fault: what the lender waits for"
    yield "Cannot access memory at address 0x60000000" in answers[2], "fault: the page is out of reach"
    yield "3.2 waits for message 1, held at server fill of 2" in answers[3], "fault: who waits for whom"
    yield "nothing can be written" in answers[4], "fault: a write is refused in words"
    yield "step 78: 3.2 calls SendMessage" in answers[6], "fault: back at the call that lends the page"
    yield re.search(rf"main \(\) at .*client\.c:{send}\b", answers[7]), "fault: the line that lends it"
    yield "step 77 of 101, 3.2 acts next" in answers[10], "fault: a step forwards and one backwards"
    yield re.search(r"3\.2 .*\(gone\)", answers[13]), "fault: the dead process at the end"
    yield "tick 1000" in answers[14], "fault: the events that lead to the end"
    yield "end 101 done" in answers[15] and "No more" in answers[15], "fault: the end of the history"
    lines = (folder / "expected").read_text().splitlines()
    yield "\n".join(line for line in lines if line.startswith("80 ")) in answers[16], "fault: lines of the transcript"
    yield re.search(r"3\.2 .*\(ready\)", answers[19]), "fault: the dead process lives again at the start"


def lend_checks(bench):
    """A watched word of a page that is lent: the store is the server's. And steps that follow one thread over a wait."""
    folder = EXAMPLES / "lend"
    programs = [bench.compile(folder / f"{name}.c") for name in ("server", "client")]
    lent, own = line_with(folder / "server.c", "page[0] = 'o'"), line_with(folder / "client.c", "page = 'O'")
    answers = bench.gdb(
        folder / "image", folder / "events", programs,
        "stepi", "inferior 2", "watch *(char *)0x60001000", "continue", "info threads", "continue", "reverse-continue",
        "reverse-continue", "delete", "monitor goto 0", "continue", "monitor break-call SendMessage", "continue",
        "finish", "next", "monitor step",
    )  # fmt: skip
    yield "server" in answers[3] and f"server.c:{lent}" in answers[3], "lend: who stores to the page that is lent"
    yield "of 2.2 changes the watched 60001000 of process 3" in answers[3], "lend: it is told in words"
    yield "waits for message 1, held at server fill of 2" in answers[4], "lend: meanwhile the lender waits"
    yield "New value = 79 'O'" in answers[5], "lend: then the lender's own store"
    yield f"client.c:{own}" in answers[6], "lend: backwards to the lender's store"
    yield f"server.c:{lent}" in answers[7], "lend: backwards to the store of the server"
    step = re.search(r"step (\d+) of", answers[15])
    yield step and int(step[1]) >= 96, "lend: the lender's next line comes after the return, step 96 of docs/transcript.md"


def lost_checks(bench):
    """A lost update: the order is made at a breakpoint, and a watchpoint finds who overwrote the word."""
    program = bench.own(LOST, "lost")
    image, store = bench.image(program), line_of(LOST, "store")
    total = symbol(program, "total")
    answers = bench.gdb(
        image, bench.events("one.events", "tick 1000\n"), [program],
        f"break lost.c:{store}", "continue", "monitor step",
    )  # fmt: skip
    step = re.search(r"step (\d+) of", answers[2])
    yield step is not None, f"lost: the step of the store; gdb wrote {answers.whole[-300:] if step is None else ''}"
    if step is None:
        return
    order = f"tick {step[1]}\npick 2 3\ntick 1000\n"
    answers = bench.gdb(
        image, bench.events("lost.events", order), [program],
        "watch total", "continue", "monitor step", "continue", "info symbol $pc", "continue", "reverse-continue",
        "print $_thread", "reverse-continue", "print/x &total", "monitor transcript 0 1000",
    )  # fmt: skip
    yield re.search(r"Old value = 0\s+New value = 16", answers[1]), "lost: thread 3 adds its 16"
    yield f"lost.c:{store}" in answers[1] or f"lost.c:{store + 1}" in answers[1], "lost: at the line of the store"
    yield re.search(r"Old value = 16\s+New value = 1\b", answers[3]), "lost: thread 2 overwrites it with its 1"
    yield re.search(r"Old value = 1\s+New value = 16", answers[6]), "lost: backwards the 16 comes back"
    yield re.search(rf"lost\.c:{store}\b|\n{store}\t", answers[6]), "lost: backwards at the store itself"
    yield re.search(r"Old value = 16\s+New value = 0", answers[8]), "lost: backwards to the first store"
    yield f"{total:#x}" in answers[9], "lost: the word is where the linker's table has it"
    yield re.search(r"2\.2 call 00000016 00000001 ", answers[10]), "lost: the process ends with 1, and not 17"


def busy_checks(bench):
    """A watchpoint on a page with thousands of other stores, forwards and backwards."""
    program = bench.own(BUSY, "busy")
    line = line_of(BUSY, "seldom")
    answers = bench.gdb(
        bench.image(program), bench.events("busy.events", "tick 1000000\n"), [program],
        "watch seldom", "continue", "print busy[3]", "continue", "reverse-continue", "print seldom",
        f"break busy.c:{line}", "delete 1", "monitor goto 5", "continue", "continue", "monitor step",
    )  # fmt: skip
    yield re.search(r"Old value = 0\s+New value = 7", answers[1]), "busy: the one store to the word"
    yield "= 1499" in answers[2], "busy: the others up to then"
    yield re.search(r"Old value = 7\s+New value = 0", answers[4]), "busy: backwards to it"
    yield re.search(r"hit Breakpoint 2", answers[10]), "busy: a breakpoint some thousand steps on"


def passing_checks(bench):
    """Ends of processes can be passed over, as examples/README.md says: then a run goes on to its end."""
    folder = EXAMPLES / "race"
    answers = bench.gdb(folder / "image", folder / "lose.events", [], "handle SIGTERM nostop noprint", "continue", "monitor step")
    yield "SIGTERM" not in answers[1], f"ends of processes: gdb goes over them: {answers[1]}"
    step = re.search(r"step (\d+) of (\d+)", answers[2])
    yield step and step[1] == step[2], f"ends of processes: then the end of the run: {answers[2]}"


def word_checks(bench):
    """What xous-gdb says where nothing is played."""
    words = [TOOLS / "xous-gdb", bench.events("empty", ""), EXAMPLES / "race" / "win.events"]
    environment = {**os.environ, "XOUSIM": bench.program}
    done = subprocess.run(words, capture_output=True, text=True, env=environment, stdin=subprocess.DEVNULL)
    yield (done.returncode, done.stderr) == (1, "xous-gdb: image fault TooShort at 0\n"), "no image: the program's words"
    folder = EXAMPLES / "race"
    bad = bench.events("bad.events", "tick 20\nthick 30\n")
    answers = bench.gdb(folder / "image", bad, [], "monitor goto 20", "continue", "continue")
    yield "event fault at line 2" in answers[2], "a bad line: told at the end of the history"
    limited = bench.gdb(f"{folder / 'image'}", f"{folder / 'win.events'} 30", [], "continue", "continue", "monitor step")
    alone = bench.gdb(folder / "image", f"{folder / 'win.events'} --pid 3", [], "info inferiors", "stepi", "monitor step")
    yield re.search(r"\* 1 +process 3", alone[0]), "--pid: the process of gdb's own file"
    yield "step 1 of 75" in alone[2], "no program is given: gdb knows the machine all the same"
    yield "step limit 30" in limited.whole and "step 30 of 30" in limited[2], "the step limit: told at the end"


class States(Case):
    def test_reader(self):
        self.hold(reader_checks())

    def test_events(self):
        self.hold(event_checks())

    def test_program_says_the_same(self):
        self.hold(program_fault_checks(need_program(), self.folder))

    def test_steps(self):
        self.hold(step_checks(need_program()))

    def test_reach(self):
        self.hold(reach_checks(need_program()))


class Gdb(Case):
    def setUp(self):
        super().setUp()
        program = need_program()
        need("make", COMPILER, GDB, "elftools")
        self.bench = Bench(program, self.folder)

    def test_race(self):
        self.hold(race_checks(self.bench))

    def test_fault(self):
        self.hold(fault_checks(self.bench))

    def test_lend(self):
        self.hold(lend_checks(self.bench))

    def test_lost(self):
        self.hold(lost_checks(self.bench))

    def test_busy(self):
        self.hold(busy_checks(self.bench))

    def test_ends_that_are_passed(self):
        self.hold(passing_checks(self.bench))

    def test_words(self):
        self.hold(word_checks(self.bench))
