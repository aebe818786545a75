"""xous-view in words and summed up. What is expected is written by hand, from docs/calls.md and the sources of the examples."""

import io
import pathlib
import struct
import subprocess
import sys
import time

from xous import names
from xous.images.named import names_of, read_image, sections_of
from xous.programs.symbols import Program
from xous.transcripts import summary, view

from .frame import EXAMPLES, TOOLS, Case, need

VIEW = TOOLS / "xous-view"


def spelled(short):
    """A line of a transcript, of a short form whose words lack leading zeros and zeros at the end."""
    step, thread, what, *words = short.split(" ")
    if what not in ("call", "reply"):
        return short
    words += ["0"] * (8 - len(words))
    return " ".join([step, thread, what, *(word.rjust(8, "0") for word in words)])


def viewed(lines, named=None, only=(), calls=(), folds=True):
    """The text view of lines in short form, which are parted by bars."""
    shown = view.View(named or names.Names(), view.Filter(only, calls), folds)
    sink = io.BytesIO()
    text = "".join(f"{spelled(line)}\n" for line in lines.split("|"))
    view.run(shown, io.BytesIO(text.encode()), sink)
    return sink.getvalue().decode().splitlines()


# Each call of docs/calls.md, with words of its own.
CALLS = (
    ("2 f0000000 0 1000 6", "MapMemory(phys console, virt 0, size 1000, flags RW)"),
    ("2 0 60005000 2000 a", "MapMemory(phys 0, virt 60005000, size 2000, flags RX)"),
    ("3", "Yield()"),
    ("5 14 1002c 7", "ClaimInterrupt(interrupt 20, handler 1002c, argument 7)"),
    ("6 1f", "FreeInterrupt(interrupt 31)"),
    ("a 3000", "IncreaseHeap(size 3000)"),
    ("b 1000", "DecreaseHeap(size 1000)"),
    ("c 60000000 2000 2", "UpdateMemoryFlags(pages 60000000+2000, flags R)"),
    ("e 66 69 6c 6c", "CreateServerWithAddress('fill')"),
    ("f 1 2 3 10", "ReceiveMessage(1:2:3:10)"),
    ("10 2 1 7 60001000 1000 0 3", "SendMessage(cid 2, MutableLend, id 7, pages 60001000+1000, offset 0, valid 3)"),
    ("10 3 2 7 60001000 2000 10 0", "SendMessage(cid 3, Lend, id 7, pages 60001000+2000, offset 16, valid 0)"),
    ("10 2 3 0 60001000 1000 0 0", "SendMessage(cid 2, Move, id 0, pages 60001000+1000, offset 0, valid 0)"),
    ("10 2 4 1 1e 0 0 ffffffff", "SendMessage(cid 2, Scalar, id 1, arguments 30, 0, 0, 0xffffffff)"),
    ("10 2 5 3 1 2 3 4", "SendMessage(cid 2, BlockingScalar, id 3, arguments 1, 2, 3, 4)"),
    ("10 2 6 3 1 2 3 4", "SendMessage(cid 2, kind 6, id 3, arguments 1, 2, 3, 4)"),
    ("11 73756f78 6d616e2d 65732d65 72657672", 'Connect("xous-name-server")'),
    ("12 1002c 20001000 60000000 61", "CreateThread(entry 1002c, sp 20001000, arguments 0x60000000, 97, 0, 0)"),
    ("13 60001000 1000", "UnmapMemory(pages 60001000+1000)"),
    ("14 1 40000000 1000 0 3", "ReturnMemory(message 1, pages 40000000+1000, offset 0, valid 3)"),
    ("16 44c", "TerminateProcess(exit 1100)"),
    ("18 2 4 3", "TrySendMessage(cid 2, Scalar, id 3, arguments 0, 0, 0, 0)"),
    ("19 72 61 63 65", "TryConnect('race')"),
    ("1a 1 2a", "ReturnScalar1(message 1, value 42)"),
    ("1b 3 4 2", "ReturnScalar2(message 3, values 4, 2)"),
    ("1c 72 61 63 65", "TryReceiveMessage('race')"),
    ("24 3", "JoinThread(thread 3)"),
    ("29 72 61 63 65", "DestroyServer('race')"),
    ("2a", "GetThreadId()"),
    ("2b", "GetProcessId()"),
    ("2c 1 3", "ForwardMessage(message 1, cid 3)"),
    ("63 1 2", "call 99(words 1, 2, 0, 0, 0, 0, 0)"),
)

NOBODY = "an unknown sender"

# Each call with a reply, and what it is answered.
REPLIES = (
    ("3", "0", "done"),
    ("1c 1 2 3 4", "0", "no message"),
    ("2 0 0 1000 6", "3 60001000 1000", "memory 60001000+1000"),
    ("11 1 2 3 4", "7 2", "cid 2"),
    ("12 1002c", "a 3", "thread 3"),
    ("2b", "e 2", "pid 2"),
    ("24 3", "e 61", "thread 3 ended with 97"),
    ("10 2 5 1", "e 2a", "value 42"),
    ("10 2 5 1", "f 4 2", "values 4, 2"),
    ("10 2 1 1 60000000 1000", "12 0 3", "pages back, offset 0, valid 3"),
    ("e 66 69 6c 6c", "13 66 69 6c 6c 2", "server 'fill', cid 2"),
    ("f 1", "9 1 1 7 40000000 1000 0 3", f"message 1 from {NOBODY} MutableLend id 7 at 40000000+1000, offset 0, valid 3"),
    ("f 1", "9 2 2 7 40000000 1000", f"message 2 from {NOBODY} Lend id 7 at 40000000+1000, offset 0, valid 0"),
    ("f 1", "9 3 3 7 40000000 1000", f"message 3 from {NOBODY} Move id 7 at 40000000+1000, offset 0, valid 0"),
    ("f 1", "9 4 4 1 1e", f"message 4 from {NOBODY} Scalar id 1, arguments 30, 0, 0, 0"),
    ("f 1", "9 5 5 1 1e", f"message 5 from {NOBODY} BlockingScalar id 1, arguments 30, 0, 0, 0"),
    ("3", "2a 1", "words 42, 1, 0, 0, 0, 0, 0, 0"),
)

ERRORS = (
    (1, "BadAlignment"),
    (2, "BadAddress"),
    (3, "OutOfMemory"),
    (4, "MemoryInUse"),
    (5, "InterruptNotFound"),
    (6, "InterruptInUse"),
    (8, "ServerExists"),
    (9, "ServerNotFound"),
    (15, "ServerQueueFull"),
    (16, "ThreadNotAvailable"),
    (17, "UnhandledSyscall"),
    (18, "InvalidSyscall"),
    (19, "ShareViolation"),
    (20, "InvalidThread"),
    (23, "AccessDenied"),
    (25, "DoubleFree"),
    (27, "InvalidLimit"),
    (7, "error 7"),
)

# Lines before a fault, the fault, and what stands at its address.
LENT = "1 2.2 call e 1|1 2.2 reply 13 1 0 0 0 2|2 3.2 call 11 1|2 3.2 reply 7 2|3 2.2 call f 1"
MAPPED = "4 3.2 call 2 0 0 3000 6|4 3.2 reply 3 60000000 3000"
CONSOLE = "4 3.2 call 2 f0000000 0 1000 6|4 3.2 reply 3 60000000 1000"
UNMAPPED = f"{MAPPED}|5 3.2 call 13 60001000 1000|5 3.2 reply 0"
REDUCED = f"{MAPPED}|5 3.2 call c 60001000 1000 2|5 3.2 reply 0"
THREAD = f"{MAPPED}|5 3.2 call 13 60000000 1000|5 3.2 reply 0|6 3.2 call 12 10000 60003000|6 3.2 reply a 3"
HEAP = "4 3.2 call a 2000|4 3.2 reply 3 20000000 2000|5 3.2 call b 1000|5 3.2 reply 0"
MUTABLE = f"{LENT}|{MAPPED}|5 3.2 call 10 2 1 7 60001000 1000|5 2.2 reply 9 1 1 7 40000000 1000"
SHARED = f"{LENT}|{MAPPED}|5 3.2 call 10 2 2 7 60001000 1000|5 2.2 reply 9 1 2 7 40000000 1000"
MOVED = f"{LENT}|{MAPPED}|5 3.2 call 10 2 3 7 60001000 1000|5 2.2 reply 9 1 3 7 40000000 1000|5 3.2 reply 0"
FAULTS = (
    ("", "3.2 fault 0 00010002", "0: jump to a misaligned address at 10002"),
    ("", "3.2 fault 2 0000ffff", "2: illegal instruction 0000ffff"),
    ("", "3.2 fault 3 00010044", "3: EBREAK at 10044"),
    ("", "3.2 fault 12 00000000", "12: fetch not allowed at 0 (unmapped, outside of all windows)"),
    ("", "3.2 fault 13 00012000", "13: load not allowed at 12000 (Image window)"),
    ("", "3.2 fault 15 60000000", "15: store not allowed at 60000000 (unmapped, Map window)"),
    ("", "3.2 fault 13 7fff7ffc", "13: load not allowed at 7fff7ffc (stack guard of 3.2)"),
    ("", "3.2 fault 13 7fff6ffc", "13: load not allowed at 7fff6ffc (unmapped, Stack window)"),
    ("", "3.2 fault 4 7fff8001", "4: misaligned load at 7fff8001 (stack of 3.2, RW)"),
    ("", "3.1 fault 6 7f000002", "6: misaligned store at 7f000002 (stack of 3.1, RW)"),
    ("", "3.2 fault 15 f0001004", "15: store not allowed at f0001004 (timer)"),
    (CONSOLE, "3.2 fault 12 60000004", "12: fetch not allowed at 60000004 (console)"),
    (MAPPED, "3.2 fault 12 60002ffc", "12: fetch not allowed at 60002ffc (page of its own, RW)"),
    (UNMAPPED, "3.2 fault 13 60001004", "13: load not allowed at 60001004 (unmapped, Map window)"),
    (UNMAPPED, "3.2 fault 12 60002004", "12: fetch not allowed at 60002004 (page of its own, RW)"),
    (REDUCED, "3.2 fault 15 60001004", "15: store not allowed at 60001004 (page of its own, R)"),
    (THREAD, "3.3 fault 15 60000ffc", "15: store not allowed at 60000ffc (stack guard of 3.3)"),
    (HEAP, "3.2 fault 13 20001000", "13: load not allowed at 20001000 (unmapped, Heap window)"),
    (MUTABLE, "3.3 fault 15 60001000", "15: store not allowed at 60001000 (page on loan to 2 (mutable lend, message 1))"),
    (SHARED, "2.2 fault 15 40000004", "15: store not allowed at 40000004 (page lent to it by 3.2 (lend, message 1))"),
    (MOVED, "3.2 fault 15 60001000", "15: store not allowed at 60001000 (unmapped, Map window)"),
    (MOVED, "2.2 fault 12 40000ffc", "12: fetch not allowed at 40000ffc (page that was moved to it)"),
)


def checks_of_words():
    yield {number for number, _ in ERRORS} - {7} == set(names.ERRORS), "a row for each error"
    rows = {int(words.split()[0], 16) for words, _ in CALLS} - {0x63}
    with_words = {number for number, (_, arguments) in names.CALLS.items() if arguments}
    yield with_words <= rows <= set(names.CALLS), "a row for each call that has words, as others are shown by their names alone"
    for words, text in CALLS:
        yield viewed(f"11 2.3 call {words}", folds=False) == [f"11 2.3 {text}"], f"call {words}"
    for call, words, text in REPLIES:
        lines = viewed(f"11 2.3 call {call}|12 2.3 reply {words}", folds=False)
        name = names.call_name(int(call.split()[0], 16))
        yield lines[1] == f"12 2.3 <- {text} ({name} of step 11)", f"reply {words}: {lines[1]}"
    for number, name in ERRORS:
        lines = viewed(f"11 2.3 call 2|11 2.3 reply 1 {number:x}")
        yield lines[1] == f"11 2.3 <- refused: {name}", f"error {number}: {lines[1]}"
    for before, fault, text in FAULTS:
        lines = viewed(f"{before}|9 {fault}" if before else f"9 {fault}")
        yield lines[-1] == f"9 {fault.split()[0]} fault {text}", f"fault {fault}: {lines[-1]}"


def checks_of_lines():
    """Events, runs of lines, and what is picked out."""
    for line, text in (
        ("8 2.2 byte 68", '8 2.2 console "h"'),
        ("8 2.2 byte 22", '8 2.2 console "\\""'),
        ("50 2.1 end", "50 2.1 its handler ends"),
        ("50 2.3 end", "50 2.3 ends"),
        ("40 2.1 irq 3", "40 2.1 interrupt 3 starts its handler"),
        ("51 3 gone", "51 3 is dead: killed by an event"),
        ("end 100 done", "end 100 all events were played"),
        ("end 0 limit", "end 0 the step limit was met"),
        ("20 2.2 retry", "20 2.2 makes its call again at its next turn"),
    ):
        yield viewed(line) == [text], f"{line}: {viewed(line)}"
    yields = "|".join(f"{step} {thread} call 3|{step} {thread} reply 0" for step, thread in ((1, 2.2), (4, 2.2), (7, 2.3), (9, 2.2)))
    folded = ["1-9 2.2 Yield(), 3 times", "7 2.3 Yield()", "end 9 all events were played"]
    yield viewed(f"{yields}|end 9 done") == folded, "a run of Yields"
    yield len(viewed(yields, folds=False)) == 8, "Yields that aren't folded"
    tries = "|".join(f"{step} 2.2 call 11 62 61 63 6b|{step} 2.2 retry" for step in (20, 30, 40))
    again = "makes Connect again at its next turn: no live server is 'back'"
    yield viewed(tries) == ["20 2.2 Connect('back')", f"20-40 2.2 {again}, 3 times so far"], "a run of retries"
    served = f"{tries}|50 2.2 call 11 62 61 63 6b|50 2.2 reply 7 3"
    yield viewed(served)[2:] == ["50 2.2 Connect('back')", "50 2.2 <- cid 3"], "a retry that is served"
    full = viewed("1 2.2 call 10 2 4 1|1 2.2 retry")
    yield full[1] == "1 2.2 makes SendMessage again at its next turn: the server's 128 slots are in use", "a full server"
    both = "1 2.2 byte 41|1 2.2 byte 0a|2 2.2 byte 42|3 2.3 byte 43"
    yield viewed(both) == ['1 2.2 console "A\\n"', '2 2.2 console "B"', '3 2.3 console "C"'], "bytes of the console"
    lend = LENT + "|5 3.2 call 10 2 5 7|5 2.2 reply 9 1 5 7|6 2.2 call 1a 1 2a|6 2.2 reply 0|6 3.2 reply e 2a|7 3 gone"
    yield [line.split()[1] for line in viewed(lend, only=[(3, None)])] == ["3.2"] * 4 + ["3"], "one process"
    yield viewed(lend, only=[(3, 1)]) == ["7 3 is dead: killed by an event"], "one thread"
    calls = viewed(lend, calls=[16])
    yield calls == [
        "5 3.2 SendMessage(cid 2, BlockingScalar, id 7, arguments 0, 0, 0, 0) to 1:0:0:0",
        "6 3.2 <- value 42 (SendMessage of step 5)",
    ], f"one call: {calls}"


def checks_of_senders():
    """Who a message comes from, where it waited, and where that isn't known."""
    two = LENT + "|4 4.2 call 11 1|4 4.2 reply 7 2"
    sent = "5 3.2 call 10 2 4 7 1|5 2.2 reply 9 1 4 7 1|5 3.2 reply 0"
    sent += "|6 4.2 call 10 2 4 7 1|6 4.2 reply 0|7 3.2 call 10 2 4 7 1|7 3.2 reply 0"
    taken = "8 2.2 call f 1|8 2.2 reply 9 2 4 7 1|9 2.2 call f 1|9 2.2 reply 9 3 4 7 1"
    senders = [line.split(" from ")[1].split()[0] for line in viewed(f"{two}|{sent}|{taken}") if " from " in line]
    yield senders == ["3.2", "4.2", "3.2"], f"the order of a queue: {senders}"
    refused = f"{two}|5 3.2 call 10 2 1 7 60000000|5 3.2 reply 1 1|6 4.2 call 10 2 5 7 1|6 2.2 reply 9 1 5 7 1"
    yield "from 4.2 " in viewed(refused)[-1], "a send that was refused isn't queued"
    gone = f"{LENT}|4 2.2 reply 9 1 4 1|5 3.2 call 10 2 5 7 9|6 3 gone|7 2.2 call f 1|7 2.2 reply 9 2 5 7 9"
    yield "from an unknown sender" in viewed(gone)[-1], "a message of the dead is taken out"
    stray = viewed("5 3.2 call 10 2 5 7 9|5 2.2 reply 9 8 5 7 9")
    yield "message 8 from 3.2 " in stray[-1], "a message of this step to an unknown server"
    passed = f"{LENT}|5 3.2 call 10 2 1 7 60000000 1000|5 2.2 reply 9 1 1 7 40000000 1000|6 2.2 call 2c 1 9|6 2.2 reply 0"
    taken = viewed(f"{passed}|7 4.2 call f 5|7 4.2 reply 9 1 1 7 40000000 1000")
    yield "message 1 from 3.2 " in taken[-1], "a message that is passed on to an unknown server"
    stray = viewed("5 3.2 call 10 2 5 7 9|6 2.2 reply 9 8 5 7 9")
    yield "message 8 from an unknown sender " in stray[-1], "a message that may be another one"


BAD = (
    "",
    "62 3.2 call 00000010",
    "62 3.2 call 00000010 00000002 00000001 00000007 60001000 00001000 00000000 0000000",
    "62 3.2 call 00000010 00000002 00000001 00000007 60001000 00001000 00000000 0000000G",
    "62 3.2 call 00000010 00000002 00000001 00000007 60001000 00001000 00000000  0000000",
    "62 3.2 call 0000001 000000002 00000001 00000007 60001000 00001000 00000000 00000000",
    "62 3 call 00000010 00000002 00000001 00000007 60001000 00001000 00000000 00000000",
    "062 3.2 retry",
    "62 3.2 retry ",
    "62 3.2 byte 6",
    "62 3.2 byte 6A",
    "62 3.2 fault 15",
    "62 3.2 irq 3",
    "62 3.2 gone",
    "end done",
    "end 62 dane",
    "event fault at line 3",
)


def run(*words, given=b"", **how):
    command = [sys.executable, VIEW, *words]
    return subprocess.run(command, input=given, capture_output=True, check=False, timeout=600, **how)


def checks_of_bad_lines():
    for line in BAD:
        ran = run(given=f"end 1 done\n{line}\n".encode())
        good = ran.returncode == 1 and ran.stdout == f"end 1 all events were played\n{line}\n".encode()
        yield good and ran.stderr == b"xous-view: warning: 1 line is no line of a transcript\n", f"bad line {line}"
    ran = run("-", given=b"8 2.2 byte 68\n\xff\xfe\n8 2.2 byt")
    yield ran.stdout == b'8 2.2 console "h"\n\xff\xfe\n8 2.2 byt\n' and ran.returncode == 1, "bytes that are no text, and a cut line"
    yield b"2 lines are no lines of a transcript" in ran.stderr, "two bad lines"


def checks_of_command(folder):
    lend = EXAMPLES / "lend"
    missing = pathlib.Path(folder, "missing")
    for words, status, text in (
        (["--help"], 0, "--only PID[.TID]"),
        ([missing], 1, "xous-view: " + str(missing) + ": No such file"),
        ([lend / "expected", "--image", missing], 1, "missing: No such file"),
        ([lend / "expected", "--image", lend / "expected"], 1, "image fault NotXArg at 0"),
        ([lend / "expected", "--only", "x"], 2, "x is no PID and no PID.TID"),
        ([lend / "expected", "--calls", "Send"], 2, "Send is no call; the calls are MapMemory, "),
        ([lend / "expected", "--elf", "client.elf"], 2, "isn't PID=FILE"),
        ([lend / "expected", "--chart", "a.png"], 2, "ends with none of .svg, .html and .json"),
        ([lend / "expected", "--chart", "a.svg", "--summary"], 2, "give one of them"),
        ([lend / "expected", "--image", lend / "image"], 0, "\n81 client.2 SendMessage(cid 2, MutableLend, id 7, "),
        ([lend / "expected", "--image", lend / "image"], 0, "\n81 server.2 <- message 1 from client.2 MutableLend id 7 at 40000000+1000, "),
        ([EXAMPLES / "deaths/expected", "--image", EXAMPLES / "deaths/image"], 0, "\n54 lender(3) is dead: killed by an event\n"),
    ):
        ran = run(*words)
        said = (ran.stdout + ran.stderr).decode()
        yield ran.returncode == status and text in said, f"command {words}: {ran.returncode} {said[-200:]}"


# Two servers that send to each other and wait for the answers.
RING = """1 2.2 call e 72 69 6e 67|1 2.2 reply 13 72 69 6e 67 2|2 3.2 call e 72 6f 6e 64|2 3.2 reply 13 72 6f 6e 64 2
3 2.2 call 11 72 6f 6e 64|3 2.2 reply 7 3|4 3.2 call 11 72 69 6e 67|4 3.2 reply 7 3
5 2.2 call 10 3 5 1|9 3.2 call 10 3 1 9 60000000 2000""".replace("\n", "|")
SPARE = "|".join(["4 3.2 call 12 10000 60001000|4 3.2 reply a 3", RING])
FULL = f"{LENT}|3 3.2 call 10 2 4 1|3 3.2 retry|6 3.2 call 10 2 4 1|6 3.2 retry"
JOINERS = "1 2.2 call 12 10000|1 2.2 reply a 3|2 2.3 call 24 2|3 2.2 call 24 3"


def summed(lines, named=None):
    told = summary.Summary(named or names.Names(), view.Filter())
    for line in lines.split("|"):
        told.feed(spelled(line))
    return list(told.report())


def example(path, image=None):
    read = read_image(EXAMPLES / image) if image else None
    named = names.Names(names_of(read), None, sections_of(read)) if read else None
    text = (EXAMPLES / path).read_text().splitlines()
    return summed("|".join(text), named)


def checks_of_summaries():
    lend = example("lend/expected", "lend/image")
    yield lend == [
        "140 steps in 21 lines; all events were played",
        "",
        "threads",
        "  server.2: 4 calls: CreateServerWithAddress 1, ReceiveMessage 2, ReturnMemory 1",
        "    received 1 message: MutableLend 1",
        "    waited 82 steps: 82 for messages",  # 81 - 33 and 140 - 106
        "  client.2: 5 calls: MapMemory 2, Connect 1, SendMessage 1, TerminateProcess 1",
        "    sent 1 message: MutableLend 1; 1 page lent",
        "    waited 15 steps: 15 for answers",  # 96 - 81
        "    wrote 3 bytes to the console",
        "    died with its process at step 140",
        "",
        "servers",
        '  "fill" of server, made at step 14: MutableLend 1, 1 page lent to it',
        "",
        "deaths",
        "  140 client: TerminateProcess(exit 0)",
        "",
        "at the end, after step 140",
        '  server.2 waits for a message at "fill", since step 106',
        "  nobody waits in a circle",
    ], f"the summary of lend: {lend}"
    for lines, line in (
        (example("race/lose.expected", "race/image"), '  client.2 looked for "race" at step 12; server.2 made it at step 38'),
        (example("deaths/expected"), "  54 3: killed by an event"),
        (example("deaths/expected"), "  137 4: TerminateProcess(exit 1100)"),
        (example("fault/expected"), "  80 3: fault 15 of thread 3"),
        (example("forward/expected"), "    waited 111 steps: 72 for another try, 39 for messages"),  # 98 - 26 and 180 - 141
        (example("forward/expected"), '  "back" of 3, made at step 40: no messages, 1 message passed on to it'),
        (example("driver/expected"), "    ran its handler 3 times"),
        (example("threads/picked.expected"), "    waited 86 steps: 86 for threads to end"),  # 104 - 61 and 165 - 122
        (example("threads/expected"), "    errors: InvalidThread 1"),
        (summed(RING), "  cycle: 2.2 -> 3.2 -> 2.2 (each waits for the next)"),
        (summed(RING), "  2.2 waits for the answer to its BlockingScalar id 1, which is queued at 'rond' of 3, since step 5"),
        (summed(RING), "  'ring' of 2, made at step 1: MutableLend 1, 2 pages lent to it"),
        (summed(RING), "9 steps in 10 lines; there is no last line"),
        (summed(SPARE), "  nobody waits in a circle"),  # thread 3 of pid 3 may still answer
        (summed(SPARE), "  3.3 is ready"),
        (summed(JOINERS), "  cycle: 2.2 -> 2.3 -> 2.2 (each waits for the next)"),
        (summed("1 2.2 call e 1|1 2.2 reply 13 1 0 0 0 2|2 2.2 call 10 2 5 7"), "  cycle: 2.2 -> 2.2 (each waits for the next)"),
        (summed(FULL), "  3.2 is to try SendMessage again: the slots of 1:0:0:0 of 2 are in use, since step 3"),
        (summed(FULL), "    waited 3 steps: 3 for another try"),
        (summed("1 2.2 call 11 62 61 63 6b|1 2.2 retry"), "  2.2 is to try Connect again: no live server is 'back', since step 1"),
        (summed("5 2.3 end|5 2 gone"), "  5 2: its last thread ended"),
    ):
        yield line in lines, f"summary: {line}: {lines}"


def elf_with_line():
    """A program whose function `store` has 12 bytes at 0x10020: 8 of line 5 of client.c, and 4 of line 6."""
    abbreviations = bytes([1, 0x11, 0, 0x10, 0x17, 0, 0, 0])  # a unit with the place of its lines
    unit = struct.pack("<HIBBI", 4, 0, 4, 1, 0)
    head = bytes([1, 1, 251, 14, 10, 0, 1, 1, 1, 1, 0, 0, 0, 1]) + b"\0" + b"src/client.c\0\0\0\0" + b"\0"
    steps = b"\0\5\2" + struct.pack("<I", 0x1_0020) + bytes([3, 4, 1, 2, 8, 3, 1, 1, 2, 4, 0, 1, 1])
    lines = struct.pack("<HI", 2, len(head)) + head + steps
    names_of_symbols = b"\0store\0"
    symbols_table = bytes(16) + struct.pack("<IIIBBH", 1, 0x1_0020, 12, 2, 0, 1)
    parts = [
        (b".text", 1, 6, 0x1_0020, bytes(12), 0, 0),
        (b".symtab", 2, 0, 0, symbols_table, 3, 16),
        (b".strtab", 3, 0, 0, names_of_symbols, 0, 0),
        (b".debug_abbrev", 1, 0, 0, abbreviations, 0, 0),
        (b".debug_info", 1, 0, 0, struct.pack("<I", len(unit)) + unit, 0, 0),
        (b".debug_line", 1, 0, 0, struct.pack("<I", len(lines)) + lines, 0, 0),
    ]
    title = b"\0" + b"".join(name + b"\0" for name, *_ in parts) + b".shstrtab\0"
    parts.append((b".shstrtab", 3, 0, 0, title, 0, 0))
    rows, data = [bytes(40)], b""
    for name, kind, flags, address, contents, link, size in parts:
        place = title.index(b"\0" + name + b"\0") + 1
        rows.append(struct.pack("<10I", place, kind, flags, address, 52 + len(data), len(contents), link, 1 if link else 0, 1, size))
        data += contents
    head = b"\x7fELF\1\1\1" + bytes(9)
    head += struct.pack("<HHIIIIIHHHHHH", 2, 243, 1, 0x1_0020, 0, 52 + len(data), 0, 52, 0, 0, 40, len(rows), len(rows) - 1)
    return head + data + b"".join(rows)


def checks_of_symbols(folder):
    path = pathlib.Path(folder, "client.elf")
    path.write_bytes(elf_with_line())
    found = Program(str(path))
    named = names.Names({3: "client"}, {3: found})
    for line, text in (
        ("66 3.2 call 12 10020 20001000 7", "66 client.2 CreateThread(entry 10020 <store client.c:5>, sp 20001000, arguments 7, 0, 0, 0)"),
        ("9 3.2 call 5 3 10028 2", "9 client.2 ClaimInterrupt(interrupt 3, handler 10028 <store+8 client.c:6>, argument 2)"),
        ("9 3.2 fault 3 00010024", "9 client.2 fault 3: EBREAK at 10024 <store+4 client.c:5>"),
        ("9 3.2 fault 3 0001002c", "9 client.2 fault 3: EBREAK at 1002c"),
        ("9 3.2 fault 3 0001001c", "9 client.2 fault 3: EBREAK at 1001c"),
        ("9 2.2 fault 3 00010024", "9 2.2 fault 3: EBREAK at 10024"),
    ):
        yield viewed(line, named) == [text], f"symbols: {viewed(line, named)}"
    found.close()
    path.write_bytes(b"no ELF file")
    ran = run(EXAMPLES / "lend/expected", "--elf", f"3={path}")
    yield ran.returncode == 1 and b"client.elf: " in ran.stderr and ran.stderr.count(b"\n") == 1, "a file that is no ELF file"


class Words(Case):
    def test_words(self):
        self.hold(checks_of_words())

    def test_lines(self):
        self.hold(checks_of_lines())

    def test_senders(self):
        self.hold(checks_of_senders())

    def test_identifiers(self):
        """One letter in each word, four in each, or fewer than four in all; else numbers."""
        for text, wanted in (("66 69 6c 6c", "'fill'"), ("766b72", '"rkv"'), ("6264", '"db"'), ("6b", '"k"'), ("1 2 3 4", "1:2:3:4")):
            self.assertEqual(viewed(f"1 2.2 call 11 {text}"), [f"1 2.2 Connect({wanted})"])

    def test_long_line(self):
        """A line of 50 MB is handed on within a few seconds of the processor."""
        line = b"x" * 50_000_000
        began = time.process_time()
        lines = [text for part in view.lines_of(io.BytesIO(line + b"\nend 1 done\n")) for text in part]
        self.assertEqual([len(text) for text in lines], [len(line), 10])
        self.assertLess(time.process_time() - began, 5)


class Command(Case):
    def test_bad_lines(self):
        self.hold(checks_of_bad_lines())

    def test_words(self):
        self.hold(checks_of_command(self.folder))

    def test_symbols(self):
        need("elftools", "riscv64-unknown-elf-addr2line")
        self.hold(checks_of_symbols(self.folder))


class Summaries(Case):
    def test_summaries(self):
        self.hold(checks_of_summaries())
