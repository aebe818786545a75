"""The program's store in real files, and standard streams that are closed.

The runs have room for one page in RAM, so that every change of page is an exchange with the store. They play the
first run's image, and a program that reads pages of which no two are alike.
"""

import os
import pathlib
import resource
import struct
import subprocess

from xous.checksum import check_number
from xous.images import layout as images

from .frame import ROOT, Case, need_program

FIRST = ROOT / "crates" / "xousim"
PAGE = 4096
SLOTS = 9
RAM_BYTES = 23 * PAGE
NOBODY = 65534


def small_image():
    """The image of the first run with a RAM of one frame that isn't a table or kept free."""
    image = bytearray((FIRST / "data" / "first.img").read_bytes())
    struct.pack_into("<I", image, 20, RAM_BYTES)
    struct.pack_into("<H", image, 4, check_number(image[8:28]))
    return bytes(image)


# A program that reads pages of its own, of which one at a time has room in RAM.

READ_PAGES = 20
PAGES_AT = 0x2_0000
PAGE_SLOTS = READ_PAGES + 10  # with the page of the code and nine of stack and interrupts, less one in RAM
# It maps the console; of each page it writes the first byte there, and the first of the upper half.
READER = struct.pack(
    "<16I",
    0x00200513,  # addi a0, zero, 2
    0xF00005B7,  # lui a1, 0xf0000
    0x000016B7,  # lui a3, 1
    0x00600713,  # addi a4, zero, 6
    0x00000073,  # ecall
    0x00020437,  # lui s0, 0x20
    0x000344B7,  # lui s1, 0x34
    0x000013B7,  # lui t2, 1
    0x00044283,  # lbu t0, 0(s0)
    0x00558023,  # sb t0, 0(a1)
    0x7FF40313,  # addi t1, s0, 2047
    0x00134283,  # lbu t0, 1(t1)
    0x00558023,  # sb t0, 0(a1)
    0x00740433,  # add s0, s0, t2
    0xFE9414E3,  # bne s0, s1, -24
    0x0000006F,  # jal zero, 0
)


def page_of_pattern(number):
    """No two pages are alike, nor a half of one to any other half."""
    low = bytes([0x41 + number]) + bytes((7 * number + at) & 0xFF for at in range(1, PAGE // 2))
    return low + bytes([0x61 + number]) + bytes((11 * number + 3 * at) & 0xFF for at in range(1, PAGE // 2))


PATTERNS = [page_of_pattern(number) for number in range(READ_PAGES)]
READ = "".join(chr(0x41 + number) + chr(0x61 + number) for number in range(READ_PAGES)).encode()


def image_of_patterns():
    code = images.Section(0x1_0000, len(READER), images.EXECUTABLE, READER)
    data = images.Section(PAGES_AT, READ_PAGES * PAGE, images.WRITABLE, b"".join(PATTERNS))
    process = images.Process(0x1_0000, [code, data], b"reader")
    return images.write(images.Image(images.RAM_START, RAM_BYTES, [process], 2, PAGE_SLOTS))


class Runs:
    def __init__(self, program, folder):
        self.program = program
        self.folder = pathlib.Path(folder)
        (self.folder / "image").write_bytes(small_image())
        (self.folder / "events").write_bytes((FIRST / "data" / "first.events").read_bytes())
        (self.folder / "bad").write_bytes(b"tick 100\nbad\n")
        (self.folder / "none").write_bytes(b"")

    def read_pages(self, store):
        """Runs the program that reads its pages, over this store."""
        (self.folder / "patterns").write_bytes(image_of_patterns())
        words = [self.program, "run", "patterns", "events", "1000", str(PAGE_SLOTS), store]
        run = subprocess.run(words, cwd=self.folder, capture_output=True, check=False)
        return run.returncode, run.stdout, run.stderr

    def trace(self, store, events="events", closed="", **how):
        """Runs `trace` with this store, and with these redirections of a shell."""
        words = [self.program, "trace", "image", events, "1000", str(SLOTS), store]
        command = ["/bin/sh", "-c", f'exec "$@" {closed}', "sh", *words]
        run = subprocess.run(command, cwd=self.folder, capture_output=True, check=False, **how)
        return run.returncode, run.stdout, run.stderr

    def bytes_of(self, store):
        path = self.folder / store
        return path.read_bytes() if path.exists() else b""


FULL = (FIRST / "stdout").read_bytes()
PLAYED = (0, FULL, b"")
FAULT = (8, b"", b"swap fault\n")


def checks_of_files(runs):
    yield runs.trace("new") == PLAYED, "a store that is made"
    yield len(runs.bytes_of("new")) == SLOTS * PAGE, "the length of a store that is made"
    # Booted alone, the page of the code was pushed out by the nine behind it.
    yield runs.trace("booted", events="none") == (0, b"end 0 done\n", b""), "a run of no events"
    yield any(runs.bytes_of("booted")), "pages in the store"
    yield runs.trace("new") == PLAYED, "a second run over one file"
    tail = b"\xaa" * 5000
    (runs.folder / "long").write_bytes(b"\xbb" * (SLOTS * PAGE) + tail)
    yield runs.trace("long") == PLAYED, "a file that is longer than its slots"
    yield runs.bytes_of("long")[SLOTS * PAGE :] == tail, "the tail of a file that is longer"
    yield b"\xbb" not in runs.bytes_of("long"), "old bytes of a file"
    (runs.folder / "short").write_bytes(b"\xbb" * 100)
    yield runs.trace("short") == PLAYED, "a file that is shorter than its slots"


def checks_of_places(runs):
    """Each slot has one whole page at its own place, and each page comes back as it went."""
    tail = b"\xcc" * (3 * PAGE)
    (runs.folder / "places").write_bytes(b"\xdd" * (PAGE_SLOTS * PAGE) + tail)
    (runs.folder / "events").write_bytes(b"tick 1000\n")  # each page takes nine steps
    wanted = (0, READ, b"")
    yield runs.read_pages("places") == wanted, "pages that come back"
    held = runs.bytes_of("places")
    blocks = [held[at : at + PAGE] for at in range(0, PAGE_SLOTS * PAGE, PAGE)]
    whole = [bytes(PAGE), READER.ljust(PAGE, b"\0"), *PATTERNS]
    yield all(block in whole for block in blocks), "each slot has a whole page"
    missing = sum(pattern not in blocks for pattern in PATTERNS)
    yield missing <= 1, f"all pages but the one in RAM are in the store: {missing} are not"
    yield held[PAGE_SLOTS * PAGE :] == tail, "what a file has behind its slots"
    yield runs.read_pages("fresh") == wanted, "pages that come back from a file that is made"
    yield len(runs.bytes_of("fresh")) == PAGE_SLOTS * PAGE, "the length of a file that is made"


def checks_of_faults(runs):
    yield runs.trace("missing/store") == FAULT, "a folder that isn't there"
    yield runs.trace(".") == FAULT, "a folder in place of a file"
    yield runs.trace("/dev/full") == FAULT, "a device that takes nothing"

    def with_room():
        resource.setrlimit(resource.RLIMIT_FSIZE, (4 * PAGE, 4 * PAGE))

    # Python ignores the signal of that limit, and hands that on.
    full = runs.trace("full", preexec_fn=with_room, restore_signals=False)
    yield full == FAULT, "a device that is full after four pages"
    locked = runs.folder / "locked"
    locked.write_bytes(bytes(PAGE))
    locked.chmod(0o444)
    runs.folder.chmod(0o755)
    user = {"user": NOBODY} if os.geteuid() == 0 else {}
    yield runs.trace("locked", **user) == FAULT, "a file that can't be written to"
    yield runs.bytes_of("locked") == bytes(PAGE), "the bytes of a file that can't be written to"


def checks_of_streams(runs):
    """A stream that is closed isn't taken by the store."""
    runs.trace("plain")
    runs.trace("plain_bad", events="bad")
    for closed, events, status, like in (
        (">&-", "events", 4, "plain"),
        ("2>&-", "events", 0, "plain"),
        ("2>&-", "bad", 6, "plain_bad"),
        ("<&- >&- 2>&-", "events", 4, "plain"),
    ):
        name = f"closed by {closed} with {events}"
        ended, _, _ = runs.trace("closed", events=events, closed=closed)
        yield ended == status, f"{name}: status {ended}"
        held = runs.bytes_of("closed")
        yield len(held) == SLOTS * PAGE, f"{name}: the store's length"
        yield b"call" not in held and b"fault" not in held, f"{name}: text in the store"
        if status != 4:
            yield held == runs.bytes_of(like), f"{name}: other bytes in the store"


class Stores(Case):
    def setUp(self):
        super().setUp()
        self.runs = Runs(need_program(), self.folder)

    def test_files(self):
        self.hold(checks_of_files(self.runs))

    def test_faults(self):
        self.hold(checks_of_faults(self.runs))

    def test_streams(self):
        self.hold(checks_of_streams(self.runs))

    def test_places(self):
        self.hold(checks_of_places(self.runs))
