"""Programs: what of an ELF file becomes which section, and what is refused in which words."""

import pathlib
import struct

from xous.errors import Refusal
from xous.images import making, reading
from xous.images.layout import Section
from xous.programs import elf as program
from xous.programs.arguments import Words

from . import builders
from .frame import Case, need
from .builders import CODE, EXECUTE, READ, THREAD_LOCAL, WRITE, elf, image_of

TEXT = (".text", 0x1_0000, CODE * 2, 8, READ | EXECUTE)
DATA = (".data", 0x1_1000, b"abcde", 5, READ | WRITE)
BSS = (".bss", 0x1_2000, b"", 9000, READ | WRITE)
# As ld.lld lays parts: each begins in the middle of a page, and some share one.
LOW = (".rodata", 0x1_00F4, b"constants", 9, READ)
MIDDLE = (".text", 0x1_0100, CODE * 0x400, 4096, READ | EXECUTE)
HIGH = (".data", 0x1_2008, b"data", 5000, READ | WRITE)
TABLE = (".data", 0x1_1000, bytes(12), 12, READ | WRITE)
WORDS = {"xous_eh_frame": 0x1_1000, "xous_arguments": 0x1_1004, "xous_stack_size": 0x1_1008}


def refused():
    """ELF files, each with a part of the line that refuses it."""
    yield elf([TEXT, DATA], machine=62), "not a 32-bit RISC-V file; compile with"
    yield elf([TEXT], flags=1), "compressed instructions; compile with -march=rv32ima"
    yield elf([TEXT], flags=4), "floating point"
    yield elf([TEXT], kind=1), "not a linked program"
    yield elf([TEXT], kind=3), "without -pie"
    yield elf([]), "no segment of it has memory"
    for arch, names in (
        ("rv32i2p1_m2p0_a2p1_f2p2_zicsr2p0", "F, zicsr"),
        ("rv32i2p1_m2p0_a2p1_zca1p0", "zca"),
        ("rv32imac", "C"),
    ):
        yield elf([TEXT], arch=arch), f"has code for {names}, which the machine"
    far = (".data", 0x100_0000, b"a", 1, READ | WRITE)
    yield elf([TEXT, far]), "segment 1 (.data) at 0x01000000 with 1 bytes isn't in the Image window"
    yield elf([(".text", 0x1_0000, CODE * 2000, 8000, READ | EXECUTE), DATA]), "SectionsOverlap"
    near = (".data", 0x1_0008, b"a", 1, READ | WRITE)
    yield elf([TEXT, near]), "segment 1 (.data) at 0x00010008 with 1 bytes: the page at 0x00010000 would be writable and"
    yield elf([(".text", 0x1_0000, CODE, 4, READ | WRITE | EXECUTE)]), "no page is both; link with -T examples/kit/link.ld"
    yield elf([TEXT], entry=0x2_0000), "EntryOutside); the entry is the symbol _start"
    yield elf([TEXT, (".tdata", 0x2_0000, b"a", 4, READ | WRITE)], segment_kind=THREAD_LOCAL), "thread-local data"
    yield elf([TEXT, (".bss", 0x2_0000, b"", 1_000_000, READ | WRITE)]), "the least RAM that boots is 1108K, or 21 slots"
    yield elf([TEXT, (".init_array", 0x1_1000, bytes(4), 4, READ)]), "-DCONSTRUCTORS"
    yield elf([TEXT, (".fini_array", 0x1_1000, bytes(4), 4, READ)]), "nothing runs destructors"
    yield b"int main(void) {}", "no ELF file; give a linked program"
    yield b"", "the file is empty; give a linked program"
    yield b"XArg", "a boot image, and no program"
    yield b"\x7fELF\1\1\1", "a broken ELF file"
    yield elf([TEXT, DATA], symbols={"xous_arguments": 0x2_0000}), "symbol xous_arguments at 0x00020000 isn't a word"
    yield elf([TEXT, DATA], symbols={"xous_eh_frame": 0x1_1002}), "symbol xous_eh_frame at 0x00011002 isn't a word"


def taken():
    """ELF files, each with the sections (address, size, flags) that it becomes."""
    yield elf([TEXT, DATA, BSS]), [(0x1_0000, 8, 4), (0x1_1000, 5, 1), (0x1_2000, 9000, 3)]
    yield elf([TEXT], arch="rv32i2p1_m2p0_a2p1_zmmul1p0_zaamo1p0_zalrsc1p0"), [(0x1_0000, 8, 4)]
    ctors = (".init_array", 0x1_1000, bytes(4), 4, READ)
    yield elf([TEXT, ctors], symbols={"__init_array_start": 0x1_1000}), [(0x1_0000, 8, 4), (0x1_1000, 4, 0)]
    lld = [(0x1_0000, 0x1100, 4), (0x1_2000, 12, 1), (0x1_3000, 912, 3)]
    yield elf([LOW, MIDDLE, HIGH], entry=0x1_0100), lld
    yield elf([(".text", 0x1_0000, CODE, 4, EXECUTE)]), [(0x1_0000, 4, 4)]


def made_of(data, folder, words=None):
    path = pathlib.Path(folder, "one.elf")
    path.write_bytes(data)
    return making.make(image_of(program.read_program(str(path), words)))


def refusal_of(data, folder, words=None):
    try:
        made_of(data, folder, words)
    except Refusal as refusal:
        return str(refusal)
    return "nothing"


def sections_of(made):
    return [(each.address, each.size, each.flags) for each in reading.read(made).processes[0].sections]


def checks_of_pages(folder):
    """Where the bytes of segments stand that share pages."""
    made = made_of(elf([LOW, MIDDLE, HIGH], entry=0x1_0100), folder)
    image = reading.read(made)
    bytes_of_file = made[image.row :]
    first = bytes(0xF4) + b"constants" + bytes(3) + CODE * 0x400
    yield bytes_of_file == first + bytes(8) + b"data", "segments that begin in the middle of pages"
    yield image.names == [(2, b"one")], "the name of a process"


def block(*lists):
    """A block of arguments and environment, spelled by hand."""
    parts = b""
    for name, texts, count in lists:
        data = struct.pack("<H", count) + b"".join(struct.pack("<H", len(text)) + text for text in texts)
        parts += name + struct.pack("<I", len(data)) + data
    return b"AppP" + struct.pack("<III", 8, 16 + len(parts), 3) + parts


def checks_of_words(folder):
    """The words that a program asks for by symbols."""
    frames = (".eh_frame", 0x1_0040, b"framefra", 8, READ)
    data = elf([TEXT, frames, TABLE], symbols=WORDS)
    made = made_of(data, folder, Words(["--one", "é"], ["LEVEL=3=4"], 512 << 10))
    image = reading.read(made)
    yield sections_of(made)[1:] == [(0x1_1000, 12, 1), (0x1_2000, 64, 0)], "the pages of arguments"
    wanted = block(
        (b"ArgL", [b"one", b"--one", "é".encode()], 3),
        (b"EnvB", [b"LEVEL", b"3=4"], 1),
    )
    yield made.endswith(struct.pack("<III", 0x1_0040, 0x1_2000, 512 << 10) + wanted), "the words and the arguments"
    yield made[image.row + 64 :][:8] == b"framefra", "the frames"
    none = block((b"ArgL", [b"one"], 1), (b"EnvB", [], 0))
    bare = made_of(elf([TEXT, TABLE], symbols=WORDS), folder)
    yield bare.endswith(struct.pack("<III", 0, 0x1_2000, 0) + none), "a program without words"
    for words, text in (
        (Words(["one"]), "--arg is given, and the program has no symbol xous_arguments"),
        (Words([], ["A=1"]), "--env is given, and the program has no symbol xous_arguments"),
        (Words(stack=4096), "--stack is given, and the program has no symbol xous_stack_size"),
    ):
        yield text in refusal_of(elf([TEXT]), folder, words), text
    for words, text in (
        (Words([], ["A"]), "--env A has no value"),
        (Words(["a" * 65536]), "at most 65535"),
        (Words(["\udcff"]), "isn't UTF-8"),
        (Words(stack=4097), "a multiple of 4096"),
        (Words(stack=(8 << 20) + 4096), "from 4K to 8M"),
    ):
        yield text in refusal_of(data, folder, words), text


def checks_of_ram():
    """How much RAM an image gets that isn't told."""
    for pages, size in ((1, 2 << 20), (225, 2 << 20), (226, 3 << 20), (4000, 17 << 20)):
        zeros = Section(0x10_0000, pages * 4096 - 4096, 3)
        image = image_of(builders.process(builders.code(), zeros), ram=0)
        yield making.usual_ram(image) == size, f"the RAM of a program of {pages} pages"
    many = image_of(*[builders.process(builders.code(), Section(0x10_0000, 8 << 20, 3))] * 9, ram=0)
    yield making.usual_ram(many) == 64 << 20, "the largest RAM"


def checks_of_files(folder):
    for data, text in refused():
        said = refusal_of(data, folder)
        yield text in said and "\n" not in said, f"a program refused with {text}: {said}"
    for number, (data, sections) in enumerate(taken()):
        yield sections_of(made_of(data, folder)) == sections, f"the sections of program {number}"


class Programs(Case):
    def test_ram(self):
        self.hold(checks_of_ram())

    def test_files(self):
        need("elftools")
        self.hold(checks_of_files(self.folder))

    def test_pages(self):
        need("elftools")
        self.hold(checks_of_pages(self.folder))

    def test_words(self):
        need("elftools")
        self.hold(checks_of_words(self.folder))
