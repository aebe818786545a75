"""Programs as linkers write them: an ELF file's segments as the sections of a process.

A segment may begin anywhere. Its pages are loaded whole, and a page that two segments share has the
rights of both, but never the right to write and the right to execute.
"""

from __future__ import annotations

import io
import os
import re
import struct
import sys
from dataclasses import dataclass, field
from itertools import groupby

from ..errors import Refusal
from ..files import MOST_ELF_BYTES, read_whole
from ..images.layout import EXECUTABLE, IMAGE_WINDOW, MOST_SECTIONS, WRITABLE, ZERO_FILLED, Process, Section
from ..machine import PAGE
from . import arguments

SYMBOL = "<IIIBBH"  # a row of a symbol table
RVC, FLOAT_ABI = 1, 6  # bits of the flags word of a RISC-V file
SEGMENT_EXECUTE, SEGMENT_WRITE = 1, 2
SECTION_ALLOCATED = 2
EXTENSIONS = {"i", "m", "a", "zmmul", "zaamo", "zalrsc", "zifencei"}  # what the machine has
ARCH_TAG = 5  # of the attributes of a RISC-V file
CONSTRUCTORS = {".preinit_array", ".init_array", ".ctors"}
DESTRUCTORS = {".fini_array", ".dtors"}
CONSTRUCTORS_SYMBOL = "__init_array_start"  # there where the program's start reads the list
COMPILE = "compile with -march=rv32ima -mabi=ilp32 (gcc), or -Ctarget-feature=-c,-zca and std built anew (rustc)"
# What a library raises that trusts the numbers of a broken file.
BROKEN = (struct.error, ValueError, IndexError, KeyError, TypeError, AttributeError, OverflowError, AssertionError, RecursionError)
LINK = "link with -T examples/kit/link.ld (gcc), or with ld.lld and --image-base=0x10000"


@dataclass
class Segment:
    number: int
    name: str  # of its first section
    address: int
    size: int
    rights: int
    data: bytes

    def end(self):
        return self.address + self.size

    def pages(self):
        return range(self.address // PAGE, -(-self.end() // PAGE))

    def __str__(self):
        name = f" ({self.name})" if self.name else ""
        return f"segment {self.number}{name} at 0x{self.address:08x} with {self.size} bytes"


@dataclass
class Page:
    rights: int = 0
    data: bytearray = field(default_factory=bytearray)  # from the file
    used: int = 0  # how many bytes have memory
    segments: list = field(default_factory=list)


def elf_library():
    """The reader of ELF files, and what it raises for broken ones."""
    try:
        from elftools.common.exceptions import ELFError
        from elftools.construct import ConstructError
        from elftools.elf.elffile import ELFFile
    except ImportError:
        raise Refusal(f"pyelftools is missing for {sys.executable}: apt-get install python3-pyelftools") from None
    return ELFFile, (ELFError, ConstructError, *BROKEN)


# What the machine can't run.


def number_at(data, at):
    """A number in groups of seven bits, and where it ends."""
    value = shift = 0
    while True:
        value |= (data[at] & 0x7F) << shift
        shift += 7
        at += 1
        if data[at - 1] < 0x80:
            return value, at


def architecture(elf):
    """The text of Tag_RISCV_arch, or none."""
    section = elf.get_section_by_name(".riscv.attributes")
    data = section.data() if section else b""
    at = 5 + len(b"riscv\0") + 5  # a version, a length and a name; then the tag and the length of the file's part
    try:
        while at < len(data):
            tag, at = number_at(data, at)
            if tag % 2 == 0:
                _, at = number_at(data, at)
                continue
            end = data.index(0, at)
            if tag == ARCH_TAG:
                return data[at:end].decode("ascii", "replace")
            at = end + 1
    except (IndexError, ValueError):
        pass
    return None


def extensions(text):
    """The names in an architecture, such as rv32i2p1_m2p0_zmmul1p0."""
    for part in text.lower().removeprefix("rv32").split("_"):
        if part and part[0] in "zsx":
            yield re.sub(r"\d+p\d+$", "", part)
        else:
            yield from re.findall(r"([a-wy])(?:\d+(?:p\d+)?)?", part)


def refuse_foreign(path, elf):
    header = elf.header
    if elf.elfclass != 32 or not elf.little_endian or header["e_machine"] != "EM_RISCV":
        raise Refusal(f"{path}: not a 32-bit RISC-V file; {COMPILE}")
    if header["e_type"] != "ET_EXEC":
        how = "link it to a program at fixed addresses, with -static and without -pie"
        raise Refusal(f"{path}: not a linked program (its type is {header['e_type']}); {how}")
    if header["e_flags"] & RVC:
        raise Refusal(f"{path}: has compressed instructions; {COMPILE}")
    if header["e_flags"] & FLOAT_ABI:
        raise Refusal(f"{path}: passes floating point in registers; {COMPILE}")
    unknown = [name for name in extensions(architecture(elf) or "") if name not in EXTENSIONS]
    if unknown:
        names = ", ".join(name if len(name) > 1 else name.upper() for name in unknown)
        raise Refusal(f"{path}: has code for {names}, which the machine, an RV32IMA, lacks; {COMPILE}")


def refuse_constructors(path, elf, symbols):
    for section in elf.iter_sections():
        if not section["sh_size"] or not section["sh_flags"] & SECTION_ALLOCATED:
            continue
        if section.name in CONSTRUCTORS and (section.name != ".init_array" or CONSTRUCTORS_SYMBOL not in symbols):
            how = "compile the kit's start.S with -DCONSTRUCTORS and don't strip the program, or call them from main"
            raise Refusal(f"{path}: section {section.name}: nothing runs these constructors; {how}")
        if section.name in DESTRUCTORS:
            raise Refusal(f"{path}: section {section.name}: nothing runs destructors; call them at the end of main")


# Segments and pages.


def first_section(elf, address, end):
    """The name of the first section that has memory there."""
    names = [
        (section["sh_addr"], section.name)
        for section in elf.iter_sections()
        if section["sh_flags"] & SECTION_ALLOCATED and section["sh_size"] and address <= section["sh_addr"] < end
    ]
    return min(names, default=(0, ""))[1]


def segments_of(path, elf):
    """The segments that have memory, by address."""
    found = []
    for number, each in enumerate(elf.iter_segments()):
        if each["p_type"] == "PT_TLS" and each["p_memsz"]:
            how = "compile with -femulated-tls, or keep it in a table by thread id"
            raise Refusal(f"{path}: segment {number}: thread-local data has no place in an image; {how}")
        if each["p_type"] != "PT_LOAD" or not each["p_memsz"]:
            continue
        address, size, flags = each["p_vaddr"], each["p_memsz"], each["p_flags"]
        rights = WRITABLE * bool(flags & SEGMENT_WRITE) | EXECUTABLE * bool(flags & SEGMENT_EXECUTE)
        name = first_section(elf, address, address + size)
        found.append(Segment(number, name, address, size, rights, each.data()))
    if not found:
        raise Refusal(f"{path}: no segment of it has memory; give a linked program")
    return sorted(found, key=lambda segment: segment.address)


def check_segment(path, segment, before):
    pages = segment.pages()
    if pages[0] not in IMAGE_WINDOW or pages[-1] not in IMAGE_WINDOW:
        where = "isn't in the Image window, 0x00010000 to 0x00ffffff (SectionOutside)"
        raise Refusal(f"{path}: {segment} {where}; {LINK}")
    if before and segment.address < before.end():
        raise Refusal(f"{path}: {segment} overlaps {before} (SectionsOverlap); {LINK}")


def pages_of(path, segments):
    """The pages of these segments by their number, in order."""
    pages = {}
    for before, segment in zip([None, *segments], segments):
        check_segment(path, segment, before)
        for number in segment.pages():
            page = pages.setdefault(number, Page())
            page.rights |= segment.rights
            page.segments.append(segment)
            begin = max(segment.address - number * PAGE, 0)
            page.used = min(segment.end() - number * PAGE, PAGE)
            first = number * PAGE + begin - segment.address
            data = segment.data[first : first + PAGE - begin]
            if data:
                page.data += bytes(begin - len(page.data)) + data
    for number, page in pages.items():
        refuse_both_rights(path, number, page)
    return pages


def refuse_both_rights(path, number, page):
    if page.rights & WRITABLE and page.rights & EXECUTABLE:
        names = " and ".join(str(segment) for segment in page.segments)
        rule = f"the page at 0x{number * PAGE:08x} would be writable and executable, and no page is both"
        raise Refusal(f"{path}: {names}: {rule}; {LINK}, and without -N")


def sections_of(pages):
    """One section for each run of pages of one right, with bytes of the file or without."""

    def kind(item):
        place, (number, page) = item
        return number - place, page.rights, bool(page.data)

    sections = []
    for (_, rights, full), run in groupby(enumerate(sorted(pages.items())), key=kind):
        run = [item for _, item in run]
        first, last = run[0][0], run[-1][1]
        size = PAGE * (len(run) - 1) + (len(last.data) if full else last.used)
        data = b"".join(bytes(page.data).ljust(PAGE, b"\0") for _, page in run)[:size] if full else b""
        sections.append(Section(first * PAGE, size, rights | ZERO_FILLED * (not full), data))
    return sections


# The process of a program.


def symbol_rows(elf):
    """The name, address, size, kind and section of each symbol. pyelftools takes a second for 20,000 of them, so rows are read here."""
    table = elf.get_section_by_name(".symtab")
    if table is None:
        return
    names, data = elf.get_section(table["sh_link"]).data(), table.data()
    for at, value, size, info, _, section in struct.iter_unpack(SYMBOL, data[: len(data) // 16 * 16]):
        yield names[at : max(names.find(b"\0", at), at)].decode("utf-8", "replace"), value, size, info & 15, section


def symbols_of(elf):
    """The addresses of symbols by name."""
    return {name: value for name, value, *_ in symbol_rows(elf)}


def refuse_other_files(path, file):
    """Says of a file that is no ELF file what it is."""
    start = file.read(4)
    file.seek(0)
    if not start:
        raise Refusal(f"{path}: the file is empty; give a linked program")
    if start == b"XArg":
        raise Refusal(f"{path}: a boot image, and no program; the image to write is the first word")
    if start != b"\x7fELF":
        raise Refusal(f"{path}: no ELF file; give a linked program, as make -C examples out/hello/hello.elf makes it")


def read_elf(path, file, words):
    elf_file, _ = elf_library()
    refuse_other_files(path, file)
    elf = elf_file(file)
    refuse_foreign(path, elf)
    symbols = symbols_of(elf)
    refuse_constructors(path, elf, symbols)
    pages = pages_of(path, segments_of(path, elf))
    frames = elf.get_section_by_name(".eh_frame")
    unwinding = frames["sh_addr"] if frames and frames["sh_size"] else 0
    name = os.path.basename(path).removesuffix(".elf")
    block = arguments.fill(arguments.Target(path, name, symbols, pages, unwinding), words)
    return Process(elf.header["e_entry"], sections_of(pages) + block, os.fsencode(name), path=path)


def read_program(path, words=None):
    """The process of a program, with the words that are meant for it."""
    _, errors = elf_library()
    try:
        process = read_elf(path, io.BytesIO(read_whole(path, MOST_ELF_BYTES)), words or arguments.Words())
    except errors as error:
        raise Refusal(f"{path}: a broken ELF file ({error or 'it is too short'}); give a linked program") from None
    if len(process.sections) > MOST_SECTIONS:
        most = f"an image takes at most {MOST_SECTIONS} a process"
        raise Refusal(f"{path}: has {len(process.sections)} runs of pages of one right; {most}; {LINK}")
    return process
