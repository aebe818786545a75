"""Boot images as docs/image.md has them: their parts, how they are written, and the plan that a run makes."""

from __future__ import annotations

import struct
from dataclasses import dataclass, field

from ..checksum import check_number
from ..errors import Fault
from ..machine import FIRST_PID, PAGE, TABLE_FRAMES

RAM_START = 0x4000_0000
RAM_END = 0xF000_0000
LARGEST_RAM = 64 << 20
LARGEST_FILE = 64 << 20
IMAGE_WINDOW = range(0x10, 0x1000)  # page numbers
WRITABLE, ZERO_FILLED, EXECUTABLE = 1, 2, 4
KNOWN_FLAGS = 31
VERSIONS = (1, 2)
MOST_PROCESSES = {1: 32, 2: 64}  # by version
MOST_SECTIONS = 32
OWN_PAGES = 9  # eight of the stack and one for interrupts
XARG_WORDS = 7


@dataclass
class Section:
    address: int
    size: int
    flags: int
    data: bytes = b""
    name: str = ""

    def file_size(self):
        return 0 if self.flags & ZERO_FILLED else self.size

    def pages(self):
        first = self.address // PAGE
        return range(first, first + -(-self.size // PAGE))


@dataclass
class Process:
    entry: int
    sections: list
    name: bytes = b""
    load: int = 0
    check: int = 0  # the check word, in version 2
    path: str = ""

    def file_size(self):
        return sum(section.file_size() for section in self.sections)

    def file_bytes(self):
        return b"".join(section.data for section in self.sections)


@dataclass
class Image:
    ram_start: int
    ram_size: int
    processes: list
    version: int = 2
    slots: int | None = None  # of the swap store, in version 2
    ram_name: bytes = b"sram"
    row: int = 0  # bytes of the row of tags
    length: int = 0  # bytes of the file
    names: list = field(default_factory=list)


# The tags.


def tag(name, contents):
    return name + struct.pack("<HH", check_number(contents), len(contents) // 4) + contents


def padded(data):
    return data + bytes(-len(data) % 4)


def slots_tag(image):
    return b"" if image.slots is None else tag(b"SwpS", struct.pack("<I", image.slots))


def ini(process, version):
    words = [process.load, process.entry] + [process.check] * (version == 2)
    for section in process.sections:
        words += [section.address, section.flags << 24 | section.size]
    return tag(b"IniE", struct.pack(f"<{len(words)}I", *words))


def names_tag(processes):
    entries = b""
    for pid, process in enumerate(processes, FIRST_PID):
        entries += struct.pack("<II", pid, len(process.name)) + padded(process.name)
    return tag(b"PNam", entries)


def write(image):
    """The bytes of the image file; sets load offsets and check words of its processes, and its lengths."""
    image.row = XARG_WORDS * 4 + len(tags_after_head(image))
    offset = image.row
    for process in image.processes:
        process.load = offset
        process.check = check_number(process.file_bytes())
        offset += process.file_size()
    image.length = offset
    head = struct.pack("<IIII", image.row // 4, image.version, image.ram_start, image.ram_size)
    row = tag(b"XArg", head + image.ram_name) + tags_after_head(image)
    return row + b"".join(process.file_bytes() for process in image.processes)


def tags_after_head(image):
    processes = b"".join(ini(process, image.version) for process in image.processes)
    return slots_tag(image) + processes + names_tag(image.processes)


# The plan: what a run would refuse of a list of processes.


def check_ram(start, size):
    if start % PAGE or size % PAGE or not 0 < size <= LARGEST_RAM or start + size > RAM_END:
        raise Fault("BadRam", 16)


def check_section(pid, earlier, section):
    if section.address % PAGE:
        raise Fault("SectionMisaligned", pid, section)
    pages = section.pages()
    if pages and not (pages[0] in IMAGE_WINDOW and pages[-1] in IMAGE_WINDOW):
        raise Fault("SectionOutside", pid, section)
    for other in earlier:
        theirs = other.pages()
        if pages and theirs and pages[0] <= theirs[-1] and theirs[0] <= pages[-1]:
            raise Fault("SectionsOverlap", pid, section)


def check_entry(pid, process):
    page = process.entry // PAGE
    code = (section for section in process.sections if section.flags & EXECUTABLE)
    if process.entry % 4 or not any(page in section.pages() for section in code):
        raise Fault("EntryOutside", pid)


def check_plan(image, data, slots=None):
    """Raises the first fault of the plan; SLOTS of a run take the place of the image's."""
    for pid, process in enumerate(image.processes, FIRST_PID):
        for place, section in enumerate(process.sections):
            check_section(pid, process.sections[:place], section)
        end = process.load + process.file_size()
        if process.load < image.row or end > image.length:
            raise Fault("LoadOutside", pid)
        if image.version == 2 and process.check != check_number(data[process.load : end]):
            raise Fault("BadLoad", pid)
        check_entry(pid, process)
    if image.ram_size < least_ram(image, slots):
        raise Fault("RamTooSmall", 0)


def first_pages(processes):
    """How many pages the processes start with."""
    sections = (section for process in processes for section in process.sections)
    return OWN_PAGES * len(processes) + sum(len(section.pages()) for section in sections)


def least_ram(image, slots=None):
    """The least RAM in bytes that boots: page tables, first pages or one of them where the others
    have slots, and one frame that stays free."""
    slots = (image.slots or 0) if slots is None else slots
    pages = max(first_pages(image.processes) - slots, 1)
    return PAGE * (TABLE_FRAMES * len(image.processes) + pages + 1)
