"""Images and programs for the tests."""

import struct

from xous.images import layout as image

RAM = 1 << 20
CODE = struct.pack("<I", 0x0000006F)  # a jump to itself


def code(address=0x1_0000, size=4):
    return image.Section(address, size, image.EXECUTABLE, CODE * (size // 4), ".text")


def zeros(address, size=4096):
    return image.Section(address, size, image.WRITABLE | image.ZERO_FILLED, b"", ".bss")


def process(*sections, entry=0x1_0000):
    return image.Process(entry, list(sections) or [code()], b"one", path="one.elf")


def image_of(*processes, version=2, slots=None, ram=RAM):
    return image.Image(image.RAM_START, ram, list(processes), version, slots)


# ELF files: parts (name, address, bytes in the file, bytes in memory, rights of an ELF segment).

READ, WRITE, EXECUTE = 4, 2, 1
LOAD, THREAD_LOCAL = 1, 7
PROGRAM_BITS, SYMBOL_TABLE, STRING_TABLE, NO_BITS, CONSTRUCTORS, ATTRIBUTES = 1, 2, 3, 8, 14, 0x7000_0003


def attributes(arch):
    """The contents of .riscv.attributes with this architecture."""
    text = b"\x05" + arch.encode() + b"\0"
    file = b"\x01" + struct.pack("<I", 5 + len(text)) + text
    return b"A" + struct.pack("<I", 4 + len(b"riscv\0") + len(file)) + b"riscv\0" + file


def symbol_table(symbols):
    """The bytes of .symtab and .strtab."""
    names, rows = b"\0", bytes(16)
    for name, address in symbols.items():
        rows += struct.pack("<IIIBBH", len(names), address, 4, 0x11, 0, 1)
        names += name.encode() + b"\0"
    return rows, names


class File:
    """An ELF file that grows part by part."""

    def __init__(self):
        self.data = b""
        self.segments, self.sections, self.names = [], [bytes(40)], b"\0"

    def section(self, name, kind, flags, address, data, size=None, link=0, entry=0):
        place = len(self.names)
        self.names += name.encode() + b"\0"
        size = len(data) if size is None else size
        row = struct.pack("<10I", place, kind, flags, address, self.offset(), size, link, 0, 4, entry)
        self.sections.append(row)
        self.data += data

    def offset(self):
        return 4096 + len(self.data)

    def segment(self, name, address, data, size, rights, kind=LOAD):
        self.segments.append(struct.pack("<8I", kind, self.offset(), address, address, len(data), size, rights, 1))
        flags = 2 | bool(rights & WRITE) | 4 * bool(rights & EXECUTE) | 0x400 * (kind == THREAD_LOCAL)
        section_kind = CONSTRUCTORS if name == ".init_array" else PROGRAM_BITS if data else NO_BITS
        self.section(name, section_kind, flags, address, data, size)

    def bytes(self, entry, machine, flags, kind):
        self.section(".shstrtab", STRING_TABLE, 0, 0, self.names + b".shstrtab\0")
        head = b"\x7fELF\1\1\1" + bytes(9)
        counts = (52, 32, len(self.segments), 40, len(self.sections), len(self.sections) - 1)
        words = (kind, machine, 1, entry, 52, self.offset(), flags)
        head += struct.pack("<HHIIIIIHHHHHH", *words, *counts) + b"".join(self.segments)
        return head.ljust(4096, b"\0") + self.data + b"".join(self.sections)


def elf(parts, entry=0x1_0000, machine=243, flags=0, kind=2, arch=None, symbols=None, segment_kind=LOAD):
    """An ELF file with these segments, each of one section."""
    file = File()
    for name, address, data, size, rights in parts:
        file.segment(name, address, data, size, rights, segment_kind if name == ".tdata" else LOAD)
    if arch:
        file.section(".riscv.attributes", ATTRIBUTES, 0, 0, attributes(arch))
    if symbols:
        rows, names = symbol_table(symbols)
        file.section(".symtab", SYMBOL_TABLE, 0, 0, rows, link=len(file.sections) + 1, entry=16)
        file.section(".strtab", STRING_TABLE, 0, 0, names)
    return file.bytes(entry, machine, flags, kind)
