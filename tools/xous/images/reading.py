"""Reads an image file, or finds its first fault."""

from __future__ import annotations

import struct

from ..checksum import check_number
from ..errors import Fault
from ..machine import MOST_SLOTS
from .layout import (
    KNOWN_FLAGS,
    LARGEST_FILE,
    MOST_PROCESSES,
    MOST_SECTIONS,
    VERSIONS,
    XARG_WORDS,
    Image,
    Process,
    Section,
    check_plan,
    check_ram,
)


def read_head(data):
    if len(data) > LARGEST_FILE:
        raise Fault("TooLong", 0)
    if len(data) < XARG_WORDS * 4:
        raise Fault("TooShort", 0)
    if data[:4] != b"XArg" or data[6:8] != b"\x05\0":
        raise Fault("NotXArg", 0)
    check, words, version, start, size = struct.unpack_from("<HxxIIII", data, 4)
    if check != check_number(data[8:28]):
        raise Fault("BadCheck", 0)
    if version not in VERSIONS:
        raise Fault("BadVersion", 12)
    if words < XARG_WORDS or 4 * words > len(data):
        raise Fault("BadTotal", 8)
    check_ram(start, size)
    return Image(start, size, [], version, None, data[24:28], 4 * words, len(data))


def read_ini(image, at, contents):
    if len(image.processes) == MOST_PROCESSES[image.version]:
        raise Fault("TooManyProcesses", at)
    words = struct.unpack(f"<{len(contents) // 4}I", contents)
    first = 3 if image.version == 2 else 2  # of the words of sections
    count, odd = divmod(len(words) - first, 2)
    if odd or not 1 <= count <= MOST_SECTIONS:
        raise Fault("BadIni", at)
    check = words[2] if image.version == 2 else 0
    sections = [
        Section(address, word & 0xFF_FFFF, word >> 24)
        for address, word in zip(words[first::2], words[first + 1 :: 2])
    ]
    if check > 0xFFFF or any(section.flags & ~KNOWN_FLAGS for section in sections):
        raise Fault("BadIni", at)
    return Process(words[1], sections, load=words[0], check=check)


def read_slots(image, at, contents):
    if image.slots is not None or len(contents) != 4:
        raise Fault("BadSlots", at)
    (slots,) = struct.unpack("<I", contents)
    if slots > MOST_SLOTS:
        raise Fault("BadSlots", at)
    return slots


def read_names(at, contents):
    names, place = [], 0
    while place < len(contents):
        if place + 8 > len(contents):
            raise Fault("BadNames", at)
        pid, length = struct.unpack_from("<II", contents, place)
        end = place + 8 + length
        if end + -length % 4 > len(contents):
            raise Fault("BadNames", at)
        names.append((pid, contents[place + 8 : end]))
        place = end + -length % 4
    return names


def read(data: bytes, slots: int | None = None) -> Image:
    """The image that the bytes spell, or its first fault. SLOTS that a run is given take the place of the image's."""
    image = read_head(data)
    at = XARG_WORDS * 4
    while at < image.row:
        if at + 8 > image.row:
            raise Fault("BadTotal", at)
        name = data[at : at + 4]
        check, words = struct.unpack_from("<HH", data, at + 4)
        contents = data[at + 8 : at + 8 + 4 * words]
        if at + 8 + 4 * words > image.row:
            raise Fault("BadTotal", at)
        if check != check_number(contents):
            raise Fault("BadCheck", at)
        if name == b"IniE":
            image.processes.append(read_ini(image, at, contents))
        elif name == b"SwpS" and image.version == 2:
            image.slots = read_slots(image, at, contents)
        elif name == b"PNam":
            image.names += read_names(at, contents)
        at += 8 + 4 * words
    if not image.processes:
        raise Fault("NoProcess", at)
    check_plan(image, data, slots)
    return image


def bytes_of_sections(process, data):
    """The sections of a process that was read of this file, each with its bytes."""
    at = process.load
    for section in process.sections:
        yield section, data[at : at + section.file_size()]
        at += section.file_size()
