"""Makes the image of some programs: what would be refused at the start of a run is refused here, with one line."""

from __future__ import annotations

import os
from collections import defaultdict

from ..errors import Fault, Refusal
from ..machine import FIRST_PID, MOST_SLOTS, PAGE, TABLE_FRAMES
from ..programs.elf import LINK
from .layout import (
    LARGEST_FILE,
    LARGEST_RAM,
    MOST_PROCESSES,
    ZERO_FILLED,
    check_plan,
    check_ram,
    check_section,
    first_pages,
    least_ram,
    write,
)
from .named import right_text

ROOM = 256  # pages that the usual RAM has at least beside those of the start
WHY = {
    "SectionMisaligned": "isn't at a multiple of 4096",
    "SectionOutside": "isn't in the Image window, 0x00010000 to 0x00ffffff",
    "SectionsOverlap": "shares a page with an earlier section",
}


# Making.


def span(section):
    return f"0x{section.address:08x} with {section.size} bytes"


def ram_refusal(image):
    """That RAM is too small, and what would do."""
    needs = f"RAM of {size_text(image.ram_size)} is too small (RamTooSmall); {least_text(image)}"
    frames = image.ram_size // PAGE - TABLE_FRAMES * len(image.processes) - 1
    slots = first_pages(image.processes) - frames
    if image.version == 2 and frames > 0 and slots <= MOST_SLOTS:
        needs += f", or {slots} slots boot it with this one (--slots {slots})"
    return needs


def refusal_of(fault, image):
    """One line for a fault of the plan."""
    if fault.name == "RamTooSmall":
        return ram_refusal(image)
    if fault.name == "BadRam":
        return "the RAM's size isn't a multiple of 4096 from 4K to 64M (BadRam)"
    process = image.processes[fault.at - FIRST_PID]
    if fault.name == "EntryOutside":
        why = "isn't a multiple of 4 in a section with code"
        how = "the entry is the symbol _start; link with the kit's start.S, or with -e SYMBOL"
        return f"{process.path}: the entry 0x{process.entry:08x} {why} ({fault.name}); {how}"
    section = fault.section
    why = f"{WHY[fault.name]} ({fault.name})"
    return f"{process.path}: section {section.name} at {span(section)} {why}; {LINK}"


def check_limits(image):
    most = MOST_PROCESSES[image.version]
    if len(image.processes) > most:
        limit = f"an image of version {image.version} takes at most {most} (TooManyProcesses)"
        raise Refusal(f"{len(image.processes)} programs; {limit}")
    if image.slots is not None and image.version == 1:
        raise Refusal("an image of version 1 has no slots; leave --format 1 out, or give SLOTS to the run")
    if image.slots is not None and not 0 <= image.slots <= MOST_SLOTS:
        raise Refusal(f"{image.slots} slots; an image has 0 to {MOST_SLOTS} (BadSlots)")


def make(image):
    """The bytes of this image."""
    check_limits(image)
    try:
        check_ram(image.ram_start, image.ram_size)
        for pid, process in enumerate(image.processes, FIRST_PID):
            for place, section in enumerate(process.sections):
                check_section(pid, process.sections[:place], section)
        data = write(image)
        check_plan(image, data)
    except Fault as fault:
        raise Refusal(refusal_of(fault, image)) from None
    if len(data) > LARGEST_FILE:
        raise Refusal(f"the image has {len(data)} bytes; at most 64M are taken (TooLong)")
    return data


def usual_ram(image):
    """RAM for what the processes start with and some pages more, in whole megabytes."""
    needed = PAGE * (TABLE_FRAMES * len(image.processes) + first_pages(image.processes) + 1 + ROOM)
    return min(-(-needed >> 20) << 20, LARGEST_RAM)


def room_text(image):
    """How many pages a run has beside those of the start."""
    frames = image.ram_size // PAGE - TABLE_FRAMES * len(image.processes) - 1
    room = frames + (image.slots or 0) - first_pages(image.processes)
    return f"RAM of {size_text(image.ram_size)} has room for {room} pages more"


def shared_names(processes):
    """A line for each name that several programs have."""
    pids = defaultdict(list)
    for pid, process in enumerate(processes, FIRST_PID):
        pids[process.name].append(str(pid))
    for name, shared in pids.items():
        if len(shared) > 1:
            yield f"pids {', '.join(shared)} are all named {os.fsdecode(name)}"


# Listing.


def size_text(size):
    return f"{size >> 20}M" if size % (1 << 20) == 0 else f"{size >> 10}K"


def least_text(image):
    least = least_ram(image)
    if least > LARGEST_RAM:
        return f"no RAM of at most {size_text(LARGEST_RAM)} boots"
    return f"the least RAM that boots is {size_text(least)}"


def listing(image):
    names = dict(reversed(image.names))
    yield f"version {image.version}, {image.length} bytes, tags to {image.row}"
    yield f"ram 0x{image.ram_start:08x} {size_text(image.ram_size)}; {least_text(image)}"
    if image.slots is not None:
        yield f"slots {image.slots}"
    for pid, process in enumerate(image.processes, FIRST_PID):
        name = names.get(pid, b"").decode("utf-8", "backslashreplace")
        where = f"entry 0x{process.entry:08x}, bytes from {process.load}"
        if image.version == 2:
            where += f", check word 0x{process.check:04x}"
        yield f"pid {pid} {name or '(no name)'}: {where}"
        for section in process.sections:
            zeros = ", zeros" if section.flags & ZERO_FILLED else ""
            yield f"  {span(section)} {right_text(section.flags)}{zeros}"


def tree(image):
    """What an image has, for JSON; the fields are in docs/image.md."""
    names = dict(reversed(image.names))
    return {
        "version": image.version,
        "bytes": image.length,
        "tags": image.row,
        "ram_start": image.ram_start,
        "ram_size": image.ram_size,
        "least_ram": least_ram(image),
        "slots": image.slots,
        "processes": [
            {
                "pid": pid,
                "name": names[pid].decode("utf-8", "backslashreplace") if pid in names else None,
                "entry": process.entry,
                "load": process.load,
                "check": process.check if image.version == 2 else None,
                "sections": [
                    {
                        "address": section.address,
                        "size": section.size,
                        "right": right_text(section.flags),
                        "zeros": bool(section.flags & ZERO_FILLED),
                    }
                    for section in process.sections
                ],
            }
            for pid, process in enumerate(image.processes, FIRST_PID)
        ],
    }
