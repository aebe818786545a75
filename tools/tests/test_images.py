"""Images with their first faults: what the tool says of them, and what the program says."""

import pathlib
import struct
import subprocess

from xous import checksum, machine
from xous.errors import Fault
from xous.images import layout as image
from xous.images import reading

from .builders import RAM, code, image_of, process, zeros
from .frame import Case, need_program


def with_changed(data, at, bits=1):
    """The image with bits of one byte changed, and no check number made to fit."""
    return data[:at] + bytes([data[at] ^ bits]) + data[at + 1 :]


def with_word(data, at, word):
    """The image with another word in its first tag, whose check number fits."""
    data = data[:at] + struct.pack("<I", word) + data[at + 4 :]
    return data[:4] + struct.pack("<H", checksum.check_number(data[8:28])) + data[6:]


def with_tag(data, name, contents, check=None):
    """The image with one more tag at the end of its row, where it has no process that loads bytes."""
    more = image.tag(name, contents)
    if check is not None:
        more = more[:4] + struct.pack("<H", check) + more[6:]
    row = 4 * struct.unpack_from("<I", data, 8)[0]
    return with_word(data[:row] + more + data[row:], 8, (row + len(more)) // 4)


def with_word_of_process(data, place, word):
    """The image with another word in the `IniE` of its first process, whose check number fits."""
    contents = data[36 : 36 + 4 * struct.unpack_from("<H", data, 34)[0]]
    contents = contents[: 4 * place] + struct.pack("<I", word) + contents[4 * place + 4 :]
    return data[:28] + image.tag(b"IniE", contents) + data[36 + len(contents) :]


def shifted(data, by):
    """The image whose first process loads its bytes from elsewhere."""
    return with_word_of_process(data, 0, struct.unpack_from("<I", data, 36)[0] + by)


def images(version):
    """Images by name, each with its first fault."""

    def spelled(*processes, ram=RAM):
        return image.write(image_of(*processes, version=version, ram=ram))

    good = spelled(process())
    least = image.least_ram(image_of(process()))
    end = 4 * struct.unpack_from("<I", good, 8)[0]
    most = {1: 32, 2: 64}[version]
    ini_size = {1: 24, 2: 28}[version]
    flags = image.Section(0x2_0000, 4096, 34)
    yield "one process", good, None
    yield "three processes with zeros", spelled(*[process(code(), zeros(0x2_0000))] * 3), None
    yield "the least RAM", spelled(process(), ram=least), None
    yield "as many processes as can be", spelled(*[process()] * most, ram=16 << 20), None
    yield "the last page of the window", spelled(process(code(), zeros(0xFF_F000))), None
    yield "an empty section", spelled(process(code(), zeros(0x2_0000, 0))), None
    yield "another tag", with_tag(shifted(good, 12), b"Abcd", bytes(4)), None
    yield "too short", good[:27], ("TooShort", 0)
    yield "another start", b"YArg" + good[4:], ("NotXArg", 0)
    yield "another length", good[:6] + b"\x06\0" + good[8:], ("NotXArg", 0)
    yield "check number of the head", good[:4] + b"\0\0" + good[6:], ("BadCheck", 0)
    yield "version 0", with_word(good, 12, 0), ("BadVersion", 12)
    yield "version 3", with_word(good, 12, 3), ("BadVersion", 12)
    yield "another version", with_word(good, 12, 3 - version), ("BadIni", 28)
    yield "a row past the end", with_word(good, 8, 1000), ("BadTotal", 8)
    yield "a row of six words", with_word(good, 8, 6), ("BadTotal", 8)
    yield "a row that cuts a tag", with_word(good, 8, end // 4 - 1), ("BadTotal", 28 + ini_size)
    yield "RAM of half a page", with_word(good, 20, 2048), ("BadRam", 16)
    yield "RAM of 0", with_word(good, 20, 0), ("BadRam", 16)
    yield "RAM above 64M", with_word(good, 20, (64 << 20) + 4096), ("BadRam", 16)
    yield "RAM past its end", with_word(good, 16, 0xEFFF_F000), ("BadRam", 16)
    yield "check number of a tag", with_tag(good, b"Abcd", bytes(4), check=0), ("BadCheck", end)
    yield "no process", spelled(), ("NoProcess", 36)
    too_many = spelled(*[process()] * (most + 1))
    yield "a process too many", too_many, ("TooManyProcesses", 28 + most * ini_size)
    yield "a tag of three words", with_tag(good, b"IniE", bytes(12)), ("BadIni", end)
    yield "an unknown flag", spelled(process(code(), flags)), ("BadIni", 28)
    yield "names that are cut", with_tag(good, b"PNam", bytes(4)), ("BadNames", end)
    yield "a section askew", spelled(process(code(), zeros(0x2_0010))), ("SectionMisaligned", 2)
    yield "a section below the window", spelled(process(code(), zeros(0xF000))), ("SectionOutside", 2)
    past = process(code(), zeros(0xFF_F000, 4097))
    shared = process(code(size=4100), zeros(0x1_1000))
    yield "a section past the window", spelled(process(), past), ("SectionOutside", 3)
    yield "sections on one page", spelled(shared), ("SectionsOverlap", 2)
    yield "bytes in the tags", shifted(good, -4), ("LoadOutside", 2)
    yield "bytes past the end", shifted(good, 4), ("LoadOutside", 2)
    yield "an odd entry", spelled(process(entry=0x1_0002)), ("EntryOutside", 2)
    on_zeros = process(code(), zeros(0x2_0000), entry=0x2_0000)
    yield "an entry without code", spelled(on_zeros), ("EntryOutside", 2)
    yield "RAM that is too small", spelled(process(), ram=least - 4096), ("RamTooSmall", 0)


def images_of_version_1():
    good = image.write(image_of(process(), version=1))
    yield "slots that are passed over", with_tag(shifted(good, 12), b"SwpS", b"\xff" * 4), None
    yield "other bytes of a section", with_changed(good, len(good) - 4, 0x80), None


def images_of_version_2():
    good = image.write(image_of(process()))
    end = 4 * struct.unpack_from("<I", good, 8)[0]
    slots = image.write(image_of(process(), slots=9))
    yield "no slots", image.write(image_of(process(), slots=0)), None
    yield "a page in a slot", image.write(image_of(process(), slots=9, ram=0x1_7000)), None
    yield "a page without a slot", image.write(image_of(process(), slots=8, ram=0x1_7000)), ("RamTooSmall", 0)
    yield "no frame beside the tables", image.write(image_of(process(), slots=10, ram=0x1_6000)), ("RamTooSmall", 0)
    yield "other bytes of a section", with_changed(good, len(good) - 4, 0x80), ("BadLoad", 2)
    yield "bytes from elsewhere", shifted(good + bytes(4), 4), ("BadLoad", 2)
    yield "another check word", with_word_of_process(good, 2, 0), ("BadLoad", 2)
    yield "a check word of 17 bits", with_word_of_process(good, 2, 0x1_0000), ("BadIni", 28)
    second = image.write(image_of(process(), process(entry=0x1_0002)))
    yield "bytes before the entry", with_changed(second, len(second) - 4), ("BadLoad", 3)
    yield "slots of two words", with_tag(good, b"SwpS", bytes(8)), ("BadSlots", end)
    yield "no word of slots", with_tag(good, b"SwpS", b""), ("BadSlots", end)
    yield "16385 slots", with_tag(good, b"SwpS", struct.pack("<I", 16_385)), ("BadSlots", end)
    yield "slots twice", with_tag(slots, b"SwpS", bytes(4)), ("BadSlots", end + 12)


def numbered_images():
    """All images, by version and name."""
    for version, own in ((1, images_of_version_1()), (2, images_of_version_2())):
        for name, data, fault in [*images(version), *own]:
            yield f"version {version}, {name}", data, fault


def fault_of(data):
    try:
        reading.read(data)
    except Fault as fault:
        return fault.name, fault.at
    return None


def asked(program, data, folder):
    """What the program says of an image, and what it plans."""
    file = pathlib.Path(folder, "image")
    events = pathlib.Path(folder, "events")
    file.write_bytes(data)
    events.write_bytes(b"")
    run = subprocess.run([program, "trace", file, events], capture_output=True, text=True, check=False)
    plan = subprocess.run([program, "check", file], capture_output=True, text=True, check=False)
    return run, plan.stdout


def planned(data):
    """What `check` writes of a good image."""
    read = reading.read(data)
    lines = [f"ram {read.ram_start:08x} {read.ram_size:08x}"]
    for pid, each in enumerate(read.processes, machine.FIRST_PID):
        pages = image.first_pages([each])
        lines.append(f"pid {pid} entry {each.entry:08x} sections {len(each.sections)} pages {pages}")
    pages, count = image.first_pages(read.processes), len(read.processes)
    capacity = read.ram_size // machine.PAGE - machine.TABLE_FRAMES * count - 1 + (read.slots or 0)
    return "\n".join(lines) + f"\npages {pages} cap {capacity}\n"


def same_answer(program, data, fault, folder):
    run, plan = asked(program, data, folder)
    if fault:
        said = run.returncode == 5 and run.stderr == f"image fault {fault[0]} at {fault[1]}\n"
        return said and not plan
    return run.returncode == 0 and plan == planned(data)


class Images(Case):
    def test_check_number(self):
        self.assertEqual(checksum.check_number(b"123456789"), 0x906E)

    def test_first_faults(self):
        self.hold((fault_of(data) == fault, f"{name}: {fault_of(data)}") for name, data, fault in numbered_images())

    def test_program_says_the_same(self):
        program = need_program()
        self.hold((same_answer(program, data, fault, self.folder), name) for name, data, fault in numbered_images())
