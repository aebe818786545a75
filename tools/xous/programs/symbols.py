"""Programs with their symbols: in which function and line an address is, and where a symbol stands.

A call of the kit is an inline function, so the address of its ECALL is a line of a header; so are many functions of Rust's
std. What a reader asks for is the line of the program that called it: the first one, from the inside, that isn't a library's.
A function of a library that isn't inlined has the line of its caller in ra, as long as it has called nothing itself. In a program
over Rust's std each system call jumps to the kit's bridge, and gp says from where.
"""

from __future__ import annotations

import io
from bisect import bisect_right
from collections.abc import Iterator

from ..errors import Refusal
from ..files import MOST_ELF_BYTES, read_whole
from ..images.layout import EXECUTABLE, Process
from ..images.named import plain
from ..images.reading import bytes_of_sections
from .demangle import readable
from .elf import elf_library, read_program, refuse_other_files, symbol_rows
from .lines import OF_LIBRARY, Lines, Spot

NO_TYPE, OBJECT, FUNCTION = 0, 1, 2  # kinds of symbols
UNDEFINED = 0
RA, GP = 1, 3  # registers
BRIDGE = "xous_kit", "xous_kit_end"


def symbols_of(elf) -> Iterator[tuple[int, int, str]]:
    """The address, size and name of each function, object and label."""
    for name, value, size, kind, section in symbol_rows(elf):
        if name and kind in (NO_TYPE, OBJECT, FUNCTION) and section != UNDEFINED and not name.startswith(("$", ".")):
            yield value, size, name


class Program:
    """A program of one process."""

    def __init__(self, path: str):
        elf_file, errors = elf_library()
        self.path = path
        try:
            file = io.BytesIO(read_whole(path, MOST_ELF_BYTES))
            refuse_other_files(path, file)
            elf = elf_file(file)
            if elf.elfclass != 32 or not elf.little_endian:
                raise Refusal(f"{path}: not a 32-bit RISC-V file; give the program that is in the image")
            rows = sorted(symbols_of(elf))
            names = readable(name for _, _, name in rows)
            self.symbols = [(start, size, names.get(name, name)) for start, size, name in rows]
            has_lines = elf.get_section_by_name(".debug_line") is not None
        except errors as fault:
            raise Refusal(f"{path}: a broken ELF file ({fault or 'it is too short'}); give a linked program") from None
        self.starts = [start for start, _, _ in self.symbols]
        self.lines = Lines(path) if has_lines else None

    def close(self) -> None:
        if self.lines is not None:
            self.lines.close()

    def is_of(self, process: Process, image: bytes) -> bool:
        """Whether a process that was read of the bytes of an image has this program's code."""
        code = [(each.address, each.data) for each in read_program(self.path).sections if each.flags & EXECUTABLE]
        theirs = [(each.address, data) for each, data in bytes_of_sections(process, image) if each.flags & EXECUTABLE]
        return code == theirs

    def symbol(self, name: str) -> tuple[int, int] | None:
        """The address and size of a symbol."""
        return next(((start, size) for start, size, other in self.symbols if other == name), None)

    def symbol_at(self, address: int) -> str:
        """The symbol that an address is in, with how far in it as `store+4`, or nothing."""
        place = bisect_right(self.starts, address) - 1
        if place < 0:
            return ""
        start, size, name = self.symbols[place]
        if address == start:
            return plain(name)
        # A label of assembly has no size, and reaches to the next symbol.
        end = start + size if size else self.starts[place + 1 : place + 2][0] if place + 1 < len(self.starts) else start
        return f"{plain(name)}+{address - start:x}" if address < end else ""

    def frames(self, address: int) -> list[Spot]:
        """The spots of an address from the inside: its own, and those of the calls that were inlined around it."""
        return self.lines.frames(address) if self.lines is not None else []

    def own_frame(self, address: int) -> Spot | None:
        """The first spot from the inside in a source, else in a header of the program's own, else in a library."""
        frames = self.frames(address)
        return min(frames, key=lambda spot: spot.rank) if frames else None

    def spot(self, address: int) -> Spot:
        """Where in the source an instruction is, as far as the program has that."""
        function = self.symbol_at(address) or f"{address:08x}"
        own = self.own_frame(address) or Spot(function)
        return Spot(function, own.file, own.line, own.rank) if own.function.startswith((".", "?")) else own

    def is_bridge(self, address: int) -> bool:
        """Whether it is in the code of the kit for Rust to which each system call jumps."""
        first, last = self.symbol(BRIDGE[0]), self.symbol(BRIDGE[1])
        return first is not None and last is not None and first[0] <= address < last[0]

    def caller(self, address: int, registers: list[int]) -> Spot | None:
        """The spot that called a library's function, by ra, or the bridge, by gp; none of an address in other code."""
        back = [registers[GP]] if self.is_bridge(address) else []
        if not back and self.spot(address).rank != OF_LIBRARY:
            return None
        found = (self.own_frame(place - 4) for place in (*back, registers[RA]) if place)
        return next((spot for spot in found if spot and spot.rank != OF_LIBRARY), None)

    def text(self, address: int) -> str:
        """Symbol and line of an address as `<store+4 client.c:6>`, or nothing."""
        own = self.own_frame(address)
        line = f"{plain(own.file)}:{own.line}" if own else ""
        inside = " ".join(part for part in (self.symbol_at(address), line) if part)
        return f"<{inside}>" if inside else ""
