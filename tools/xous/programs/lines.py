"""Lines of the source by addr2line of the binutils that a RISC-V compiler brings, which is asked address by address."""

from __future__ import annotations

import contextlib
import os
import re
import shutil
import subprocess
import sys
from dataclasses import dataclass

TOOLS = (
    "riscv64-unknown-elf-addr2line",
    "riscv32-unknown-elf-addr2line",
    "riscv64-linux-gnu-addr2line",
    "llvm-addr2line",
)
PACKAGE = "binutils-riscv64-unknown-elf"
LAST = "0xffffffff"  # an address after each that is asked for, whose answer ends the other one's
LINE = re.compile(r"(.*):([0-9]+)(?: \(discriminator [0-9]+\))?")


# Sources whose functions stand in those of a program where they are inlined: the kit, a C library, Rust's std; and other headers of C.
LIBRARY = re.compile(r"(?:.*/)?examples/kit/(?:[^/]*\.h|rust/xous/.*)|/usr/(?:lib|include)/.*\.h|/rust/library/.*")
HEADER = re.compile(r".*\.h")
OF_SOURCE, OF_HEADER, OF_LIBRARY = range(3)


@dataclass
class Spot:
    """A function, with a file and a line of the source where they are known."""

    function: str
    file: str = ""
    line: int = 0
    rank: int = OF_SOURCE  # the reader looks for the lowest one

    def __str__(self) -> str:
        return f"{self.function} at {self.file}:{self.line}" if self.line else self.function


def rank_of(path: str) -> int:
    """Whose source a file is: a program's own, a header, or a library."""
    return OF_LIBRARY if LIBRARY.fullmatch(path) else OF_HEADER if HEADER.fullmatch(path) else OF_SOURCE


def find_tool() -> str | None:
    return next((path for name in TOOLS if (path := shutil.which(name))), None)


class Lines:
    """The lines of one program."""

    def __init__(self, path: str):
        self.path = os.path.abspath(path)
        self.process: subprocess.Popen[str] | None = None
        self.known: dict[int, list[Spot]] = {}
        self.is_missing = False

    def close(self) -> None:
        if self.process is not None:
            for stream in (self.process.stdin, self.process.stdout):
                with contextlib.suppress(OSError):
                    stream.close()  # type: ignore[union-attr]
            self.process.kill()
            self.process.wait()
            self.process = None

    def begin(self) -> None:
        tool = find_tool()
        if tool is None:
            self.is_missing = True
            print(f"{TOOLS[0]} is missing, so no lines of the source are shown: apt-get install {PACKAGE}", file=sys.stderr)
            return
        words = [tool, "-e", self.path, "-a", "-f", "-i", "-C"]
        pipes = {"stdin": subprocess.PIPE, "stdout": subprocess.PIPE, "stderr": subprocess.DEVNULL}
        self.process = subprocess.Popen(words, encoding="utf-8", errors="replace", bufsize=1, **pipes)  # type: ignore[call-overload]

    def frames(self, address: int) -> list[Spot]:
        """The spots of an address from the inside, those that have a line."""
        if address not in self.known:
            self.known[address] = self.ask(address)
        return self.known[address]

    def ask(self, address: int) -> list[Spot]:
        if self.process is None and not self.is_missing:
            self.begin()
        if self.process is None:
            return []
        try:
            self.process.stdin.write(f"0x{address:x}\n{LAST}\n")  # type: ignore[union-attr]
            self.process.stdin.flush()  # type: ignore[union-attr]
        except OSError:
            self.close()
            self.is_missing = True
            return []
        return list(self.answer(self.process.stdout))

    @staticmethod
    def answer(told):
        """The spots of an answer: its address, then a function and a line for each. The answer to LAST is read too."""
        told.readline()
        while (function := told.readline().rstrip("\n")) and function != LAST:
            match = LINE.fullmatch(told.readline().rstrip("\n"))
            if match and int(match[2]):
                yield Spot(function, os.path.basename(match[1]), int(match[2]), rank_of(match[1]))
        told.readline()
        told.readline()
