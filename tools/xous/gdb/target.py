"""What gdb is told of the machine and its threads, as the texts of the protocol."""

from __future__ import annotations

import os
import re
import struct
from xml.sax.saxutils import escape, quoteattr

from ..machine import FIRST_PID
from ..states import telling

REGISTERS = [*telling.NAMES, "pc"]
PC = REGISTERS.index("pc")
THREAD = re.compile(r"(?:p(?:-1|[0-9a-fA-F]{1,8})(?:\.(?:-1|[0-9a-fA-F]{1,8}))?|-1|[0-9a-fA-F]{1,8})")
TRIPLE = "riscv32-unknown-unknown-elf"
GENERIC = {"ra": "ra", "sp": "sp", "s0": "fp", "pc": "pc"}
KINDS = {"ra": "code_ptr", "pc": "code_ptr", "sp": "data_ptr", "gp": "data_ptr", "tp": "data_ptr"}


def register_row(number, name):
    """A register. What gdb passes over is for LLDB, which has no table of this machine's registers."""
    shown = "fp" if name == "s0" else name
    generic = GENERIC.get(name) or (f"arg{int(name[1:]) + 1}" if re.fullmatch("a[0-7]", name) else None)
    more = f' generic="{generic}"' if generic else ""
    more += f' dwarf_regnum="{number}" ehframe_regnum="{number}"' if number < PC else ""
    return f'<reg name="{shown}" bitsize="32" type="{KINDS.get(name, "int")}" regnum="{number}" encoding="uint" format="hex"{more}/>'


def description():
    rows = "".join(register_row(number, name) for number, name in enumerate(REGISTERS))
    feature = f'<feature name="org.gnu.gdb.riscv.cpu">{rows}</feature>'
    machine = "<architecture>riscv:rv32</architecture><osabi>none</osabi>"
    return f'<?xml version="1.0"?><target version="1.0">{machine}{feature}</target>'


def thread_text(who):
    return f"p{who[0]:x}.{who[1]:x}"


def read_thread(text):
    """The pid and tid of a thread id; -1 is all of them, and 0 any."""
    pid, _, tid = text.removeprefix("p").partition(".")
    if not THREAD.fullmatch(text):
        raise ValueError(f"{text[:40]!r} is no thread")
    if not text.startswith("p"):
        return 0, int(pid, 16)
    return int(pid, 16), int(tid, 16) if tid else -1


def thread_note(state, who):
    """What stands beside a thread in `info threads`."""
    thread = state.threads.get(who)
    if thread is None:
        return "gone"
    note = telling.wait_text(state, thread)
    return f"{note}, acts next" if state.actor() == who else note


def listed(state, first=None):
    """The threads, and thread 2 of each process that is gone: gdb keeps one of each process. The first one's process is
    that of the file that gdb was started with."""
    gone = [(pid, 2) for pid, process in enumerate(state.processes, FIRST_PID) if not process.alive]
    return sorted([*state.threads, *gone], key=lambda who: (who[0] != first, who))


def thread_list(state, first, programs):
    """The threads, each with the name of its process's file, where that is known."""
    names = {pid: f" name={quoteattr(os.path.basename(path))}" for pid, path in programs.items()}
    rows = "".join(
        f'<thread id="{thread_text(who)}"{names.get(who[0], "")}>{escape(thread_note(state, who))}</thread>'
        for who in listed(state, first)
    )
    return f'<?xml version="1.0"?><threads>{rows}</threads>'


def registers(state, who):
    """The registers and the pc as digits; zeros where the thread is gone, as gdb wants a pc of each."""
    thread = state.threads.get(who)
    if thread is None:
        return "0" * (8 * len(REGISTERS))
    return struct.pack(f"<{len(REGISTERS)}I", *thread.registers, thread.pc).hex()


def empty_program():
    """An ELF file of nothing but its head: gdb takes the machine of a process, 32-bit RISC-V, from its file."""
    head = b"\x7fELF\x01\x01\x01" + bytes(9)
    return head + struct.pack("<HHIIIIIHHHHHH", 2, 243, 1, 0, 0, 0, 0, 52, 32, 0, 40, 0, 0)
