"""Places where a run is to stop, and what is told of a stop."""

from __future__ import annotations

from dataclasses import dataclass

SIGINT, SIGILL, SIGTRAP, SIGKILL, SIGBUS, SIGSEGV, SIGTERM = 2, 4, 5, 9, 10, 11, 15  # in gdb's numbers
CAUSES = {0: SIGBUS, 2: SIGILL, 3: SIGTRAP, 4: SIGBUS, 6: SIGBUS, 12: SIGSEGV, 13: SIGSEGV, 15: SIGSEGV}


@dataclass(frozen=True)
class Breakpoint:
    pid: int
    address: int


@dataclass(frozen=True)
class Watchpoint:
    pid: int
    address: int
    length: int


@dataclass(frozen=True)
class CallBreak:
    """Stops before a system call of that number; of a process or thread alone, where it is given."""

    number: int
    pid: int | None = None
    tid: int | None = None

    def pattern(self):
        pid = r"\d+" if self.pid is None else str(self.pid)
        tid = r"\d+" if self.tid is None else str(self.tid)
        return rf"^\d+ {pid}\.{tid} call {self.number:08x} ".encode()


@dataclass
class Stop:
    """Where a run stops: the step, the thread that gdb is told of, and why."""

    step: int
    who: tuple | None
    signal: int = SIGTRAP
    detail: str = ""  # of the stop reply
    text: str = ""  # for gdb's console
    is_foreign_store: bool = False  # to a watched word of another process
