"""What each process ended with, by the records of a run: its exit word, a fault, or neither."""

from __future__ import annotations

from collections.abc import Iterable, Iterator
from dataclasses import dataclass

from .. import names
from ..transcripts import decode
from ..transcripts.decode import Record

EXITED, FAULT, KILLED = "exited", "fault", "killed"


@dataclass(frozen=True)
class Ended:
    """What a process ended with: the word of its exit, the cause and the value of a fault, or neither if an event killed it or its last
    thread ended."""

    how: str
    words: tuple[int, ...] = ()

    def text(self) -> str:
        """As xousorders prints it."""
        if self.how == EXITED:
            return f"exited {self.words[0]}"
        if self.how == FAULT:
            return f"fault {self.words[0]} at {self.words[1]:08x}"
        return self.how

    def is_failing_exit(self) -> bool:
        return self.how == EXITED and self.words != (0,)


def ends_of(records: Iterable[Record]) -> Iterator[tuple[int, Ended]]:
    """The pids that died, each with how, in order."""
    yield from ((record.pid, how_of(cause)) for record, cause in deaths_of(records))


def deaths_of(records: Iterable[Record]) -> Iterator[tuple[Record, Record | None]]:
    """The records of deaths, each with the exit, the fault or the end of a thread that stands before it in its step, if there is one."""
    before: Record | None = None
    for record in records:
        if record.what in (decode.FAULT, decode.END) or is_exit(record):
            before = record
        elif record.what == decode.GONE:
            is_own = before is not None and (before.step, before.pid) == (record.step, record.pid)
            yield record, before if is_own else None


def is_exit(record: Record) -> bool:
    return record.what == decode.CALL and record.words[0] == names.TERMINATE


def how_of(cause: Record | None) -> Ended:
    if cause is None or cause.what == decode.END:
        return Ended(KILLED)
    return Ended(EXITED, (cause.words[1],)) if is_exit(cause) else Ended(FAULT, tuple(cause.words))
