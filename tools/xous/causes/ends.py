"""What each process ended with, and at which line of the source."""

from __future__ import annotations

from collections.abc import Iterator

from ..machine import FIRST_PID
from ..names import CHECK_FAILED, Names
from ..programs.symbols import Program
from ..runs.ended import EXITED, FAULT, KILLED, deaths_of, how_of
from ..runs.run import Run
from ..states import where
from ..transcripts.decode import Record

DEATHS = rb"^\d+ (?:\d+\.\d+ (?:call 00000016|fault|end)|\d+ gone)\b"


def deaths(played: Run) -> dict[int, tuple[Record, Record | None]]:
    """By pid the record of its death, and that of its exit, its fault or its last thread's end."""
    return {record.pid: (record, cause) for record, cause in deaths_of(played.transcript.each(DEATHS, -1))}


def is_failure(cause: Record | None) -> bool:
    ended = how_of(cause)
    return ended.how == FAULT or ended.is_failing_exit()


def first_failure(played: Run) -> int | None:
    """The step of the first fault or failing exit."""
    return min((record.step for record, cause in deaths(played).values() if is_failure(cause)), default=None)


def end_lines(played: Run, named: Names, programs: dict[int, Program], processes: int) -> Iterator[str]:
    """A line for each process, those that failed first, and for a fault what stands at its address."""
    died = deaths(played)
    for pid in sorted(range(FIRST_PID, FIRST_PID + processes), key=lambda pid: not (pid in died and is_failure(died[pid][1]))):
        name = f"{pid} {named.process(pid)}" if pid in named.processes else str(pid)
        if pid in died:
            yield from death_lines(played, programs, name, *died[pid])
        else:
            yield f"{name}: lives"


def death_lines(played: Run, programs: dict[int, Program], name: str, record: Record, cause: Record | None) -> Iterator[str]:
    ended = how_of(cause)
    if cause is None or ended.how == KILLED:
        yield f"{name}: {'killed by an event' if cause is None else 'its last thread ended'} at step {record.step}"
        return
    machine = played.state_at(record.step - 1)
    spot = where.spot_text(programs, machine.threads[cause.thread])
    check = " (a check failed)" if ended.how == EXITED and ended.words == (CHECK_FAILED,) else ""
    yield f"{name}: {ended.text()}{check} at step {record.step}, thread {cause.tid} {spot}"
    if ended.how == FAULT:
        yield from list(where.fault_lines(machine, cause, programs))[1:]
