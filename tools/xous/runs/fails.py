"""What fails at the end of a run: exits, faults, threads that wait for good, and what the console has (docs/orders.md)."""

from __future__ import annotations

import re
from collections.abc import Iterable, Iterator
from dataclasses import dataclass

from ..errors import Refusal
from ..machine import FIRST_PID, MOST_PROCESSES, MOST_TIDS
from ..states import state
from .ended import FAULT as ENDED_BY_FAULT
from .ended import Ended
from .seen import Seen

EXIT, FAULT, WAITS, CONSOLE, CONSOLE_NOT, DIFFER = "exit", "fault", "waits", "console", "console-not", "differ"
MOST_FAILS = 255  # in one command
WAITER = re.compile(r"([1-9][0-9]?)(?:\.([1-9][0-9]?))?")


@dataclass(frozen=True)
class Failing:
    """What makes an ending a failure: a kind, and for the console a text, or for waits a process or thread."""

    kind: str
    text: str = ""

    def spelled(self) -> str:
        return f"{self.kind}={self.text}" if self.text else self.kind

    def has_text(self, seen: Seen) -> bool:
        return self.text.encode(errors="surrogateescape") in seen.console

    def holds(self, seen: Seen) -> bool:
        """Whether an ending of which this is seen fails so."""
        if self.kind in (EXIT, FAULT):
            return any(is_bad(self.kind, ended) for ended in seen.ends.values())
        if self.kind == WAITS:
            return any(waiting(seen, waiter_of(self.text) if self.text else ()))
        return self.has_text(seen) == (self.kind == CONSOLE)


def failing_of(word: str) -> Failing:
    """What a word of --fails asks for, but for `differ`."""
    kind, is_more, text = word.partition("=")
    if kind in (EXIT, FAULT, WAITS) and not is_more:
        return Failing(kind)
    if kind == WAITS:
        waiter_of(text)
    elif kind not in (CONSOLE, CONSOLE_NOT) or not text:
        raise Refusal(f"--fails {word}: say exit, fault, waits, waits=PID.TID, console=TEXT, console-not=TEXT or differ", 2)
    return Failing(kind, text)


def first_of(fails: Iterable[Failing], seen: Seen) -> str:
    """The first of these of which an ending fails, as it is spelled; nothing if it fails of none."""
    return next((failing.spelled() for failing in fails if failing.holds(seen)), "")


def is_bad(kind: str, ended: Ended) -> bool:
    return ended.is_failing_exit() if kind == EXIT else ended.how == ENDED_BY_FAULT


def waiting(seen: Seen, who: tuple[int, ...] = ()) -> Iterator[str]:
    """The threads that wait for an answer or a thread; those of a process or one thread, if `who` names it."""
    for standings in seen.processes.values():
        for each in standings or ():
            if each.is_stuck() and (each.pid, each.tid)[: len(who)] == who:
                yield f"{each.pid}.{each.tid}"


def stuck(seen: Seen, who: tuple[int, ...] = ()) -> Iterator[str]:
    """Those that wait for good: nobody is ready."""
    threads = (each for standings in seen.processes.values() for each in standings or ())
    if not any(each.how == state.READY for each in threads):
        yield from waiting(seen, who)


def waiter_of(text: str) -> tuple[int, ...]:
    """The process or thread that a text names, as `2` or `2.3`."""
    found = WAITER.fullmatch(text)
    who = tuple(int(number) for number in found.groups() if number) if found else ()
    if not who or not is_thread(*who):
        raise Refusal(f"--fails {WAITS}={text}: say {WAITS}=PID or {WAITS}=PID.TID", 2)
    return who


def is_thread(pid: int, tid: int = 1) -> bool:
    return FIRST_PID <= pid < FIRST_PID + MOST_PROCESSES and 1 <= tid <= MOST_TIDS
