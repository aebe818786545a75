"""What is seen of the end of a run (docs/orders.md): the console, what processes ended with, and for what each thread waits.

Two things tell it, and it is spelled once: a state of the machine, as a search of orders has it, and the history that follows a transcript.
"""

from __future__ import annotations

from dataclasses import dataclass, field

from .. import names
from ..machine import FIRST_PID, HANDLER_TID
from ..states import state
from ..transcripts.history import History
from .ended import Ended

CONSOLE, EXITS, WAITS, SERVERS = SIGHTS = "console", "exits", "waits", "servers"  # what can be seen


@dataclass(frozen=True)
class Standing:
    """A thread that lives, how it stands, and the server, message or thread that it waits for."""

    pid: int
    tid: int
    how: int  # a state of a thread: READY, RECEIVING, WAITING or JOINING
    server: str = ""
    message: int = 0
    kept: str = ""  # queued or held, where a server has the message
    joined: int = 0

    def is_stuck(self) -> bool:
        """Whether it waits for an answer or for a thread."""
        return self.how in (state.WAITING, state.JOINING)

    def text(self, has_number: bool = False, has_server: bool = True) -> str:
        name = f"{self.pid}.{self.tid}"
        place = f" at {self.server}" if has_server else ""
        if self.how == state.RECEIVING:
            return f"{name} receives{place}"
        if self.how == state.WAITING:
            number = f" for message {self.message}" if has_number else ""
            return f"{name} waits{number}{f', {self.kept}{place}' if self.kept else ''}"
        if self.how == state.JOINING:
            return f"{name} joins {self.pid}.{self.joined}"
        return f"{name} ready"


@dataclass(frozen=True)
class Seen:
    """The bytes of the console, and by pid how the threads of a process stand, or none of one that is gone; and by pid what processes
    ended with, as far as that is kept."""

    console: bytes
    processes: dict[int, list[Standing] | None]
    ends: dict[int, Ended] = field(default_factory=dict)

    def text(self, sights: tuple[str, ...] = SIGHTS, is_hex: bool = False) -> str:
        """As xousorders prints it: as much as is asked for. A process that is gone is told where exits are seen or for what threads wait,
        and one that lives where that is."""
        parts = [console_text(self.console, is_hex)] if CONSOLE in sights else []
        for pid, threads in self.processes.items():
            if WAITS in sights or (threads is None and EXITS in sights):
                parts.append(self.process_text(pid, sights=sights))
        return "; ".join(parts)

    def process_text(self, pid: int, has_numbers: bool = False, sights: tuple[str, ...] = SIGHTS) -> str:
        threads, ended = self.processes[pid], self.ends.get(pid)
        if threads is None:
            return f"{pid} {ended.text() if ended and EXITS in sights else 'gone'}"
        return f"{pid} waits: {', '.join(each.text(has_numbers, SERVERS in sights) for each in threads)}"


def console_text(console: bytes, is_hex: bool = False) -> str:
    return f"console {(console.hex() or 'empty') if is_hex else names.quoted(console)}"


def of_state(machine: state.State, console: bytes, ends: dict[int, Ended]) -> Seen:
    """What is seen of a state. An interrupt thread that runs no handler isn't seen."""
    processes: dict[int, list[Standing] | None] = {}
    for pid, process in enumerate(machine.processes, FIRST_PID):
        own = [thread for who, thread in sorted(machine.threads.items()) if who[0] == pid and thread.state != state.IDLE]
        processes[pid] = [standing_of(machine, thread) for thread in own] if process.alive else None
    return Seen(console, processes, ends)


def standing_of(machine: state.State, thread: state.Thread) -> Standing:
    pid, tid = thread.id
    if thread.state == state.RECEIVING:
        return Standing(pid, tid, thread.state, server=machine.server(thread.waits_for).name)
    if thread.state == state.WAITING:
        found = machine.find_message(thread.waits_for)
        server, kept = (found[0].name, "held" if found[2] else "queued") if found else ("", "")
        return Standing(pid, tid, thread.state, server, thread.waits_for, kept)
    return Standing(pid, tid, thread.state, joined=thread.waits_for)


def of_history(history: History, console: bytes, ends: dict[int, Ended]) -> Seen:
    """The same by the records that a history followed."""
    where = messages_by_sender(history)
    processes: dict[int, list[Standing] | None] = {}
    for pid in range(FIRST_PID, FIRST_PID + (history.most or 0)):
        tids = sorted(tid for owner, tid in history.calls if owner == pid and (pid, tid) not in history.idle)
        standings = [standing_by_call((pid, tid), history.calls[pid, tid], where) for tid in tids]
        processes[pid] = None if pid in history.gone else standings
    return Seen(console, processes, ends)


def messages_by_sender(history: History) -> dict[tuple[int, int], tuple[str, int, str]]:
    """By thread that waits for an answer: the server that has its message, the message's number, and how it is kept there."""
    found = {}
    for server in history.servers:
        for kept, messages in (("queued", server.queued), ("held", server.held.values())):
            for message in messages:
                if server.is_alive and message.sender:
                    found[message.sender] = names.identifier_name(server.identifier), message.number, kept
    return found


def standing_by_call(who, call, where) -> Standing:
    pid, tid = who
    if call is None:
        return Standing(pid, tid, state.READY)
    if call.words[0] in names.RECEIVES:
        return Standing(pid, tid, state.RECEIVING, server=names.identifier_name(call.words[1:5]))
    if call.words[0] == names.JOIN:
        return Standing(pid, tid, state.JOINING, joined=call.words[1])
    return Standing(pid, tid, state.WAITING, *where[who])


def ready_of(history: History) -> list[tuple[int, int]]:
    """The threads that are ready, in ascending order; a handler is one if it runs."""
    return sorted(who for who, call in history.calls.items() if call is None and who not in history.idle)


def is_handler(who: tuple[int, int]) -> bool:
    return who[1] == HANDLER_TID
