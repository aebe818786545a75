"""A state in words, and as a tree for JSON."""

from __future__ import annotations

import dataclasses

from ..machine import FIRST_PID
from . import reach
from .state import IDLE, JOINING, KIND_NAMES, READY, RECEIVING, STATE_NAMES, State


def thread_name(who):
    return f"{who[0]}.{who[1]}"


def server_text(server):
    return f"server {server.name} of {server.pid}"


def wait_text(state: State, thread):
    """What the thread does: that it is ready, or for what it waits and who has that."""
    if thread.state == READY:
        return "ready"
    if thread.state == IDLE:
        return "idle, waits for interrupts"
    if thread.state == JOINING:
        return f"joins {thread.pid}.{thread.waits_for}"
    if thread.state == RECEIVING:
        server = state.server(thread.waits_for)
        return f"receives at {server_text(server)}" if server else f"receives at server {thread.waits_for}"
    found = state.find_message(thread.waits_for)
    if found is None:
        return f"waits for message {thread.waits_for}"
    server, _, held = found
    return f"waits for message {thread.waits_for}, {'held' if held else 'queued'} at {server_text(server)}"


def waited_for(state, thread):
    """The processes or threads that could end the wait: pids, or a pair of pid and tid; none of a ready one."""
    if thread.state == JOINING:
        return [(thread.pid, thread.waits_for)]
    found = state.find_message(thread.waits_for) if thread.state == STATE_NAMES.index("Waiting") else None
    return [found[0].pid] if found else []


def message_text(message):
    sender = thread_name(message.sender) if message.sender else "nobody"
    words = " ".join(f"{word:08x}" for word in message.words)
    pages = f" pages {message.first:05x}+{message.count:x}" if message.count else ""
    return f"message {message.number} from {sender}: {KIND_NAMES[message.kind]} id {message.id} words {words}{pages}"


def reservation_text(state):
    *who, address = state.reserved
    return f"reserved {address:08x} by {thread_name(who)}"


def lines(state: State):
    """The whole state, but for registers' and pages' bytes, line by line."""
    yield f"steps {state.steps} cursor {thread_name(state.cursor)} capacity {state.capacity}"
    yield f"next message {state.next_number}, next server {state.next_serial}"
    if state.timer is not None:
        yield f"timer at step {state.timer}"
    if state.reserved is not None:
        yield reservation_text(state)
    for pid, process in enumerate(state.processes, FIRST_PID):
        yield from process_lines(state, pid, process)
    for server in state.servers:
        yield f"{server_text(server)}, serial {server.serial}"
        for name, messages in (("queued", server.queued), ("held", server.held)):
            yield from (f"  {name} {message_text(message)}" for message in messages)
    for claim in state.claims:
        pending = ", pending" if claim.pending else ""
        yield f"interrupt {claim.number} of {claim.pid}: handler {claim.handler:08x} argument {claim.argument:08x}{pending}"
    for place in sorted(state.pages):
        yield page_text(reach.place(state, *place), *place)
    for place in sorted(state.orphans):
        yield page_text(reach.place(state, *place), *place)


def process_lines(state, pid, process):
    if not process.alive:
        yield f"process {pid} gone"
        return
    serials = ", ".join(connection_text(state, *pair) for pair in enumerate(process.connections, 2))
    yield f"process {pid} heap {process.heap}" + (f" connections {serials}" if serials else "")
    for who, thread in sorted(state.threads.items()):
        if who[0] == pid:
            yield f"  {thread_name(who)} pc {thread.pc:08x} {wait_text(state, thread)}"
            if thread.state != IDLE:
                yield from register_lines(thread.registers)


NAMES = "zero ra sp gp tp t0 t1 t2 s0 s1 a0 a1 a2 a3 a4 a5 a6 a7 s2 s3 s4 s5 s6 s7 s8 s9 s10 s11 t3 t4 t5 t6".split()


def register_lines(registers):
    """Those that aren't 0, eight in a line."""
    shown = [f"{name} {value:08x}" for name, value in zip(NAMES, registers) if value]
    for start in range(0, len(shown), 8):
        yield "    " + " ".join(shown[start : start + 8])


def connection_text(state, number, serial):
    server = state.server(serial)
    return f"{number} to {server_text(server)}" if server else f"{number} to a server that is gone"


def page_text(place, pid, page):
    may = "".join(letter if letter in place.may else "-" for letter in "rwx")
    return f"page {pid} {page:05x} {may} {place.text()}"


def tree(state: State, with_bytes=False):
    """The state for JSON. The bytes of pages come as hexadecimal digits, where they are asked for."""

    def row(value):
        fields = dataclasses.asdict(value)
        data = fields.pop("data", None)
        return fields | {"bytes": data.hex()} if with_bytes and data is not None else fields

    numbers = {name: getattr(state, name) for name in ("capacity", "steps", "cursor", "next_number", "next_serial")}
    threads = [
        dataclasses.asdict(thread)
        | {"state": STATE_NAMES[thread.state], "does": wait_text(state, thread)}
        for thread in state.threads.values()
    ]
    return numbers | {
        "timer": state.timer,
        "reserved": state.reserved,
        "processes": [{"pid": pid} | row(process) for pid, process in enumerate(state.processes, FIRST_PID)],
        "threads": threads,
        "servers": [row(server) | {"name": server.name} for server in state.servers],
        "claims": [row(claim) for claim in state.claims],
        "pages": [row(page) for page in state.pages.values()],
        "orphans": [row(orphan) for orphan in state.orphans.values()],
    }
