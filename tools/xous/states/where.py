"""Where the threads of a state are, and what stands at an address, in words."""

from __future__ import annotations

from .. import machine
from ..machine import FIRST_PID, PAGE
from . import reach, telling
from .state import IDLE, READY, STATE_NAMES, WAITING

CAUSES = {
    0: "a jump to an address that isn't a multiple of 4",
    2: "a word that is no instruction",
    3: "EBREAK",
    4: "a load from an address that isn't aligned",
    6: "a store to an address that isn't aligned",
    12: "a fetch",
    13: "a load",
    15: "a store",
}
NEEDED = {12: "x", 13: "r", 15: "w"}
NEAR_STACK = 4 * PAGE


def spot_text(programs, thread):
    """The function and line of a thread, and in a function of a library the line that called it."""
    program = programs.get(thread.pid)
    if program is None:
        return f"pc {thread.pc:08x}"
    place = place_of(thread)
    caller = program.caller(place, thread.registers)
    return f"in {program.spot(place)}{f', called in {caller}' if caller else ''} (pc {thread.pc:08x})"


def place_of(thread):
    """The address of a thread's instruction: that of the call that it waits in, else the next one."""
    return thread.pc if thread.state in (READY, IDLE) else thread.pc - 4


def threads(state, programs):
    """A line for each thread that lives, with what it waits for."""
    for who, thread in sorted(state.threads.items()):
        if thread.state == IDLE:
            continue
        parts = [f"{telling.thread_name(who)} {spot_text(programs, thread)}", wait_text(state, thread)]
        yield ", ".join(parts + ["next"] * (who == state.actor()))


def thread_trees(state, programs):
    """The threads that live, for JSON; the fields are in docs/transcript.md."""
    return [
        {
            "pid": who[0],
            "tid": who[1],
            **spot_tree(programs, thread),
            "state": STATE_NAMES[thread.state],
            "does": wait_text(state, thread),
            "next": who == state.actor(),
        }
        for who, thread in sorted(state.threads.items())
    ]


def spot_tree(programs, thread):
    """The place of a thread, with its function and line where a program tells them."""
    program = programs.get(thread.pid)
    spot = program.spot(place_of(thread)) if program else None
    return {
        "pc": thread.pc,
        "function": spot and spot.function,
        "file": (spot and spot.file) or None,
        "line": (spot and spot.line) or None,
    }


def wait_text(state, thread):
    """What it waits for; with who holds that, where it is held."""
    told = telling.wait_text(state, thread)
    found = state.find_message(thread.waits_for) if thread.state == WAITING else None
    if found is None or not found[2]:
        return told
    holders = [each for each in state.threads.values() if each.pid == found[0].pid and each.state != IDLE]
    names = ", ".join(telling.thread_name(each.id) for each in holders)
    return f"{told} (threads {names})" if names else told


def address_text(state, pid, address, thread=None):
    """What a process has at an address, or why there is nothing."""
    page = address // PAGE
    place = reach.place(state, pid, page)
    if place is not None:
        if place.text() == "console":
            return "the console's page"
        return f"{page_kind(page)}, {place.text()}, right {place.may or 'none'}"
    return missing_text(state, pid, page, address, thread)


def page_kind(page):
    if page * PAGE in machine.FIRST_STACK:
        return "the first thread's stack"
    if page * PAGE in machine.HANDLER_STACK:
        return "the handler's stack"
    return f"a page of the {machine.window(page * PAGE)} window"


def missing_text(state, pid, page, address, thread):
    """Why there is no page, by where it would be."""
    if page * PAGE == machine.FIRST_STACK.start - PAGE:
        return "the guard below the first thread's stack of 32 KiB, which begins at 7fff8000: the stack is used up"
    if page * PAGE == machine.HANDLER_STACK.start - PAGE:
        return "the guard below the handler's stack of 4 KiB, which begins at 7f000000: the stack is used up"
    if page == 0:
        return "no page: near 0, as a null pointer or an error's number that is taken as an address"
    if page * PAGE == machine.CONSOLE:
        return "no page: the console's physical address; MapMemory gives the address at which a process has it"
    if page == reach.TIMER_PAGE:
        return "the timer's page, which only the process with the claim on interrupt 20 reaches, to load and store"
    window = machine.window(page * PAGE)
    if window is None:
        return "outside all windows"
    if thread is not None and abs(address - thread.registers[2]) < NEAR_STACK:
        return f"no page in the {window} window, near the thread's stack pointer {thread.registers[2]:08x}: its stack is used up"
    if window == "Heap":
        heap = state.processes[pid - FIRST_PID].heap
        return f"no page in the Heap window: the heap has {heap} bytes, to {machine.WINDOWS['Heap'].start + heap:08x}"
    return f"no page in the {window} window"


def fault_lines(state, record, programs):
    """A fault of the transcript, with the instruction that did it; the state is that just before."""
    cause, value = record.words
    thread = state.threads[record.thread]
    yield f"{telling.thread_name(record.thread)} {spot_text(programs, thread)}"
    if cause in NEEDED:
        yield f"  {CAUSES[cause]} at {value:08x}: {address_text(state, record.pid, value, thread)}"
    else:
        yield f"  {CAUSES.get(cause, f'cause {cause}')}: {value:08x}"


def fault_tree(state, record, programs):
    """A fault for JSON."""
    cause, value = record.words
    thread = state.threads[record.thread]
    return {
        "step": record.step,
        "pid": record.pid,
        "tid": record.tid,
        **spot_tree(programs, thread),
        "cause": cause,
        "value": value,
        "what": CAUSES.get(cause, f"cause {cause}"),
        "there": address_text(state, record.pid, value, thread) if cause in NEEDED else None,
    }
