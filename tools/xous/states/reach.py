"""What a process sees at an address of a state: the table of accesses of docs/machine.md, "Pages"."""

from __future__ import annotations

import struct
from dataclasses import dataclass

from ..machine import PAGE, TIMER, TIMER_INTERRUPT, window
from .state import EXCLUSIVE, EXECUTABLE, SHARED, WRITABLE, Orphan, Page, State

TIMER_PAGE = TIMER // PAGE


class OutOfReach(Exception):
    """Why a process can't load from an address."""


@dataclass
class Place:
    """A page as one process has it: `row` is its Page or Orphan, and the process is its holder or its home."""

    row: Page | Orphan
    is_home: bool
    may: str  # of "rwx"

    def text(self):
        row = self.row
        if isinstance(row, Orphan):
            return f"orphan, {'lent' if row.loan == SHARED else 'mutable'} msg {row.message}"
        if row.is_console():
            return "console"
        if row.loan == 0:
            return "own"
        other = f"to {row.holder[0]}" if self.is_home else f"from {row.pid}"
        return f"{'lent' if row.loan == SHARED else 'mutable'} {other} msg {row.message}"


def place(state: State, pid, page):
    """The page that stands at that place, or None."""
    home = state.pages.get((pid, page))
    if home is not None:
        return Place(home, True, may_at_home(home))
    orphan = state.orphans.get((pid, page))
    if orphan is not None:
        return Place(orphan, False, may_of_holder(orphan.loan))
    lent = holders(state).get((pid, page))
    return lent and Place(lent, False, may_of_holder(lent.loan))


def holders(state):
    """The pages on loan, by their holders' places; found once for each state."""
    if not hasattr(state, "_holders"):
        state._holders = {row.holder: row for row in state.pages.values() if row.loan}
    return state._holders


def may_at_home(row):
    if row.loan == EXCLUSIVE:
        return ""
    writable = row.right & WRITABLE and row.loan != SHARED
    return "r" + "w" * bool(writable) + "x" * bool(row.right & EXECUTABLE)


def may_of_holder(loan):
    return "rw" if loan == EXCLUSIVE else "r"


def why_not(state, pid, page):
    """Why the process can't load from the page, in words."""
    found = place(state, pid, page)
    if found is not None:
        lent_to = found.row.holder[0]
        return f"lent mutably to {lent_to} by message {found.row.message}, until it is returned"
    name = window(page * PAGE)
    return f"no page of the process (window {name})" if name else "outside all windows"


def load(state, pid, address, length):
    """The bytes that the process would load from there; it loads zeros from the console."""
    parts = []
    while length:
        page, offset = divmod(address, PAGE)
        count = min(length, PAGE - offset)
        parts.append(page_bytes(state, pid, page)[offset : offset + count])
        address, length = address + count, length - count
    return b"".join(parts)


def page_bytes(state, pid, page):
    if page == TIMER_PAGE and has_timer(state, pid):
        words = (state.steps, state.timer or 0, state.timer is not None)
        return struct.pack("<3I", *words) + bytes(PAGE - 12)
    found = place(state, pid, page)
    if found is None or not found.may:
        raise OutOfReach(f"{page * PAGE:08x} of process {pid}: {why_not(state, pid, page)}")
    return bytes(PAGE) if found.row.data == b"" else found.row.data


def has_timer(state, pid):
    return any(claim.number == TIMER_INTERRUPT and claim.pid == pid for claim in state.claims)
