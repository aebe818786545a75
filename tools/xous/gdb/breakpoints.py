"""When a run comes to a breakpoint: a thread that is to act stands at the address.

An ebreak at the place, in the bytes of a state, makes the run on from there tell the step (fault 3). Nothing is
taken for true but what the true run says: its state at that step must have the thread at the breakpoint. What
stands at an address can change on the way (a page comes, or code is written); then the run is asked piece by
piece between the changes that are found.
"""

from __future__ import annotations

import struct

from ..machine import PAGE
from ..states.state import EXCLUSIVE, EXECUTABLE
from .oracle import first_difference, first_where, last_before

EBREAK = struct.pack("<I", 0x0010_0073)
CAUSE_EBREAK = 3


def code_page(state, pid, page):
    """The page from which the process fetches there, or None."""
    row = state.pages.get((pid, page))
    return row if row is not None and row.right & EXECUTABLE and row.loan != EXCLUSIVE else None


def with_word(data, offset, word):
    return data[:offset] + word + data[offset + 4 :]


def code_word(state, point):
    page, offset = divmod(point.address, PAGE)
    row = code_page(state, point.pid, page)
    return row and row.data[offset : offset + 4]


def with_traps(state, points):
    """A copy of the state with an ebreak at each of the points that has code, or None where none has."""
    changed = None
    for point in points:
        if code_word(state, point) is not None:
            changed = changed or state.copy()
            page, offset = divmod(point.address, PAGE)
            row = changed.pages[point.pid, page]
            row.data = with_word(row.data, offset, EBREAK)
    return changed


class Breakpoints:
    def __init__(self, run):
        self.run = run
        self.points = set()

    def stands_at(self, step):
        """A thread that does step + 1 stands at a breakpoint."""
        state = self.run.state_at(step)
        who = state.actor()
        return who is not None and any(
            (point.pid, point.address) == (who[0], state.threads[who].pc) for point in self.points
        )

    def first_from(self, start, end):
        """The first step from `start` on and before `end` at which a thread stands at a breakpoint."""
        if not self.points or start >= end:
            return None
        return start if self.stands_at(start) else self.first_after(start, end)

    def first_after(self, at, end):
        """The first such step after `at` and before `end`."""
        while self.points and at + 1 < end:
            if self.stands_at(at):  # its trap would be met at once
                at += 1
                if at < end and self.stands_at(at):
                    return at
                continue
            last, found = self.first_trap(at, end)
            if found:
                return last if last < end else None
            at = last
            if at < end and self.stands_at(at):
                return at
        return None

    def first_trap(self, at, end):
        """How far it is true that nobody comes to a breakpoint after `at`, and whether somebody does then."""
        changed = with_traps(self.run.state_at(at), self.points)
        difference = changed and first_difference(self.run, changed, at, end)
        until = end if difference is None else difference.step - 1
        change = self.first_change(at, until)
        if change is not None and change < until:
            return change, False
        if difference is None:
            return until, False
        if until > at and self.is_met(difference):
            return until, True
        return until + 1, False  # another page's trap, or code that reads itself: the true run does that step

    def is_met(self, difference):
        record = difference.record
        if record is None or record.what != "fault" or record.words[0] != CAUSE_EBREAK:
            return False
        state = self.run.state_at(difference.step - 1)
        thread = state.threads.get(record.thread)
        return state.actor() == record.thread and thread.pc == record.words[1] and self.stands_at(difference.step - 1)

    def first_change(self, at, until):
        """A step up to `until` in which what stands at a breakpoint becomes something else than at `at`."""

        def words(step):
            state = self.run.state_at(step)
            return [code_word(state, point) for point in self.points]

        before = words(at)
        if until <= at or words(until) == before:
            return None
        return first_where(lambda step: words(step) != before, at, until)

    def last_before(self, start, low):
        """The last such step in `low` to `start` - 1."""
        return last_before(self.first_from, start, low) if self.points else None
