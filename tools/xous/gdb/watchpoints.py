"""When a watched word changes.

A page that nobody may store to, in a state, makes the run on from there tell the first store to it (fault 15), with
its address. A page on an exclusive loan is lent as a shared one for that, so that its holder can't store to it. A
page with many other stores would cost a run for each; after some of them the word is looked for by halving over
states, which finds a change, and not one that is undone between two states that were looked at.
"""

from __future__ import annotations

import dataclasses
import itertools

from ..machine import PAGE
from ..states import reach
from ..states.state import EXCLUSIVE, LEND, MUTABLE_LEND, SHARED, WRITABLE, Orphan
from .oracle import first_difference, first_where, last_before

MOST_TRIES = 12  # stores to other places of the pages that are looked at one by one
MOST_CALLS = 100  # that are looked at for a page that they bring
BRINGS_PAGES = rb"^\d+ \d+\.\d+ call 000000(?:02|0a|10|18|2c) "
CAUSE_STORE = 15


def watched_bytes(state, point):
    """The bytes of the watched place, also while they are on loan and out of reach, or None where no page is there."""
    parts, address, length = [], point.address, point.length
    while length:
        page, offset = divmod(address, PAGE)
        found = reach.place(state, point.pid, page)
        if found is None or not found.row.data:
            return None
        count = min(length, PAGE - offset)
        parts.append(found.row.data[offset : offset + count])
        address, length = address + count, length - count
    return b"".join(parts)


def without_stores(state, points):
    """A copy of the state in which nobody can store to the pages of the points, or None where nobody can anyway."""
    changed = None
    for point in points:
        for page in range(point.address // PAGE, (point.address + point.length - 1) // PAGE + 1):
            found = reach.place(changed or state, point.pid, page)
            if found is None or not found.row.data:
                continue
            changed = changed or state.copy()
            protect(changed, reach.place(changed, point.pid, page).row)
    return changed


def protect(state, row):
    if row.loan == EXCLUSIVE:
        lend_shared(state, row.message)
    if not isinstance(row, Orphan):
        row.right &= ~WRITABLE


def lend_shared(state, number):
    """Makes the exclusive loan of that number a shared one."""
    for row in state.pages.values():
        if row.loan and row.message == number:
            row.loan = SHARED
            row.right &= ~WRITABLE
    for place, row in state.orphans.items():
        if row.message == number:
            state.orphans[place] = dataclasses.replace(row, loan=SHARED)
    state.servers = [
        dataclasses.replace(server, queued=as_lends(server.queued, number), held=as_lends(server.held, number))
        for server in state.servers
    ]


def as_lends(messages, number):
    return [
        dataclasses.replace(message, kind=LEND)
        if message.number == number and message.kind == MUTABLE_LEND
        else message
        for message in messages
    ]


class Watchpoints:
    def __init__(self, run):
        self.run = run
        self.points = set()

    def changed_in(self, before, after):
        """The watched places whose bytes differ at two steps; a place without a page differs from nothing."""
        if not self.points:
            return []
        old, new = self.run.state_at(before), self.run.state_at(after)
        return [
            point
            for point in self.points
            if None not in (pair := (watched_bytes(old, point), watched_bytes(new, point))) and pair[0] != pair[1]
        ]

    def present(self, step):
        state = self.run.state_at(step)
        return [watched_bytes(state, point) is not None for point in self.points]

    def first_after(self, at, last):
        """The first step after `at`, up to `last`, in which a watched word becomes another."""
        tries = 0
        while self.points and at < last:
            if tries == MOST_TRIES:
                return self.by_halving(at, last)
            changed = without_stores(self.run.state_at(at), self.points)
            difference = changed and first_difference(self.run, changed, at, last)
            until = last if difference is None else difference.step - 1
            moved = self.first_move(at, until)
            if moved is not None:
                at = moved
                continue
            if difference is None:
                return None
            at, tries = difference.step, tries + 1
            if self.changed_in(at - 1, at):
                return at
        return None

    def first_move(self, at, until):
        """A step after `at`, up to `until`, in which a page of a watched place comes or goes. One that isn't there comes
        in a step that makes or sends pages; one that is there is looked for by halving."""
        before = self.present(at)
        if not all(before):
            calls = self.run.transcript.each(BRINGS_PAGES, at)
            for record in itertools.islice(itertools.takewhile(lambda record: record.step <= until, calls), MOST_CALLS):
                if self.present(record.step) != before:
                    return record.step
        if until > at and self.present(until) != before:
            return first_where(lambda step: self.present(step) != before, at, until)
        return None

    def by_halving(self, at, last):
        """A step after `at` in which a watched word becomes another than at `at`, the first one that is found."""
        end, width = at, 1
        while end < last:
            begin, end, width = end, min(end + width, last), 8 * width
            if self.changed_in(at, end):
                return first_where(lambda step: bool(self.changed_in(at, step)), begin, end)
        return None

    def last_before(self, start, low):
        """The last step in `low` to `start` - 1 just after which a watched word is another."""

        def find(begin, end):
            found = self.first_after(begin, end)
            return None if found is None else found - 1

        return last_before(find, start, low) if self.points else None
