"""Runs of lines that are one thing to a reader: Yields, calls that are made again, and bytes of the console.

Yields and tries of several threads are folded side by side, as long as no other line comes between.
"""

from .. import names
from . import decode

MOST_BYTES = 80  # in one line
LINE_FEED = 10


class Run:
    """Lines of one thread that are shown as one: its first record, the last step, how many there were, and bytes."""

    __slots__ = ("what", "record", "call", "last", "count", "data")

    def __init__(self, what, record, call, last):
        self.what, self.record, self.call, self.last = what, record, call, last
        self.count, self.data = 1, bytearray()


class Folder:
    """Takes records with their calls one by one, and hands on what is to be shown as (record, call, run)."""

    def __init__(self):
        self.runs = {}  # by thread, in the order in which they began
        self.held = {}  # by thread, a call that may belong to its run

    def flush(self):
        """What was kept back."""
        if not self.runs and not self.held:
            return []
        shown = [(run.record, run.call, run) for run in self.runs.values()]
        shown += [(record, call, None) for record, call in self.held.values()]
        self.runs.clear()
        self.held.clear()
        return shown

    def passes(self, record):
        """Whether a record is shown at once, as most are: nothing is kept back, and it begins no run."""
        if self.runs or self.held:
            return False
        what = record.what
        return what == decode.REPLY or what == decode.CALL and record.words[0] != names.YIELD

    def feed(self, record, call):
        """What is to be shown now that this record came."""
        what = record.what
        thread = record.thread
        if what == decode.CALL:
            if record.words[0] == names.YIELD or self.is_tried_again(thread, call):
                shown = self.flush() if self.has_bytes() else []
                self.held[thread] = (record, call)
                return shown
        elif what == decode.REPLY:
            if thread in self.held and call.words[0] == names.YIELD and record.words[0] == names.OK:
                return self.grow(decode.CALL, thread, *self.held.pop(thread), record.step)
        elif what == decode.RETRY:
            self.held.pop(thread, None)
            return self.grow(decode.RETRY, thread, record, call, record.step)
        elif what == decode.BYTE:
            return self.add_byte(thread, record)
        return [*self.flush(), (record, call, None)]

    def has_bytes(self):
        return any(run.what == decode.BYTE for run in self.runs.values())

    def is_tried_again(self, thread, call):
        run = self.runs.get(thread)
        return run is not None and run.what == decode.RETRY and run.call is not None and run.call.words == call.words

    def grow(self, what, thread, record, call, step):
        """One more of a run, or the first."""
        run = self.runs.get(thread)
        if run and run.what == what:
            run.last, run.count = step, run.count + 1
            return []
        shown = self.flush() if run or self.has_bytes() else []
        self.runs[thread] = Run(what, record, call, step)
        return shown

    def add_byte(self, thread, record):
        run = self.runs.get(thread)
        full = run is None or run.what != decode.BYTE or len(run.data) >= MOST_BYTES or run.data[-1] == LINE_FEED
        if not full and not self.held:
            run.last, run.count = record.step, run.count + 1
            run.data.append(record.words[0])
            return []
        shown = self.flush()
        self.runs[thread] = run = Run(decode.BYTE, record, None, record.step)
        run.data.append(record.words[0])
        return shown
