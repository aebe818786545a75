"""Going forwards and backwards over a run: where it stops, and of which thread gdb is told."""

from __future__ import annotations

from ..machine import PAGE
from ..names import TERMINATE, call_name
from ..runs.run import Run
from ..states import telling
from . import points
from .breakpoints import EBREAK, Breakpoints, code_page
from .oracle import first_difference
from .points import Stop
from .watchpoints import Watchpoints

ENDINGS = rb"^\d+ (?:\d+ gone$|\d+\.\d+ fault )"
NOWHERE = 0  # an address outside all windows
ACTS = ("call", "byte", "fault", "end")


class History:
    def __init__(self, run: Run):
        self.run = run
        self.step = 0
        self.breaks, self.watches = Breakpoints(run), Watchpoints(run)
        self.calls: list[points.CallBreak] = []
        self.told = None  # the step at which the death that follows was told
        self.told_store = None  # the step at which a store by another process that follows was told
        self.ahead = None  # a step to which gdb may go next

    def state(self):
        return self.run.state_at(self.step)

    def actor(self, step=None):
        return self.run.actor(self.step if step is None else step)

    # What the transcript tells.

    def ending_at(self, record):
        """The stop before a fault or a death, which is at the step before; after it where an event killed."""
        done = self.run.transcript.records(record.step)
        cause = next((other for other in done if other.what in ACTS), None)
        if cause is None or cause.pid != record.pid or not self.is_end(cause):
            text = f"process {record.pid} was killed by an event after step {record.step}\n"
            return Stop(record.step, self.actor(record.step), points.SIGKILL, text=text)
        text, signal = self.cause_of(cause)
        return Stop(record.step - 1, cause.thread, signal, text=f"step {record.step} ends process {cause.pid}: {text}\n")

    def is_end(self, cause):
        """That step ends its process: by a fault, TerminateProcess, or as its last thread above tid 1 ends."""
        if cause.what == "end":
            threads = self.run.state_at(cause.step - 1).threads
            return [who for who in threads if who[0] == cause.pid and who[1] > 1] == [cause.thread]
        return cause.what == "fault" or cause.what == "call" and cause.words[0] == TERMINATE

    @staticmethod
    def cause_of(cause):
        who = telling.thread_name(cause.thread)
        if cause.what == "fault":
            number, value = cause.words
            return f"fault {number} of {who}, value {value:08x}", points.CAUSES.get(number, points.SIGSEGV)
        if cause.what == "call" and cause.words[0] == TERMINATE:
            return f"TerminateProcess({cause.words[1]:#x}) of {who}", points.SIGTERM
        return f"its last thread, {who}, ends", points.SIGTERM

    def call_stop(self, record):
        words = " ".join(f"{word:08x}" for word in record.words)
        text = f"step {record.step}: {telling.thread_name(record.thread)} calls {call_name(record.words[0])} {words}\n"
        return Stop(record.step - 1, record.thread, text=text)

    def patterns(self):
        yield ENDINGS, self.ending_at
        for call in self.calls:
            yield call.pattern(), self.call_stop

    def told_after(self, start):
        """The first stop after a step that the transcript tells."""
        firsts = []
        for pattern, stop_of in self.patterns():
            stops = map(stop_of, self.run.transcript.each(pattern, start))
            firsts.append(next((stop for stop in stops if stop.step > start), None))
        return min(filter(None, firsts), key=lambda stop: stop.step, default=None)

    def told_before(self, start):
        """The last stop before a step that the transcript tells."""
        lasts = []
        for pattern, stop_of in self.patterns():
            stops = map(stop_of, self.run.transcript.each_before(pattern, start))
            lasts.append(next((stop for stop in stops if stop.step < start), None))
        return max(filter(None, lasts), key=lambda stop: stop.step, default=None)

    def death_next(self):
        """The stop before a death in the next step, where that wasn't told yet."""
        if self.told == self.step:
            return None
        records = self.run.transcript.records(self.step + 1)
        stops = [self.ending_at(record) for record in records if record.what in ("fault", "gone")]
        return next((stop for stop in stops if stop.step == self.step), None)

    # Going.

    def watch_stop(self, before, step):
        """The stop for a change of a watched word in the step after `before`. gdb takes a RISC-V machine to stop just
        before the store, so forwards it is told at `before`, and backwards one step later; it then goes one step. It can't
        do that with a thread of another process than the watched one: of such a store it is told in words, before it."""
        who, points_changed = self.actor(before), self.watches.changed_in(before, before + 1)
        point = next((point for point in points_changed if point.pid == who[0]), None)
        if point is not None:
            return Stop(step, who, detail=f"watch:{point.address:x};")
        point, name = points_changed[0], telling.thread_name(who)
        text = f"step {before + 1} of {name} changes the watched {point.address:08x} of process {point.pid}\n"
        return Stop(before, who, text=text, is_foreign_store=True)

    def watch_start(self):
        """From where watched words are looked at: behind a store that was told, where gdb doesn't step over it itself."""
        return self.step + 1 if self.told_store == self.step else self.step

    def at_end(self):
        text = f"{self.run.ending()}\n"
        return Stop(self.run.last, self.actor(self.run.last), detail="replaylog:end;", text=text)

    def at_start(self):
        return Stop(0, self.actor(0), detail="replaylog:begin;")

    def forward(self):
        """Where the run stops next."""
        return self.arrive(self.next_stop())

    def next_stop(self):
        stop = self.told_after(self.step) or self.at_end()
        found = self.breaks.first_after(self.step, stop.step)
        if found is not None:
            stop = Stop(found, self.actor(found))
        found = self.watches.first_after(self.watch_start(), stop.step)
        return stop if found is None else self.watch_stop(found - 1, found - 1)

    def backward(self):
        """Where the run stopped before."""
        stop = self.told_before(self.step) or self.at_start()
        found = self.breaks.last_before(self.step, stop.step)
        if found is not None:
            stop = Stop(found, self.actor(found))
        found = self.watches.last_before(self.step, stop.step)
        return self.arrive(stop if found is None else self.watch_stop(found, found + 1))

    def arrive(self, stop):
        self.step = stop.step
        self.told = stop.step if stop.text else None
        self.told_store = stop.step if stop.is_foreign_store else None
        return stop

    def step_forward(self):
        """One step of the run. A death is told before it."""
        if self.step == self.run.last:
            return self.arrive(self.at_end())
        death = self.death_next()
        if death is not None:
            return self.arrive(death)
        if self.told_store != self.step and self.watches.changed_in(self.step, self.step + 1):
            return self.arrive(self.watch_stop(self.step, self.step))
        self.arrive(stop := Stop(self.step + 1, self.actor()))
        self.ahead = self.step + 1
        return stop

    def step_backward(self):
        if self.step == 0:
            return self.arrive(self.at_start())
        before = self.step - 1
        if self.watches.changed_in(before, self.step):
            return self.arrive(self.watch_stop(before, self.step))
        self.arrive(stop := Stop(before, self.actor(before)))
        self.ahead = self.step - 1
        return stop

    def goto(self, step):
        return self.arrive(Stop(step, self.actor(step), points.SIGINT))

    # A line of the source, as one thread goes over it.

    def step_over(self, who, start, end):
        """Goes on until the thread's pc is outside of `start` to `end` - 1; others act as they do."""
        stop = self.next_stop()
        found = self.left_range(who, range(start, end), stop.step)
        return self.arrive(stop if found is None else Stop(found, who))

    def left_range(self, who, addresses, last):
        """The first step after the current one, and before `last`, at which the thread is out of the range."""
        at = self.step
        while at < last:
            state = self.run.state_at(at)
            if who not in state.threads or at > self.step and state.threads[who].pc not in addresses:
                return at
            alone = state.actor() == who
            if alone and state.threads[who].pc not in addresses:
                at += 1
                continue
            changed = alone_in_range(state, who, addresses) if alone else nowhere(state, [who])
            difference = first_difference(self.run, changed, at, last)
            if difference is None:
                return None
            at = max(difference.step - 1, at + 1) if alone else difference.step - 1
        return None


def nowhere(state, threads):
    """A copy of the state in which the next step of any of these threads is a fault."""
    changed = state.copy()
    changed.threads = dict(state.threads)
    for who in threads:
        changed.threads[who] = type(state.threads[who])(**{**vars(state.threads[who]), "pc": NOWHERE})
    return changed


def alone_in_range(state, who, addresses):
    """A copy in which a step of another thread is a fault, and one of this thread outside of these addresses."""
    changed = nowhere(state, [other for other in state.threads if other != who])
    for page in {place[1] for place in state.pages if place[0] == who[0]}:
        row = code_page(changed, who[0], page)
        if row is not None:
            data = bytearray(EBREAK * (PAGE // 4))
            kept = slice(max(addresses.start - page * PAGE, 0), max(addresses.stop - page * PAGE, 0))
            data[kept] = row.data[kept]
            row.data = bytes(data[:PAGE])
    return changed
