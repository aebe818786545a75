"""Whose turn each step is, by a transcript, the events that made it, and how many processes its image has.

The threads that are Ready follow from the records (`records.History`), the steps of silent instructions from the numbers of
steps. So each step has the thread that the circle of pids and tids gives (docs/machine.md, "Threads and processes"), and each
record has to be of that thread. Beside the circle itself, turns have to be fair: between two turns of one thread each thread that
was Ready all the while has one, unless the cursor was moved otherwise in between: by a pick, by an interrupt or the timer, or by
the end of a tick right behind the end of a turn (Yield, a retry, another tick), which passes over a thread without a step.
"""

from .. import names
from ..machine import HANDLER_TID as HANDLER
from ..machine import TIMER_INTERRUPT
from . import decode

from .laws import ACTS, Broken
from .history import History

TURN = "turns are fair"
STUCK = "no step is done exactly where no thread is Ready"
PENDING = "no interrupt is lost"
DEFAULT_LIMIT = 10_000_000


class Fairness:
    """Who was Ready since when, and when each thread had its turns, in moments of a clock."""

    def __init__(self):
        self.now = 0
        self.ready_since, self.begun, self.ended = {}, {}, {}
        self.current = None
        self.moved = -1  # when the cursor was moved otherwise than by the circle
        self.turns = 0

    def look(self, ready):
        """Takes in who is Ready at this moment."""
        self.now += 1
        self.ready_since = {who: self.ready_since.get(who, self.now) for who in ready}

    def move(self):
        self.end()
        self.now += 1
        self.moved = self.now

    def end(self):
        """The turn ends, where one goes on."""
        if self.current is not None:
            self.now += 1
            self.ended[self.current] = self.now
            self.current = None

    def step(self, who, record):
        """A step of this thread."""
        if who == self.current:
            return
        self.end()
        before = self.ended.get(who)
        if before is not None and self.moved < before:
            for other, since in self.ready_since.items():
                if other != who and since <= before and self.begun.get(other, -1) < before:
                    raise Broken(TURN, record, f"{other[0]}.{other[1]} was ready since the last turn of this thread and had none")
        self.now += 1
        self.begun[who] = self.now
        self.current = who
        self.turns += 1


class Played(History):
    """A history whose events are known."""

    def __init__(self, records, events, processes, limit=DEFAULT_LIMIT):
        super().__init__(records, processes)
        self.events, self.limit = events, limit
        self.steps, self.left, self.place = 0, 0, 0  # done, those that the tick still may do, the event that is played
        self.cursor = (2, 2)
        self.pending = {}  # by pid, the interrupts that an event has raised
        self.fairness = Fairness()

    def ready(self):
        return sorted(who for who, call in self.calls.items() if call is None and who not in self.idle)

    def next_ready(self):
        """The next ready thread after the cursor, itself last."""
        ready = self.ready()
        return next((who for who in ready if who > self.cursor), ready[0] if ready else None)

    def play(self):
        """Follows all records by the events. Answers itself."""
        self.fairness.look(self.ready())
        for self.place, event in enumerate(self.events):
            if event.name == "tick":
                if not self.play_tick(event.numbers[0]):
                    return self.finish("limit")
            else:
                getattr(self, f"play_{event.name}")(*event.numbers)
            self.fairness.look(self.ready())
        return self.finish("done")

    def finish(self, how):
        record = self.peek()
        if record and record.what not in (decode.DONE, decode.LIMIT):
            raise Broken(STUCK, record, f"the events end at step {self.steps}")
        if record and (record.step, record.what) != (self.steps, how):
            raise Broken(STUCK, record, f"the run ends at step {self.steps}, {how}")
        if record:
            self.take_next()
        return self

    def play_tick(self, count):
        """Answers whether the step limit isn't met."""
        self.left = count
        while self.left:
            actor = self.cursor if self.cursor in self.ready() else self.next_ready()
            if actor is None:
                break
            if self.steps == self.limit:
                return False
            self.do_steps(actor)
        self.end_turn()
        return True

    def do_steps(self, actor):
        """The silent steps before the next record, or else the step of that record."""
        record = self.peek()
        if self.silent_until(record) < self.steps:
            raise Broken(STUCK, record, "no event makes this record")
        self.fairness.step(actor, record)
        self.cursor = actor
        silent = min(self.silent_until(record) - self.steps, self.left, self.limit - self.steps)
        count = silent or 1
        self.steps, self.left = self.steps + count, self.left - count
        if silent:
            return
        if record.what == decode.IRQ:  # the timer's, at the end of a silent step, where it isn't that of an event
            if self.is_timer():
                self.take_interrupt()
        elif record.thread != actor:
            raise Broken(TURN, record, f"it is the turn of {actor[0]}.{actor[1]}")
        else:
            self.take_step()
            yields = record.what == decode.CALL and record.words[0] == names.YIELD
            if (yields or actor in self.again) and self.cursor == actor:
                self.end_turn()
        self.fairness.look(self.ready())

    def silent_until(self, record):
        """The last step before this record that surely has none."""
        if record is None or record.what in (decode.DONE, decode.LIMIT):
            return self.limit
        is_of_step = record.what in ACTS or record.what == decode.IRQ and record.words[0] == TIMER_INTERRUPT
        return record.step - 1 if is_of_step else record.step

    def end_turn(self):
        if self.fairness.current is None and self.ready():
            self.fairness.move()  # who had the turn did no step in it
        self.fairness.end()
        self.cursor = self.next_ready() or self.cursor

    # Interrupts.

    def is_timer(self):
        """The interrupt of the timer's number is the timer's, unless it may be that of an event before the next step."""
        if self.left and self.ready():
            return True
        for event in self.events[self.place + 1 :]:
            if event.name == "tick" and event.numbers[0]:
                return True
            if event.name == "irq" and event.numbers[0] == TIMER_INTERRUPT:
                return False
        return True

    def waiting(self, pid):
        """The interrupts that an event has raised, and that the process has claimed and not got, in ascending order."""
        return sorted(number for number in self.pending.get(pid, ()) if self.claims.get(number) == pid)

    def is_interrupted(self, step, pid):
        """Whether the end of a handler starts it anew: by the lowest interrupt that waits, or by the timer's, which may."""
        record, waiting = self.next_of(step, decode.IRQ), self.waiting(pid)
        number = record.words[0] if record and record.pid == pid else None
        is_timer = number == TIMER_INTERRUPT and (self.is_timer() if not waiting else number < waiting[0])
        if waiting and number != waiting[0] and not is_timer:
            raise Broken(PENDING, self.peek(), f"interrupt {waiting[0]} waits, and its handler doesn't start before it")
        return bool(waiting) or is_timer

    def take_step(self):
        record = super().take_step()
        self.pending = {pid: set(self.waiting(pid)) for pid in self.pending}  # a claim that has ended gives its interrupt up
        return record

    def take_interrupt(self):
        record = super().take_interrupt()
        self.pending.get(record.pid, set()).discard(record.words[0])
        if record.words[0] == TIMER_INTERRUPT and self.cursor != record.thread:
            self.move(record.thread)
        return record

    def move(self, who):
        self.cursor = who
        self.fairness.move()

    # Events.

    def play_pick(self, pid, tid):
        if (pid, tid) in self.ready():
            self.move((pid, tid))

    def play_irq(self, number):
        pid = self.claims.get(number)
        if pid is None:
            return
        if (pid, HANDLER) not in self.idle:
            self.pending.setdefault(pid, set()).add(number)
            return
        record = self.next_of(self.steps, decode.IRQ)
        if record is None or (record.thread, record.words) != ((pid, HANDLER), (number,)):
            raise Broken(STUCK, self.peek(), f"the event irq {number} starts the handler of {pid} before it")
        self.take_interrupt()
        self.move((pid, HANDLER))

    def play_kill(self, pid):
        if (pid, HANDLER) in self.calls:
            record = self.next_of(self.steps, decode.REPLY, decode.GONE)
            if record is None:
                raise Broken(STUCK, self.peek(), f"the event kill {pid} ends this process before it")
            self.take_kill()
            self.pending.pop(pid, None)

