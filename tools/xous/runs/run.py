"""Runs of the program: what it told of a run, and the state of that run at any step.

The program is the oracle of its own runs. *Step* S of a run means here the state just before step S + 1 is
done: the events before that step were played. At the run's last step all events were.

`suspend` writes the state after whole events, so the tick in which the step lies is cut there. That ends the
turn of the thread (docs/machine.md, "Events and the limit"), and so the cursor is put back.
"""

from __future__ import annotations

import collections
import functools
import itertools
import os
import subprocess
import tempfile

from ..errors import Refusal
from ..files import MOST_EVENT_BYTES, read_file, why
from ..machine import MOST_FRAMES, TABLE_FRAMES, TIMER_INTERRUPT, USUAL_STEPS
from ..names import YIELD
from ..states import state
from ..transcripts.decode import BYTE, CALL, END, FAULT, IRQ, RETRY
from ..transcripts.stored import Transcript
from . import events
from .program import find_program

DONE, STEP_LIMIT = 0, 7
KEPT_BYTES = 128 << 20  # of states, for going backwards


class Run:
    """An image played over an event file."""

    def __init__(self, image, event_file, steps=None, slots=None, program=None):
        self.before = lambda: None  # is called before each run of the program, and may raise
        self.image = str(image)
        self.program = program or find_program()
        self.events, self.bad_line = events.read(read_file(event_file, MOST_EVENT_BYTES))
        self.limit = steps
        self.options = [str(word) for word in self.limit_words(slots)]
        self.folder = tempfile.TemporaryDirectory(prefix="xous-run-")
        self.transcript = self.play()
        self.last = self.transcript.steps
        # How many steps a tick may do in all the events before each, and how many were done after so many events.
        self.most = list(itertools.accumulate((event.most_steps for event in self.events), initial=0))
        self.done = {0: 0, len(self.events): self.last}
        self.states, self.kept = collections.OrderedDict(), 0
        self.ahead = None  # a step, the file of its state, and the process that writes it

    def limit_words(self, slots):
        if slots is not None and self.limit is None:
            self.limit = USUAL_STEPS
        return [word for word in (self.limit, slots) if word is not None]

    def start(self, words, played, output=subprocess.PIPE, name="events"):
        """The program with these words and events; the events come by a file of that name, as they may be many."""
        self.before()
        path = os.path.join(self.folder.name, name)
        with open(path, "wb") as file:
            file.write(events.spelled(played))
        words = [self.program, words[0], words[1], path, *words[2:]]
        try:
            return subprocess.Popen(words, stdout=output, stderr=subprocess.PIPE)
        except OSError as error:
            raise Refusal(f"{self.program}: {why(error)}") from None

    def ask(self, command, played, output=subprocess.PIPE):
        with self.start([command, self.image, *self.options], played, output) as process:
            answer, notes = process.communicate()
        if process.returncode not in (DONE, STEP_LIMIT):
            raise Refusal(notes.decode(errors="replace").strip() or f"xousim ended with {process.returncode}")
        return answer

    def play(self):
        with open(os.path.join(self.folder.name, "transcript"), "w+b") as file:
            self.ask("trace", self.events, file)
            return Transcript(file)

    def close(self):
        self.forget_expected()
        self.transcript.data.close()
        self.folder.cleanup()

    def ending(self):
        """Why the run ends where it does, in the program's words."""
        if self.transcript.met_limit:
            return f"step limit {self.last}"
        if self.bad_line is not None:
            return f"event fault at line {self.bad_line}"
        return f"end {self.last} done"

    # Where a step lies among the events.

    def steps_after(self, count):
        """How many steps are done after so many events. Where no tick ended early between two numbers that are known,
        those between follow; else the program is asked."""
        if count not in self.done:
            low = max(known for known in self.done if known < count)
            high = min(known for known in self.done if known > count)
            if self.most[high] - self.most[low] == self.done[high] - self.done[low]:
                return self.done[low] + self.most[count] - self.most[low]
            self.done[count], _ = self.ending_after(count)
        return self.done[count]

    @functools.lru_cache(maxsize=None)
    def ending_after(self, count):
        """The steps after so many events, and whether the step limit is met within them."""
        _, steps, how = self.ask("ledger", self.events[:count]).splitlines()[-1].split()
        return int(steps), how == b"limit"

    def is_played_before(self, count, step):
        """So many events are played whole before step + 1."""
        if self.steps_after(count) > step:
            return False
        return not (self.transcript.met_limit and step == self.last and self.ending_after(count)[1])

    def locate(self, step):
        """How many events are played whole before step + 1, and how many steps of the next one."""
        if step >= self.last and not self.transcript.met_limit:
            return len(self.events), 0
        low, high = 0, len(self.events)  # so many are played whole, and so many aren't
        while high - low > 1:
            middle = (low + high) // 2
            if self.is_played_before(middle, step):
                low = middle
            else:
                high = middle
        return low, step - self.steps_after(low)

    def events_until(self, step):
        whole, steps = self.locate(step)
        return self.events[:whole] + ([events.tick(steps)] if steps else [])

    def events_from(self, step, last=None):
        """The events that lead on from a step, cut at another one."""
        whole, steps = self.locate(step)
        rest = list(self.events[whole:])
        if steps:
            rest[0] = events.tick(rest[0].most_steps - steps)
        if last is None or last >= self.last:
            return rest
        end, steps_of_last = self.locate(last)
        if end == whole:
            return [events.tick(steps_of_last - steps)]
        return rest[: end - whole] + ([events.tick(steps_of_last)] if steps_of_last else [])

    # States.

    def state_at(self, step):
        """The state just before step + 1 is done. Those that were asked for last are kept."""
        kept = self.states.get(step)
        if kept is not None:
            self.states.move_to_end(step)
            return kept[0]
        data = self.expected(step) or self.ask("suspend", self.events_until(step))
        found = state.read(data)
        if self.locate(step)[1]:
            found.cursor = self.cursor_in_tick(step, found)
        self.keep(step, found, len(data))
        return found

    def expect(self, step):
        """Lets the program make the state at a step that will probably be asked for, while nobody waits for it."""
        if step in self.states or not 0 <= step <= self.last:
            return
        self.forget_expected()
        file = open(os.path.join(self.folder.name, "ahead"), "w+b")
        words = ["suspend", self.image, *self.options]
        self.ahead = step, file, self.start(words, self.events_until(step), file, "events-ahead")

    def expected(self, step):
        """The bytes of the state that was let make, where it is of this step."""
        if self.ahead is None or self.ahead[0] != step:
            return None
        _, file, process = self.ahead
        process.wait()
        file.seek(0)
        data = file.read() if process.returncode == DONE else None
        self.forget_expected()
        return data

    def forget_expected(self):
        if self.ahead is not None:
            _, file, process = self.ahead
            process.kill()
            process.wait()
            process.stderr.close()
            file.close()
            self.ahead = None

    def keep(self, step, found, size):
        self.states[step] = found, size
        self.kept += size
        while self.kept > KEPT_BYTES and len(self.states) > 1:
            _, (_, size) = self.states.popitem(last=False)
            self.kept -= size

    def cursor_in_tick(self, step, found):
        """The cursor after a step in the middle of a tick, whose end has moved it on in `found`.

        The step's own records say whose it was, where it has any. The cursor stays there, even where that
        thread waits or is gone, but for Yield, a retry, and the timer's interrupt, which move it to a thread
        that is ready; and after a step without records its thread is ready. Of a ready thread the end of a
        turn is undone by the circle of the ready ones.
        """
        acted, moved = None, False
        for record in self.transcript.records(step):
            if record.what in (CALL, FAULT, END, BYTE):
                acted = record.thread
            if record.what == RETRY or record.what == CALL and record.words[0] == YIELD:
                moved = True
            if record.what == IRQ and record.words[0] == TIMER_INTERRUPT:
                return record.thread
        return acted if acted and not moved else found.ready_before(found.cursor) or found.cursor

    def actor(self, step):
        """The thread that does step + 1, or would where the events went on."""
        return self.state_at(step).actor()

    # Going on from a changed state.

    def resume(self, changed, step, last=None):
        """The program over the rest of the events from a state, which may be changed; its output is read from the process."""
        path = os.path.join(self.folder.name, "state")
        with open(path, "wb") as file:
            file.write(changed.to_bytes())
        frames = TABLE_FRAMES * len(changed.processes) + 1 + changed.capacity
        limit = self.limit or USUAL_STEPS
        slots = max(frames - MOST_FRAMES, 0)
        return self.start(["resume", path, str(limit), str(slots)], self.events_from(step, last))
