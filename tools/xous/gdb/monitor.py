"""The commands after `monitor`."""

from __future__ import annotations

import os

from .. import names
from ..errors import Refusal
from ..files import write_whole
from ..machine import MOST_STEPS
from ..runs import events
from ..states import telling
from ..states.state import READY
from .points import CallBreak

HELP = """monitor goto STEP            continue then goes to that step, forwards or backwards
monitor step                 the step, and who acts next
monitor transcript [FROM TO] the transcript's lines of these steps, or of the last ten with lines and the next three
monitor who                  what each thread waits for, and who has that
monitor events [FILE]        the events that lead here, or written to a file
monitor break-call CALL [PID[.TID]]   stop before a system call, by name or number
monitor delete-calls         no longer
"""


class Mistake(Exception):
    """What is wrong with a command."""


def number(text, low, high, what):
    if not text.isascii() or not text.isdigit() or not low <= int(text) <= high:
        raise Mistake(f"{text} is no {what} from {low} to {high}")
    return int(text)


class Monitor:
    def __init__(self, history):
        self.history = history
        self.target = None  # the step to which the next continue goes

    def do(self, line):
        """The answer to a command."""
        name, *words = line.split() or ["help"]
        commands = {
            "goto": (self.goto, 1, 1),
            "step": (self.where, 0, 0),
            "transcript": (self.transcript, 0, 2),
            "who": (self.who, 0, 0),
            "events": (self.events, 0, 1),
            "break-call": (self.break_call, 1, 2),
            "delete-calls": (self.delete_calls, 0, 0),
            "help": (lambda: HELP, 0, 0),
        }
        try:
            command, least, most = commands[name]
        except KeyError:
            return f"{name} is no command of xous-gdb\n{HELP}"
        if not least <= len(words) <= most or name == "transcript" and len(words) == 1:
            return HELP
        try:
            return command(*words)
        except (Mistake, Refusal) as mistake:
            return f"{mistake}\n"

    def goto(self, text):
        self.target = number(text, 0, self.history.run.last, "step")
        return f"continue goes to step {self.target}\n"

    def where(self):
        history = self.history
        who = history.actor()
        acts = f"{telling.thread_name(who)} acts next" if who else "nobody is ready"
        return f"step {history.step} of {history.run.last}, {acts}\n"

    def transcript(self, first=None, last=None):
        run, step = self.history.run, self.history.step
        if first is not None:
            steps = number(first, 0, MOST_STEPS, "step"), number(last, 0, MOST_STEPS, "step")
            lines = run.transcript.lines(*steps)
            return b"".join(line + b"\n" for line in lines).decode()
        data, at = run.transcript.data, run.transcript.offset(step + 1)
        before, after = data[max(at - 1200, 0) : at].splitlines()[-10:], data[at : at + 400].splitlines()[:3]
        return "".join(f"  {line.decode()}\n" for line in before) + "".join(f"> {line.decode()}\n" for line in after)

    def who(self):
        state = self.history.state()
        return "".join(
            f"{telling.thread_name(who)} {telling.wait_text(state, thread)}\n"
            for who, thread in sorted(state.threads.items())
        ) + "".join(f"{text}\n" for text in circles(state))

    def events(self, path=None):
        data = events.spelled(self.history.run.events_until(self.history.step))
        if path is None:
            return data.decode()
        write_whole(os.path.expanduser(path), data, events.is_event_file, "an event file")
        return f"{path}: the events up to step {self.history.step}\n"

    def break_call(self, name, thread=None):
        known = {call.lower(): call_number for call, call_number in names.NUMBERS.items()}
        called = known.get(name.lower())
        if called is None:
            called = number(name, 0, 0xFFFF_FFFF, "call of docs/calls.md, nor a number")
        pid, _, tid = (thread or "").partition(".")
        pid = number(pid, 2, 65, "pid") if pid else None
        tid = number(tid, 1, 31, "tid") if tid else None
        self.history.calls.append(CallBreak(called, pid, tid))
        return f"stops before {names.call_name(called)} of {thread or 'any thread'}\n"

    def delete_calls(self):
        self.history.calls.clear()
        return ""


def circles(state):
    """The threads that wait for each other in a circle, in words: no step of theirs ends it."""
    told = set()
    for who in sorted(state.threads):
        path = [who]
        while (following := next_waiter(state, path[-1])) is not None and following not in path:
            path.append(following)
        if following is not None:
            circle = path[path.index(following) :]
            if not told & set(circle):
                told |= set(circle)
                yield "a circle: " + ", ".join(map(telling.thread_name, [*circle, circle[0]]))


def next_waiter(state, who):
    """The thread whose doing could end the wait of `who`, where it is one alone and waits for an answer itself."""
    thread = state.threads.get(who)
    causes = [] if thread is None or thread.state == READY else telling.waited_for(state, thread)
    if not causes:
        return None
    if isinstance(causes[0], tuple):
        return causes[0]
    others = [other for other in state.threads if other[0] == causes[0] and other[1] > 1]
    return others[0] if len(others) == 1 and state.threads[others[0]].state != READY else None
