"""The text view: each line of a transcript in words, as it comes."""

from __future__ import annotations

import io
import json
import select
import sys

from .. import names
from . import decode
from .decode import record_of
from .folding import Folder
from .follow import Follower
from .text import LASTS, Text

CHUNK = 1 << 16
IDLE = 0.3  # seconds without a line, after which what was kept back is shown
DIM, RED, PLAIN = "\033[2m", "\033[31m", "\033[0m"
OF_PROCESSES = ("\033[32m", "\033[34m", "\033[35m", "\033[36m", "\033[33m")


class Filter:
    """Which lines are shown: of these processes or threads, of these calls, of these steps."""

    def __init__(self, only=(), calls=(), first=None, last=None):
        self.only, self.calls = frozenset(only), frozenset(calls)
        self.first, self.last = first, last
        self.takes_all = not (only or calls or first is not None or last is not None)

    def takes_thread(self, pid, tid):
        """A thread is named as (pid, tid), and a whole process as (pid, none)."""
        if not self.only or (pid, None) in self.only or (pid, tid) in self.only:
            return True
        return tid == 0 and any(pid == each for each, _ in self.only)

    def takes_step(self, step):
        return (self.first is None or step >= self.first) and (self.last is None or step <= self.last)

    def takes(self, record, call):
        if self.takes_all:
            return True
        if not self.takes_step(record.step):
            return False
        if record.what in (decode.DONE, decode.LIMIT):
            return not self.calls
        if self.calls and not (call and call.number in self.calls):
            return False
        return self.takes_thread(record.pid, record.tid)


class View:
    """Takes lines and gives lines."""

    def __init__(self, named, filtered, folds=True, colours=False):
        self.follower = Follower()
        self.text = Text(named, self.follower)
        self.filter, self.colours = filtered, colours
        self.folder = Folder() if folds else None
        self.bad = 0

    def coloured(self, record, head, body):
        step, _, thread = head.partition(" ")
        hue = OF_PROCESSES[record.pid % len(OF_PROCESSES)]
        if record.what == decode.REPLY:
            refused = record.words[0] == names.ERROR
            body = f"{RED if refused else DIM}{body}{PLAIN}"
        elif record.what in (decode.FAULT, decode.GONE):
            body = f"{RED}{body}{PLAIN}"
        return f"{DIM}{step}{PLAIN} {hue}{thread}{PLAIN} {body}"

    def line(self, record, head, body):
        return self.coloured(record, head, body) if self.colours else f"{head} {body}"

    def run_line(self, run):
        """A run of lines as one."""
        record, head = run.record, self.text.head(run.record)
        if run.last != record.step:
            step, _, thread = head.partition(" ")
            head = f"{step}-{run.last} {thread}"
        if run.what == decode.BYTE:
            body = f"console {names.quoted(bytes(run.data))}"
        elif run.what == decode.RETRY:
            body = self.text.retry(run.call) + (f", {run.count} times so far" if run.count > 1 else "")
        else:
            body = "Yield()" + (f", {run.count} times" if run.count > 1 else "")
        return self.line(record, head, body)

    def shown(self, items):
        """What the folder hands on, as lines."""
        for record, call, run in items:
            yield self.run_line(run) if run else self.own_line(record, call)

    def own_line(self, record, call):
        return self.line(record, self.text.head(record), self.text.writers[record.what](record, call))

    def feed(self, line, lines):
        """Appends the lines to show for a line."""
        record = record_of(line)
        if record is None:
            self.bad += 1
            lines.extend(self.flush())
            lines.append(line)
            return
        call = self.follower.feed(record)
        if not (self.filter.takes_all or self.filter.takes(record, call)):
            return
        if self.folder is None or self.folder.passes(record):
            lines.append(self.own_line(record, call))
        else:
            lines.extend(self.shown(self.folder.feed(record, call)))

    def flush(self):
        """The lines that were kept back for a run."""
        return list(self.shown(self.folder.flush())) if self.folder else []


class JsonView:
    """Takes lines and gives JSON objects; their fields are in docs/transcript.md."""

    def __init__(self, named, filtered):
        self.named, self.filter = named, filtered
        self.follower = Follower()
        self.text = Text(named, self.follower)
        self.bad = 0

    def feed(self, line, lines):
        record = record_of(line)
        if record is None:
            self.bad += 1
            lines.append(json.dumps({"kind": None, "text": line}))
            return
        call = self.follower.feed(record)
        if self.filter.takes(record, call):
            lines.append(json.dumps(self.tree(record, call)))

    def tree(self, record, call):
        is_last = record.what in LASTS
        message = call.message if call else None
        return {
            "step": record.step,
            "kind": record.what,
            "pid": None if is_last else record.pid,
            "tid": record.tid or None,
            "process": None if is_last else self.named.process(record.pid),
            "call": names.call_name(call.number) if call and call.number is not None else None,
            "words": list(record.words),
            "server": call.server.name if call and call.server else None,
            "message": message.number if message else None,
            "of_step": call.step if call and record.what == decode.REPLY else None,
            "text": self.text.line(record, call),
        }

    def flush(self):
        return []


def is_idle(source):
    """Whether nothing came from a pipe for a while; a file always has its next bytes or its end."""
    try:
        return not select.select([source], [], [], IDLE)[0]
    except io.UnsupportedOperation:
        return False


def lines_of(source):
    """The lines of a binary file as lists, each as soon as it is there, and an empty list where none comes for a while.

    Bytes that aren't UTF-8 are kept as they are.
    """
    rest: list[bytes] = []  # the pieces of a line whose end hasn't come
    while True:
        if is_idle(source):
            yield []
        chunk = source.read1(CHUNK)
        if not chunk:
            break
        whole, feed, last = chunk.rpartition(b"\n")
        if feed:
            text = b"".join([*rest, whole])
            rest = [last]
            yield text.decode("utf-8", "surrogateescape").split("\n")
        else:
            rest.append(chunk)
    text = b"".join(rest)
    if text:
        yield [text.decode("utf-8", "surrogateescape")]


def run(view, source, sink):
    """Writes the view of a file of lines; answers the number of lines that are none of a transcript."""

    def put(lines):
        if lines:
            lines.append("")
            sink.write("\n".join(lines).encode("utf-8", "surrogateescape"))
            sink.flush()

    for lines in lines_of(source):
        shown = []
        for line in lines:
            view.feed(line, shown)
        put(shown if lines else view.flush())
    put(view.flush())
    return view.bad


def warn(bad):
    text = "1 line is no line" if bad == 1 else f"{bad:,} lines are no lines"
    print(f"xous-view: warning: {text} of a transcript", file=sys.stderr)
