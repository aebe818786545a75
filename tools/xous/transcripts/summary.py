"""A transcript summed up: threads, servers, deaths, and who waits for whom at the end."""

from collections import Counter

from .. import names
from ..machine import PAGE
from . import decode
from .decode import record_of
from .follow import Follower
from .text import LASTS
from .waits import TO_TRY, cycles, purpose, server_text, waiting_text


def counted(number, one, many=None):
    return f"{number:,} {one if number == 1 else many or one + 's'}"


def counts_text(counter):
    return ", ".join(f"{name} {count:,}" for name, count in counter.items())


class ThreadRow:
    """What one thread did."""

    def __init__(self):
        self.calls, self.refused, self.waited = Counter(), Counter(), Counter()
        self.sent, self.received = Counter(), Counter()
        self.tries = self.bytes = self.interrupts = self.lent = self.moved = 0
        self.trying = None  # the first of the tries of a call that isn't served yet
        self.ended = None

    def lines(self):
        if self.calls:
            yield f"{counted(self.calls.total(), 'call')}: {counts_text(self.calls)}"
        if self.refused:
            yield f"errors: {counts_text(self.refused)}"
        if self.sent:
            pages = [f"; {counted(count, 'page')} {how}" for count, how in ((self.lent, "lent"), (self.moved, "moved")) if count]
            yield f"sent {counted(self.sent.total(), 'message')}: {counts_text(self.sent)}{''.join(pages)}"
        if self.received:
            yield f"received {counted(self.received.total(), 'message')}: {counts_text(self.received)}"
        if self.waited:
            parts = ", ".join(f"{steps:,} for {why}" for why, steps in self.waited.items())
            yield f"waited {counted(self.waited.total(), 'step')}: {parts}"
        if self.tries:
            yield f"made a call again {counted(self.tries, 'time')}"
        if self.interrupts:
            yield f"ran its handler {counted(self.interrupts, 'time')}"
        if self.bytes:
            yield f"wrote {counted(self.bytes, 'byte')} to the console"
        if self.ended:
            yield self.ended


class ServerRow:
    """What one server got."""

    def __init__(self):
        self.messages, self.lent, self.moved, self.forwarded = Counter(), 0, 0, 0

    def text(self, server, named):
        made = f", made at step {server.made}" if server.made is not None else ""
        gone = f", gone at step {server.closed}" if server.closed is not None else ""
        parts = [counts_text(self.messages) or "no messages"]
        if self.lent:
            parts.append(f"{counted(self.lent, 'page')} lent to it")
        if self.moved:
            parts.append(f"{counted(self.moved, 'page')} moved to it")
        if self.forwarded:
            parts.append(f"{counted(self.forwarded, 'message')} passed on to it")
        return f"{server_text(server, named)}{made}{gone}: {', '.join(parts)}"


class Summary:
    """Takes lines, and tells of them at the end."""

    def __init__(self, named, filtered):
        self.named, self.filter, self.follower = named, filtered, Follower()
        self.threads, self.servers = {}, {}
        self.deaths, self.looked, self.made = [], [], []
        self.sends = {}  # by thread, its last send, which may still be refused
        self.lines = self.bad = self.step = 0
        self.last = None
        self.takers = {
            decode.CALL: self.take_call,
            decode.REPLY: self.take_reply,
            decode.RETRY: self.take_retry,
            decode.BYTE: self.take_byte,
            decode.IRQ: self.take_irq,
            decode.END: self.take_end,
            decode.FAULT: self.take_fault,
            decode.GONE: self.take_gone,
        }

    def feed(self, line):
        record = record_of(line)
        if record is None:
            self.bad += 1
            return
        self.lines += 1
        self.step = record.step
        if record.what == decode.GONE:
            self.add_waits(record.pid)
        call = self.follower.feed(record)
        if record.what in LASTS:
            self.last = record
        else:
            self.takers[record.what](record, call)

    def row(self, thread):
        row = self.threads.get(thread)
        if row is None:
            row = self.threads[thread] = ThreadRow()
        return row

    def server_row(self, server):
        row = self.servers.get(server)
        if row is None:
            row = self.servers[server] = ServerRow()
        return row

    # Records.

    def take_call(self, record, call):
        row = self.row(record.thread)
        self.count_send(self.sends.pop(record.thread, None))
        if row.trying and row.trying.words != call.words:
            row.trying = None
        if not row.trying:
            row.calls[names.call_name(call.number)] += 1  # tries are counted once
        if call.message and call.number in names.SENDS:
            self.sends[record.thread] = call

    def end_tries(self, row, call):
        """The call was served or refused, perhaps after some tries."""
        if row.trying and call.step is not None:
            if call.step > row.trying.step:
                row.waited[TO_TRY] += call.step - row.trying.step
            row.trying = None

    def take_reply(self, record, call):
        row = self.row(record.thread)
        self.end_tries(row, call)
        if call.step is not None and call.step < record.step and purpose(call):
            row.waited[purpose(call)] += record.step - call.step
        if record.words[0] == names.ERROR:
            row.refused[names.error_name(record.words[1])] += 1
            if call.number == names.TRY_CONNECT and record.words[1] == names.SERVER_NOT_FOUND:
                self.looked.append((record.step, record.thread, call.words[1:5]))
        elif record.words[0] == names.MESSAGE:
            self.take_message(row, call)
        elif call.number == names.NEW_SERVER_CALL:
            self.made.append((record.step, record.thread, call.words[1:5]))
            self.server_row(call.server)
        elif call.number == names.FORWARD and call.server:
            self.server_row(call.server).forwarded += 1

    def take_message(self, row, call):
        message = call.message
        row.received[names.kind_name(message.kind)] += 1
        if message.sender is None and message.server:
            self.count(self.server_row(message.server), message)

    def take_retry(self, record, call):
        row = self.row(record.thread)
        row.tries += 1
        row.trying = row.trying or call

    def take_byte(self, record, _call):
        self.row(record.thread).bytes += 1

    def take_irq(self, record, _call):
        self.row(record.thread).interrupts += 1

    def take_end(self, record, _call):
        if record.tid != decode.INTERRUPT_THREAD:
            self.row(record.thread).ended = f"ended at step {record.step}"

    def take_fault(self, record, _call):
        self.row(record.thread).ended = f"fault {record.words[0]} at step {record.step}"

    def take_gone(self, record, _call):
        self.deaths.append((record.step, record.pid, self.follower.death))
        for thread, row in self.threads.items():
            if thread[0] == record.pid:
                row.ended = row.ended or f"died with its process at step {record.step}"

    # The end.

    def count(self, row, message):
        row.messages[names.kind_name(message.kind)] += 1
        if message.kind in names.LENDS:
            row.lent += message.words[1] // PAGE
        elif message.kind == names.MOVE:
            row.moved += message.words[1] // PAGE

    def count_send(self, call):
        """A send whose thread has gone on, or that waits at the end: so it was accepted, if it wasn't refused."""
        if not call or call.message.refused:
            return
        message, row = call.message, self.row(call.thread)
        row.sent[names.kind_name(message.kind)] += 1
        row.lent += message.words[1] // PAGE if message.kind in names.LENDS else 0
        row.moved += message.words[1] // PAGE if message.kind == names.MOVE else 0
        if call.server:
            self.count(self.server_row(call.server), message)

    def takes(self, thread):
        return self.filter.takes_thread(*thread)

    def thread_lines(self):
        for thread, row in sorted(self.threads.items(), key=lambda item: item[0]):
            if self.takes(thread):
                for place, line in enumerate(row.lines()):
                    yield f"  {self.named.thread(thread)}: {line}" if place == 0 else f"    {line}"

    def server_lines(self):
        for server, row in self.servers.items():
            if server.pid is None or self.takes((server.pid, 0)):
                yield f"  {row.text(server, self.named)}"

    def death_lines(self):
        for step, pid, why in self.deaths:
            if self.takes((pid, 0)):
                yield f"  {step} {self.named.process(pid)}: {why}"

    def missed_lines(self):
        for step, thread, identifier in self.looked:
            later = [(at, maker) for at, maker, made in self.made if made == identifier and at > step]
            after = f"; {self.named.thread(later[0][1])} made it at step {later[0][0]}" if later else ""
            if self.takes(thread):
                yield f"  {self.named.thread(thread)} looked for {names.identifier_text(identifier)} at step {step}{after}"

    def waiting_lines(self):
        for thread, call in sorted(self.follower.pending.items(), key=lambda item: item[0]):
            if self.takes(thread):
                row = self.threads[thread]
                since = row.trying.step if row.trying else call.step
                yield f"  {self.named.thread(thread)} {waiting_text(call, self.named)}, since step {since}"
        ready = [thread for thread in sorted(self.follower.threads) if self.is_ready(thread)]
        for thread in ready:
            yield f"  {self.named.thread(thread)} is ready"
        if not self.follower.threads:
            yield "  no thread is left"
        found = cycles(self.follower)
        if not found:
            yield "  nobody waits in a circle"
        for cycle in found:
            around = " -> ".join(self.named.thread(thread) for thread in [*cycle, cycle[0]])
            yield f"  cycle: {around} (each waits for the next)"

    def is_ready(self, thread):
        return thread not in self.follower.pending and thread[1] != decode.INTERRUPT_THREAD and self.takes(thread)

    def start_line(self):
        last = LASTS[self.last.what] if self.last else "there is no last line"
        return f"{counted(self.step, 'step')} in {counted(self.lines, 'line')}; {last}"

    def report(self):
        """The summary's lines."""
        self.add_waits()
        for call in self.sends.values():
            self.count_send(call)
        yield self.start_line()
        for title, lines in (
            ("threads", self.thread_lines()),
            ("servers", self.server_lines()),
            ("deaths", self.death_lines()),
            ("servers that were looked for before they were there", self.missed_lines()),
            (f"at the end, after step {self.step}", self.waiting_lines()),
        ):
            body = list(lines)
            if body:
                yield from ("", title, *body)

    def add_waits(self, pid=None):
        """Waits that have no reply, those of one process or all."""
        for thread, call in self.follower.pending.items():
            if pid in (None, thread[0]):
                row = self.row(thread)
                start = row.trying or call
                if purpose(call) and self.step > start.step:
                    row.waited[purpose(call)] += self.step - start.step
