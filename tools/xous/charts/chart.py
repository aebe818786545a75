"""What a chart shows of a transcript: lanes, rows, marks, arrows, loans and waits, without how it is drawn."""

from .. import names
from ..errors import Refusal
from ..machine import CONSOLE
from ..transcripts import decode
from ..transcripts.decode import record_of
from ..transcripts.follow import Follower
from ..transcripts.text import LASTS, Text, page_text
from ..transcripts.waits import FOR_ANSWER, FOR_MESSAGE, FOR_THREAD, kind_text, purpose

MOST_MARKS = 5000
TOP, BOTTOM = -1, None  # rows of what began before the first row, and of what doesn't end
MOST_BYTES = 40  # of the console in one mark
LINE_FEED = 10

SEND, ANSWER, START, ENDED = "send", "answer", "start", "ended"  # kinds of arrows
# Kinds of marks, beside those of records.
SERVED, REFUSED, AGAIN, TEXT, DEATH, RUN = "served", "refused", "again", "text", "death", "run"
ACTS = (decode.CALL, decode.BYTE, decode.FAULT, decode.END)
MOST_SILENT = 8  # runs without a line between two lines, each of which has a mark


class Mark:
    """A point on a lane: its kind, its label, and the lines of the transcript that it stands for."""

    __slots__ = ("row", "thread", "kind", "label", "lines", "message", "call", "count", "last", "data", "before")

    def __init__(self, row, thread, kind, label, call=None, message=None):
        self.row, self.thread, self.kind, self.label, self.call, self.message = row, thread, kind, label, call, message
        self.lines, self.count, self.last, self.data, self.before = [], 1, None, bytearray(), None


    def takes_bytes(self):
        """Whether the next byte of the console is shown with those of this mark."""
        return self.kind == TEXT and self.row != TOP and len(self.data) < MOST_BYTES and self.data[-1] != LINE_FEED

    def is_try_of(self, call):
        """Whether it stands for tries of the same call that were in vain."""
        return self.kind == AGAIN and self.row != TOP and self.call is not None and self.call.words == call.words


class Arrow:
    """From a mark's place to another's: a send to its delivery, a return to its caller, a thread's start or end."""

    __slots__ = ("kind", "start", "end", "label", "message")

    def __init__(self, kind, start, end, label="", message=None):
        self.kind, self.start, self.end, self.label, self.message = kind, start, end, label, message


class Span:
    """A stretch of a lane, from row to row: a wait, or a page on loan."""

    __slots__ = ("thread", "first", "last", "label", "message", "mutable", "is_holder")

    def __init__(self, thread, first, label, message=None, is_holder=False):
        self.thread, self.first, self.last, self.label = thread, first, BOTTOM, label
        self.message, self.is_holder = message, is_holder
        self.mutable = bool(message) and message.kind == names.MUTABLE_LEND


class Loan:
    """The spans of one message's pages: one at the lender, and one at each holder in turn."""

    def __init__(self, message, thread, row):
        label = f"{names.span_text(*message.words[:2])} on loan by {kind_text(message)}"
        self.message = message
        self.lender = Span(thread, row, label, message)
        self.holders = []
        self.sent = row  # from here on the pages are at the next holder

    def arrives(self, thread, what):
        label = f"{what} lent by {kind_text(self.message)}"
        self.holders.append(Span(thread, self.sent, label, self.message, is_holder=True))

    def leaves(self, row):
        if self.holders and self.holders[-1].last is BOTTOM:
            self.holders[-1].last = row
        self.sent = row

    def ends(self, row):
        if self.lender.last is BOTTOM:
            self.lender.last = row
        self.leaves(row)


class Chart:
    """Takes lines; then it has what is to be drawn."""

    def __init__(self, named, filtered, runs=(), keeps_all=False):
        """`runs` are the stretches of steps by their threads, where they are known. Of more marks than can be drawn there is no
        more than their number, but where all are kept, for a trace."""
        self.named, self.filter, self.follower = named, filtered, Follower()
        self.runs, self.keeps_all = runs, keeps_all
        self.next_run, self.has_line = 0, False  # the run that isn't over yet, and whether it has a line
        self.silent = []  # runs without a line, which have no mark yet
        self.text = Text(named, self.follower)
        self.steps = []  # of the rows
        self.marks, self.arrows, self.waits, self.loans = [], [], [], []
        self.lives = {}  # by thread, the rows from and to which it lives, as lists
        self.deaths = 0
        self.bad = self.count = 0
        self.bounds, self.most = None, None  # the first and the last step, and that of the last mark that is drawn
        self.taken = set()  # lanes that have a mark in the last row
        self.latest = {}  # by thread, its last mark
        self.waiting, self.trying, self.ends = {}, {}, {}  # by thread: calls and ends with their rows
        self.on_loan, self.sent, self.forwarded, self.answered = {}, {}, {}, {}  # by message: loans, and places
        self.takers = {
            decode.CALL: self.take_call,
            decode.REPLY: self.take_reply,
            decode.RETRY: self.take_retry,
            decode.BYTE: self.take_byte,
            decode.FAULT: self.take_fault,
            decode.END: self.take_end,
            decode.IRQ: self.take_irq,
            decode.GONE: self.take_gone,
        }

    def feed(self, line):
        record = record_of(line)
        if record is None:
            self.bad += 1
        elif record.what in LASTS:
            self.follower.feed(record)
        elif self.filter.last is None or record.step <= self.filter.last:
            self.bounds = (self.bounds[0] if self.bounds else record.step, record.step)
            self.take_runs(record)
            self.takers[record.what](record, line)

    # Who runs between the lines.

    def take_runs(self, record):
        """Puts marks for the runs before this record that have no line of their own."""
        while self.next_run < len(self.runs) and self.runs[self.next_run].last < record.step:
            self.pass_run()
        self.flush_runs()
        if self.next_run < len(self.runs) and self.runs[self.next_run].first <= record.step and record.what in ACTS:
            self.has_line = True

    def pass_run(self):
        """The next run is over."""
        if not self.has_line:
            self.silent.append(self.runs[self.next_run])
        self.next_run, self.has_line = self.next_run + 1, False

    def flush_runs(self):
        """A mark for each silent run, or one for those of each thread where they are many."""
        groups = [[run] for run in self.silent]
        if len(groups) > MOST_SILENT:
            by_thread = {}
            for run in self.silent:
                by_thread.setdefault(run.thread, []).append(run)
            groups = sorted(by_thread.values(), key=lambda runs: runs[0].first)
        self.silent = []
        for runs in groups:
            first, last = runs[0].first, runs[-1].last
            times = f", {len(runs)} times in turn with others" if len(runs) > 1 else ""
            text = f"runs, steps {first} to {last}{times}" if last > first else f"runs, step {first}"
            record = decode.Record(first, runs[0].thread, RUN, ())
            self.mark(record, "", RUN, text)
            made = self.latest.get(runs[0].thread)
            if made and made.kind == RUN and made.lines:
                made.lines[:] = [("no line of the transcript", f"{first} {self.named.thread(runs[0].thread)} {text}")]

    # Rows and marks.

    def in_window(self, record):
        return self.filter.first is None or record.step >= self.filter.first

    def is_drawn(self, record):
        """Whether a mark of this record is drawn; of the others there is no more than their number."""
        return self.in_window(record) and (self.keeps_all or self.count < MOST_MARKS)

    def is_shown(self, thread):
        return self.filter.takes_thread(*thread)

    def row(self, record, thread):
        """The row of a mark on the lane of this thread; a new one where the lane has a mark in the last."""
        if not self.in_window(record):
            return TOP
        if not self.steps or self.steps[-1] != record.step or thread in self.taken:
            self.steps.append(record.step)
            self.taken.clear()
        self.taken.add(thread)
        return self.last_row()

    def last_row(self):
        return len(self.steps) - 1 if self.steps else TOP

    def mark(self, record, line, kind, label, call=None, message=None):
        """Puts a mark on the record's lane, and answers its row."""
        thread = record.thread
        if not self.is_shown(thread):
            # What goes on in a lane that isn't shown is drawn at the last row, as far as it concerns others.
            return self.last_row() if self.in_window(record) else TOP
        row = self.row(record, thread)
        made = Mark(row, thread, kind, label, call, message)
        if self.is_drawn(record):
            if kind == RUN:
                made.lines.append((line, label))
            else:
                self.add_line(made, record, line, call)
        made.before = self.latest.get(thread)
        if made.before:
            made.before.before = None  # so that no more than two marks of a lane are kept for it
        self.latest[thread] = made
        self.lives.setdefault(thread, [[TOP, BOTTOM]])
        if row != TOP:
            self.count += 1
            if self.keeps_all or self.count <= MOST_MARKS:
                self.marks.append(made)
            if self.count > MOST_MARKS and self.most is None:
                self.most = next((self.steps[each.row] for each in self.marks[::-1] if each.row < row), record.step)
        return row

    def add_line(self, mark, record, line, call):
        if self.count < MOST_MARKS:
            mark.lines.append((line, f"{self.text.head(record)} {self.text.line(record, call)}"))

    # Calls and replies.

    def call_label(self, call):
        words, number = call.words, call.number
        name = names.call_name(number)
        if number in names.SENDS:
            rest = names.span_text(*words[4:6]) if words[2] in names.WITH_PAGES else names.words_text(words[4:])
            to = f" to {call.server.name}" if call.server else f" by cid {words[1]}"
            return f"{name}{to}: {rest}"
        if number == names.MAP:
            what = "console" if words[1] == CONSOLE else f"{words[3]:x}"
            return f"{name} {what} {names.flags_text(words[4])}"
        if number == names.CREATE_THREAD:
            return f"{name} {self.named.code(call.thread[0], words[1])}"
        if number == names.RETURN_MEMORY:
            return f"{name} message {words[1]}: {page_text(words[4:6])}"
        return f"{name} {self.named.arguments(call.thread[0], words)}".strip()

    def take_call(self, record, line):
        call = self.follower.feed(record)
        thread, message = record.thread, call.message
        if call.number == names.YIELD and self.adds_yield(record):
            return
        label = self.call_label(call) if self.is_drawn(record) else ""
        row = self.mark(record, line, SERVED, label, call, message)
        self.waiting[thread] = (call, row)
        if message and call.number in names.SENDS:
            self.sent[message] = (row, thread)
            if message.kind in names.LENDS:
                self.lend(message, (row, thread))
        elif message and call.number in names.RETURNS:
            self.answered[message] = (row, thread)
        elif message and call.number == names.FORWARD:
            self.forwarded[message] = (row, thread)

    def adds_yield(self, record):
        """Whether a Yield is one more of a run."""
        mark = self.latest.get(record.thread)
        if not mark or mark.row == TOP or not mark.call or mark.call.number != names.YIELD:
            return False
        mark.count, mark.last = mark.count + 1, record.step
        mark.label = f"Yield, {mark.count} times up to step {record.step}"
        return True

    def forget_refused(self, call):
        """A send that wasn't accepted lends nothing."""
        message = call.message
        if message and message.refused:
            self.sent.pop(message, None)
            loan = self.on_loan.pop(message, None)
            if loan:
                self.loans.remove(loan)

    def take_reply(self, record, line):
        call = self.follower.feed(record)
        thread, words = record.thread, record.words
        self.forget_refused(call)
        started = self.waiting.pop(thread, None)
        mark = self.latest.get(thread)
        if not started and mark and mark.count > 1 and call.number == names.YIELD:
            return
        if started and mark and mark.call is call and call.step == record.step and mark.row == self.last_row():
            row = mark.row
            if mark.label:
                self.add_line(mark, record, line, call)
                self.answer_mark(mark, call, words)
        else:
            kind = REFUSED if words[0] == names.ERROR else decode.REPLY
            label = self.answer_label(call, words) if self.is_drawn(record) else ""
            row = self.mark(record, line, kind, label, call, call.message)
        if started:
            self.end_waits(*started, row)
        self.follow_reply(record, call, row)

    def answer_mark(self, mark, call, words):
        """A call's own mark tells of its reply too."""
        mark.message = mark.message or call.message
        if words[0] == names.ERROR:
            mark.kind = REFUSED
            mark.label += f": {names.error_name(words[1])}"
        elif words[0] != names.OK or call.number == names.TRY_RECEIVE:
            mark.label += f": {self.answer_label(call, words)}"

    def answer_label(self, call, words):
        if words[0] == names.MESSAGE:
            rest = names.span_text(*words[4:6]) if words[2] in names.WITH_PAGES else names.words_text(words[4:])
            return f"message {words[1]}: {rest}"
        if words[0] == names.NEW_SERVER:
            return f"cid {words[5]}"
        if words[0] == names.MEMORY_RANGE:
            return names.span_text(*words[1:3])
        return names.error_name(words[1]) if words[0] == names.ERROR else self.text.answer(call, words)

    def follow_reply(self, record, call, row):
        """Arrows and loans that come of a reply."""
        message, first = call.message, record.words[0]
        number = call.number
        if first == names.MESSAGE:
            self.deliver(message, record, row)
        elif number in names.SENDS:
            self.answer_send(call, record, row)
        elif number in names.RETURNS and message and first == names.OK and self.is_shown(record.thread):
            self.settle(row)
        elif number == names.FORWARD and message:
            if first != names.OK:
                self.forwarded.pop(message, None)
            elif message in self.on_loan and message.receiver is None:
                self.on_loan[message].leaves(row)
        elif number == names.DESTROY_SERVER:
            self.settle(row)
        elif number == names.CREATE_THREAD and first == names.THREAD_ID:
            new = (record.pid, record.words[1])
            if self.is_shown(new):
                self.lives.setdefault(new, []).append([row, BOTTOM])
                self.arrow(START, (row, record.thread), (row, new))
        elif number == names.JOIN and first == names.SCALAR1:
            self.arrow(ENDED, self.ends.get((record.pid, call.words[1])), (row, record.thread))

    def arrow(self, kind, start, end, label="", message=None):
        """An arrow between two lanes that are shown."""
        if start and end[0] != TOP and self.is_shown(start[1]) and self.is_shown(end[1]):
            self.arrows.append(Arrow(kind, start, end, label, message))

    def deliver(self, message, record, row):
        start, passed = self.sent.pop(message, None), self.forwarded.pop(message, None)
        label = kind_text(message)
        self.arrow(SEND, passed or start, (row, record.thread), f"{label}, passed on" if passed else label, message)
        if message.kind in names.LENDS:
            loan = self.on_loan.get(message) or self.lend(message, start)
            if passed:
                loan.leaves(passed[0])
            loan.arrives(record.thread, names.span_text(*record.words[4:6]))

    def lend(self, message, start):
        row, thread = start or (TOP, message.sender)
        loan = self.on_loan[message] = Loan(message, thread, row)
        self.loans.append(loan)
        return loan

    def answer_send(self, call, record, row):
        message = call.message
        if message and record.words[0] in (names.MEMORY_RETURNED, names.SCALAR1, names.SCALAR2):
            start = self.answered.pop(message, None)
            self.arrow(ANSWER, start, (row, record.thread), f"{kind_text(message)} answered", message)
        if self.is_shown(record.thread):
            self.settle(row)

    def settle(self, row):
        """Ends the loans that are over, also those of a lender that is dead."""
        for message, loan in list(self.on_loan.items()):
            if message.ended is not None:
                self.queue_up(loan)
                loan.ends(row)
                del self.on_loan[message]
            elif message.orphan is not None and loan.lender.last is BOTTOM:
                loan.lender.last = row

    def queue_up(self, loan):
        """Pages that nobody has received are with the server's process all the same."""
        server = loan.message.server
        if loan.message.receiver is None and server and server.pid is not None:
            own = [thread for thread in self.lives if thread[0] == server.pid]
            loan.arrives(min(own, default=(server.pid, 2)), "pages")

    # Other lines.

    def take_retry(self, record, line):
        call = self.follower.feed(record)
        thread, mark = record.thread, self.latest.get(record.thread)
        if call:
            self.forget_refused(call)
        if not call or not mark or mark.call is not call:
            self.mark(record, line, AGAIN, "is to try again", call)
            return
        before = mark.before
        if before and before.is_try_of(call):
            self.take_back(mark)
            before.count, before.last = before.count + 1, record.step
            before.label = f"{self.call_label(call)}, tried {before.count} times up to step {record.step}"
        else:
            mark.kind = AGAIN
            self.add_line(mark, record, line, call)
        self.trying.setdefault(thread, (call, self.latest[thread].row))

    def take_back(self, mark):
        """A try that was in vain is one more of the mark before it."""
        self.latest[mark.thread] = mark.before
        if self.marks and self.marks[-1] is mark:
            self.marks.pop()
        self.count -= 1
        if self.taken == {mark.thread}:
            self.steps.pop()
            self.taken = set(self.lives)

    def take_byte(self, record, line):
        self.follower.feed(record)
        mark = self.latest.get(record.thread)
        if not (mark and mark.takes_bytes()):
            self.mark(record, line, TEXT, "")
            mark = self.latest.get(record.thread)
        elif mark.lines:
            self.add_line(mark, record, line, None)
        if mark:
            mark.data.append(record.words[0])
            mark.label = names.quoted(bytes(mark.data))

    def take_fault(self, record, line):
        self.follower.feed(record)
        self.mark(record, line, decode.FAULT, self.text.fault(record))

    def take_end(self, record, line):
        self.follower.feed(record)
        row = self.mark(record, line, decode.END, self.text.line(record, None))
        if record.tid != decode.INTERRUPT_THREAD:
            self.ends[record.thread] = (row, record.thread)
        self.die(record.thread, row)

    def take_irq(self, record, line):
        self.follower.feed(record)
        if self.is_shown(record.thread):
            lives = self.lives.setdefault(record.thread, [])
            lives.append([self.mark(record, line, decode.IRQ, f"interrupt {record.words[0]}"), BOTTOM])

    def die(self, thread, row):
        lives = self.lives.get(thread)
        if lives:
            lives[-1][1] = row
            if lives[-1] == [TOP, TOP]:
                lives.pop()
        started = self.waiting.pop(thread, None)
        if started:
            self.end_waits(*started, row)

    def take_gone(self, record, line):
        pid = record.pid
        lanes = sorted(thread for thread in self.follower.threads if thread[0] == pid and self.is_shown(thread))
        self.follower.feed(record)
        text = f"{self.named.process(pid)} is dead: {self.follower.death}"
        shown = lanes or [(pid, 2)]
        first = next((thread for thread in shown if thread not in self.taken), shown[0])
        at = record._replace(thread=first)
        row = self.mark(at, line, DEATH, text)
        if row != TOP and self.is_shown(first):
            self.latest[first].lines[:] = [(line, f"{record.step} {text}")]
            self.deaths += 1
        for thread, lives in list(self.lives.items()):
            if thread[0] == pid and lives and lives[-1][1] is BOTTOM:
                self.die(thread, row)
        self.settle(row)

    # Waits.

    def wait_label(self, call):
        why = purpose(call)
        if why == FOR_MESSAGE:
            return f"waits for a message at {names.identifier_text(call.words[1:5])}"
        if why == FOR_ANSWER:
            return f"waits for the answer of {call.server.name}" if call.server else "waits for the answer"
        if why == FOR_THREAD:
            return f"waits for the end of {self.named.thread((call.thread[0], call.words[1]))}"
        return f"is to try again: {self.text.retry_reason(call)}"

    def end_waits(self, call, first, last):
        """A call that was made in one row is over in another, and so are the tries before it."""
        trying = self.trying.pop(call.thread, None)
        if trying and call.retried is None:
            self.add_wait(trying[0], trying[1], first)
            self.add_wait(call, first, last)
        else:
            self.add_wait(call, trying[1] if trying else first, last)

    def add_wait(self, call, first, last):
        if purpose(call) and first != last and self.is_shown(call.thread):
            span = Span(call.thread, first, self.wait_label(call))
            span.last = last
            self.waits.append(span)

    def finish(self):
        """All lines were fed: waits that don't end, and no more marks than can be drawn."""
        last = self.filter.last
        while self.next_run < len(self.runs) and (last is None or self.runs[self.next_run].first <= last):
            self.pass_run()
        self.flush_runs()
        for call, row in self.waiting.values():
            self.end_waits(call, row, BOTTOM)
        self.settle(self.last_row())
        for loan in self.on_loan.values():
            self.queue_up(loan)
        self.refuse()
        self.name_sends()
        self.waits = [wait for wait in self.waits if wait.last != TOP]
        self.arrows = [arrow for arrow in self.arrows if arrow.end[0] != TOP]

    def name_sends(self):
        """An arrow tells kind and id of a send; without one its mark does."""
        told = {arrow.message for arrow in self.arrows if arrow.kind == SEND and arrow.start[1] != arrow.end[1]}
        for mark in self.marks:
            call = mark.call
            is_send = call and call.number in names.SENDS and mark.kind != decode.REPLY
            if is_send and mark.message not in told:
                name, kind = names.call_name(call.number), names.kind_name(call.words[2])
                mark.label = mark.label.replace(name, f"{name} {kind} id {names.word_text(call.words[3])}", 1)

    def too_many(self):
        """What to do about more marks than a chart has."""
        first = self.filter.first if self.filter.first is not None else self.bounds[0]
        return (
            f"{self.count:,} marks, and a chart has at most {MOST_MARKS:,}; narrow it by --from {first} --to {self.most}"
            " or another part of the steps, or by --only PID.TID"
        )

    def refuse(self):
        if self.count > MOST_MARKS and not self.keeps_all:
            raise Refusal(self.too_many())
        if not self.marks:
            steps = f"; the transcript has steps {self.bounds[0]} to {self.bounds[1]}" if self.bounds else ""
            raise Refusal(f"no line to draw of these steps and threads{steps}")

    def lanes(self):
        """The threads that are shown, in order."""
        found = {mark.thread for mark in self.marks}
        for arrow in self.arrows:
            found |= {arrow.start[1], arrow.end[1]}
        return sorted(thread for thread in found if self.is_shown(thread))

    def loan_spans(self):
        """The spans of loans on lanes that are shown, within the rows."""
        for loan in self.loans:
            for span in (loan.lender, *loan.holders):
                if span.thread and self.is_shown(span.thread) and span.last != TOP:
                    yield span
