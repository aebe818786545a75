"""The laws of records, looked for in a transcript by its text alone (docs/transcript.md, "What holds of each transcript").

A `History` follows the records of a run from its image: who waits for what, which servers there are, and where each message
is. Each record has to be one that the calls before it leave open; the first that isn't raises `Broken`, with the law. What
the text doesn't tell, such as pages and registers, is asked of nothing.
"""

from .. import names
from ..machine import FIRST_PID, FIRST_TID, TIMER_INTERRUPT
from ..machine import HANDLER_TID as HANDLER
from . import decode, rules
from .laws import ACTS, ANSWER, CONNECTIONS, LOST, MESSAGE, ORDER
from .laws import Broken, eight, refusal, text_of


class History:
    """What is known after the records that were taken."""

    def __init__(self, records, processes=None):
        """`processes` is how many an image has, where that is known; else a process is known by its first record."""
        self.records, self.at = list(records), 0
        self.most = processes
        self.calls = {}  # by thread that lives, its call without an answer, or none
        self.again = {}  # by thread, the call that it has to make again
        self.idle, self.gone = set(), set()  # handlers that don't run, processes
        self.servers, self.connections, self.claims = [], {}, {}
        self.accepted = 0
        self.last = None  # the last line
        for pid in range(FIRST_PID, FIRST_PID + (processes or 0)):
            self.begin(pid)

    def begin(self, pid):
        self.calls[pid, HANDLER] = self.calls[pid, FIRST_TID] = None
        self.idle.add((pid, HANDLER))

    # Records.

    def peek(self):
        return self.records[self.at] if self.at < len(self.records) else None

    def take(self):
        record = self.peek()
        self.at += 1
        pid = record.pid
        if pid in self.gone:
            raise Broken(ANSWER, record, "its process is gone")
        if self.most is None and (pid, HANDLER) not in self.calls and record.what not in (decode.DONE, decode.LIMIT):
            self.begin(pid)
        return record

    def next_of(self, step, *kinds):
        """The next record, where it is of this step and of one of these kinds."""
        record = self.peek()
        return record if record and record.step == step and record.what in kinds else None

    def follow(self):
        """Takes all records, whatever events there were."""
        while self.peek():
            self.take_next()
        return self

    def take_next(self):
        """A step, an event that leaves records, or the last line."""
        record = self.peek()
        before = self.records[self.at - 1] if self.at else None
        if before and record.step < before.step:
            raise Broken(ORDER, record, f"step {before.step} came before")
        if record.what in ACTS:
            self.take_step()
        elif record.what == decode.IRQ:
            self.take_interrupt()
        elif record.what == decode.RETRY:
            raise Broken(ORDER, record, "no call stands before it")
        elif record.what in (decode.DONE, decode.LIMIT):
            self.last = self.take()
            if self.peek():
                raise Broken(ORDER, self.peek(), "the last line came before")
        else:
            self.take_kill()

    # Steps and events.

    def take_step(self):
        """The records of one step. Answers its first one."""
        if self.at and self.records[self.at - 1].step == self.peek().step:
            raise Broken(ORDER, self.peek(), "its step has a record before it")
        record = self.take()
        self.is_acting(record)
        answers, dies = {}, None
        if record.what == decode.CALL:
            answers, dies = self.call(record)
        elif record.what == decode.FAULT:
            answers, dies = self.death(record.pid), record.pid
        elif record.what == decode.END:
            answers, dies = self.end(record)
        self.take_answers(record.step, answers)
        if record.what == decode.END and record.thread[1] == HANDLER and self.is_interrupted(record.step, record.pid):
            self.take_interrupt()
        raised = self.next_of(record.step, decode.IRQ)
        if raised and raised.words[0] == TIMER_INTERRUPT and self.is_timer():
            self.take_interrupt()
        if dies:
            self.take_gone(record.step, dies)
        return record

    def is_timer(self):
        """Whether an interrupt that may be the timer's is; where the events aren't known it makes no difference."""
        return True

    def is_interrupted(self, step, pid):
        record = self.next_of(step, decode.IRQ)
        return record and record.pid == pid

    def is_acting(self, record):
        """Looks whether the thread of a record may do a step."""
        who = record.thread
        if who not in self.calls:
            raise Broken(ANSWER, record, "there is no such thread")
        if self.calls[who] is not None:
            raise Broken(ANSWER, record, f"its call of step {self.calls[who].step} isn't answered")
        if who in self.idle:
            raise Broken(ANSWER, record, "no interrupt has started this handler")
        again = self.again.pop(who, None)
        if again and record.what != decode.FAULT and (record.what, record.words) != (decode.CALL, again):
            raise Broken(ANSWER, record, "the call that is to be made again is another one")

    def take_answers(self, step, answers):
        """The replies that a step or a kill makes, in ascending order of threads: for each its law, and what its words pass."""
        for who in sorted(answers):
            law, passes = answers[who]
            record = self.next_of(step, decode.REPLY)
            if record is None or record.thread != who:
                is_late = (step, who, decode.REPLY) in {other[:3] for other in self.records[self.at :]}
                raise Broken(ORDER if is_late else law, self.peek(), f"{who[0]}.{who[1]} isn't answered before it")
            self.take()
            self.calls[who] = None
            if not passes(record.words):
                raise Broken(law, record, "the words are other ones")

    def replies_from(self, at, step):
        """The replies of this step that stand side by side."""
        while at < len(self.records) and (self.records[at].step, self.records[at].what) == (step, decode.REPLY):
            yield self.records[at]
            at += 1

    def take_gone(self, step, pid):
        record = self.next_of(step, decode.GONE)
        if record is None or record.pid != pid:
            raise Broken(ORDER, self.peek(), f"{pid} isn't told as gone before it")
        self.take()
        self.gone.add(pid)
        self.forget(pid)

    def take_interrupt(self):
        record = self.take()
        who, (number,) = record.thread, record.words
        if self.claims.get(number) != who[0]:
            raise Broken(ANSWER, record, "the process hasn't claimed it")
        if who not in self.idle:
            raise Broken(ANSWER, record, "the handler runs already")
        self.idle.remove(who)
        return record

    def take_kill(self):
        """The replies and the death that an event makes."""
        first = self.peek()
        replies = len(list(self.replies_from(self.at, first.step)))
        at = self.at + replies
        record = self.records[at] if at < len(self.records) else None
        if record is None or (record.step, record.what) != (first.step, decode.GONE):
            thread = self.calls.get(first.thread)
            raise Broken(ANSWER if thread is None else LOST, first, "nothing of its step answers this thread")
        if record.pid in self.gone:
            raise Broken(ANSWER, record, "the process is gone already")
        self.take_answers(first.step, self.death(record.pid))
        self.take_gone(first.step, record.pid)

    # Ends.

    def end(self, record):
        who = record.thread
        if who[1] == HANDLER:
            self.idle.add(who)
            return {}, None
        del self.calls[who]
        joiners = [other for other, call in self.calls.items() if call and is_join(other, call, who)]
        ended = next((reply.words for reply in self.replies_from(self.at, record.step) if reply.thread in joiners), None)
        answers = {other: (ANSWER, lambda words: words == ended and words == eight(names.SCALAR1, words[1])) for other in joiners}
        if any(pid == who[0] and tid != HANDLER for pid, tid in self.calls):
            return answers, None
        return self.death(who[0]), who[0]

    def death(self, pid):
        """Closes the servers of a process and takes its sends out. Answers who is answered."""
        answers = {}
        for server in self.servers:
            if server.is_alive and server.pid == pid:
                answers.update(self.close(server))
        for server in self.servers:
            server.queued = [message for message in server.queued if not (message.sender and message.sender[0] == pid)]
            for message in server.held.values():
                if message.sender and message.sender[0] == pid:
                    message.sender = None
        return answers

    def close(self, server):
        server.is_alive = False
        senders = server.senders()
        server.queued, server.held = [], {}
        return {who: (MESSAGE, lambda words: words == refusal("ServerNotFound")) for who in senders}

    def forget(self, pid):
        for table in (self.calls, self.again, self.connections):
            for key in [key for key in table if key[0] == pid]:
                del table[key]
        self.claims = {number: owner for number, owner in self.claims.items() if owner != pid}
        self.idle.discard((pid, HANDLER))

    # Calls.

    def call(self, record):
        """What a call does. Answers the replies of its step and who dies."""
        words, who = record.words, record.thread
        if words[0] == names.TERMINATE:
            return self.death(who[0]), who[0]
        self.calls[who] = record
        if self.next_of(record.step, decode.RETRY):
            self.retry(record)
            return {}, None
        own = self.own_reply(record)
        rule = rules.RULES.get(words[0], rules.plain)
        answers = {}
        expected = rule(self, record, own, answers)
        if own is None and not expected(None):
            law = LOST if words[0] in names.RECEIVES else ANSWER
            raise Broken(law, self.peek(), f"the call of {text_of(record)} has no reply")
        if own is not None:
            answers[who] = (rules.LAWS.get(words[0], ANSWER), expected)
        return answers, None

    def own_reply(self, record):
        """The reply to the caller in the step of its call. One who waits for a server is answered so, too, where an event
        kills that server before the next step."""
        words, who = record.words, record.thread
        own = next((reply.words for reply in self.replies_from(self.at, record.step) if reply.thread == who), None)
        if own == refusal("ServerNotFound") and words[0] in names.SENDS and words[2] in names.ANSWERED:
            return None if self.server_of(record) else own
        return own

    def retry(self, record):
        taken = self.take()
        words, who = record.words, record.thread
        if taken.thread != who:
            raise Broken(ORDER, taken, "another thread has made the call")
        server = self.server_of(record)
        is_full = words[0] == names.SEND and server and server.is_full()
        is_missing = words[0] == names.CONNECT and not self.server_named(words[1:5])
        if who[1] == HANDLER or not (is_full or is_missing):
            raise Broken(ANSWER, taken, "the call can be served or refused")
        self.calls[who] = None
        self.again[who] = words

    def server_of(self, record):
        """The living server that a send's connection leads to."""
        server = self.connections.get((record.pid, record.words[1]))
        return server if server and server.is_alive else None

    def server_named(self, identifier):
        return next((server for server in self.servers if server.is_alive and server.identifier == identifier), None)

    def receivers(self, server):
        """The threads that wait for a message of the server."""
        for who, call in self.calls.items():
            if call and call.words[0] == names.RECEIVE and who[0] == server.pid and call.words[1:5] == server.identifier:
                yield who

    def free_connection(self, pid):
        return next((cid for cid in CONNECTIONS if (pid, cid) not in self.connections), None)

    # Where messages are.

    def arrive(self, server, message, answers, step):
        """A message is delivered to the waiting receiver of the least tid, or is the newest in the queue."""
        receiver = min(self.receivers(server), default=None)
        if receiver is None:
            server.queued.append(message)
            return
        told = next((reply.words for reply in self.replies_from(self.at, step) if reply.thread == receiver), None)
        answers[receiver] = (LOST if told is None else MESSAGE, message.is_told_by)
        self.deliver(server, message, told)

    def deliver(self, server, message, words):
        message.address = words[4] if words else None
        if message.kind in names.ANSWERED:
            server.held[message.number] = message

    def held_by(self, pid, number, kinds):
        """The server of a process that holds a message of one of these kinds, and the message."""
        for server in self.servers:
            message = server.held.get(number)
            if server.is_alive and server.pid == pid and message and message.kind in kinds:
                return server, message
        return None, None


def is_join(who, call, ended):
    """Whether the thread waits for the one that ended."""
    return call.words[0] == names.JOIN and (who[0], call.words[1]) == ended


def records_of(text):
    """The records of a transcript."""
    for number, line in enumerate(text.splitlines(), 1):
        record = decode.record_of(line)
        if record is None:
            raise Broken("a line has the form of a record", None, f"line {number}: {line}")
        yield record
