"""Each line of a transcript in words."""

from .. import names
from ..names import word_text, words_text
from . import decode
from .pages import standing

LASTS = {
    decode.DONE: "all events were played",
    decode.LIMIT: "the step limit was met",
}


def page_text(words):
    """What is told of a returned page: offset and valid."""
    return f"offset {word_text(words[0])}, valid {word_text(words[1])}"


class Text:
    """Writes records in words; what was before them is the follower's."""

    def __init__(self, named, follower):
        self.named, self.follower = named, follower
        self.calls = {}  # texts of calls that came before
        self.writers = {
            decode.CALL: self.call,
            decode.REPLY: self.reply,
            decode.RETRY: lambda _record, call: self.retry(call),
            decode.BYTE: lambda record, _call: f"console {names.quoted(bytes(record.words))}",
            decode.FAULT: lambda record, _call: self.fault(record),
            decode.IRQ: lambda record, _call: f"interrupt {record.words[0]} starts its handler",
            decode.END: lambda record, _call: "its handler ends" if record.tid == decode.INTERRUPT_THREAD else "ends",
            decode.GONE: lambda _record, _call: f"is dead: {self.follower.death}",
            **dict.fromkeys(LASTS, self.last),
        }
        self.makers = {
            names.OK: self.ok,
            names.ERROR: lambda _call, words: f"refused: {names.error_name(words[1])}",
            names.MEMORY_RANGE: lambda _call, words: f"memory {names.span_text(*words[1:3])}",
            names.CONNECTION_ID: lambda _call, words: f"cid {words[1]}",
            names.MESSAGE: self.message,
            names.THREAD_ID: lambda _call, words: f"thread {words[1]}",
            names.SCALAR1: self.value,
            names.SCALAR2: lambda _call, words: f"values {words_text(words[1:3])}",
            names.MEMORY_RETURNED: lambda _call, words: f"pages back, {page_text(words[1:3])}",
            names.NEW_SERVER: lambda _call, words: f"server {names.identifier_text(words[1:5])}, cid {words[5]}",
        }

    def call(self, _record, call):
        """A call with its arguments, and the server that it goes to where that is known."""
        key = (call.thread[0], call.words)
        text = self.calls.get(key)
        if text is None:
            if len(self.calls) >= decode.MOST_KEPT:
                self.calls.clear()
            text = self.calls[key] = self.named.call(*key)
        if call.server and call.words[0] in names.TO_SERVERS:
            return f"{text} to {call.server.name}"
        return text

    def ok(self, call, _words):
        return "no message" if call.number == names.TRY_RECEIVE else "done"

    def value(self, call, words):
        number = call.number
        if number == names.NUMBERS["GetProcessId"]:
            return f"pid {words[1]}"
        if number == names.JOIN:
            return f"thread {call.words[1]} ended with {word_text(words[1])}"
        return f"value {word_text(words[1])}"

    def message(self, call, words):
        _, number, kind, ident, *rest = words
        sender = self.named.sender(call.message)
        start = f"message {number} from {sender} {names.kind_name(kind)} id {word_text(ident)}"
        if kind in names.WITH_PAGES:
            return f"{start} at {names.span_text(*rest[:2])}, {page_text(rest[2:])}"
        return f"{start}, arguments {words_text(rest)}"

    def answer(self, call, words):
        """What a call is answered, without the call."""
        maker = self.makers.get(words[0])
        return maker(call, words) if maker else f"words {words_text(words)}"

    def reply(self, record, call):
        text = f"<- {self.answer(call, record.words)}"
        if call.step == record.step or call.step is None:
            return text
        return f"{text} ({names.call_name(call.number)} of step {call.step})"

    def retry_reason(self, call):
        if call.number in names.CONNECTS:
            return f"no live server is {names.identifier_text(call.words[1:5])}"
        return "the server's 128 slots are in use" if call.number in names.SENDS else "it can't be served yet"

    def retry(self, call):
        if call is None:
            return "makes its call again at its next turn"
        return f"makes {names.call_name(call.number)} again at its next turn: {self.retry_reason(call)}"

    def fault(self, record):
        cause, value = record.words
        what = names.FAULTS.get(cause, "fault")
        if cause == names.ILLEGAL:
            return f"fault {cause}: {what} {value:08x}"
        text = f"fault {cause}: {what} at {self.named.code(record.pid, value)}"
        if cause in names.WITHOUT_ACCESS:
            return text
        return f"{text} ({standing(self.follower, record.pid, value, self.named)})"

    def last(self, record, _call):
        return LASTS[record.what]

    def line(self, record, call):
        """A record in words, without its step and its thread."""
        return self.writers[record.what](record, call)

    def head(self, record):
        """The step and the thread that a record's line begins with."""
        step, thread, what, _ = record
        if what in LASTS:
            return f"end {step}"
        if what == decode.GONE:
            return f"{step} {self.named.process(thread[0])}"
        return f"{step} {self.named.threads[thread]}"
