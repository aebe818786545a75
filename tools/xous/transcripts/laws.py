"""The laws of records by name, what breaks one, and the servers and messages that they speak of."""

from dataclasses import dataclass, field

from .. import names
from . import decode

ORDER = "a step's records stand in one order"
ANSWER = "each call is answered once"
MESSAGE = "each message is accepted, delivered and ended at most once, in order"
LOST = "nothing is lost"

MOST_SERVERS, SLOTS, CONNECTIONS = 64, 128, range(2, 34)
ACTS = (decode.CALL, decode.BYTE, decode.FAULT, decode.END)
ERRORS = {name: number for number, name in names.ERRORS.items()}


class Broken(Exception):
    """A law that a transcript breaks, at a record, and why."""

    def __init__(self, law, record, why):
        super().__init__(f"{law}: {text_of(record)}: {why}")
        self.law = law


def text_of(record):
    if record is None:
        return "at the end"
    who = ".".join(str(part) for part in record.thread if part)
    return f"step {record.step}, {who} {record.what}"


def eight(*words):
    return words + (0,) * (8 - len(words))


def refusal(name):
    return eight(names.ERROR, ERRORS[name])


@dataclass
class Message:
    """A send that was accepted; nobody waits for the answer of one without a sender."""

    number: int
    kind: int
    id: int
    words: tuple
    sender: tuple | None
    address: int | None = None  # of its pages at the receiver, once it was delivered

    def is_told_by(self, words):
        """Whether a reply tells of this message. The address of pages is the receiver's own."""
        skipped = 1 if self.kind in names.WITH_PAGES else 0
        return words[:4] == (names.MESSAGE, self.number, self.kind, self.id) and words[4 + skipped :] == self.words[skipped:]

    def ends_by(self, call):
        """The words that its sender gets by this call of a return."""
        if call[0] == names.RETURN_MEMORY:
            return eight(names.MEMORY_RETURNED, call[4], call[5])
        return eight(names.SCALAR1, call[2]) if call[0] == names.RETURN_SCALAR1 else eight(names.SCALAR2, *call[2:4])


@dataclass(eq=False)
class Server:
    identifier: tuple
    pid: int
    is_alive: bool = True
    queued: list = field(default_factory=list)
    held: dict = field(default_factory=dict)

    def is_full(self):
        return len(self.queued) + len(self.held) >= SLOTS

    def senders(self):
        return [message.sender for message in (*self.queued, *self.held.values()) if message.sender]


def is_exactly(wanted):
    """The reply has to be this one: none where the caller waits, and an empty one where a retry had to come."""
    return lambda words: words == wanted
