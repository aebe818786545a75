"""Reads and writes state files (docs/state.md): `read` gives a `State`, `State.to_bytes` the bytes again.

A file that breaks the form is a `Fault`, with the name and the place that the program gives. Whether the
machine can be in a state (StateUnmatched) is the program's to say.
"""

from __future__ import annotations

import dataclasses
import struct
from dataclasses import dataclass, field

from ..checksum import check_number
from ..errors import Fault
from ..machine import FIRST_PID, MOST_PROCESSES, MOST_STEPS, MOST_TIDS, PAGE
from ..names import identifier_name

MAGIC = b"XousSt01"
HEAD = 16  # bytes before the first part

READY, RECEIVING, WAITING, JOINING, IDLE = range(5)
STATE_NAMES = ("Ready", "Receiving", "Waiting", "Joining", "Idle")
WRITABLE, EXECUTABLE, CONSOLE = 1, 2, 4  # of a page's right
NO_LOAN, SHARED, EXCLUSIVE = range(3)
MUTABLE_LEND, LEND, MOVE, SCALAR, BLOCKING_SCALAR = range(1, 6)
KIND_NAMES = (None, "MutableLend", "Lend", "Move", "Scalar", "BlockingScalar")
MOST_WORD = 0xFFFF_FFFF


@dataclass
class Process:
    alive: bool
    heap: int
    connections: list  # serials of servers; the first is connection 2


@dataclass
class Thread:
    pid: int
    tid: int
    pc: int
    state: int
    waits_for: int  # the serial, the number or the tid of its state, else 0
    registers: list  # x0 to x31

    @property
    def id(self):
        return self.pid, self.tid


@dataclass
class Message:
    number: int
    sender: tuple | None  # pid and tid
    kind: int
    id: int
    words: list
    first: int  # page at the receiver; 0 for a scalar
    count: int

    def pages(self):
        return range(self.first, self.first + self.count)


@dataclass
class Server:
    identifier: list
    serial: int
    pid: int
    queued: list
    held: list

    @property
    def name(self):
        return identifier_name(self.identifier)


@dataclass
class Claim:
    number: int
    pid: int
    handler: int
    argument: int
    pending: bool


@dataclass
class Page:
    pid: int
    page: int  # its number; the address is 4,096 times as much
    right: int
    holder: tuple | None  # pid and page, where it is on loan
    loan: int
    message: int  # the number of the message that lent it
    data: bytes  # none for the console

    def is_console(self):
        return bool(self.right & CONSOLE)


@dataclass
class Orphan:
    pid: int  # of the holder
    page: int
    loan: int
    message: int
    data: bytes


@dataclass
class State:
    capacity: int
    steps: int
    cursor: tuple
    next_number: int
    next_serial: int
    timer: int | None  # the compare value, where it is armed
    reserved: tuple | None  # pid, tid and address
    processes: list  # by pid, from 2 on
    threads: dict  # by pid and tid
    servers: list
    claims: list
    pages: dict = field(repr=False)  # by pid and page
    orphans: dict = field(repr=False)  # by holder's pid and page

    def to_bytes(self):
        return spelled(self)

    def process(self, pid):
        """The process of that pid, or None where there never was one."""
        place = pid - FIRST_PID
        return self.processes[place] if 0 <= place < len(self.processes) else None

    def copy(self):
        """A state whose cursor, pages and orphans can be changed without a change of this one."""
        pages = {place: dataclasses.replace(page) for place, page in self.pages.items()}
        return dataclasses.replace(self, pages=pages, orphans=dict(self.orphans))

    # Whose turn it is.

    def is_ready(self, who):
        thread = self.threads.get(who)
        return thread is not None and thread.state == READY

    def ready(self):
        """The ready threads in ascending order."""
        return [who for who in sorted(self.threads) if self.is_ready(who)]

    def ready_after(self, who):
        """The next ready thread strictly after `who` in the circle, itself last."""
        ready = self.ready()
        return next((other for other in ready if other > who), ready[0] if ready else None)

    def ready_before(self, who):
        """The ready thread after which `who` comes in the circle of the ready ones."""
        ready = self.ready()
        return next((other for other in reversed(ready) if other < who), ready[-1] if ready else None)

    def actor(self):
        """The thread that does the next step, or None where nobody is ready."""
        return self.cursor if self.is_ready(self.cursor) else self.ready_after(self.cursor)

    # Messages and servers.

    def server(self, serial):
        return next((server for server in self.servers if server.serial == serial), None)

    def find_message(self, number):
        """The server that has the message, the message, and whether it is held; else None."""
        for server in self.servers:
            for held, messages in ((False, server.queued), (True, server.held)):
                for message in messages:
                    if message.number == number:
                        return server, message, held
        return None


# Reading: each word is looked at as it is read, so that the first one that breaks the form is the fault.


class Reader:
    def __init__(self, data):
        self.data, self.at = data, HEAD
        self.last_pid = 0

    def word(self, low=0, high=MOST_WORD):
        try:
            (value,) = struct.unpack_from("<I", self.data, self.at)
        except struct.error:
            raise Fault("StateForm", self.at) from None
        if not low <= value <= high:
            raise Fault("StateForm", self.at)
        self.at += 4
        return value

    def words(self, count):
        """So many words of any value."""
        try:
            values = list(struct.unpack_from(f"<{count}I", self.data, self.at))
        except struct.error:
            raise Fault("StateForm", self.at + (len(self.data) - self.at) // 4 * 4) from None
        self.at += 4 * count
        return values

    def flag(self):
        return self.word(0, 1) == 1

    def where(self, applies, low=0, high=MOST_WORD):
        """A word that is 0 where it doesn't apply."""
        return self.word(low, high) if applies else self.word(0, 0)

    def pid(self):
        return self.word(FIRST_PID, self.last_pid)

    def tid(self):
        return self.word(1, MOST_TIDS)

    def page_bytes(self):
        if self.at + PAGE > len(self.data):
            raise Fault("StateForm", self.at)
        self.at += PAGE
        return self.data[self.at - PAGE : self.at]

    def key(self, before, second_low=0, second_high=MOST_WORD):
        """A pid and a number above the key before."""
        pid = self.word(max(FIRST_PID, before[0]), self.last_pid)
        low = before[1] + 1 if pid == before[0] else second_low
        return pid, self.word(max(low, second_low), second_high)


def read(data: bytes) -> State:
    """The state that the bytes spell."""
    if len(data) < HEAD or data[:8] != MAGIC:
        raise Fault("NotState", 0)
    length, check = struct.unpack_from("<II", data, 8)
    if length != len(data):
        raise Fault("StateLength", 8)
    if check != check_number(data[HEAD:]):
        raise Fault("StateCheck", 12)
    reader = Reader(data)
    state = read_numbers(reader)
    state.processes += [read_process(reader) for _ in range(reader.last_pid - FIRST_PID + 1)]
    read_threads(reader, state)
    read_servers(reader, state)
    read_claims(reader, state)
    read_pages(reader, state)
    read_orphans(reader, state)
    if reader.at != len(data):
        raise Fault("StateForm", reader.at)
    return state


def read_numbers(reader):
    capacity = reader.word()
    reader.last_pid = reader.word(1, MOST_PROCESSES) + FIRST_PID - 1
    steps = reader.word(0, MOST_STEPS)
    cursor = reader.pid(), reader.tid()
    next_number, next_serial = reader.words(2)
    armed = reader.flag()
    compare = reader.where(armed)
    is_reserved = reader.flag()
    reserved = (
        reader.where(is_reserved, FIRST_PID, reader.last_pid),
        reader.where(is_reserved, 1, MOST_TIDS),
        reader.where(is_reserved),
    )
    return State(
        capacity, steps, cursor, next_number, next_serial, compare if armed else None,
        reserved if is_reserved else None, [], {}, [], [], {}, {},
    )  # fmt: skip


def read_process(reader):
    alive, heap, count = reader.flag(), reader.word(), reader.word()
    return Process(alive, heap, reader.words(count))


def read_threads(reader, state):
    before = (0, 0)
    for _ in range(reader.word()):
        pid, tid = before = reader.key(before, 1, MOST_TIDS)
        pc = reader.word()
        kind = reader.word(READY, IDLE)
        waits_for = waited_by(reader, kind)
        state.threads[before] = Thread(pid, tid, pc, kind, waits_for, [0, *reader.words(31)])


def waited_by(reader, kind):
    if kind == JOINING:
        return reader.tid()
    return reader.where(kind in (RECEIVING, WAITING))


def read_servers(reader, state):
    before = -1
    for _ in range(reader.word()):
        identifier = reader.words(4)
        before = reader.word(before + 1)
        pid, queued, held = reader.pid(), reader.word(), reader.word()
        messages = [[read_message(reader) for _ in range(count)] for count in (queued, held)]
        state.servers.append(Server(identifier, before, pid, *messages))


def read_message(reader):
    number = reader.word()
    sender = None
    at = reader.at
    if reader.word():
        reader.at = at
        sender = reader.pid(), reader.tid()
    else:
        reader.where(False)
    kind = reader.word(MUTABLE_LEND, BLOCKING_SCALAR)
    message_id, *words = reader.words(5)
    has_pages = kind <= MOVE
    return Message(number, sender, kind, message_id, words, reader.where(has_pages), reader.where(has_pages))


def read_claims(reader, state):
    before = -1
    for _ in range(reader.word()):
        before = reader.word(before + 1)
        pid = reader.pid()
        state.claims.append(Claim(before, pid, *reader.words(2), reader.flag()))


def read_pages(reader, state):
    before = (0, 0)
    for _ in range(reader.word()):
        pid, page = before = reader.key(before)
        right = reader.word(0, 7)
        holder, loan = read_loan(reader)
        message = reader.where(loan)
        data = b"" if right & CONSOLE else reader.page_bytes()
        state.pages[before] = Page(pid, page, right, holder, loan, message, data)


def read_loan(reader):
    """The holder's place and the loan's kind. The holder is there exactly where the kind isn't 0."""
    at = reader.at
    pid = reader.word(0, reader.last_pid)
    if pid == 1:
        raise Fault("StateForm", at)
    page = reader.word(0, MOST_WORD if pid else 0)
    kind = reader.word()
    if (kind != NO_LOAN) != (pid != 0):
        raise Fault("StateForm", at)
    if kind > EXCLUSIVE:
        raise Fault("StateForm", at + 8)
    return (pid, page) if pid else None, kind


def read_orphans(reader, state):
    before = (0, 0)
    for _ in range(reader.word()):
        pid, page = before = reader.key(before)
        loan, message = reader.word(SHARED, EXCLUSIVE), reader.word()
        state.orphans[before] = Orphan(pid, page, loan, message, reader.page_bytes())


# Writing.


def packed(words):
    return struct.pack(f"<{len(words)}I", *words)


def spelled(state):
    """The bytes of a state file; parts 3 to 7 begin with their number of rows."""
    parts = [packed(number_words(state))]
    parts += [packed(process_words(process)) for process in state.processes]
    for rows in (thread_rows, server_rows, claim_rows, page_rows, orphan_rows):
        spelled_rows = list(rows(state))
        parts += [packed([len(spelled_rows)]), *spelled_rows]
    body = b"".join(parts)
    return MAGIC + packed([HEAD + len(body), check_number(body)]) + body


def number_words(state):
    armed = state.timer is not None
    numbers = [state.capacity, len(state.processes), state.steps, *state.cursor]
    numbers += [state.next_number, state.next_serial, armed, state.timer or 0]
    return numbers + [state.reserved is not None, *(state.reserved or (0, 0, 0))]


def process_words(process):
    return [process.alive, process.heap, len(process.connections), *process.connections]


def thread_rows(state):
    for thread in state.threads.values():
        yield packed([*thread.id, thread.pc, thread.state, thread.waits_for, *thread.registers[1:]])


def message_words(message):
    head = [message.number, *(message.sender or (0, 0)), message.kind, message.id]
    return head + [*message.words, message.first, message.count]


def server_rows(state):
    for server in state.servers:
        words = [*server.identifier, server.serial, server.pid, len(server.queued), len(server.held)]
        for message in server.queued + server.held:
            words += message_words(message)
        yield packed(words)


def claim_rows(state):
    for claim in state.claims:
        yield packed([claim.number, claim.pid, claim.handler, claim.argument, claim.pending])


def page_rows(state):
    for page in state.pages.values():
        holder = page.holder or (0, 0)
        yield packed([page.pid, page.page, page.right, *holder, page.loan, page.message]) + page.data


def orphan_rows(state):
    for orphan in state.orphans.values():
        yield packed([orphan.pid, orphan.page, orphan.loan, orphan.message]) + orphan.data
