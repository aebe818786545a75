"""The words of calls, replies, errors and faults by name (docs/calls.md, docs/transcript.md), and the names of servers.

Addresses and sizes are hexadecimal, as in the transcript; numbers are decimal. Any other word is decimal
below 65536 and hexadecimal, with 0x, from there on.
"""

from __future__ import annotations

import struct

from . import numbers
from .machine import CONSOLE

NUMBERS = {name: number for number, (name, _) in numbers.CALLS.items()}
YIELD, RECEIVE, SEND = NUMBERS["Yield"], NUMBERS["ReceiveMessage"], NUMBERS["SendMessage"]
CONNECT, JOIN, TERMINATE = NUMBERS["Connect"], NUMBERS["JoinThread"], NUMBERS["TerminateProcess"]
MAP, UNMAP, FLAGS = NUMBERS["MapMemory"], NUMBERS["UnmapMemory"], NUMBERS["UpdateMemoryFlags"]
MORE_HEAP, LESS_HEAP = NUMBERS["IncreaseHeap"], NUMBERS["DecreaseHeap"]
NEW_SERVER_CALL, DESTROY_SERVER = NUMBERS["CreateServerWithAddress"], NUMBERS["DestroyServer"]
TRY_CONNECT, TRY_RECEIVE, TRY_SEND = NUMBERS["TryConnect"], NUMBERS["TryReceiveMessage"], NUMBERS["TrySendMessage"]
RETURN_MEMORY, FORWARD = NUMBERS["ReturnMemory"], NUMBERS["ForwardMessage"]
RETURN_SCALAR1, RETURN_SCALAR2 = NUMBERS["ReturnScalar1"], NUMBERS["ReturnScalar2"]
CREATE_THREAD, CLAIM = NUMBERS["CreateThread"], NUMBERS["ClaimInterrupt"]
SENDS, TO_SERVERS = (SEND, TRY_SEND), (SEND, TRY_SEND, FORWARD)
RETURNS = (RETURN_MEMORY, RETURN_SCALAR1, RETURN_SCALAR2)
CONNECTS, RECEIVES = (CONNECT, TRY_CONNECT), (RECEIVE, TRY_RECEIVE)

# How fields of a call are written, in a row or one by one: a label, and what the word is. A span is two words, an identifier and
# arguments are four.
WRITTEN = {
    ("cid", "kind", "id", "words"): ("", "send"),
    ("address", "size"): ("pages", "span"),
    ("value1", "value2"): ("values", "pair"),
    ("phys",): ("phys", "physical"),
    ("virt",): ("virt", "address"),
    ("size",): ("size", "size"),
    ("bytes",): ("size", "size"),
    ("flags",): ("flags", "flags"),
    ("number",): ("interrupt", "number"),
    ("handler",): ("handler", "code"),
    ("arg",): ("argument", "word"),
    ("sid",): ("", "identifier"),
    ("entry",): ("entry", "code"),
    ("sp",): ("sp", "address"),
    ("args",): ("arguments", "arguments"),
    ("token",): ("message", "number"),
    ("offset",): ("offset", "number"),
    ("valid",): ("valid", "number"),
    ("exit",): ("exit", "word"),
    ("value",): ("value", "word"),
    ("tid",): ("thread", "number"),
    ("cid",): ("cid", "number"),
}


def labelled(fields):
    """The labels of a call's fields, and what their words are. A field that isn't known is written by its own name."""
    names, sizes = [name for name, _ in fields], dict(fields)
    while names:
        row = next((row for row in WRITTEN if tuple(names[: len(row)]) == row), None)
        yield WRITTEN[row] if row else (names[0], "arguments" if sizes[names[0]] == 4 else "word")
        del names[: len(row or names[:1])]


# Each call: its name, and its words from a1 on as they are written.
CALLS = {number: (name, tuple(labelled(fields))) for number, (name, fields) in numbers.CALLS.items()}

MUTABLE_LEND, LEND, MOVE = numbers.KINDS["LendMut"], numbers.KINDS["Lend"], numbers.KINDS["Move"]
SCALAR, BLOCKING_SCALAR = numbers.KINDS["Scalar"], numbers.KINDS["BlockingScalar"]
KINDS = {number: {"LendMut": "MutableLend"}.get(name, name) for name, number in numbers.KINDS.items()}
LENDS = (MUTABLE_LEND, LEND)
WITH_PAGES = (MUTABLE_LEND, LEND, MOVE)
ANSWERED = (MUTABLE_LEND, LEND, BLOCKING_SCALAR)

OK, ERROR, MEMORY_RANGE = numbers.REPLIES["ok"], numbers.REPLIES["error"], numbers.REPLIES["memory_range"]
CONNECTION_ID, MESSAGE, THREAD_ID = numbers.REPLIES["connection_id"], numbers.REPLIES["message"], numbers.REPLIES["thread_id"]
SCALAR1, SCALAR2 = numbers.REPLIES["scalar1"], numbers.REPLIES["scalar2"]
MEMORY_RETURNED, NEW_SERVER = numbers.REPLIES["memory_returned"], numbers.REPLIES["new_server"]

ERRORS = numbers.ERRORS
SERVER_NOT_FOUND = next(number for number, name in ERRORS.items() if name == "ServerNotFound")

CHECK_FAILED = 121  # the exit word of a failed check: XOUS_CHECK_FAILED of the kits

FAULTS = {
    0: "jump to a misaligned address",
    2: "illegal instruction",
    3: "EBREAK",
    4: "misaligned load",
    6: "misaligned store",
    12: "fetch not allowed",
    13: "load not allowed",
    15: "store not allowed",
}
ILLEGAL = 2
WITHOUT_ACCESS = (0, 3)  # causes at an address that isn't asked for

FLAG_LETTERS = ((2, "R"), (4, "W"), (8, "X"), (1, " RESERVE"), (16, " DEV"))


def word_text(word):
    return str(word) if word < 0x1_0000 else f"0x{word:x}"


def words_text(words):
    return ", ".join(map(word_text, words))


def span_text(address, size):
    return f"{address:x}+{size:x}"


def flags_text(flags):
    known = "".join(letters for bit, letters in FLAG_LETTERS if flags & bit).strip()
    rest = flags & ~31
    return " ".join(part for part in (known, f"0x{rest:x}" if rest else "") if part) or "0"


def is_letter(code: int) -> bool:
    return 32 < code < 127


def identifier_letters(words) -> tuple[str, bool]:
    """The letters that the four words of an identifier spell, and whether each word has four of them, but for blanks at the
    end. No letters where they spell none: a letter in each word, or four, as xousorders reads them."""
    if all(map(is_letter, words)):
        return "".join(map(chr, words)), False
    packed = struct.pack("<4I", *words).rstrip(b"\0 ")
    return (packed.decode(), True) if packed and all(map(is_letter, packed)) else ("", False)


def identifier_name(words) -> str:
    """An identifier as its letters, else as four numbers."""
    return identifier_letters(words)[0] or ".".join(f"{word:x}" for word in words)


def identifier_text(words) -> str:
    """An identifier in quotes: 'fill' has a letter in each word, "xous-name-server" has four; else four numbers."""
    letters, is_packed = identifier_letters(words)
    if letters:
        return f'"{letters}"' if is_packed else f"'{letters}'"
    return ":".join(f"{word:x}" for word in words)


def send_text(words):
    """The words of a send from a1 on."""
    cid, kind, ident, *rest = words
    start = f"cid {cid}, {kind_name(kind)}, id {word_text(ident)}, "
    if kind in WITH_PAGES:
        return f"{start}pages {span_text(*rest[:2])}, offset {word_text(rest[2])}, valid {word_text(rest[3])}"
    return f"{start}arguments {words_text(rest)}"


def kind_name(kind):
    return KINDS.get(kind) or f"kind {word_text(kind)}"


def first_of(write):
    return lambda words: write(words[0])


# How each sort of word is written, and by how many words it has.
SORTS = {
    "address": (1, first_of("{:x}".format)),
    "size": (1, first_of("{:x}".format)),
    "number": (1, first_of(word_text)),
    "word": (1, first_of(word_text)),
    "physical": (1, lambda words: "console" if words[0] == CONSOLE else f"{words[0]:x}"),
    "flags": (1, first_of(flags_text)),
    "span": (2, lambda words: span_text(*words)),
    "pair": (2, words_text),
    "identifier": (4, identifier_text),
    "arguments": (4, words_text),
    "send": (7, send_text),
}


def shapes_of(arguments):
    """For each argument its label, the words that it has, and how they are written; none of an address of code."""
    at = 1
    for label, sort in arguments:
        count, write = SORTS.get(sort, (1, None))
        yield f"{label} " if label else "", at, at + count, write
        at += count


SHAPES = {number: list(shapes_of(arguments)) for number, (_, arguments) in CALLS.items()}


def call_name(number):
    return CALLS[number][0] if number in CALLS else f"call {word_text(number)}"


def error_name(number):
    return ERRORS.get(number) or f"error {word_text(number)}"


def quoted(data):
    """Bytes of the console as one line, in quotes."""
    return '"' + data.decode("latin-1").encode("unicode_escape").decode("ascii").replace('"', '\\"') + '"'


def unquoted(text: str) -> bytes:
    """The bytes of a console that stand in such quotes."""
    return text.encode("ascii").decode("unicode_escape").encode("latin-1")


class Threads(dict):
    """The names of threads."""

    def __init__(self, named):
        super().__init__()
        self.named = named

    def __missing__(self, thread):
        self[thread] = name = f"{self.named.process(thread[0])}.{thread[1]}"
        return name


class Names:
    """The names of processes and of addresses of code, where an image and ELF files tell them."""

    def __init__(self, processes=None, symbols=None, sections=None):
        self.processes = processes or {}
        self.symbols = symbols or {}
        self.sections = sections  # by pid, what an image has: start, end and right of each section
        shared = list(self.processes.values())
        self.doubled = {name for name in shared if shared.count(name) > 1}
        self.threads = Threads(self)

    def process(self, pid):
        name = self.processes.get(pid)
        if not name:
            return str(pid)
        return f"{name}({pid})" if name in self.doubled else name

    def thread(self, thread):
        return self.threads[thread]

    def sender(self, message):
        return self.thread(message.sender) if message.sender else "an unknown sender"

    def section(self, pid, address):
        """The section of the image that has the address, in words, or none."""
        for start, end, right in (self.sections or {}).get(pid, ()):
            if start <= address < end:
                return f"section of the image at {start:x}, {right}"
        return None

    def code(self, pid, address):
        """An address, with its function or object and its line where they are known."""
        where = self.symbols[pid].text(address) if pid in self.symbols else ""
        return f"{address:x} {where}" if where else f"{address:x}"

    def arguments(self, pid, words):
        """What stands in the brackets behind the name of a call."""
        shapes = SHAPES.get(words[0])
        if shapes is None:
            return f"words {words_text(words[1:])}"
        return ", ".join(
            [
                label + (write(words[start:end]) if write else self.code(pid, words[start]))
                for label, start, end, write in shapes
            ]
        )

    def call(self, pid, words):
        """A call with its named arguments."""
        return f"{call_name(words[0])}({self.arguments(pid, words)})"
