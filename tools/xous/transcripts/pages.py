"""The pages of a process as far as a transcript tells them, and what stands at an address."""

from bisect import bisect_left, bisect_right

from .. import machine, names
from ..machine import PAGE

STACK, STACK_END = machine.FIRST_STACK.start, machine.FIRST_STACK.stop
INTERRUPT_STACK = machine.HANDLER_STACK.start
HEAP = machine.WINDOWS["Heap"].start
MOVED = "moved"  # in place of a right, which its sender gave

class Ranges:
    """Ranges of addresses that don't overlap, each with a word on it."""

    def __init__(self):
        self.starts, self.rows = [], []

    def put(self, start, end, word):
        """The range has this word from now on, and nothing of it another one; none takes it out."""
        first = bisect_right(self.starts, start) - 1
        if first < 0 or self.rows[first][1] <= start:
            first += 1
        last = bisect_left(self.starts, end)
        rows = [] if word is None else [(start, end, word)]
        for low, high, other in self.rows[first:last]:
            if low < start:
                rows.insert(0, (low, start, other))
            if high > end:
                rows.append((end, high, other))
        self.rows[first:last] = rows
        self.starts[first:last] = [row[0] for row in rows]

    def at(self, address):
        """The range that the address is in, as start, end and word."""
        place = bisect_right(self.starts, address) - 1
        row = self.rows[place] if place >= 0 else None
        return row if row and address < row[1] else None

    def first_of_run(self, address):
        """The start of the ranges without a gap that end in that of the address."""
        row = self.at(address)
        while row and (before := self.at(row[0] - 1)):
            row = before
        return row[0] if row else None


class Space:
    """The pages of one process: those that each has at the start but for its image's, and those of its calls."""

    def __init__(self):
        self.pages = Ranges()
        self.heap = 0
        self.stacks = {2: STACK_END}  # by tid, the stack pointer with which a thread began
        self.pages.put(STACK, STACK_END, "RW")
        self.pages.put(INTERRUPT_STACK, INTERRUPT_STACK + PAGE, "RW")

    def guarded(self, address):
        """The thread whose stack's pages end just above the page of the address, which isn't there."""
        above = (address & -PAGE) + PAGE
        tops = [
            (top, tid)
            for tid, top in self.stacks.items()
            if top > above and self.pages.first_of_run(top - 1) == above
        ]
        return min(tops)[1] if tops else None


def loan_at(messages, pid, address):
    """The message by which the page of the address is on loan, and whether the process is its holder."""
    for message in messages:
        if message.kind not in names.LENDS:
            continue
        start, size = message.words[:2]
        if message.sender and message.sender[0] == pid and start <= address < start + size:
            return message, False
        start = message.address
        if start is not None and message.holder() == pid and start <= address < start + size:
            return message, True
    return None, False


def loan_text(message, is_holder, named):
    number = f"message {message.number}" if message.number else "a message that isn't received yet"
    how = "mutable lend" if message.kind == names.MUTABLE_LEND else "lend"
    if is_holder:
        return f"page lent to it by {named.sender(message)} ({how}, {number})"
    to = f" to {named.process(message.holder())}" if message.holder() is not None else ""
    return f"page on loan{to} ({how}, {number})"


def window_text(address):
    name = machine.window(address)
    return f"{name} window" if name else "outside of all windows"


def stack_text(pid, address, named):
    if INTERRUPT_STACK <= address < INTERRUPT_STACK + PAGE:
        return f"stack of {named.thread((pid, 1))}"
    if STACK <= address < STACK_END:
        return f"stack of {named.thread((pid, 2))}"
    return ""


def row_text(word, stack):
    """A page of the process by the word on its range."""
    if word == "console":
        return word
    if word == MOVED:
        return "page that was moved to it"
    return f"{stack or 'page of its own'}, {word}"


def standing(follower, pid, address, named):
    """What stands at an address of a process, as far as the transcript and the image tell."""
    message, is_holder = loan_at(follower.open, pid, address)
    if message:
        return loan_text(message, is_holder, named)
    if address & -PAGE == machine.TIMER:
        return "timer"
    space = follower.space(pid)
    row = space.pages.at(address)
    if row:
        return row_text(row[2], stack_text(pid, address, named))
    section = named.section(pid, address)
    if section:
        return section
    guarded = space.guarded(address)
    if guarded is not None:
        return f"stack guard of {named.thread((pid, guarded))}"
    if named.sections is not None or not window_text(address).startswith("Image"):
        return f"unmapped, {window_text(address)}"
    return "Image window"
