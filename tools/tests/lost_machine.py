#!/usr/bin/python3 -SE
"""A stand-in for xousim that plays one program alone, whatever the image is: two threads add to one word without a lock.

It is a model by hand of examples/orders/lost.c, with the rules of turns of docs/machine.md. So what is made of event files can be
tested without the proved program. The words are `trace IMAGE EVENTS STEPS`.
"""

import sys

FIRST, SECOND = (2, 2), (2, 3)
ZEROS = " 00000000"


class Machine:
    """The machine, which gathers the lines of the transcript."""

    def __init__(self):
        self.total, self.steps, self.cursor = 0, 0, FIRST
        self.threads = {FIRST: self.first()}
        self.joining, self.is_over = False, False
        self.lines = []

    def note(self, what, who=FIRST):
        self.lines.append(f"{self.steps} {who[0]}.{who[1]} {what}")

    def call(self, number, first=0):
        self.note(f"call {number:08x} {first:08x}" + ZEROS * 6)

    def reply(self, kind, value=0):
        self.note(f"reply {kind:08x} {value:08x}" + ZEROS * 6)

    # The programs: each yield is a step.

    def first(self):
        for _ in range(3):
            yield
        self.call(0x12, 0x10000)
        self.threads[SECOND] = self.second()
        self.reply(0x0A, 3)
        yield
        yield from self.add(1)
        self.call(0x24, 3)
        if SECOND in self.threads:
            self.joining = True
        else:
            self.reply(0x01, 0x14)
        yield
        self.note(f"byte {ord('0') + self.total:02x}")
        yield
        self.call(0x16, int(self.total != 3))
        self.lines.append(f"{self.steps} 2 gone")
        self.is_over = True
        yield

    def second(self):
        yield from self.add(2)
        self.note("end", SECOND)
        del self.threads[SECOND]
        if self.joining:
            self.joining = False
            self.reply(0x0E)
        yield

    def add(self, amount):
        for _ in range(4):
            yield
        seen = self.total
        for _ in range(3):
            yield
        self.total = seen + amount
        for _ in range(4):
            yield

    # Turns.

    def ready(self):
        return [] if self.is_over else sorted(who for who in self.threads if not (who == FIRST and self.joining))

    def next_ready(self):
        ready = self.ready()
        return next((who for who in ready if who > self.cursor), ready[0] if ready else None)

    def tick(self, count, limit):
        """Whether the step limit isn't met."""
        for _ in range(count):
            actor = self.cursor if self.cursor in self.ready() else self.next_ready()
            if actor is None:
                break
            if self.steps == limit:
                return False
            self.cursor, self.steps = actor, self.steps + 1
            next(self.threads[actor])
        self.cursor = self.next_ready() or self.cursor
        return True

    def play(self, events, limit):
        for line in events:
            name, *numbers = line.split()
            if name == "pick" and tuple(map(int, numbers)) in self.ready():
                self.cursor = tuple(map(int, numbers))
            elif name == "tick" and not self.tick(int(numbers[0]), limit):
                return [*self.lines, f"end {self.steps} limit"], 7
        return [*self.lines, f"end {self.steps} done"], 0


def main(words):
    if len(words) != 4 or words[0] != "trace":
        print("usage: lost_machine trace IMAGE EVENTS STEPS", file=sys.stderr)
        return 2
    with open(words[2], encoding="ascii") as file:
        lines, status = Machine().play(file, int(words[3]))
    print("\n".join(lines))
    return status


if __name__ == "__main__":
    sys.exit(main(sys.argv[1:]))
