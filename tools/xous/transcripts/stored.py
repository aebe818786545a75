"""A transcript by its steps. It stays in a file, as it may be long, and its lines are found by halving."""

from __future__ import annotations

import mmap
import re

from ..errors import Refusal
from . import decode
from .decode import Record

LAST = re.compile(rb"end (\d+) (done|limit)\n?")


def record_of(line: bytes) -> Record:
    """The record of a line that the program wrote."""
    record = decode.record_of(line.decode("latin-1"))
    if record is None:
        raise Refusal(f"the program wrote a line that is none of a transcript: {line[:80]!r}; XOUSIM has to name xousim")
    return record


class Transcript:
    def __init__(self, file):
        """Of an open file, whose last line is the one that begins with `end`."""
        if file.seek(0, 2) == 0:
            raise Refusal("the program wrote no transcript; XOUSIM has to name xousim")
        self.data = mmap.mmap(file.fileno(), 0, access=mmap.ACCESS_READ)
        self.end = self.data.rfind(b"\n", 0, len(self.data) - 1) + 1
        last = LAST.fullmatch(self.data[self.end :])
        if last is None:
            raise Refusal("the program wrote a transcript without a last line; XOUSIM has to name xousim")
        self.steps, self.met_limit = int(last[1]), last[2] == b"limit"

    def line_start(self, at):
        return self.data.rfind(b"\n", 0, at) + 1

    def offset(self, step):
        """Where the first line of this step or a later one begins."""
        low, high = 0, self.end
        while low < high:
            start = self.line_start((low + high) // 2)
            if int(self.data[start : self.data.find(b" ", start)]) < step:
                low = self.data.find(b"\n", start) + 1
            else:
                high = start
        return low

    def lines(self, first, last):
        """The lines of the steps from `first` to `last`."""
        return self.data[self.offset(first) : self.offset(last + 1)].splitlines()

    def records(self, step):
        return [record_of(line) for line in self.lines(step, step)]

    def each(self, pattern, after):
        """The records after a step whose lines the pattern is found in."""
        for match in re.compile(pattern, re.M).finditer(self.data, self.offset(after + 1), self.end):
            yield self.record_around(match.start())

    def each_before(self, pattern, until):
        """The records up to a step whose lines the pattern is found in, the last one first."""
        known, stop, size = re.compile(pattern, re.M), self.offset(until + 1), 1 << 12
        while stop:
            start = self.line_start(max(stop - size, 0))
            for match in reversed(list(known.finditer(self.data, start, stop))):
                yield self.record_around(match.start())
            stop, size = start, 2 * size

    def record_around(self, at):
        start = self.line_start(at)
        return record_of(self.data[start : self.data.find(b"\n", at)])
