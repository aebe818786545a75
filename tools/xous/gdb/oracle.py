"""Asks the program when a run comes somewhere: it plays on from a state that was changed so that the step in
question leaves another record than in the true run.

Up to the first record that differs both runs are one, as long as nobody loads the bytes that were changed.
"""

from __future__ import annotations

from dataclasses import dataclass

from ..errors import Refusal
from ..runs.run import Run
from ..transcripts.decode import Record
from ..transcripts.stored import record_of

PIECE = 1 << 16


@dataclass
class Difference:
    """The step in which the changed run first tells something else, and the changed run's record there."""

    step: int
    record: Record | None


def first_difference(run: Run, changed, step, last):
    """Where the run on from a changed state of that step first differs, up to the step `last`; None where it doesn't."""
    at = run.transcript.offset(step + 1)
    stop = run.transcript.offset(last + 1)
    process = run.resume(changed, step, last)
    try:
        at, line = skip_common(run, process.stdout, at, stop)
    finally:
        process.kill()
        notes = process.stderr.read().decode(errors="replace").strip()
        process.wait()
        process.stdout.close()
        process.stderr.close()
    if not line:
        raise Refusal(f"a changed state wasn't played: {notes or process.returncode}")
    true_step = int(run.transcript.data[at : run.transcript.data.find(b" ", at)]) if at < stop else None
    if line.startswith(b"end "):
        return None if true_step is None else Difference(true_step, None)
    record = record_of(line)
    return Difference(record.step if true_step is None else min(record.step, true_step), record)


def skip_common(run, output, at, stop):
    """Reads lines as long as they are the transcript's; gives the offset there and the first other line."""
    data, rest = run.transcript.data, b""
    while True:
        piece = output.read1(PIECE)
        rest += piece
        expected = data[at : min(at + len(rest), stop)]
        if rest == expected and piece:
            keep = rest.rfind(b"\n") + 1  # a line is compared whole
            at, rest = at + keep, rest[keep:]
            continue
        same = common_lines(rest, expected)
        at, rest = at + same, rest[same:]
        end = rest.find(b"\n")
        if end >= 0:
            return at, rest[:end]
        if not piece:
            return at, b""


def common_lines(left, right):
    """How many bytes the whole lines have that both begin with."""
    low, high = 0, min(len(left), len(right))
    while low < high:
        middle = (low + high + 1) // 2
        if left[:middle] == right[:middle]:
            low = middle
        else:
            high = middle - 1
    return left.rfind(b"\n", 0, low) + 1


def first_where(test, low, high):
    """By halving, a step up to `high` at which the test holds and just before which it doesn't; it doesn't at `low`, and
    does at `high`."""
    while high - low > 1:
        middle = (low + high) // 2
        if test(middle):
            high = middle
        else:
            low = middle
    return high


def last_before(find, start, low):
    """The last place in `low` to `start` - 1. `find` gives the first place from a step on and before another one.

    Ever longer pieces are asked for a place; in the first that has one, the last is found by halving.
    """
    end, width = start, 1
    while end > low:
        begin = max(end - width, low)
        found = find(begin, end)
        if found is not None:
            return last_within(find, found, end)
        end, width = begin, 16 * width
    return None


def last_within(find, found, end):
    """The last place before `end`, where one is found. Places are mostly few, so the next one is asked for as well."""
    while found + 1 < end:
        following = find(found + 1, end)
        if following is None:
            break
        found = following
        middle = (found + end) // 2
        if middle > found:
            later = find(middle, end)
            if later is None:
                end = middle
            else:
                found = later
    return found
