"""Random schedules by seeds, as text of event files. Three kinds:

turns   turns of random lengths, in the order of the machine;
picks   a random thread is picked, and does as many steps as it did up to its next call in the plain run;
pct     probabilistic concurrency testing (Burckhardt, Kothari, Musuvathi, Nagarakatte: A Randomized Scheduler with Probabilistic
        Guarantees of Finding Bugs, ASPLOS 2010): the ready thread of the highest priority goes on. Priorities are random, and
        at d - 1 random steps the thread that did the step gets a lower one than all that began.

A seed gives the same text on each machine: all that is random comes from whole numbers of `random.Random`, whose sequence Python keeps.
"""

from __future__ import annotations

import random
from collections.abc import Callable
from dataclasses import dataclass

from .plain import Plain, Thread

TURNS, PICKS, PCT = "turns", "picks", "pct"
KINDS = (TURNS, PICKS, PCT)
MOST_LINES = 6_000  # of a schedule of turns or picks
MOST_PCT_LINES = 24_000
PLAIN_TURN = 10_000
FEW_THREADS = 4


def source_of(kind: str, seed: int) -> random.Random:
    return random.Random(f"{kind} {seed}")


def kind_of(seed: int, kinds: tuple[str, ...]) -> str:
    """The kind of a seed's schedule; each is as likely as the others, whatever part of the seeds is taken."""
    return source_of("kind", seed).choice(kinds)


def spread(source: random.Random, low: int, high: int) -> int:
    """A number from low to high; each power of two in between is as likely as the others."""
    bits = source.randint(low.bit_length(), high.bit_length())
    return min(max(source.randrange(1 << bits >> 1, 1 << bits), low), high)


def pick(who: Thread) -> bytes:
    return b"pick %d %d\n" % who


def tick(steps: int) -> bytes:
    return b"tick %d\n" % steps


def before_window(source: random.Random, plain: Plain, covered: int) -> list[bytes]:
    """Plain turns up to a random place, if a schedule of so many steps is shorter than the run."""
    at = source.randrange(max(plain.span() - covered, 0) + 1)
    turns, rest = divmod(at, PLAIN_TURN)
    return [tick(PLAIN_TURN)] * turns + ([tick(rest)] if rest else [])


# Turns.


def turns(source: random.Random, plain: Plain) -> bytes:
    """Turns of lengths between two that are chosen first."""
    low, high = sorted(spread(source, 1, plain.span()) for _ in range(2))
    lengths: list[int] = []
    done = 0
    while done < plain.span() and len(lengths) < MOST_LINES:
        lengths.append(spread(source, low, high))
        done += lengths[-1]
    return b"".join([*before_window(source, plain, done), *map(tick, lengths)])


# Picks.


def picks(source: random.Random, plain: Plain) -> bytes:
    """Picks of all threads in random order, so that the last one that is ready is taken, and steps up to its next call."""
    left = {who: list(reversed(apart)) for who, apart in plain.apart.items()}
    usual = [apart for each in plain.apart.values() for apart in each] or [plain.steps]
    lines: list[bytes] = []
    done = count = 0
    while done < plain.span() and count < MOST_LINES:
        order = source.sample(plain.threads, len(plain.threads))
        own = left.get(order[-1])
        steps = own.pop() if own else source.choice(usual)
        if source.randrange(4) == 0:
            steps = source.randint(1, steps)
        lines += [*map(pick, order), tick(steps)]
        done += steps
        count += len(order) + 1
    return b"".join([*before_window(source, plain, done), *lines])


# Probabilistic concurrency testing.


@dataclass
class Priorities:
    """Random priorities of threads, the lowest first. Handlers come before all others, as on the machine."""

    order: list[Thread]
    handlers: list[Thread]

    def picks(self) -> bytes:
        """The last pick of a thread that is ready counts, so these take the ready one of the highest priority."""
        return b"".join(map(pick, [*self.order, *self.handlers]))

    def highest(self, ready: list[Thread]) -> Thread | None:
        """The ready thread of the highest priority. A thread that the plain run hasn't shown has the lowest."""
        known = [who for who in [*self.order, *self.handlers] if who in ready]
        return known[-1] if known else (ready[0] if ready else None)


def grain_of(plain: Plain) -> int:
    """After how many steps priorities are looked at. It is 1 where the file doesn't become too long."""
    lines = len(plain.threads) + len(plain.handlers) + 1
    return -(-plain.span() * lines // MOST_PCT_LINES)


def stretch(priorities: Priorities, steps: int, grain: int) -> bytes:
    """So many steps under these priorities."""
    whole, rest = divmod(steps, grain)
    chosen = priorities.picks()
    return (chosen + tick(grain)) * whole + ((chosen + tick(rest)) if rest else b"")


def pct(source: random.Random, plain: Plain, depth: int, ready_before: Callable[[bytes, int], list[Thread]]) -> bytes:
    """A schedule with depth - 1 changes. `ready_before` plays a schedule, and answers who is ready just before a step of it."""
    grain = grain_of(plain)
    initial = source.sample(plain.threads, len(plain.threads))
    places = [source.randint(1, plain.steps) for _ in range(depth - 1)]
    priorities = Priorities(initial, plain.handlers)
    lowered: dict[Thread, int] = {}  # by thread that was lowered, the place that it has below all others
    text, done = b"", 0
    for number, place in sorted(enumerate(places), key=lambda pair: pair[1]):
        text += stretch(priorities, place - done, grain)
        done = place
        # A schedule of few threads without a change comes again and again: the whole of it is one text, whose run is known.
        is_known = not lowered and len(initial) <= FEW_THREADS
        who = priorities.highest(ready_before(stretch(priorities, plain.span(), grain) if is_known else text, place))
        if who is None or who in plain.handlers:
            continue
        lowered[who] = number
        others = [other for other in initial if other not in lowered]
        priorities = Priorities(sorted(lowered, key=lambda each: lowered[each]) + others, plain.handlers)
    return text + stretch(priorities, max(plain.span() - done, 0), grain)


def schedule(
    kind: str, seed: int, plain: Plain, depth: int, ready_before: Callable[[bytes, int], list[Thread]]
) -> bytes:
    """The text of the schedule of a seed."""
    source = source_of(kind, seed)
    if kind == PCT:
        return pct(source, plain, depth, ready_before)
    return turns(source, plain) if kind == TURNS else picks(source, plain)
