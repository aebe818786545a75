"""What is done side by side: a run for a seed, the events of a seed, and a small event file. Each is one job of a process of its own."""

from __future__ import annotations

import collections
import contextlib
import ctypes
import multiprocessing
import os
import signal
from collections.abc import Callable, Iterable, Iterator
from concurrent.futures import Future, ProcessPoolExecutor
from concurrent.futures.process import BrokenProcessPool
from dataclasses import dataclass
from typing import Any, NoReturn

from ..errors import Refusal
from ..runs import events, seen
from ..runs.acting import stretches_of
from . import schedules
from .outcomes import Rule, failures
from .plain import Plain, Thread, lines_of
from .playing import RUNNING, Player
from .smaller import Smaller, Turns, of_events, of_stretches, spelled

AHEAD = 4  # jobs for each process that wait for it
KEPT = 32  # transcripts of schedules that come again
MOST_TRIES = 1_500
MOST_STEPS = 400_000_000  # of all tries for one file; a try counts as a start more
START_STEPS = 50_000
MOST_TICK = 4_294_967_295
PARENT_DEATH_SIGNAL = 1  # of Linux's prctl


@dataclass(frozen=True)
class Result:
    """What came of a seed."""

    seed: int
    kind: str
    text: str  # what is seen
    fails: str
    met_limit: bool
    steps: int
    events: bytes = b""  # of the first seed with this end in a process, behind the start


@dataclass
class Shaker:
    """All that a job needs."""

    player: Player
    plain: Plain
    kinds: tuple[str, ...]
    depth: int
    see: tuple[str, ...]
    rules: tuple[Rule, ...]

    def __post_init__(self) -> None:
        self.known: collections.OrderedDict[bytes, bytes] = collections.OrderedDict()
        self.sent: set[str] = set()  # what was seen in this process

    # A run.

    def transcript(self, text: bytes) -> bytes:
        """The transcript of a schedule; the last ones are kept."""
        if text not in self.known:
            self.known[text] = self.player.play(text)
            if len(self.known) > KEPT:
                self.known.popitem(last=False)
        self.known.move_to_end(text)
        return self.known[text]

    def ready_before(self, text: bytes, place: int) -> list[Thread]:
        history = self.player.reader.history_after(self.transcript(text), self.player.start.steps + place)
        return seen.ready_of(history)

    def events(self, seed: int) -> bytes:
        """The events of a seed, behind the start."""
        kind = schedules.kind_of(seed, self.kinds)
        text = schedules.schedule(kind, seed, self.plain, self.depth, self.ready_before)
        return text + self.player.tail()

    def shake(self, seed: int) -> Result:
        events_of_seed = self.events(seed)
        outcome = self.player.outcome(events_of_seed)
        text, kind = outcome.text(self.see), schedules.kind_of(seed, self.kinds)
        first = b"" if text in self.sent else events_of_seed
        self.sent.add(text)
        return Result(seed, kind, text, failures(outcome, self.rules), outcome.met_limit, outcome.steps, first)

    # Small files.

    def small(self, seed: int, wanted: str) -> bytes:
        """A small event file, behind the start, whose run ends as that of the seed, which is `wanted`."""
        text = self.events(seed)
        left = MOST_STEPS

        def holds(tried: bytes) -> bool:
            nonlocal left
            if left < 0:
                return False
            outcome = self.player.outcome(tried)
            left -= outcome.steps - self.player.start.steps + START_STEPS
            return outcome.text(self.see) == wanted

        for turns in (self.turns_done(text), of_events(events.read(text)[0])):
            found = Smaller(holds, MOST_TRIES, min(MOST_TICK, 10 * self.player.steps)).small(turns)
            if found:
                return spelled(found)
        return text

    def turns_done(self, text: bytes) -> Turns:
        """The turns that a schedule's run has, each of one thread."""
        played = [*self.player.start.events, *events.read(text)[0]]
        lines = lines_of(self.player, self.player.play(text))
        return of_stretches(stretches_of(lines, played, self.player.processes), self.player.start.steps)


# Processes.

SHAKER: list[Shaker] = []  # of this process


def begin(shaker: Shaker) -> None:
    """A process for jobs begins. Control-C is the first process's to answer; where that one ends, this one does, with what it plays."""
    signal.signal(signal.SIGINT, signal.SIG_IGN)
    signal.signal(signal.SIGTERM, end)
    with contextlib.suppress(OSError, AttributeError):
        ctypes.CDLL(None).prctl(PARENT_DEATH_SIGNAL, int(signal.SIGTERM))
    SHAKER[:] = [shaker]


def end(_signal: int, _frame: object) -> NoReturn:
    for process in RUNNING:
        process.kill()
        with contextlib.suppress(ChildProcessError):
            os.waitpid(process.pid, 0)
    os._exit(1)


def job(name: str, *words: Any) -> Any:
    return getattr(SHAKER[0], name)(*words)


class Jobs:
    """Processes that do jobs, whose results come in the order in which the jobs were given."""

    def __init__(self, shaker: Shaker, count: int):
        self.count = count
        self.pool = ProcessPoolExecutor(count, initializer=begin, initargs=(shaker,))

    def __enter__(self) -> Jobs:
        return self

    def __exit__(self, kind: object, _error: object, _trace: object) -> None:
        if kind is not None:
            for process in multiprocessing.active_children():
                process.terminate()
        self.pool.shutdown(wait=True, cancel_futures=True)

    def each(self, name: str, words: Iterable[tuple], is_over: Callable[[], bool] = lambda: False) -> Iterator[Any]:
        """The result of a job for each of these words, until it is over."""
        waiting: collections.deque[Future] = collections.deque()
        coming = iter(words)
        try:
            while True:
                while len(waiting) < AHEAD * self.count and not is_over():
                    given = next(coming, None)
                    if given is None:
                        break
                    waiting.append(self.pool.submit(job, name, *given))
                if not waiting:
                    return
                yield waiting.popleft().result()
        except BrokenProcessPool:
            raise Refusal("a process of this tool was ended from outside, perhaps for lack of memory; give fewer by --jobs") from None
        finally:
            for future in waiting:
                future.cancel()
