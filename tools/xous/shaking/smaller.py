"""Small event files: delta debugging over the turns of a schedule, and over the lengths of its ticks.

A schedule is a list of turns. What is tried with a part of it: to leave it out, or to gather the turns of each thread in it. Gathering
keeps each thread's own steps and takes switches away, so what stays are the switches that matter. Then picks go that the
order of the machine makes needless, and ticks become as short as they can be.
"""

from __future__ import annotations

from collections.abc import Callable, Iterable
from dataclasses import dataclass, replace

from ..runs import events
from ..runs.acting import Stretch

Thread = tuple[int, int]


@dataclass(frozen=True)
class Turn:
    """A pick, or none, and the steps after it."""

    thread: Thread | None
    steps: int

    def lines(self) -> Iterable[str]:
        if self.thread is not None:
            yield f"pick {self.thread[0]} {self.thread[1]}"
        yield f"tick {self.steps}"


Turns = list[Turn]


def spelled(turns: Turns) -> bytes:
    return "".join(f"{line}\n" for turn in turns for line in turn.lines()).encode()


def of_stretches(stretches: list[Stretch], first: int) -> Turns:
    """The turns that do what was done behind that step, each with its pick."""
    behind = [stretch for stretch in stretches if stretch.last > first]
    return [Turn(stretch.thread, stretch.last - max(stretch.first - 1, first)) for stretch in behind]


def of_events(played: list[events.Event]) -> Turns:
    """The turns of events that are picks and ticks; the last pick before a tick counts."""
    turns: Turns = []
    thread: Thread | None = None
    for event in played:
        if event.name == "pick":
            thread = (event.numbers[0], event.numbers[1])
        elif event.name == "tick":
            turns.append(Turn(thread, event.numbers[0]))
            thread = None
    return turns


def joined(turns: Turns) -> Turns:
    """Turns of one thread that are side by side become one."""
    found: Turns = []
    for turn in turns:
        if found and turn.thread is not None and found[-1].thread == turn.thread:
            found[-1] = replace(found[-1], steps=found[-1].steps + turn.steps)
        else:
            found.append(turn)
    return found


def gathered(turns: Turns) -> Turns:
    """The same steps with one turn for each thread, in the order of their first ones."""
    steps: dict[Thread | None, int] = {}
    for turn in turns:
        steps[turn.thread] = steps.get(turn.thread, 0) + turn.steps
    return [Turn(thread, count) for thread, count in steps.items()]


class Spent(Exception):
    """No more tries are paid for."""


class Smaller:
    """Makes a schedule small, as long as a run of it is what is asked for."""

    def __init__(self, holds: Callable[[bytes], bool], most: int, end: int):
        """`holds` plays a text, `most` limits how often, and `end` is a tick up to the end of any run."""
        self.holds, self.left, self.end = holds, most, end
        self.turns: Turns = []

    def try_turns(self, turns: Turns) -> bool:
        """Takes these turns if their run is what is asked for."""
        if turns == self.turns or not turns:
            return False
        if self.left == 0:
            raise Spent
        self.left -= 1
        if not self.holds(spelled(turns)):
            return False
        self.turns = turns
        return True

    def small(self, turns: Turns) -> Turns:
        """The smallest schedule that was found, or none if the run of these turns isn't what is asked for."""
        try:
            if not self.try_turns(turns):
                return []
            self.cut()
            while self.pass_over():
                pass
            while self.drop_picks() or self.shorten() or self.pass_over():
                pass
        except Spent:
            pass
        return self.turns

    def cut(self) -> None:
        """Looks for a short front, behind which the last turn goes on to the end."""
        low, high = 0, len(self.turns) - 1  # a front of `high` whole turns is known to be enough
        turns = self.turns
        while low < high:
            middle = (low + high) // 2
            if self.try_turns([*turns[:middle], replace(turns[middle], steps=self.end)]):
                high = middle
            else:
                low = middle + 1
        self.to_end()

    def to_end(self) -> bool:
        return self.try_turns([*self.turns[:-1], replace(self.turns[-1], steps=self.end)])

    def pass_over(self) -> bool:
        """Tries parts of all sizes, the largest first. Whether anything became smaller."""
        before = self.turns
        size = len(self.turns)
        while size:
            at = 0
            while at < len(self.turns):
                if not self.try_part(at, at + size):
                    at += size
            size = size // 2 if size > 3 else size - 1
        return len(self.turns) < len(before)

    def try_part(self, first: int, last: int) -> bool:
        """Leaves out these turns, or gathers them. Whether fewer turns are left."""
        front, part, rest = self.turns[:first], self.turns[first:last], self.turns[last:]
        for turns in (joined(front + rest), joined(front + gathered(part) + rest)):
            if len(turns) < len(self.turns) and self.try_turns(turns):
                return True
        return False

    def drop_picks(self) -> bool:
        """Takes picks away that aren't needed, and joins ticks without one."""
        before = self.turns
        for at in range(len(self.turns)):
            if at < len(self.turns) and self.turns[at].thread is not None:
                turn = replace(self.turns[at], thread=None)
                front, rest = self.turns[:at], self.turns[at + 1 :]
                if front:
                    merged = replace(front[-1], steps=front[-1].steps + turn.steps)
                    if self.try_turns([*front[:-1], merged, *rest]):
                        continue
                self.try_turns([*front, turn, *rest])
        self.to_end()
        return lines_of(self.turns) < lines_of(before)

    def shorten(self) -> bool:
        """Makes each tick but the last as short as it can be. Whether a turn went."""
        before = len(self.turns)
        for at in range(len(self.turns) - 1):
            low, high = 1, self.turns[at].steps
            while low < high:
                middle = (low + high) // 2
                if self.try_turns([*self.turns[:at], replace(self.turns[at], steps=middle), *self.turns[at + 1 :]]):
                    high = middle
                else:
                    low = middle + 1
        return len(self.turns) < before


def lines_of(turns: Turns) -> int:
    return sum(1 for turn in turns for _ in turn.lines())
