"""Every order of the threads of an image, searched breadth first over runs of the program. It is slow, and proves nothing.

A *slice* of a ready thread is `pick` of it and its steps up to the first that leaves a record, at most so many as the quantum. A
*node* is a state without its cursor and, where steps don't count, without its count of steps, with the console's bytes so far, what
processes ended with, the events that may still come, and how many slices of its order were preempted. An *ending* is a node in which
nobody is ready, or where steps count and are at their bound.

A slice is *preempted* if it stops sooner, after any of its steps but the last. With preemptions there is a search for each number of
them, from none on, whose orders have so many at most.

An event comes at most once. It doesn't come where it can do nothing, nor while an equal one that was named before it hasn't come.

Steps count in all nodes or in none: two orders that lead to one node may have done other numbers of steps, and who claims the
timer's interrupt there can read them. So a search is made anew, with a bound of steps, where it comes to a state in which somebody has.

A state comes by `suspend` from the image's start, and where a slice ends is read off `resume` from that state.
"""

from __future__ import annotations

import dataclasses
import hashlib
import itertools
import os
import subprocess
from concurrent.futures import ThreadPoolExecutor
from dataclasses import dataclass, field

from ..errors import Refusal
from ..machine import MOST_STEPS, TIMER_INTERRUPT
from ..states import state
from ..transcripts import decode
from . import events, fails, found
from .ended import Ended, ends_of
from .seen import EXITS, SIGHTS, of_state

WORKERS = 3


@dataclass
class Asked:
    """What is searched: the quantum, the bound of steps where these count, how many nodes at most, events that may come once, and
    the events that are played first; what is seen of endings, and the console as digits or not; what makes them failures, whether that
    is if they differ too, and whether the search stops at the first; how many slices of an order may be preempted, if levels are searched."""

    quantum: int = 1000
    steps: int = 100_000
    states: int = 100_000
    once: tuple = ()
    first: list = field(default_factory=list)
    sights: tuple[str, ...] = SIGHTS
    is_hex: bool = False
    fails: tuple[fails.Failing, ...] = ()
    differ: bool = False
    stops: bool = False
    preemptions: int | None = None

    def asks_for_failures(self) -> bool:
        return bool(self.fails) or self.differ


@dataclass
class Node:
    path: list  # events from the image's start
    slices: int  # preempted ones too
    console: bytes
    once: tuple
    ends: dict[int, Ended]
    machine: state.State | None = None
    file: str = ""  # of the machine's bytes, as long as the node isn't expanded
    preempted: int = 0  # how many of the slices


class TimerClaimed(Exception):
    """Somebody has claimed the timer's interrupt where steps don't count."""


def has_timer(machine):
    return any(claim.number == TIMER_INTERRUPT for claim in machine.claims)


def is_idle(event, machine):
    """Whether the event can do nothing: nobody claims the interrupt, or the process isn't alive, and no address is reserved."""
    if machine.reserved is not None:
        return False
    (number,) = event.numbers
    if event.name == "irq":
        return all(claim.number != number for claim in machine.claims)
    process = machine.process(number)
    return process is None or not process.alive


def coming(node):
    """The events that may come: the first of equal ones, if it isn't idle."""
    firsts = [event for place, event in enumerate(node.once) if event not in node.once[:place]]
    return [event for event in firsts if not is_idle(event, node.machine)]


def key_of(node, counts):
    """What tells this node from others, where steps count or don't."""
    machine = node.machine
    kept = dataclasses.replace(machine, cursor=(2, 2), steps=machine.steps if counts else 0)
    digest = hashlib.sha256(kept.to_bytes())
    return digest.digest(), node.console, tuple(event.text() for event in node.once), tuple(sorted(node.ends.items())), node.preempted


class Search:
    """A search: of orders with so many preemptions at most, where levels are searched."""

    def __init__(self, program, image, asked, folder, counts=False, level=None):
        self.program, self.image, self.asked, self.folder, self.counts, self.level = program, image, asked, folder, counts, level
        self.files, self.slices = itertools.count(), 0
        self.nodes, self.endings = {}, []
        self.whole, self.stopped = True, False

    # Runs.

    def run(self, command, subject, played, limit):
        path = os.path.join(self.folder, f"{next(self.files)}.events")
        with open(path, "wb") as file:
            file.write(events.spelled(played))
        words = [self.program, command, subject, path, str(limit)]
        ran = subprocess.run(words, stdout=subprocess.PIPE, stderr=subprocess.PIPE, check=False)
        os.unlink(path)
        if ran.returncode not in (0, 7) or not ran.stdout:
            raise Refusal(f"xousim {command}: {ran.stderr.decode().strip()}")
        return ran.stdout

    def played(self, path, once=()):
        """The node behind these events from the image's start, without its state."""
        records = self.records("trace", self.image, path)
        return Node(path, 0, written_in(records), once, ends_on({}, records))

    def records(self, command, subject, played):
        """The records of a run on from an image or a state, but for the last one, and that."""
        told = self.run(command, subject, played, MOST_STEPS).decode("latin-1").splitlines()
        return [decode.record_of(line) for line in told]

    def visited(self, node):
        """The node with its state, which stands in a file, too."""
        data = self.run("suspend", self.image, node.path, MOST_STEPS)
        node.machine = state.read(data)
        node.file = os.path.join(self.folder, f"{next(self.files)}.state")
        with open(node.file, "wb") as file:
            file.write(data)
        return node

    def bound(self):
        return self.asked.steps if self.counts else MOST_STEPS

    def is_ending(self, node):
        return not node.machine.ready() or node.machine.steps >= self.bound()

    def slice_of(self, node, who):
        """The node behind a slice of this thread."""
        machine = node.machine
        most = min(self.asked.quantum, self.bound() - machine.steps)
        pick = events.Event(0, "pick", who)
        records = self.records("resume", node.file, [pick, events.tick(most)])
        last = records[0].step if len(records) > 1 else min(records[-1].step, machine.steps + most)
        own = [record for record in records if record.step == last]
        path = [*node.path, pick, events.tick(last - machine.steps)]
        ends = self.ends_on(node.ends, own)
        return self.visited(Node(path, node.slices + 1, node.console + written_in(own), node.once, ends, preempted=node.preempted))

    def preempted_of(self, node, who, steps):
        """The node behind a slice of this thread that is preempted after so many steps, which leave no record."""
        path = [*node.path, events.Event(0, "pick", who), events.tick(steps)]
        return self.visited(Node(path, node.slices + 1, node.console, node.once, node.ends, preempted=node.preempted + 1))

    def slices_of(self, node, who):
        """The nodes behind a slice of this thread, and behind those that are preempted, if the order may have one more."""
        whole = self.slice_of(node, who)
        steps = range(1, whole.machine.steps - node.machine.steps) if node.preempted < (self.level or 0) else ()
        return [whole, *(self.preempted_of(node, who, count) for count in steps)]

    def after_event(self, node, event):
        rest = tuple(other for other in node.once if other is not event)
        ends = self.ends_on(node.ends, self.records("resume", node.file, [event]))
        return [self.visited(Node([*node.path, event], node.slices, node.console, rest, ends, preempted=node.preempted))]

    def ends_on(self, ends, records):
        """What processes ended with that ended before, and in these records, if exits are seen."""
        return ends_on(ends, records) if EXITS in self.asked.sights else {}

    # The search.

    def meet(self, node):
        """Whether this node is a new one."""
        if has_timer(node.machine) and not self.counts:
            raise TimerClaimed
        key = key_of(node, self.counts)
        if key in self.nodes or len(self.nodes) >= self.asked.states:
            self.whole = self.whole and key in self.nodes
            if os.path.exists(node.file):
                os.unlink(node.file)
            return False
        self.nodes[key] = node
        if self.is_ending(node):
            self.endings.append(node)
            if self.asked.stops and self.failing(node):
                self.whole, self.stopped = False, True
        return True

    def successors(self, pool, node):
        """The nodes behind each slice and each event, in order. Only whole slices are counted."""
        ready = [] if self.is_ending(node) else node.machine.ready()
        self.slices += len(ready)
        jobs = [pool.submit(self.slices_of, node, who) for who in ready]
        return jobs + [pool.submit(self.after_event, node, event) for event in coming(node)]

    def search(self):
        """This search, or where it comes to need one that counts steps, that one."""
        try:
            return self.search_nodes()
        except TimerClaimed:
            return type(self)(self.program, self.image, self.asked, self.folder, True, self.level).search_nodes()

    def search_nodes(self):
        first = self.visited(self.played(list(self.asked.first), self.asked.once))
        first.ends = {}  # of what was played before the search it isn't kept
        with ThreadPoolExecutor(WORKERS) as pool:
            level = [first] if self.meet(first) else []
            while level and not self.stopped:
                jobs = [(node, self.successors(pool, node)) for node in level]
                level = []
                for node, coming in jobs:
                    met = [after for job in coming for after in job.result()]
                    level += [other for other in met if not self.stopped and self.meet(other)]
                    node.machine = None if node not in self.endings else node.machine
        return self

    # What is told.

    def failing(self, node):
        """What an ending fails of first, as it is spelled."""
        return fails.first_of(self.asked.fails, seen(node))

    def told(self):
        """What was found, where endings that look alike and fail of the same are one, and of each a node with the shortest order."""
        alike = {}
        for node in self.endings:
            text = seen(node).text(self.asked.sights, self.asked.is_hex)
            alike.setdefault((text, self.failing(node)), []).append(node)
        alike_of = ((text, what, nodes) for (text, what), nodes in alike.items())
        endings = tuple(found.Ending(text, len(nodes), nodes[0].slices, what, nodes[0].preempted) for text, what, nodes in alike_of)
        within = self.asked.steps if self.counts else None
        differ = self.asked.differ and len(endings) > 1
        told = found.Found(len(self.nodes), self.slices, self.whole, endings, within, differ, self.level)
        return told, [nodes[0] for nodes in alike.values()]


def levels(asked):
    """The bounds of preemptions that are searched one after another, or that of a search without."""
    return [None] if asked.preemptions is None else range(asked.preemptions + 1)


def ends_on(ends, records):
    """What processes ended with that ended before, and in these records."""
    return dict(ends_of(records)) | ends


def written_in(records):
    """The bytes that go to the console."""
    return bytes(record.words[0] for record in records if record.what == decode.BYTE)


def seen(node):
    """What is seen of an ending: the console, what processes ended with, and for what each thread waits."""
    return of_state(node.machine, node.console, node.ends)
