"""What was found: the endings of many runs, as a table, as JSON, and joined from several machines."""

from __future__ import annotations

import json
from collections import Counter
from collections.abc import Iterable, Iterator
from dataclasses import asdict, dataclass, field

from ..errors import Refusal
from ..files import read_whole
from .jobs import Result
from .schedules import KINDS

FORM = "xous-shake 1"
MOST_BYTES = 1 << 28  # of a file of findings


@dataclass
class Ending:
    """Runs that look alike at their ends."""

    seen: str
    fails: str
    met_limit: bool
    seed: int  # the first one that came to it
    kind: str
    runs: dict[str, int] = field(default_factory=dict)  # by kind
    events: str = ""  # that come to it

    def count(self) -> int:
        return sum(self.runs.values())

    def add(self, runs: dict[str, int]) -> None:
        self.runs = dict(Counter(self.runs) + Counter(runs))

    def line(self, number: int) -> str:
        fails = f"; fails: {self.fails}" if self.fails else ""
        return f"ending {number}: {self.seen}; first by seed {self.seed}, {self.kind}{fails}"


@dataclass
class Seeds:
    """Seeds at equal distances."""

    first: int
    step: int
    count: int = 0

    def range(self) -> range:
        return range(self.first, self.first + self.step * self.count, self.step)


@dataclass
class Findings:
    """The endings of runs of one image, by what is seen of them, in the order in which they came."""

    about: dict[str, object]  # what the runs have in common: the image's digest, and what is looked at
    seeds: list[Seeds]
    endings: dict[str, Ending] = field(default_factory=dict)

    def take(self, result: Result) -> Ending | None:
        """The ending of a run, if it is a new one."""
        self.seeds[-1].count += 1
        known = self.endings.get(result.text)
        found = known or Ending(result.text, result.fails, result.met_limit, result.seed, result.kind)
        found.add({result.kind: 1})
        self.endings[result.text] = found
        return None if known else found

    def runs(self) -> int:
        return sum(seeds.count for seeds in self.seeds)

    def failing(self) -> list[Ending]:
        return [ending for ending in self.endings.values() if ending.fails]

    # As a table.

    def lines(self) -> Iterator[str]:
        kinds = [kind for kind in KINDS if any(kind in ending.runs for ending in self.endings.values())]
        rows = [["ending", "runs", *kinds, "first", "fails"]]
        for number, ending in enumerate(self.endings.values(), 1):
            counts = [f"{ending.runs.get(kind, 0):,}" for kind in kinds]
            rows.append([str(number), f"{ending.count():,}", *counts, str(ending.seed), ending.fails or "-"])
        widths = [max(len(row[at]) for row in rows) for at in range(len(rows[0]) - 1)]
        for row in rows:
            yield "  ".join([*(cell.rjust(width) for cell, width in zip(row, widths)), row[-1]])
        limited = sum(ending.count() for ending in self.endings.values() if ending.met_limit)
        failed = sum(ending.count() for ending in self.failing())
        yield (
            f"{counted(len(self.endings), 'ending')} in {counted(self.runs(), 'run')}; {counted(failed, 'run')} failed, "
            f"{counted(limited, 'run')} met the step limit"
        )

    # As JSON.

    def to_json(self) -> bytes:
        seeds = [asdict(each) for each in self.seeds]
        endings = [asdict(ending) for ending in self.endings.values()]
        return (json.dumps({"form": FORM, "about": self.about, "seeds": seeds, "endings": endings}, indent=1) + "\n").encode()


def counted(number: int, word: str) -> str:
    return f"{number:,} {word}{'s' * (number != 1)}"


def is_findings(beginning: bytes) -> bool:
    """Whether a file begins as findings do."""
    return beginning.startswith(b'{\n "form": "xous-shake ')


def read(path: str) -> Findings:
    try:
        told = json.loads(read_whole(path, MOST_BYTES))
        if told["form"] != FORM:
            raise ValueError
        seeds = [Seeds(**each) for each in told["seeds"]]
        endings = [Ending(**each) for each in told["endings"]]
        good = all(isinstance(value, int) and value >= 0 for each in seeds for value in asdict(each).values())
        if not (good and isinstance(told["about"], dict) and all(map(is_ending, endings))):
            raise ValueError
    except (ValueError, TypeError, KeyError, RecursionError):
        raise Refusal(f"{path}: these are no findings; xous-shake --json FILE writes some") from None
    return Findings(told["about"], seeds, {ending.seen: ending for ending in endings})


def is_ending(ending: Ending) -> bool:
    texts = (ending.seen, ending.fails, ending.kind, ending.events)
    has_counts = isinstance(ending.runs, dict) and all(isinstance(count, int) and count > 0 for count in ending.runs.values())
    is_named = has_counts and set(ending.runs) <= set(KINDS) and ending.kind in KINDS
    return is_named and isinstance(ending.seed, int) and isinstance(ending.met_limit, bool) and all(isinstance(text, str) for text in texts)


def merged(paths: list[str]) -> Findings:
    """The findings of several files as one; the first ending is the one of the least seed."""
    parts = [(path, read(path)) for path in paths]
    first_path, first = parts[0]
    for path, part in parts[1:]:
        for name, value in first.about.items():
            if part.about.get(name) != value:
                raise Refusal(f"{path}: its {name} is {part.about.get(name)}, and that of {first_path} is {value}; join findings of one search")
    refuse_shared_seeds(parts)
    endings: dict[str, Ending] = {}
    for _, part in parts:
        for ending in part.endings.values():
            join(endings, ending)
    ordered = sorted(endings.values(), key=lambda ending: ending.seed)
    seeds = [each for _, part in parts for each in part.seeds]
    return Findings(first.about, seeds, {ending.seen: ending for ending in ordered})


def join(endings: dict[str, Ending], ending: Ending) -> None:
    known = endings.get(ending.seen)
    if known is None:
        endings[ending.seen] = ending
        return
    early, late = (known, ending) if known.seed <= ending.seed else (ending, known)
    early.add(late.runs)
    early.events = early.events or late.events
    endings[ending.seen] = early


def refuse_shared_seeds(parts: Iterable[tuple[str, Findings]]) -> None:
    """No seed may be counted twice."""
    before: list[tuple[str, range]] = []
    for path, part in parts:
        for seeds in part.seeds:
            own = seeds.range()
            for other_path, other in before:
                shared = next((seed for seed in min(own, other, key=len) if seed in own and seed in other), None)
                if shared is not None:
                    raise Refusal(f"{path}: seed {shared} is in {other_path} too; give each file once, and each share another K of --share K/N")
            before.append((path, own))
