"""What a search of orders tells, as its lines have it (docs/orders.md): read, spelled, and compared with what another search told.

A search may tell each ending when it finds it, and then all of them in a report. With preemptions each level has such a report.
"""

import dataclasses
import re
from collections import Counter
from dataclasses import dataclass

from .. import names

HEAD = re.compile(r"states (\d+) slices (\d+) (whole|cut)(?: within (\d+) steps)?(?: preemptions (\d+))?").fullmatch
COUNTS = "steps count"  # the line behind which a search is made again, with the count of steps
# What can be seen: the bytes of the console, and processes that are gone or that live.
BYTES = r'console (?:"(?P<text>(?:[^"\\]|\\.)*)"|(?P<digits>(?:[0-9a-f]{2})+|empty))'
END = r"\d+ (?:gone|killed|exited \d+|fault \d+ at [0-9a-f]{8})"
SIGHT = rf"(?:{BYTES}; )?(?:{END}; |\d+ waits: (?:[^;]|;(?! ))*; )*"
IS_SEEN = re.compile(SIGHT).fullmatch
LENGTH = r"\d+ slices?(?:, \d+ preemptions?)?"  # of an order
LENGTH_OF = re.compile(r"(\d+ slices?)(?:, (\d+ preemptions?))?").fullmatch
ENDING = re.compile(rf"ending (\d+): (.*?)(\d+ nodes?); ({LENGTH})").fullmatch
NEWS = re.compile(rf"found (?P<number>\d+): (?P<seen>{SIGHT})(?P<length>{LENGTH})(?:; fails: (?P<fails>.+))?").fullmatch
CONSOLE = re.compile(rf"{BYTES}(?:; |$)")
GONE = re.compile(r"(\d+) (?:gone|killed|exited \d+|fault \d+ at [0-9a-f]{8})(?=; |$)")
FAILS = re.compile(rf"fails: (.+) in ending (\d+), ({LENGTH})").fullmatch
DIFFER = re.compile(r"fails: differ, (\d+ endings)").fullmatch
NOTHING, FAILED, CUT = 0, 1, 10  # statuses of a search


def counted(count, word):
    return f"{count} {word}{'s' * (count != 1)}"


def number_of(text, word):
    """The number of a counted word."""
    number = int(text.split(" ")[0])
    if text != counted(number, word):
        raise ValueError(f"{text!r} isn't {counted(number, word)!r}")
    return number


def length_of(text):
    """How many slices an order has, and how many of them are preempted."""
    match = LENGTH_OF(text)
    preempted = number_of(match[2], "preemption") if match[2] else 0
    if match[2] and not preempted:
        raise ValueError(f"no preemption is told: {text!r}")
    return number_of(match[1], "slice"), preempted


@dataclass(frozen=True)
class Ending:
    """What is seen of an ending, of how many nodes that is seen, how many slices its order to one of them has, what they fail of, as it is
    spelled in the command, or nothing, and how many of the slices are preempted. Without preemptions the order is a shortest one."""

    seen: str
    nodes: int
    slices: int
    fails: str = ""
    preempted: int = 0

    @property
    def key(self):
        """What tells it from others."""
        return self.seen, self.fails

    @property
    def length(self):
        """How long its order is, as it is told."""
        return counted(self.slices, "slice") + (f", {counted(self.preempted, 'preemption')}" if self.preempted else "")

    @property
    def console(self):
        """The bytes of the console, if they are seen."""
        match = CONSOLE.match(self.seen)
        if not match:
            return None
        return bytes.fromhex(match["digits"].removeprefix("empty")) if match["digits"] else names.unquoted(match["text"])

    @property
    def gone(self):
        """The pids of the processes that are told to be gone."""
        match = CONSOLE.match(self.seen)
        return {int(found[1]) for found in GONE.finditer(self.seen, match.end() if match else 0)}

    def line(self, number):
        """Its line in a report."""
        seen = f"{self.seen}; " if self.seen else ""
        return f"ending {number}: {seen}{counted(self.nodes, 'node')}; {self.length}"

    def news(self, number):
        """The line that tells it when it is found."""
        seen = f"{self.seen}; " if self.seen else ""
        return f"found {number}: {seen}{self.length}" + (f"; fails: {self.fails}" if self.fails else "")


@dataclass(frozen=True)
class Found:
    states: int
    slices: int
    is_whole: bool
    endings: tuple
    within: int | None = None
    differ: bool = False  # whether it is told that endings differ, which was asked for
    preemptions: int | None = None  # the most of an order, where they were asked for

    def lines(self):
        within = "" if self.within is None else f" within {self.within} steps"
        level = "" if self.preemptions is None else f" preemptions {self.preemptions}"
        head = f"states {self.states} slices {self.slices} {'whole' if self.is_whole else 'cut'}{within}{level}"
        told = [ending.line(number) for number, ending in enumerate(self.endings, 1)]
        return [head, *told, counted(len(self.endings), "ending"), *self.failures()]

    def failures(self):
        """The lines of the endings that fail."""
        for number, ending in enumerate(self.endings, 1):
            if ending.fails:
                yield f"fails: {ending.fails} in ending {number}, {ending.length}"
        if self.differ:
            yield f"fails: differ, {counted(len(self.endings), 'ending')}"

    def status(self, is_asked):
        """What the search ends with, if it is asked whether something fails, or not."""
        if any(self.failures()):
            return FAILED
        return CUT if is_asked and not self.is_whole else NOTHING


def ending_of(number, line, fails):
    match = ENDING(line)
    if not match or match[1] != str(number) or not IS_SEEN(match[2]):
        raise ValueError(f"no ending {number}: {line!r}")
    slices, preempted = length_of(match[4])
    return Ending(match[2].removesuffix("; "), number_of(match[3], "node"), slices, fails, preempted)


def news_of(number, line):
    """The ending that is told when it is found; of how many nodes it is isn't known yet."""
    match = NEWS(line)
    if not match or match["number"] != str(number):
        raise ValueError(f"no ending {number} is found: {line!r}")
    slices, preempted = length_of(match["length"])
    return Ending(match["seen"].removesuffix("; "), 0, slices, match["fails"] or "", preempted)


def failures_of(lines):
    """What each ending fails of, by its number, and how long its order is told to be."""
    matches = [FAILS(line) for line in lines]
    if not all(matches):
        raise ValueError(f"no line of a failure: {lines!r}")
    numbers = [int(match[2]) for match in matches]
    if numbers != sorted(set(numbers)):
        raise ValueError(f"failures aren't in the order of their endings: {lines!r}")
    return {int(match[2]): (match[1], length_of(match[3])) for match in matches}


def report_of(lines):
    """What the lines of one report tell; ValueError where they have another form, or tell one ending twice."""
    if len(lines) < 2:
        raise ValueError(f"{len(lines)} lines")
    head = HEAD(lines[0])
    if not head:
        raise ValueError(f"no first line: {lines[0]!r}")
    count = next((place for place, line in enumerate(lines[1:]) if not line.startswith("ending ")), None)
    if count is None or number_of(lines[1 + count], "ending") != count:
        raise ValueError(f"no line counts the endings: {lines[-1]!r}")
    failing = lines[2 + count :]
    differ = DIFFER(failing[-1]) if failing else None
    failed = failures_of(failing[:-1] if differ else failing)
    if differ and number_of(differ[1], "ending") != count:
        raise ValueError(f"the last line doesn't count the endings: {failing[-1]!r}")
    endings = tuple(ending_of(number, line, failed.get(number, ("",))[0]) for number, line in enumerate(lines[1 : 1 + count], 1))
    for number, (_, length) in failed.items():
        if number > count or length != (endings[number - 1].slices, endings[number - 1].preempted):
            raise ValueError(f"a failure of an ending that isn't told so: {number}")
    often = Counter(ending.key for ending in endings).most_common(1)
    if often and often[0][1] > 1:
        raise ValueError(f"an ending is told twice: {often[0][0]!r}")
    within, level = (number and int(number) for number in (head[4], head[5]))
    return Found(int(head[1]), int(head[2]), head[3] == "whole", endings, within, differ is not None, level)


def is_begin(line):
    """Whether a line isn't of the report before it."""
    return line == COUNTS or line.startswith(("states ", "found "))


def levels(lines):
    """Each report, after the endings that were told before it when they were found, or none. Behind the last report there may be more of
    them, of a search that told no report."""
    news, counts, place = [], False, 0
    while place < len(lines):
        line, place = lines[place], place + 1
        if line.startswith("found "):
            news.append(news_of(len(news) + 1, line))
        elif line == COUNTS and not counts:
            news, counts = [], True
        else:
            end = next((end for end in range(place, len(lines)) if is_begin(lines[end])), len(lines))
            yield news, report_of(lines[place - 1 : end])
            news, counts, place = [], False, end
    if news or counts:
        yield news, None


def is_told(news, report):
    """Whether a report has the endings that were told when they were found."""
    return news == [dataclasses.replace(ending, nodes=0) for ending in report.endings]


def read_levels(lines):
    """The reports of each level, or the one of a search without; ValueError where they have another form, aren't those of the endings
    that were found before, or go on behind a level that isn't whole."""
    reports = []
    for news, report in levels(lines):
        if report is None or (news and not is_told(news, report)):
            raise ValueError(f"no report of what was found: {[ending.news(number) for number, ending in enumerate(news, 1)]}")
        reports.append(report)
    if [report.preemptions for report in reports] not in ([None], list(range(len(reports)))) or not reports:
        raise ValueError(f"levels of other preemptions: {[report.preemptions for report in reports]}")
    if not all(report.is_whole for report in reports[:-1]):
        raise ValueError("a level isn't whole, and isn't the last")
    return reports


def read(lines):
    """What the last report tells, which decides; ValueError as for all of them."""
    return read_levels(lines)[-1]


def differences(wanted, found):
    """In what two searches differ, as texts. In which order endings are told doesn't matter, nor by which order of threads a search with
    preemptions came to one, as it goes depth first."""
    for name in ("states", "slices", "is_whole", "within", "differ", "preemptions"):
        pair = getattr(wanted, name), getattr(found, name)
        if pair[0] != pair[1]:
            yield f"{name}: {pair[1]} in place of {pair[0]}"
    mine, theirs = ({ending.key: ending for ending in told.endings} for told in (wanted, found))
    yield from (f"no ending {key!r}" for key in mine if key not in theirs)
    yield from (f"an ending that isn't one: {key!r}" for key in theirs if key not in mine)
    for key in mine:
        if key in theirs and (mine[key] != theirs[key] if wanted.preemptions is None else mine[key].nodes != theirs[key].nodes):
            yield f"{theirs[key]} in place of {mine[key]}"
