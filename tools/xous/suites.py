"""Tests side by side, each in one of some processes. What is told of them is in the order of the tests, whichever ends first."""

from __future__ import annotations

import io
import multiprocessing
import time
import unittest
from collections.abc import Iterable, Iterator
from concurrent.futures import Future, ProcessPoolExecutor
from concurrent.futures.process import BrokenProcessPool
from dataclasses import dataclass, field


class Lines(io.StringIO):
    """What a result writes to."""

    def writeln(self, text: str = "") -> None:
        self.write(text + "\n")


class Result(unittest.TextTestResult):
    """What became of each test; how long it took is told with -v."""

    began = 0.0  # when the test began

    def startTest(self, test):
        super().startTest(test)
        self.began = time.monotonic()

    def stopTest(self, test):
        if self.showAll:
            self.stream.writeln(f"    {time.monotonic() - self.began:.1f} s")
        super().stopTest(test)


@dataclass
class Outcome:
    """What became of some tests: what is told while they run, and how many ran; of each that failed its heading and why, and of each
    that was skipped the reason, both by name."""

    told: str = ""
    ran: int = 0
    failures: list[tuple[str, str, str]] = field(default_factory=list)  # the headings begin with FAIL or ERROR
    skipped: list[tuple[str, str]] = field(default_factory=list)

    def add(self, other: Outcome) -> None:
        self.told += other.told
        self.ran += other.ran
        self.failures += other.failures
        self.skipped += other.skipped

    def failed(self) -> int:
        """The tests that failed; one of which several parts fail is one."""
        return len({name.split(" ")[0] for name, _, _ in self.failures})

    def verdict(self) -> str:
        counts = {"failures": sum(heading.startswith("FAIL") for _, heading, _ in self.failures)}
        counts |= {"errors": len(self.failures) - counts["failures"], "skipped": len(self.skipped)}
        told = ", ".join(f"{name}={count}" for name, count in counts.items() if count)
        return f"{'FAILED' if self.failures else 'OK'}{told and f' ({told})'}"


def groups_of(tests: Iterable[unittest.TestCase]) -> list[list[unittest.TestCase]]:
    """The tests that run in one process: each alone, but those of a class that is set up once together."""
    groups: dict[object, list[unittest.TestCase]] = {}
    for number, test in enumerate(tests):
        is_set_up = type(test).setUpClass.__func__ is not unittest.TestCase.setUpClass.__func__  # type: ignore[attr-defined]
        groups.setdefault(type(test) if is_set_up else number, []).append(test)
    return list(groups.values())


def run_tests(tests: list[unittest.TestCase], is_told: bool) -> Outcome:
    """Runs tests in this process."""
    stream = Lines()
    result = Result(stream, True, 2 if is_told else 1)
    unittest.TestSuite(tests)(result)
    found = Outcome(stream.getvalue(), result.testsRun, [], [(test.id(), reason) for test, reason in result.skipped])
    for kind, failed in (("ERROR", result.errors), ("FAIL", result.failures)):
        found.failures += [(test.id(), f"{kind}: {result.getDescription(test)}", why) for test, why in failed]
    success = "it holds, and is expected to fail\n"
    found.failures += [(test.id(), f"FAIL: {result.getDescription(test)}", success) for test in result.unexpectedSuccesses]
    return found


GROUPS: list[list[unittest.TestCase]] = []  # those of a run, which each process has from the one that it came from


def run_group(number: int, is_told: bool) -> Outcome:
    return run_tests(GROUPS[number], is_told)


def lost(tests: list[unittest.TestCase], is_told: bool) -> Outcome:
    """Of tests whose process has ended."""
    why = "the process of this test, or of one beside it, has ended: memory may have run out\n"
    told = "".join(f"{test.id()} ... lost\n" if is_told else "E" for test in tests)
    return Outcome(told, len(tests), [(test.id(), f"ERROR: {test.id()}", why) for test in tests])


def outcomes(tests: list[unittest.TestCase], jobs: int, is_told: bool) -> Iterator[Outcome]:
    """Runs tests in so many processes, those that take long first; then those that need the machine to themselves in this one."""
    apart = [test for test in tests if getattr(test, "is_alone", False)]
    GROUPS[:] = groups_of(test for test in tests if test not in apart)
    if jobs > 1 and len(GROUPS) > 1:
        yield from side_by_side(jobs, is_told)
    else:
        yield from (run_tests(group, is_told) for group in GROUPS)
    yield from (run_tests(group, is_told) for group in groups_of(apart))


def side_by_side(jobs: int, is_told: bool) -> Iterator[Outcome]:
    pool = ProcessPoolExecutor(min(jobs, len(GROUPS)), multiprocessing.get_context("fork"))
    coming: dict[int, Future[Outcome]] = {}
    try:
        for number in sorted(range(len(GROUPS)), key=lambda number: not getattr(GROUPS[number][0], "takes_long", False)):
            coming[number] = pool.submit(run_group, number, is_told)
        for number, group in enumerate(GROUPS):
            try:
                yield coming[number].result()
            except BrokenProcessPool:
                yield lost(group, is_told)
    finally:
        pool.shutdown(cancel_futures=True)
