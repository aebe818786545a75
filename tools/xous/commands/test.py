"""The words of tools/test: runs the tests of the tools, and of the programs where they are given."""

from __future__ import annotations

import argparse
import fnmatch
import os
import pathlib
import sys
import time
import unittest
from collections import Counter
from collections.abc import Iterator

from .. import suites
from ..command import ROOT, Parser, decimal
from ..errors import Refusal

USAGE = "test [XOUSIM [XOUSORDERS]] [-k NAME].. [-j N] [--std] [--style] [--long] [--list] [-v]"
DESCRIPTION = """Runs the tests of the tools, and of the programs xousim and xousorders where these are given.

Tests run side by side, as many as there are processors; -j or XOUS_TEST_JOBS in the environment changes that. Those that need the
machine to themselves run last, one by one. What is told is in the order of the tests.

Without a program its tests are skipped, and so are those that need a package that is missing. The last lines say how many were
skipped and why; with XOUS_TESTS=all in the environment a skipped test is a failed one. Tests that a flag asks for don't count."""
TESTS = ROOT / "tools" / "tests"
JOBS, MOST_JOBS = "XOUS_TEST_JOBS", 1_024


def jobs_of(text: str) -> int:
    return decimal(text, "number of tests at a time", 1, MOST_JOBS)


def jobs_asked(given: argparse.Namespace) -> int:
    """How many tests run at a time."""
    if given.jobs is not None:
        return given.jobs
    try:
        return jobs_of(os.environ[JOBS]) if os.environ.get(JOBS) else len(os.sched_getaffinity(0))
    except argparse.ArgumentTypeError as error:
        raise Refusal(f"{JOBS}: {error}", 2) from None


def parser() -> Parser:
    statuses = "statuses:\n  0   all tests that ran hold\n  1   a test failed, or one was skipped with XOUS_TESTS=all\n  2   the words make no sense"
    words = Parser("test", USAGE, DESCRIPTION, "XOUS_TESTS=all tools/test ./xousim ./xousorders -k charts", statuses=statuses)
    words.add_argument("program", metavar="XOUSIM", nargs="?", type=pathlib.Path, help="the program xousim")
    words.add_argument("searcher", metavar="XOUSORDERS", nargs="?", type=pathlib.Path, help="the program xousorders")
    words.add_argument("-k", dest="names", action="append", default=[], metavar="NAME", help="tests with this part in their name, or this pattern")
    words.add_argument("-j", dest="jobs", type=jobs_of, default=None, metavar="N", help="so many tests at a time")
    words.add_argument("--std", action="store_true", help="Rust's tests of std too, which take hours (tools/test-std)")
    words.add_argument("--style", action="store_true", help="what mypy and pylint say of the tools too")
    words.add_argument("--long", action="store_true", help="searches of orders with many states too")
    words.add_argument("--list", action="store_true", help="print the names of the tests")
    words.add_argument("-v", dest="is_told", action="store_true", help="tell each test")
    return words


def each(suite: unittest.TestSuite) -> Iterator[unittest.TestCase]:
    for test in suite:
        if isinstance(test, unittest.TestSuite):
            yield from each(test)
        else:
            yield test


def chosen(names: list[str], left_out: tuple[str, ...]) -> list[unittest.TestCase]:
    """The tests that have one of these names, without those of some modules; all without names."""
    loader = unittest.TestLoader()
    every = each(loader.discover(str(TESTS), "test_*.py", str(TESTS.parent)))
    found = [test for test in every if not test.id().startswith(left_out)]
    patterns = [name if any(sign in name for sign in "*?[") else f"*{name}*" for name in names]
    return [test for test in found if not patterns or any(fnmatch.fnmatchcase(test.id(), pattern) for pattern in patterns)]


def name_of(test: str) -> str:
    """The name of a test, or of the class whose tests were all skipped at once."""
    return test.removeprefix("setUpClass (").removesuffix(")").removeprefix("tests.").removeprefix("__main__.")


def skipped_lines(skipped: list[tuple[str, str]]) -> Iterator[str]:
    """How many tests were skipped for which reason, and which."""
    for reason, count in Counter(reason for _, reason in skipped).items():
        own = dict.fromkeys(name_of(test) for test, why in skipped if why == reason)
        yield f"skipped {count}: {reason} ({', '.join(own)})"


def closing_lines(found: suites.Outcome, seconds: float) -> Iterator[str]:
    """What failed and why, how long the tests took, and what was skipped."""
    for _, heading, why in found.failures:
        yield from ("", "=" * 70, heading, "-" * 70, why)
    yield from ("", "-" * 70, f"Ran {found.ran} test{'s' * (found.ran != 1)} in {seconds:.3f}s", "")
    yield found.verdict()
    yield from list(skipped_lines(found.skipped)) or ["skipped 0"]


def main(line: list[str]) -> int:
    given = parser().parse_intermixed_args(line)
    for path in (given.program, given.searcher):
        if path is not None and not os.access(path, os.X_OK):
            raise Refusal(f"{path}: no program that can be started")
    sys.path.insert(0, str(TESTS.parent))
    from tests.frame import GIVEN  # pylint: disable=import-outside-toplevel

    GIVEN.program, GIVEN.searcher = (path and str(path.resolve()) for path in (given.program, given.searcher))
    GIVEN.is_long = given.long
    flags = {"tests.test_std.": given.std, "tests.test_style.": given.style}
    tests = chosen(given.names, tuple(name for name, is_asked in flags.items() if not is_asked))
    if given.list:
        print("\n".join(test.id().removeprefix("tests.") for test in tests))
        return 0
    if not tests:
        raise Refusal(f"no test has the name {', '.join(given.names)}; --list prints all names")
    jobs, began, found = jobs_asked(given), time.monotonic(), suites.Outcome()
    os.environ[JOBS] = "1"  # for tests of this tool
    for part in suites.outcomes(tests, jobs, given.is_told):
        found.add(part)
        print(part.told, end="", flush=True)
    print()
    print("\n".join(closing_lines(found, time.monotonic() - began)))
    is_all = os.environ.get("XOUS_TESTS") == "all"
    failed, skipped = found.failed(), len(found.skipped)
    print(f"{found.ran} tests: {failed} failed, {skipped} skipped{', which fails by XOUS_TESTS=all' if is_all and skipped else ''}")
    return 1 if failed or (is_all and skipped) else 0
