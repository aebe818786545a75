"""The frame of the tests, tools/test, over tests of its own; and the help of every tool."""

import os
import re
import subprocess
import sys

from .frame import ROOT, TOOLS, Case

# The tests of a folder: one holds, one raises, one fails, two are skipped for one reason and one in a part of it.
SUITE = """import unittest


class Some(unittest.TestCase):
    def test_good(self):
        self.assertEqual(1, 1)

    def test_raises(self):
        raise KeyError("odd")

    def test_wrong(self):
        for number in (1, 2):
            with self.subTest(number):
                self.assertEqual(number, 3)

    def test_first(self):
        self.skipTest("a package is missing: apt-get install it")

    def test_second(self):
        self.skipTest("a package is missing: apt-get install it")


class Apart(unittest.TestCase):
    @classmethod
    def setUpClass(cls):
        raise unittest.SkipTest("git missing: apt-get install git")

    def test_one(self):
        pass
"""
# Tests of which one waits for another, one ends its process, and one runs when no other does.
APART = """import os
import pathlib
import time
import unittest

NOTES = pathlib.Path(os.environ["NOTES"])


class Waits(unittest.TestCase):
    def test_a(self):
        for _ in range(6000):
            if (NOTES / "b").exists():
                (NOTES / "a").touch()
                return
            time.sleep(0.01)
        self.fail("the test beside it didn't run")

    def test_b(self):
        (NOTES / "b").touch()


class Apart(unittest.TestCase):
    is_alone = True

    def test_apart(self):
        self.assertTrue((NOTES / "a").exists())


class Late(unittest.TestCase):
    def test_ends(self):
        if os.environ.get("LOST"):
            os._exit(9)
"""
# Runs tools/test over that folder in place of tools/tests.
START = f"""import pathlib, sys
sys.path[:0] = [{str(TOOLS)!r}]
from xous import command
from xous.commands import test
test.TESTS = pathlib.Path(sys.argv.pop(1), "tests")
command.finish(command.run("test", test.main, sys.argv[1:]))
"""


class Frame(Case):
    def setUp(self):
        super().setUp()
        folder = self.folder / "tests"
        folder.mkdir()
        (folder / "__init__.py").write_text("")
        (folder / "frame.py").write_text((TOOLS / "tests" / "frame.py").read_text())
        (folder / "test_some.py").write_text(SUITE)
        self.tests = folder

    def start(self, *words, **environment):
        usual = {name: value for name, value in os.environ.items() if name != "XOUS_TESTS"}
        command = [sys.executable, "-B", "-c", START, self.folder, *words]
        ran = subprocess.run(command, env={**usual, **environment}, capture_output=True, text=True, check=False)
        return ran.returncode, ran.stdout.splitlines(), ran.stderr

    def test_one_by_its_name(self):
        status, lines, _ = self.start("-k", "test_good")
        self.assertEqual((status, lines[-2:]), (0, ["skipped 0", "1 tests: 0 failed, 0 skipped"]))
        self.assertEqual(self.start("-k", "none")[::2], (1, "test: no test has the name none; --list prints all names\n"))
        names = ["test_some.Apart.test_one", *(f"test_some.Some.test_{name}" for name in ("first", "good", "raises", "second", "wrong"))]
        self.assertEqual(self.start("--list")[1], names)

    def test_an_exception_fails_one_test(self):
        """Failures of parts are one failed test; what is skipped is counted and named in the last lines."""
        status, lines, _ = self.start()
        self.assertEqual(status, 1)
        skipped = ["skipped 2: a package is missing: apt-get install it (test_some.Some.test_first, test_some.Some.test_second)"]
        skipped += ["skipped 1: git missing: apt-get install git (test_some.Apart)"]
        self.assertEqual((sorted(lines[-3:-1]), lines[-1]), (sorted(skipped), "5 tests: 2 failed, 3 skipped"))
        told = "\n".join(lines)
        self.assertTrue("ERROR: test_raises" in told and "KeyError: 'odd'" in told and "FAIL: test_wrong" in told, told)

    def test_a_skip_can_be_a_failure(self):
        self.assertEqual(self.start("-k", "test_first")[0], 0)
        status, lines, _ = self.start("-k", "test_first", XOUS_TESTS="all")
        self.assertEqual((status, lines[-1]), (1, "1 tests: 0 failed, 1 skipped, which fails by XOUS_TESTS=all"))

    def test_side_by_side(self):
        """What is told is in the order of the tests, however many run at a time; those that are to be alone come last."""
        told = [self.start("-v", "-j", number)[1] for number in ("1", "3")]
        plain = [[line for line in lines if not line.startswith(("    ", "Ran "))] for lines in told]
        self.assertEqual(plain[0], plain[1])
        (self.tests / "test_some.py").write_text(APART)
        for number in ("2", "3"):
            notes = self.folder / f"notes-{number}"
            notes.mkdir()
            status, lines, said = self.start("-v", XOUS_TEST_JOBS=number, NOTES=str(notes))
            self.assertEqual((status, lines[-1]), (0, "4 tests: 0 failed, 0 skipped"), said)
            ran = [line.split(" ")[0] for line in lines if line.startswith("test_")]
            self.assertEqual(ran, ["test_ends", "test_a", "test_b", "test_apart"])

    def test_a_process_that_ends(self):
        (self.tests / "test_some.py").write_text(APART)
        status, lines, said = self.start("-j", "3", NOTES=str(self.folder), LOST="1")
        self.assertEqual(status, 1, said)
        self.assertIn("ERROR: tests.test_some.Late.test_ends", lines)
        self.assertRegex(lines[-1], "^4 tests: [1-4] failed, 0 skipped$")

    def test_number_of_jobs(self):
        for words, environment in ((("-j", "0"), {}), (("-j", "few"), {}), ((), {"XOUS_TEST_JOBS": "x"})):
            status, lines, said = self.start(*words, **environment)
            self.assertEqual((status, lines, said.count("\n")), (2, [], 1))
            self.assertIn("no number of tests at a time; give a number, 1 to 1024", said)


class Helps(Case):
    def test_every_tool(self):
        """What it does, its statuses and an example, and its version; nothing is written and nothing built."""
        version = (ROOT / "VERSION").read_text().strip()
        tools = [path for path in sorted(TOOLS.iterdir()) if path.is_file() and os.access(path, os.X_OK)]
        self.assertGreater(len(tools), 20)
        kept = {path: path.stat().st_mtime_ns for path in (ROOT / "docs", *(ROOT / "docs").iterdir(), ROOT / "crates" / "run_cases" / "data")}
        for tool in tools:
            with self.subTest(tool.name):
                said = [subprocess.run([tool, word], cwd=self.folder, capture_output=True, text=True, check=False) for word in ("--help", "--version")]
                self.assertEqual([(ran.returncode, ran.stderr) for ran in said], [(0, "")] * 2)
                for pattern in (rf"\b{tool.name}\b", r"^statuses:", r"^example:\n  \S"):
                    self.assertRegex(said[0].stdout, re.compile(pattern, re.M))
                self.assertEqual(said[1].stdout, f"{tool.name} {version}\n")
                how = {"cwd": self.folder, "stdin": subprocess.DEVNULL, "timeout": 600}
                if tool.name == "xous-try":  # its words are those of xousim
                    continue
                other = subprocess.run([tool, "--odd"], capture_output=True, text=True, check=False, **how)
                self.assertEqual((other.returncode, other.stdout, other.stderr.count("\n")), (2, "", 1), other.stderr)
        self.assertEqual(list(self.folder.iterdir()), [])
        self.assertEqual({path: path.stat().st_mtime_ns for path in kept}, kept)
