"""Searches of the program xousorders with preemptions, with a bound of time, and what they write before they end; skipped if it has no
such options."""

import pathlib
import subprocess
import time
import unittest

from xous.commands.test_orders import asked_of, parser, search_levels
from xous.runs import found

from .frame import EXAMPLES, Case, need_program, need_searcher
from .test_orders import FEW, checks_of_orders, checks_of_told, has_option, is_read, stored_plain

# Images, with the most preemptions of an order, whose levels the slow search finds too.
SLOWLY = (
    "orders/sum.image --preemptions 1 --fails exit",
    "orders/late.image --preemptions 2 --fails fault",
    "orders/lost.image --preemptions 1 --see console --fails console-not=3",
    "race/image --preemptions 1 --one",
    "hello/image --preemptions 2",
)
LOST = EXAMPLES / "orders" / "lost.image"
LONG = EXAMPLES / "std" / "lend" / "image"  # a search of hours
TIMER = EXAMPLES / "timer" / "image"
FAULTY = (
    "--preemptions", "--preemptions 256", "--preemptions -1", "--preemptions 1 --preemptions 1", "--seconds", "--seconds 0",
    "--seconds 4000000001", "--seconds 1 --seconds 1",
)  # fmt: skip


def need_options():
    searcher = pathlib.Path(need_searcher()).resolve()
    if not has_option(searcher, "--preemptions --seconds"):
        raise unittest.SkipTest("this program xousorders has no --preemptions and --seconds; build it from this tree")
    return searcher


def told_news(lines):
    """The endings that are told when they are found, behind the line that begins the search anew."""
    return [news for news, _ in found.levels(lines)]


class Preemptions(Case):
    takes_long = True

    def search(self, image, *options, wanted=0):
        """What a search prints, which ends so."""
        ran = subprocess.run([need_options(), image, *options], cwd=self.folder, capture_output=True, text=True, check=False)
        self.assertEqual(ran.returncode, wanted, f"{ran.stdout[-400:]}{ran.stderr}")
        return ran.stdout.splitlines()

    def test_levels_as_the_slow_search_finds_them(self):
        searcher, program = need_options(), need_program()
        for words in SLOWLY:
            name, *options = words.split()
            asked = asked_of(parser().parse_args([program, "--search", name, *options]))
            wanted = [told for told, _ in search_levels(program, str(EXAMPLES / name), asked)]
            self.assertEqual(len(wanted), asked.preemptions + 1)
            self.hold(checks_of_told(program, searcher, words, wanted))

    def test_no_preemptions(self):
        """With none there is one level, with the nodes and endings of the search without the option."""
        for words, lines in stored_plain():
            name, *options = words.split()
            if found.read(lines).states <= FEW:
                (told,) = found.read_levels(self.search(EXAMPLES / name, *options, "--preemptions", "0"))
                plain = found.read(lines)
                self.assertEqual((told.preemptions, told.states, told.slices, told.is_whole), (0, plain.states, plain.slices, True), words)
                self.assertEqual({ending.seen: ending.nodes for ending in told.endings}, {ending.seen: ending.nodes for ending in plain.endings})

    def test_the_race_of_lost(self):
        """A race that no order without preemptions shows is found with one, and its event file leads to it."""
        image, failing = LOST, "console-not=3"
        words = ["--preemptions", "1", "--fails", failing, "--first"]
        folder = self.folder / "written"
        folder.mkdir()
        none, one = found.read_levels(self.search(image, *words, "--write", folder, wanted=1))
        self.assertEqual((none.is_whole, none.preemptions, list(none.failures())), (True, 0, []))
        self.assertEqual([(ending.fails, ending.preempted) for ending in one.endings if ending.fails], [(failing, 1)])
        program = need_program()
        asked = asked_of(parser().parse_args([program, "--search", str(image), *words]))
        self.hold(checks_of_orders(program, image, asked, one, folder, f"{image.name} {' '.join(words)}"))

    def test_endings_are_told_when_they_are_found(self):
        for words in ("--quantum 1", "--quantum 1 --fails console-not=3", "--preemptions 1 --fails console-not=3"):
            lines = self.search(LOST, *words.split(), wanted=int("--fails" in words))
            reports = found.read_levels(lines)
            self.assertEqual([len(news) for news in told_news(lines)], [len(report.endings) for report in reports], words)

    def test_a_failure_ends_the_search(self):
        """With --first the last line before the report is that of the first failure."""
        lines = self.search(LOST, "--quantum", "1", "--fails", "console-not=3", "--first", wanted=1)
        ((news, report),) = found.levels(lines)
        self.assertEqual([ending.fails for ending in news], [*[""] * (len(news) - 1), "console-not=3"])
        self.assertFalse(report.is_whole)

    def test_steps_count(self):
        lines = self.search(TIMER, "--steps", "50")
        self.assertEqual((lines.count(found.COUNTS), found.read(lines).within), (1, 50))

    def test_seconds(self):
        self.assertTrue(found.read(self.search(LOST, "--quantum", "1", "--seconds", "600")).is_whole)
        before = time.monotonic()
        told = found.read(self.search(LONG, "--seconds", "1", "--states", "1000000"))
        self.assertFalse(told.is_whole)
        self.assertLess(time.monotonic() - before, 60)
        self.search(LONG, "--seconds", "1", "--states", "1000000", "--fails", "console=none", wanted=10)
        levels = found.read_levels(self.search(LONG, "--seconds", "1", "--states", "1000000", "--preemptions", "9"))
        self.assertEqual([(told.preemptions, told.is_whole) for told in levels], [(0, False)])

    def test_a_folder_that_cant_be_written(self):
        """Without the folder nothing is searched; a file that can't be written leaves what was found on the output."""
        self.assertEqual(self.search(LOST, "--write", "none", wanted=4), [])
        (self.folder / "made" / "ending-1.events").mkdir(parents=True)
        lines = self.search(LOST, "--write", "made", wanted=4)
        self.assertEqual(found.read(lines), found.read(self.search(LOST)))

    def test_faulty_words(self):
        for words in FAULTY:
            self.assertEqual(self.search(LOST, *words.split(), wanted=2), [], words)

    def test_cut_by_nodes(self):
        lines = self.search(LOST, "--preemptions", "1", "--states", "15")
        self.assertTrue(is_read("\n".join(lines)))
        self.assertEqual([told.is_whole for told in found.read_levels(lines)], [True, False])
