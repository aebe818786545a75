"""xous-shake as a command: over a stand-in for the program, and over the program on the images of the examples."""

import json
import os
import signal
import subprocess
import sys
import tempfile
import time

from xous.images import layout
from xous.release import layout as release
from xous.runs import events, orders
from xous.runs.found import GONE, read
from xous.shaking import schedules
from xous.shaking.outcomes import USUAL_SEE, failures, rules_of
from xous.shaking.playing import Player

from .builders import image_of, process
from .frame import EXAMPLES, ROOT, TOOLS, Case, heed_interrupts, need, need_program, need_searcher
from .test_orders import FEW, given_of, stored_plain

STAND_IN = TOOLS / "tests" / "lost_machine.py"
ORDERS = EXAMPLES / "orders"
MOST_LINES = 10  # of a small file: it has fewer


class Shaken(Case):
    """Runs of the tool on an image."""

    program: str | None = None

    def setUp(self):
        super().setUp()
        self.image = self.folder / "one.img"
        self.image.write_bytes(layout.write(image_of(process())))

    def shake(self, *words, status=0, program=None):
        ran = self.tool("xous-shake", *words, env={"XOUSIM": str(program or self.program or STAND_IN)})
        self.assertEqual(ran.returncode, status, ran.stdout + ran.stderr)
        self.assertNotIn("Traceback", ran.stderr)
        return ran.stdout

    def refused(self, status, text, *words, program=None):
        """One sentence, and nothing else."""
        ran = self.tool("xous-shake", *words, env={"XOUSIM": str(program or self.program or STAND_IN)})
        self.assertEqual((ran.returncode, ran.stdout, ran.stderr.count("\n")), (status, "", 1), ran.stdout + ran.stderr)
        self.assertTrue(ran.stderr.startswith("xous-shake: "), ran.stderr)
        self.assertIn(text, ran.stderr)

    def endings(self, told):
        """The endings as they were printed: what is seen, and what fails."""
        lines = [line for line in told.splitlines() if line.startswith("ending ") and ": " in line]
        return {line.split(": ", 1)[1].split("; first by")[0]: line.partition("; fails: ")[2] for line in lines}

    def table(self, told):
        """The rows of the table, and the line below it."""
        rows = told.splitlines()
        at = next(at for at, row in enumerate(rows) if row.split()[:2] == ["ending", "runs"])
        return rows[at : at + 2 + len(self.endings(told))]


def is_gone(group):
    """Whether no process of a group is left, within a minute."""
    for _ in range(600):
        try:
            os.killpg(group, 0)
        except ProcessLookupError:
            return True
        time.sleep(0.1)
    return False


def gone_of(told):
    """What is seen of each ending, where it isn't told what a process ended with: before a search began, that isn't known."""
    return {GONE.sub(r"\1 gone", ending.seen) for ending in told.endings}


LOST = {'console "3"; 2 exited 0': "", 'console "1"; 2 exited 1': "2 exited 1", 'console "2"; 2 exited 1': "2 exited 1"}


class StandIn(Shaken):
    def test_each_kind_finds_both(self):
        for kind in schedules.KINDS:
            told = self.shake(self.image, "--steps", "1000", "--kind", kind, "--runs", "40", status=1)
            self.assertEqual(self.endings(told), LOST, kind)

    def test_files(self):
        folder, found = self.folder / "new" / "made", self.folder / "found.json"
        told = self.shake(self.image, "--steps", "1000", "--runs", "60", "--write", folder, "--json", found, status=1)
        kept = json.loads(found.read_text())["endings"]
        self.assertEqual({each["seen"]: each["fails"] for each in kept}, LOST)
        self.assertEqual(sorted(os.listdir(folder)), [f"ending-{number}.events" for number in (1, 2, 3)])
        for number, each in enumerate(kept, 1):
            text = (folder / f"ending-{number}.events").read_text()
            self.assertEqual(text, each["events"])
            self.assertLess(text.count("\n"), 6)
            played = subprocess.run([STAND_IN, "trace", self.image, folder / f"ending-{number}.events", "1000"], capture_output=True, text=True, check=True)
            self.assertIn(f" byte 3{each['seen'][9]}\n", played.stdout)
            self.assertIn(f"ending-{number}.events: {text.count(chr(10))} line", told)
        self.assertRegex(told, r"  chart: .* trace \S+ \S+ending-[23]\.events \| \S+ --image \S+ --events \S+ending-[23]\.events --chart chart\.html\n")
        self.assertRegex(told, r"  debugger: gdb-multiarch .*target remote \| \S+xous-gdb \S+ \S+ending-[23]\.events")

    def test_any_number_of_jobs(self):
        words = (self.image, "--steps", "1000", "--runs", "30")
        first = self.shake(*words, "--jobs", "1", status=1)
        self.assertEqual(self.shake(*words, "--jobs", "3", status=1), first)
        self.assertEqual(self.endings(self.shake(*words, "--fails", "none")), dict.fromkeys(self.endings(first), ""))

    def test_shares(self):
        """The shares of the seeds, joined, are the whole; each names its own part."""
        words = (self.image, "--steps", "1000", "--runs", "36", "--jobs", "2")
        whole = self.shake(*words, status=1)
        parts = []
        for part in (1, 2, 3):
            parts.append(self.folder / f"{part}.json")
            self.tool("xous-shake", *words, "--share", f"{part}/3", "--json", parts[-1], env={"XOUSIM": str(STAND_IN)})
        joined = self.shake("--merge", *parts, "--write", self.folder / "made", "--json", self.folder / "all.json", status=1)
        self.assertEqual((self.table(joined), self.endings(joined)), (self.table(whole), LOST))
        self.assertEqual(len(os.listdir(self.folder / "made")), 3)
        self.refused(1, "seed 1 is in", "--merge", self.folder / "all.json", parts[0])

    def test_limit(self):
        told = self.shake(self.image, "--steps", "20", "--runs", "10")
        self.assertEqual(self.endings(told), {'step limit; console ""': ""})
        self.assertIn("1 ending in 10 runs; 0 runs failed, 10 runs met the step limit\n", told)
        self.assertIn("; fails: step limit\n", self.shake(self.image, "--steps", "20", "--runs", "1", "--fails", "limit", status=1))

    def test_what_is_seen(self):
        told = self.shake(self.image, "--steps", "1000", "--runs", "60", "--see", "exits", status=1)
        self.assertEqual(self.endings(told), {"2 exited 0": "", "2 exited 1": "2 exited 1"})
        told = self.shake(self.image, "--steps", "1000", "--runs", "60", "--fails", "console=2", "--fails", "console-not=3", status=1)
        self.assertEqual(list(self.endings(told).values()), ["", "console-not=3", "console=2, console-not=3"])

    def test_seconds(self):
        began = time.monotonic()
        self.tool("xous-shake", self.image, "--steps", "1000", "--seconds", "2", env={"XOUSIM": str(STAND_IN)})
        self.assertLess(time.monotonic() - began, 120)

    def test_interrupt(self):
        """Control-C prints what was found, and leaves whole files and no process."""
        folder = self.folder / "made"
        words = [sys.executable, TOOLS / "xous-shake", self.image, "--steps", "1000", "--seconds", "600", "--write", folder, "--json", self.folder / "found.json"]
        env = {**os.environ, "XOUSIM": str(STAND_IN)}
        pipes = {"stdout": subprocess.PIPE, "stderr": subprocess.PIPE, "text": True}
        with subprocess.Popen(words, **pipes, env=env, start_new_session=True, preexec_fn=heed_interrupts) as started:
            first = started.stdout.readline()
            time.sleep(2)
            os.killpg(started.pid, signal.SIGINT)
            told, said = started.stdout.read(), started.stderr.read()  # not by communicate, which misses what was read ahead
            self.assertEqual((started.wait(300), said), (130, "xous-shake: interrupted\n"))
            self.assertTrue(is_gone(started.pid))
        told = first + told
        self.assertRegex(told.splitlines()[0], "^ending 1: ")
        self.assertRegex(told, r"\d endings? in \d+ runs?; ")
        self.assertEqual({path.name for path in folder.iterdir()}, {f"ending-{at}.events" for at in range(1, len(self.endings(told)) + 1)})
        self.assertTrue(all(events.read(path.read_bytes())[1] is None for path in folder.iterdir()))
        self.assertEqual(len(json.loads((self.folder / "found.json").read_text())["endings"]), len(self.endings(told)))

    def test_bad_words(self):
        for text, *words in (
            ("name an image, or give findings to --merge",),
            ("-1 is no seed", self.image, "--seed", "-1"),
            ("x is no seed", self.image, "--seed", "x"),
            ("0 is no number of runs", self.image, "--runs", "0"),
            ("3/2 is no share; give K/N", self.image, "--share", "3/2"),
            ("0/2 is no share", self.image, "--share", "0/2"),
            ("2 is no share", self.image, "--share", "2"),
            ("invalid choice: 'all'", self.image, "--kind", "all"),
            ("all: say one or more of console,exits,waits,servers,numbers", self.image, "--see", "all"),
            ("--fails never: say exit, fault, waits", self.image, "--fails", "never"),
            ("0 is no number of jobs", self.image, "--jobs", "0"),
            ("--merge stands without an image", self.image, "--merge", self.image),
            ("--prefixes goes with --write DIR", self.image, "--prefixes", "3"),
        ):
            with self.subTest(words):
                self.refused(2, text, *words)

    def test_bad_input(self):
        """One sentence before any run."""
        cut, bad, other = self.folder / "cut.img", self.folder / "bad.events", self.folder / "other"
        cut.write_bytes(self.image.read_bytes()[:40])
        bad.write_text("tick 5\ntock\n")
        other.write_text("a text\n")
        for text, *words in (
            ("missing: No such file or directory", self.folder / "missing"),
            ("cut.img: image fault", cut),
            ("--write /dev/null/made: Not a directory; name a folder that can be written", self.image, "--write", "/dev/null/made"),
            ("other: it is there, and isn't findings of xous-shake", self.image, "--json", other),
            ("one.img: it is read by this command", self.image, "--json", self.image),
            (f"--from {bad}: line 2 is none of an event file", self.image, "--from", bad),
            ("other: these are no findings", "--merge", other),
        ):
            with self.subTest(words):
                self.refused(1, text, *words)
        self.assertEqual(other.read_text(), "a text\n")

    def test_bad_programs(self):
        empty, broken = self.folder / "empty", self.folder / "broken"
        empty.write_bytes(b"")
        broken.write_text("#!/bin/sh\nkill -9 $$\n")
        empty.chmod(0o755)
        broken.chmod(0o755)
        for text, program in (
            ("XOUSIM=/: a folder", "/"),
            ("missing: No such file or directory; XOUSIM names the program xousim", self.folder / "missing"),
            ("empty: Exec format error", empty),
            ("wrote no transcript; XOUSIM has to name xousim", "/bin/true"),
            ("wrote a transcript without a last line", "/bin/echo"),
            ("was ended by signal 9", broken),
        ):
            with self.subTest(program):
                self.refused(1, text, self.image, "--runs", "3", program=program)

    def test_files_of_others_are_spared(self):
        folder = self.folder / "made"
        folder.mkdir()
        (folder / "ending-1.events").write_text("my notes\n")
        ran = self.tool("xous-shake", self.image, "--steps", "1000", "--runs", "3", "--write", folder, env={"XOUSIM": str(STAND_IN)})
        self.assertEqual((ran.returncode, ran.stderr.count("\n")), (1, 1), ran.stderr)
        self.assertIn("ending-1.events: it is there, and isn't an event file", ran.stderr)
        self.assertEqual((folder / "ending-1.events").read_text(), "my notes\n")


class Shipped(Case):
    def test_release(self):
        """A release has the tool, its parts, and the images that its page names."""
        need("git")
        paths = release.shipped(ROOT)
        self.assertIn("xous-shake", release.tools_of(paths))
        for path in ("tools/xous/commands/shake.py", "tools/xous/shaking/jobs.py", "examples/orders/store.image", "examples/orders/tally.image"):
            self.assertIn(path, paths)


class Played(Shaken):
    """Over the program."""

    takes_long = True

    def setUp(self):
        super().setUp()
        self.program = need_program()

    def holds_files(self, image, folder, told, rules=None):
        """Each event file is small, and leads from the image's start to what was told of it."""
        with tempfile.TemporaryDirectory() as own:
            player = Player(self.program, str(image), 2_000_000, own)
            for number, (text, fails) in enumerate(self.endings(told).items(), 1):
                made = (folder / f"ending-{number}.events").read_bytes()
                outcome = player.outcome(made)
                self.assertEqual((outcome.text(USUAL_SEE), failures(outcome, rules_of(rules))), (text, fails))
                self.assertLess(made.count(b"\n"), MOST_LINES, made.decode())

    def test_seen_as_by_the_search(self):
        """What is seen by a transcript is what the search sees of the state, for each ending of the stored searches."""
        for words, lines in stored_plain():
            image, given, options = given_of(self.program, words)
            if int(lines[0].split()[1]) > FEW or options[:1] == ["--kill"]:
                continue
            with tempfile.TemporaryDirectory() as folder:
                search = orders.Search(self.program, str(image), orders.Asked(given.quantum), folder).search()
                told, nodes = search.told()
                player = Player(self.program, str(image), 100_000, folder)
                found = [player.outcome(events.spelled(node.path)).seen.text() for node in nodes]
            self.assertEqual(found, [ending.seen for ending in told.endings], words)

    def test_deadlock(self):
        folder = self.folder / "made"
        told = self.shake(ORDERS / "deadlock.image", "--runs", "200", "--write", folder, status=1)
        self.assertIn("2.2 waits, 3.2 waits", self.endings(told).values())
        self.holds_files(ORDERS / "deadlock.image", folder, told)

    def test_lost_sum(self):
        for kind in schedules.KINDS:
            told = self.shake(ORDERS / "lost.image", "--runs", "300", "--kind", kind)
            self.assertEqual(set(self.endings(told)), {f'console "{sum_}"; 2 exited 0' for sum_ in (1, 2, 3)}, kind)

    def test_lost_key(self):
        """The store of two threads: a key is lost, or users wait for good. Each kind of schedule finds a lost key."""
        folder = self.folder / "made"
        told = self.shake(ORDERS / "store.image", "--runs", "120", "--kind", "turns", "--write", folder, status=1)
        found = self.endings(told)
        right = 'console ""; 2 waits: 2.2 receives at store, 2.3 receives at store; 3 exited 0; 4 exited 0'
        self.assertEqual(found[right], "")
        for part in ("3 exited 1", "4 exited 1", "3.2 waits, held at store; 4 waits: 4.2 waits, held at store"):
            self.assertTrue(any(part in text for text in found), (part, found))
        self.holds_files(ORDERS / "store.image", folder, told)
        for kind, runs in (("picks", 60), ("pct", 200)):
            told = self.shake(ORDERS / "store.image", "--runs", runs, "--kind", kind, status=1)
            self.assertTrue(any("exited 1" in fails for fails in self.endings(told).values()), kind)

    def test_lost_update(self):
        """The tally in Rust over std: an addition is lost, by each kind of schedule, and a small file loses it."""
        folder = self.folder / "made"
        words = (ORDERS / "tally.image", "--fails", "console-not=total 6 of 6")
        for kind in schedules.KINDS:
            told = self.shake(*words, "--runs", "12", "--kind", kind, status=1)
            self.assertTrue(any("total 5 of 6" in text for text in self.endings(told)), (kind, told))
        told = self.shake(*words, "--kind", "turns", "--seed", "2", "--runs", "1", "--write", folder, status=1)
        self.assertIn("total 5 of 6", told)
        self.holds_files(ORDERS / "tally.image", folder, told, ("console-not=total 6 of 6",))

    def test_any_number_of_jobs(self):
        words = (ORDERS / "store.image", "--runs", "60", "--fails", "none")
        self.assertEqual(self.shake(*words, "--jobs", "1"), self.shake(*words, "--jobs", "4"))

    def test_behind_a_start(self):
        """Runs behind a start: a file begins with the start's events and plays from the image, also where the start is long."""
        start, folder = self.folder / "start.events", self.folder / "made"
        start.write_text("tick 30\npick 2 2\ntick 12\n")
        told = self.shake(ORDERS / "lost.image", "--runs", "120", "--from", start, "--write", folder, "--fails", "none")
        self.assertEqual(set(self.endings(told)), {f'console "{sum_}"; 2 exited 0' for sum_ in (1, 2, 3)})
        with tempfile.TemporaryDirectory() as own:
            player = Player(self.program, str(ORDERS / "lost.image"), 100_000, own)
            for number, text in enumerate(self.endings(told), 1):
                made = (folder / f"ending-{number}.events").read_bytes()
                self.assertTrue(made.startswith(b"tick 30\npick 2 2\ntick 12\n"))
                self.assertEqual(player.outcome(made).text(USUAL_SEE), text)
        start.write_text("tick 10000000\n" * 3)
        self.refused(1, "it meets the step limit of 1000 already", self.image, "--from", start, "--steps", "1000")

    def test_prefixes(self):
        """The endings behind the prefixes together are those of the whole search. What ended within a prefix is told as gone."""
        for words, lines in stored_plain():
            image, given, options = given_of(self.program, words)
            whole = gone_of(read(lines))
            if int(lines[0].split()[1]) > FEW or "--kill" in options:
                continue
            for count in (1, 3, 8):
                folder = self.folder / f"{image.parent.name}-{image.name}-{given.quantum}-{count}"
                told = self.shake(image, "--prefixes", count, "--quantum", given.quantum, "--write", folder)
                made = sorted(folder.iterdir())
                self.assertIn(f"{len(made)} prefix", told)
                self.assertTrue(len(made) >= count or "there are no more" in told, told)
                found = set()
                for path in made:
                    with tempfile.TemporaryDirectory() as own:
                        asked = orders.Asked(given.quantum, first=events.read(path.read_bytes())[0])
                        told_of = orders.Search(self.program, str(image), asked, own).search().told()[0]
                    self.assertTrue(told_of.is_whole)
                    found |= gone_of(told_of)
                self.assertEqual(found, whole, (words, count))

    def test_prefixes_of_the_searcher(self):
        """The same by xousorders, for the deadlock."""
        searcher, folder = need_searcher(), self.folder / "made"
        image = ORDERS / "deadlock.image"
        self.shake(image, "--prefixes", "6", "--write", folder)
        ran = subprocess.run([searcher, image], capture_output=True, text=True, check=True)
        whole = gone_of(read(ran.stdout.splitlines()))
        found = set()
        for path in folder.iterdir():
            ran = subprocess.run([searcher, image, "--from", path], capture_output=True, text=True, check=True)
            told_of = read(ran.stdout.splitlines())
            self.assertTrue(told_of.is_whole)
            found |= gone_of(told_of)
        self.assertEqual(found, whole)
