"""xous-why over the services of examples/orders: from an event file to the cause, on one screen."""

import shutil

from . import test_kit as kit
from .frame import COMPILER, EXAMPLES, Case, need, need_program

ORDERS = EXAMPLES / "orders"
MOST_LINES = 40
# Orders in which each fails, by hand: who is picked, for how many steps.
LATE = "tick 1000\n", "pick 2 2\ntick 24\npick 2 2\ntick 1000\n"
SUM = "pick 2 2\ntick 20\npick 2 3\ntick 13\npick 2 2\ntick 28\ntick 1000\n"
DESK = "pick 2 2\ntick 32\npick 4 2\ntick 39\npick 2 2\ntick 13\npick 3 2\ntick 1000\n"


class Why(Case):
    def setUp(self):
        super().setUp()
        need_program()

    def made(self, *names):
        """The folder of a project with these programs of examples/orders, as a new user makes it: its image has the name of the first."""
        need("make", COMPILER, "elftools", "riscv64-unknown-elf-addr2line")
        folder, _, _ = kit.new(self.folder, names[0])
        for name in names:
            shutil.copy(ORDERS / f"{name}.c", folder)
        for header in ORDERS.glob("*.h"):
            shutil.copy(header, folder)
        makefile = folder / "Makefile"
        makefile.write_text(makefile.read_text().replace(f"PROGRAMS = {names[0]}", f"PROGRAMS = {' '.join(names)}"))
        status, said = kit.make(folder)
        self.assertEqual(status, 0, said)
        return folder

    def why(self, folder, text, *names):
        """What is told of an order, which fits on a screen."""
        (folder / "order.events").write_text(text)
        words = [word for name in names for word in ("--elf", f"out/{name}.elf")]
        ran = self.tool("xous-why", f"{names[0]}.img", "order.events", *words, cwd=folder)
        self.assertEqual((ran.returncode, ran.stderr), (0, ""))
        self.assertLessEqual(ran.stdout.count("\n"), MOST_LINES)
        for tool in ("xous-view --image", "xous-gdb "):
            self.assertIn(tool, ran.stdout)
        return ran.stdout

    def line_of(self, name, text):
        """The number of the line of a source with this text."""
        return next(number for number, line in enumerate((ORDERS / name).read_text().splitlines(), 1) if text in line)

    def test_fault(self):
        told = self.why(self.made("late"), LATE[1], "late")
        self.assertRegex(told, rf"2 late: fault 15 at 00000000 at step \d+, thread 2 in main at late.c:{self.line_of('late.c', '*page = 1')} ")
        self.assertIn("a store at 00000000: no page: near 0, as a null pointer", told)
        self.assertIn("before the first failure", told)
        self.assertNotIn("where the threads stand", told)

    def test_check(self):
        told = self.why(self.made("sum"), SUM, "sum")
        self.assertIn("2 sum: exited 121 (a check failed) at step ", told)
        self.assertIn(f"in main at sum.c:{self.line_of('sum.c', 'xous_check')} ", told)
        self.assertIn("GetThreadId()", told)

    def test_forgotten_reply(self):
        told = self.why(self.made("desk", "caller", "closer"), DESK, "desk", "caller", "closer")
        self.assertRegex(told, r"caller\.2 -> message 2 \(BlockingScalar id 1 of step \d+\) -> held at desk of desk -> desk\.2, which waits for a message at \"desk\"")
        self.assertIn("4 closer: exited 0", told)
        self.assertIn(f"3.2 in main at caller.c:{self.line_of('caller.c', 'xous_ask')} ", told)

    def test_deadlock(self):
        """Without --elf: no lines of the source."""
        ran = self.tool("xous-why", ORDERS / "deadlock.image", ORDERS / "events")
        self.assertIn("cycle: left.2 -> right.2 -> left.2 (each waits for the next)\n", ran.stdout, ran.stderr)
        self.assertIn('left.2 -> message 3 (MutableLend id 2 of step 141) -> queued at r of right -> right.2, which waits for an answer\n', ran.stdout)
        self.assertIn("2.2 pc 000100f4, waits for message 3, queued at server r of 3\n", ran.stdout)
        self.assertLessEqual(ran.stdout.count("\n"), MOST_LINES)

    def test_join(self):
        ran = self.tool("xous-why", ORDERS / "lost.image", ORDERS / "events", "59")
        self.assertIn("step limit 59\n", ran.stdout, ran.stderr)
        self.assertIn("lost.2 -> the end of lost.3, which is ready\n", ran.stdout)
        self.assertIn("trace ", ran.stdout)
        self.assertIn("/events 59 | ", ran.stdout)

    def test_good_order(self):
        told = self.why(self.made("late"), LATE[0], "late")
        self.assertIn("the last turns\n", told)
        self.assertIn("2 late: exited 0 at step ", told)
        self.assertIn("nobody waits for an answer or for a thread\n", told)

    def test_what_is_refused(self):
        for words, text in (
            ((ORDERS / "lost.image", ORDERS / "none"), "none: No such file or directory"),
            ((ORDERS / "lost.image", ORDERS / "lost.expected"), "event fault at line 1"),
            ((ORDERS / "events", ORDERS / "events"), "image fault TooShort at 0"),
        ):
            ran = self.tool("xous-why", *words)
            self.assertEqual((ran.returncode, ran.stdout), (1, ""), words)
            self.assertIn(text, ran.stderr)
            self.assertEqual(ran.stderr.count("\n"), 1)
