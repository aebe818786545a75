"""Projects of xous-new, and the kit's script for their tests: over stand-ins, and over the programs where they are given.

That a service for continuous integration can run a project's tests is in test_workflow.py.
"""

import os
import subprocess

from .frame import COMPILER, EXAMPLES, GIVEN, TOOLS, Case, is_there, need, need_program, need_rust, need_searcher

SCRIPT = EXAMPLES / "kit" / "test"
# A search that finds so many endings, each of which it tells at once, and of which it writes the files.
SEARCH = """#!/bin/sh
echo "$*" >searched
while [ "$1" != --write ]; do shift; done
LEVEL
for ending in ENDINGS; do echo "found $ending: console \\"$ending\\\\\\\\n\\"; 2 slices"; done
echo 'states 4 slices 6 WHOLE'
for ending in ENDINGS; do
    echo "ending $ending: console \\"$ending\\\\\\\\n\\"; 1 node; 2 slices"
    echo 'tick 20000' >"$2/ending-$ending.events"
done
printf 'COUNTFAILS'
exit STATUS
"""


# What is told of a level before.
LEVEL = r"""echo steps count
echo 'found 1: console "1"; 2 slices; fails: exit'
echo 'states 2 slices 2 whole preemptions 0'
echo 'ending 1: console "1"; 1 node; 2 slices'
echo 1 ending
echo 'fails: exit in ending 1, 2 slices'
"""


def search(whole="whole", endings="1", status=0, fails=(), level=""):
    """The text of a stand-in for xousorders."""
    count = len(endings.split())
    values = {"WHOLE": whole, "ENDINGS": endings, "STATUS": str(status), "COUNT": f"{count} ending{'s' * (count != 1)}\\n", "LEVEL": level}
    values["FAILS"] = "".join(f"fails: {line}\\n" for line in fails)
    text = SEARCH
    for name, value in values.items():
        text = text.replace(name, value)
    return text


def environment():
    """Where the programs are."""
    programs = {"XOUSIM": GIVEN.program, "XOUSORDERS": GIVEN.searcher}
    return {**os.environ, **{name: path for name, path in programs.items() if path}}


class Script(Case):
    """examples/kit/test, whose programs are stand-ins."""

    def setUp(self):
        super().setUp()
        self.program("xousim", '#!/bin/sh\necho "$*" >words\ncat told\n')
        (self.folder / "told").write_text("1 2.2 byte 68\nend 1 done\n")
        (self.folder / "expected").write_text("1 2.2 byte 68\nend 1 done\n")

    def program(self, name, text):
        (self.folder / name).write_text(text)
        (self.folder / name).chmod(0o755)

    def search(self, **given):
        self.program("xousorders", search(**given))

    def start(self, *words, **more):
        programs = {"XOUSIM": "./xousim", "XOUSORDERS": "./xousorders", "ELFS": "--elf 2=out/mine.elf", "PATH": "/usr/bin:/bin"}
        env = {**os.environ, **programs, **more}
        ran = subprocess.run([SCRIPT, *words], cwd=self.folder, env=env, capture_output=True, text=True, check=False)
        return ran.returncode, ran.stdout + ran.stderr

    def holds_commands(self, said, events, words=None):
        self.assertIn(f"event file: {events}\n", said)
        self.assertIn(f"  why:      {TOOLS}/xous-why mine.img {words or events} --elf 2=out/mine.elf\n", said)
        self.assertIn(f"./xousim trace mine.img {words or events} | {TOOLS}/xous-view --image mine.img --chart chart.html\n", said)
        self.assertIn(f"-ex 'target remote | {TOOLS}/xous-gdb mine.img {words or events} --elf 2=out/mine.elf'\n", said)

    def test_a_transcript_as_stored(self):
        wanted = (0, "mine.img: the transcript of events is as stored\n")
        self.assertEqual(self.start("transcript", "mine.img", "events", "expected"), wanted)

    def test_another_transcript(self):
        (self.folder / "told").write_text("1 2.2 byte 69\nend 1 done\n")
        status, said = self.start("transcript", "mine.img", "events", "expected")
        self.assertEqual(status, 1)
        self.assertIn("< 1 2.2 byte 68\n", said)
        self.holds_commands(said, "events")

    def test_a_run_that_fails(self):
        self.program("xousim", "#!/bin/sh\necho 'step limit 5' >&2; exit 7\n")
        status, said = self.start("transcript", "mine.img", "events", "expected")
        self.assertEqual(status, 1)
        self.assertIn("step limit 5\n", said)
        self.holds_commands(said, "events")

    def test_no_stored_transcript(self):
        status, said = self.start("transcript", "mine.img", "events", "none")
        self.assertEqual(status, 2)
        self.assertIn("make it by `make expected`", said)

    def test_one_ending(self):
        for whole in ("whole", "whole within 100000 steps"):
            self.search(whole=whole)
            wanted = (0, f"mine.img: no order fails: 1 ending in all orders (states 4 slices 6 {whole})\n")
            self.assertEqual(self.start("orders", "mine.img", "orders", "--quantum", "1"), wanted)
            words = "mine.img --write orders --fails exit --fails fault --fails waits --quantum 1\n"
            self.assertEqual((self.folder / "searched").read_text(), words)

    def test_what_fails_is_asked_for(self):
        self.search()
        for words in ("--one", "--fails console=Ok --quantum 1", "--quantum 1 --fails waits=2.3"):
            self.assertEqual(self.start("orders", "mine.img", "orders", *words.split())[0], 0)
            self.assertEqual((self.folder / "searched").read_text(), f"mine.img --write orders {words}\n")

    def test_orders_that_fail(self):
        """The commands are those of the endings that fail; of all, if endings differ alone."""
        named = ["exit in ending 1, 3 slices", "console= in ending 2, x in ending 3, 1 slice"], [1, 3]
        for fails, endings in (named, (["waits=2.3 in ending 2, 4 slices", "differ, 3 endings"], [2]), (["differ, 3 endings"], [1, 2, 3])):
            self.search(endings="1 2 3", status=1, fails=fails)
            status, said = self.start("orders", "mine.img", "orders")
            self.assertEqual(status, 1)
            self.assertIn("mine.img: some orders fail\n", said)
            for line in fails:
                self.assertIn(f"fails: {line}\n", said)
            events = [line for line in said.splitlines() if line.startswith("event file: ")]
            self.assertEqual(events, [f"event file: orders/ending-{number}.events" for number in endings])
            for number in endings:
                self.holds_commands(said, f"orders/ending-{number}.events")

    def test_a_search_with_preemptions(self):
        """The last report is taken: the order that fails there isn't that of a level before."""
        self.search(endings="1 2", level=LEVEL, whole="whole preemptions 1")
        status, said = self.start("orders", "mine.img", "orders", "--preemptions", "1")
        orders = "all orders of at most 1 preemptions (states 4 slices 6 whole preemptions 1)"
        first = 'found 1: console "1"; 2 slices; fails: exit\n'
        self.assertEqual((status, said), (0, f"{first}mine.img: no order fails: 2 endings in {orders}\n"))
        self.search(endings="1 2", level=LEVEL, whole="cut preemptions 1", status=1, fails=["exit in ending 2, 2 slices, 1 preemption"])
        status, said = self.start("orders", "mine.img", "orders", "--preemptions", "1")
        lines = said.splitlines()
        shown = ["mine.img: some orders fail", "states 4 slices 6 cut preemptions 1", 'ending 1: console "1\\n"; 1 node; 2 slices']
        self.assertEqual((status, lines[:4]), (1, [first.strip(), *shown]))
        self.assertEqual([line for line in lines if line.startswith("event file: ")], ["event file: orders/ending-2.events"])

    def test_a_search_that_was_cut(self):
        for whole in ("cut", "cut within 100000 steps"):
            self.search(whole=whole, status=10)
            status, said = self.start("orders", "mine.img", "orders")
            self.assertEqual(status, 2)
            self.assertIn("--states 1000000", said)

    def test_a_search_that_fails(self):
        self.search(status=9)
        status, said = self.start("orders", "mine.img", "orders")
        self.assertEqual(status, 2)
        self.assertIn("xousorders ended with 9; what it found before is in orders/found\n", said)
        self.assertIn('found 1: console "1\\n"; 2 slices\n', (self.folder / "orders" / "found").read_text())

    def test_a_step_limit(self):
        (self.folder / "told").write_text("1 2.2 byte 69\nend 1 done\n")
        status, said = self.start("transcript", "mine.img", "events", "expected", STEPS="9")
        self.assertEqual((status, (self.folder / "words").read_text()), (1, "trace mine.img events 9\n"))
        self.holds_commands(said, "events", "events 9")

    def test_commands_alone(self):
        status, said = self.start("commands", "mine.img", "events")
        self.assertEqual((status, said.count("\n")), (0, 4))
        self.holds_commands(said, "events")

    def test_other_words(self):
        status, said = self.start("orders")
        self.assertEqual(status, 2)
        self.assertIn("test transcript IMAGE EVENTS EXPECTED", said)


class Projects(Case):
    takes_long = True

    def new(self, kind):
        made = self.tool("xous-new", self.folder / "mine", kind)
        self.assertEqual((made.returncode, made.stderr), (0, ""))
        return self.folder / "mine"

    def make(self, folder, *words):
        how = {"cwd": folder, "env": environment(), "stdin": subprocess.DEVNULL, "capture_output": True, "text": True}
        ran = subprocess.run(["make", "-s", *words], check=False, **how)
        return ran.returncode, ran.stdout + ran.stderr

    def change(self, path, old, new):
        text = path.read_text()
        self.assertIn(old, text)
        path.write_text(text.replace(old, new))

    def run_commands(self, said, folder):
        """The commands that are named last are run as they are written: one tells why, one draws a chart, and one starts gdb."""
        named = ("  why: ", "  chart: ", "  debugger: ")
        commands = [line.split(":", 1)[1].strip() for line in said.splitlines() if line.startswith(named)]
        self.assertGreaterEqual(len(commands), 3, said)
        why, chart, debugger = commands[-3:]
        told = subprocess.run(["sh", "-c", why], cwd=folder, env=environment(), capture_output=True, text=True, check=False)
        self.assertEqual((told.returncode, told.stderr), (0, ""))
        self.assertIn("the last turns", told.stdout)
        (folder / "chart.html").unlink(missing_ok=True)
        drawn = subprocess.run(["sh", "-c", chart], cwd=folder, env=environment(), capture_output=True, text=True, check=False)
        self.assertEqual(drawn.returncode, 0, drawn.stderr)
        self.assertTrue((folder / "chart.html").read_text().startswith("<!"))
        if is_there("gdb-multiarch"):
            debugger = debugger.replace("gdb-multiarch", "gdb-multiarch -nx -batch -ex 'set remotetimeout 100'") + " -ex 'info threads' </dev/null"
            shown = subprocess.run(["sh", "-c", debugger], cwd=folder, env=environment(), capture_output=True, text=True, check=False)
            self.assertIn("Thread", shown.stdout, shown.stderr)

    def test_files(self):
        for kind, names in (
            ("--c", [".github/workflows/test.yml", ".gitignore", "Makefile", "events", "mine.c"]),
            ("--rust", [".github/workflows/test.yml", ".gitignore", "Cargo.toml", "Makefile", "src/main.rs"]),
        ):
            with self.subTest(kind):
                made = self.folder / kind.strip("-") / "mine"
                self.assertEqual(self.tool("xous-new", made, kind).returncode, 0)
                files = [path for path in sorted(made.rglob("*")) if path.is_file()]
                self.assertEqual([str(path.relative_to(made)) for path in files], names)
                for path in files:
                    self.assertNotRegex(path.read_text(), r"NAME|CHECKOUT_FOLDER|\bPACKAGES\b|\bORDERS\b", str(path))

    def test_events(self):
        """A line of events has at most 64 bytes, a comment too (docs/output.md)."""
        made = self.new("--c")
        lines = (made / "events").read_bytes().splitlines()
        self.assertEqual([line for line in lines if len(line) > 64], [])

    def test_both_kinds(self):
        made = self.tool("xous-new", self.folder / "mine", "--c", "--rust")
        self.assertEqual(made.returncode, 2)
        self.assertFalse((self.folder / "mine").exists())

    def test_orders_of_a_plain_program(self):
        """`make orders` in the folder of xous-new without a kind, over a stand-in for xousorders."""
        need("make", COMPILER)
        made, searcher = self.folder / "mine", self.folder / "search"
        self.assertEqual(self.tool("xous-new", made).returncode, 0)
        for endings, status in (("1", 0), ("1 2", 1)):
            searcher.write_text(search(endings=endings, status=status, fails=["exit in ending 2, 2 slices"] * status))
            searcher.chmod(0o755)
            ended, said = self.make(made, f"XOUSORDERS={searcher}", "SEARCH=--quantum 1", "orders")
            self.assertEqual((ended, "no order fails: 1 ending in all orders" in said), (2 * status, status == 0), said)
            self.assertEqual("/xous-why mine.img out/orders/ending-2.events --elf 2=out/mine.elf\n" in said, status == 1, said)
            self.assertIn(" --quantum 1\n", (made / "searched").read_text())

    def test_a_project_in_c(self):
        need("make", COMPILER)
        need_program()
        need_searcher()
        made = self.new("--c")
        status, said = self.make(made, "test")
        self.assertEqual(status, 2, said)
        self.assertIn("no stored transcript", said)
        self.assertEqual(self.make(made, "expected")[0], 0)
        status, said = self.make(made, "test")
        self.assertEqual(status, 0, said)
        self.assertIn("as stored", said)
        self.assertIn("1 ending in all orders", said)
        source = made / "mine.c"
        source.write_text(source.read_text().replace("six times seven", "seven times six"))
        status, said = self.make(made, "test")
        self.assertEqual(status, 2, said)
        self.assertIn("event file: events\n", said)

    def test_the_commands_that_are_named(self):
        """A sum that is lost, and another number on the console: the commands of the last ending."""
        need("gdb-multiarch")
        need_program()
        need_searcher()
        words = [SCRIPT, "orders", EXAMPLES / "orders" / "lost.image", "orders", "--quantum", "1", "--fails", "console-not=3"]
        ran = subprocess.run(words, cwd=self.folder, env=environment(), capture_output=True, text=True, check=False)
        self.assertEqual(ran.returncode, 1, ran.stderr)
        self.run_commands(ran.stdout, self.folder)

    def test_what_is_found_by_default(self):
        """A failed check, a fault, a deadlock and a forgotten reply in some orders, each with its line, and what xous-why tells of it."""
        need_program()
        need_searcher()
        for image, failing, why in (
            ("orders/sum.image", "exit in ending 2, 6 slices", "2 sum: exited 121 (a check failed) at step "),
            ("orders/late.image", "fault in ending 1, 3 slices", "2 late: fault 15 at 00000000 at step "),
            ("orders/deadlock.image", "waits in ending 1, 15 slices", "cycle: left.2 -> right.2 -> left.2 (each waits for the next)\n"),
            ("orders/desk.image", "waits in ending 1, 9 slices", "caller.2 -> message "),
            ("lend/image", "", ""),
        ):
            with self.subTest(image):
                ran = subprocess.run([SCRIPT, "orders", EXAMPLES / image, "orders"], cwd=self.folder, env=environment(), capture_output=True, text=True, check=False)
                self.assertEqual((ran.returncode, ran.stderr), (1 if failing else 0, ""), ran.stdout)
                self.assertEqual([line for line in ran.stdout.splitlines() if line.startswith("fails: ")], [f"fails: {failing}"] * bool(failing))
                self.assertEqual("no order fails: 1 ending in all orders" in ran.stdout, not failing)
                commands = [line.removeprefix("  why:      ") for line in ran.stdout.splitlines() if line.startswith("  why: ")]
                told = [subprocess.run(["sh", "-c", line], cwd=self.folder, env=environment(), capture_output=True, text=True, check=False).stdout for line in commands]
                self.assertEqual([why in text for text in told], [True] * bool(failing), told)

    def test_a_project_in_rust(self):
        """The kit builds std the first time, which takes three minutes of a processor."""
        need("make")
        need_rust()
        need_program()
        need_searcher()
        made = self.new("--rust")
        status, said = self.make(made, "test")
        self.assertEqual(status, 2, said)
        self.assertIn("test tests::the_answer under 4 orders ... ok\n", said)
        self.assertIn("hello from mine, six times seven is 42\n", said)
        self.assertIn("no stored transcript", said)
        self.assertEqual(self.make(made, "expected")[0], 0)
        status, said = self.make(made, "test")
        self.assertEqual(status, 0, said)
        self.assertIn("target/xous/mine.img: the transcript of target/xous/mine.events is as stored\n", said)
        self.assertIn("target/xous/mine.img: no order fails: 1 ending in all orders", said)
        self.check_failures_in_rust(made)

    def check_failures_in_rust(self, made):
        """A unit test, the transcript, and the orders: each that fails names its event file, and the commands. An order that fails is
        that of a stand-in, since a search with a second thread of std takes minutes."""
        source, searcher = made / "src" / "main.rs", self.folder / "failing"
        searcher.write_text(search(endings="1 2", status=1, fails=["waits in ending 1, 2 slices"]))
        searcher.chmod(0o755)
        for target, old, new, events in (
            ("test-units", "42);", "41);", r".*/target/xous/mine-[0-9a-f]+\.tests\.the_answer\.1\.events"),
            ("test-transcript", "six times seven", "seven times six", "target/xous/mine.events"),
            (f"XOUSORDERS={searcher} orders", "six times seven", "6 times 7", "target/xous/orders/ending-1.events"),
        ):
            with self.subTest(target):
                kept = source.read_text()
                self.change(source, old, new)
                status, said = self.make(made, *target.split(" "))
                self.assertEqual(status, 2, said)
                self.assertRegex(said, f"(?m)^event file: {events}$")
                self.run_commands(said, made)
                source.write_text(kept)
