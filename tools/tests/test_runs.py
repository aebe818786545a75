"""What follows from a transcript and its events: who did each step, and which events did nothing."""

import io
import json
import socket
import subprocess
import sys
import time
from xml.etree import ElementTree

from xous import names
from xous.charts import chart, draw, page, trace
from xous.errors import Refusal
from xous.images import layout
from xous.images.named import read_image
from xous.machine import MOST_STEPS
from xous.runs import events
from xous.runs.acting import stretches_of
from xous.runs.idle import IdleEvents
from xous.transcripts import decode, summary, view

from .builders import process
from .frame import EXAMPLES, TOOLS, Case, need_program

LEND, RACE = EXAMPLES / "lend", EXAMPLES / "race"
LOST = EXAMPLES / "orders" / "lost.image"
# An order of examples/orders/lost that loses an update, and its transcript: between its lines the threads take turns in steps 51 to 60.
LOSE = b"tick 50\npick 2 3\ntick 3\npick 2 2\ntick 2\npick 2 3\ntick 200\n"
LOSE_TOLD = """14 2.2 call 00000002 f0000000 00000000 00001000 00000006 00000000 00000000 00000000
14 2.2 reply 00000003 60000000 00001000 00000000 00000000 00000000 00000000 00000000
24 2.2 call 00000002 00000000 00000000 00001000 00000006 00000000 00000000 00000000
24 2.2 reply 00000003 60001000 00001000 00000000 00000000 00000000 00000000 00000000
36 2.2 call 00000012 0001002c 60002000 00000002 00000000 00000000 00000000 00000000
36 2.2 reply 0000000a 00000003 00000000 00000000 00000000 00000000 00000000 00000000
60 2.3 end
64 2.2 call 00000024 00000003 00000000 00000000 00000000 00000000 00000000 00000000
64 2.2 reply 00000001 00000014 00000000 00000000 00000000 00000000 00000000 00000000
70 2.2 byte 33
83 2.2 call 00000016 00000000 00000000 00000000 00000000 00000000 00000000 00000000
83 2 gone
end 83 done
""".splitlines()
STRETCHES = [((2, 2), 1, 50), ((2, 3), 51, 53), ((2, 2), 54, 55), ((2, 3), 56, 60), ((2, 2), 61, 83)]


def idle(lines, text, processes):
    """The events that did nothing, as text."""
    records = [decode.record_of(line) for line in lines]
    played, _ = events.read(text)
    return [one.text() for one in IdleEvents(records, played, processes, MOST_STEPS).play().found]


class Idle(Case):
    def test_reasons(self):
        """Of the order that loses: each reason once."""
        text = b"pick 2 2\ntick 50\npick 2 4\npick 9 2\npick 2 3\ntick 3\npick 2 2\ntick 2\npick 2 1\npick 2 3\nirq 7\ntick 200\n"
        text += b"kill 2\npick 2 2\nkill 77\ntick 5\n"
        self.assertEqual(
            idle(LOSE_TOLD, text, 1),
            [
                "line 3: pick 2 4 at step 50: process 2 has no thread 4",
                "line 4: pick 9 2 at step 50: there is no process 9; the image has 2 to 2",
                "line 9: pick 2 1 at step 55: no interrupt has started this handler",
                "line 11: irq 7 at step 55: no process has claimed interrupt 7",
                "line 13: kill 2 at step 83: process 2 is gone",
                "line 14: pick 2 2 at step 83: process 2 is gone",
                "line 15: kill 77 at step 83: there is no process 77; the image has 2 to 2",
                "line 16: tick 5 at step 83: no thread is ready",
            ],
        )

    def test_waiting_thread(self):
        lines = (LEND / "expected").read_text().splitlines()
        told = idle(lines, b"tick 1000\npick 2 2\n", len(read_image(LEND / "image").processes))
        self.assertEqual(told, ["line 2: pick 2 2 at step 140: it waits: its ReceiveMessage of step 106 has no answer"])

    def test_stored_orders_do_something(self):
        for name in ("win", "lose"):
            text = (RACE / f"{name}.events").read_bytes()
            self.assertEqual(idle((RACE / f"{name}.expected").read_text().splitlines(), text, 2), [])

    def test_command(self):
        need_program()
        made = self.folder / "events"
        made.write_text("pick 3 9\ntick 1000\nkill 9\n")
        ran = self.tool("xous-where", "--events", LEND / "image", made)
        wanted = "line 1: pick 3 9 at step 0: process 3 has no thread 9\nline 3: kill 9 at step 140: there is no process 9; the image has 2 to 3\n"
        self.assertEqual((ran.returncode, ran.stdout, ran.stderr), (0, wanted + "2 of 3 events did nothing\n", ""))
        ran = self.tool("xous-where", "--events", LEND / "image", made, "--json")
        told = json.loads(ran.stdout)
        self.assertEqual((told["events"], told["bad_line"], [row["line"] for row in told["idle"]]), (3, None, [1, 3]))


class Limits(Case):
    def test_steps_and_slots(self):
        """xous-where takes them as xousim does: the image of one process that needs slots, and a run that is cut."""
        need_program()
        ran = self.tool("xous-where", RACE / "image", RACE / "win.events", "30", "4")
        self.assertEqual((ran.returncode, ran.stdout.splitlines()[0], ran.stderr), (0, "step limit 30", ""))
        made, nine = self.folder / "image", self.folder / "events"
        nine.write_text("tick 9\n")
        data = layout.Image(layout.RAM_START, 0x1_7000, [process()], 2, None)
        made.write_bytes(layout.write(data))
        ran = self.tool("xous-where", made, nine)
        self.assertEqual((ran.returncode, ran.stderr), (1, "xous-where: image fault RamTooSmall at 0\n"), ran.stdout)
        ran = self.tool("xous-where", made, nine, "5", "9")
        self.assertEqual((ran.returncode, ran.stdout.splitlines()[0]), (0, "step limit 5"), ran.stderr)


class Acting(Case):
    def test_stretches(self):
        played, _ = events.read(LOSE)
        found = stretches_of(LOSE_TOLD, played, 1)
        self.assertEqual([(each.thread, each.first, each.last) for each in found], STRETCHES)

    def test_other_events_are_refused(self):
        played, _ = events.read(b"tick 100\n")
        self.assertRaisesRegex(Refusal, "the events made another transcript", stretches_of, LOSE_TOLD, played, 1)

    def drawn(self, **filters):
        played, _ = events.read(LOSE)
        found = chart.Chart(names.Names(), view.Filter(**filters), stretches_of(LOSE_TOLD, played, 1))
        for line in LOSE_TOLD:
            found.feed(line)
        found.finish()
        return found

    def test_chart(self):
        found = self.drawn()
        runs = [(mark.thread, found.steps[mark.row], mark.label) for mark in found.marks if mark.kind == chart.RUN]
        self.assertEqual(runs, [((2, 3), 51, "runs, steps 51 to 53"), ((2, 2), 54, "runs, steps 54 to 55")])
        picture = ElementTree.fromstring(draw.svg(found, names.Names(), "lost"))
        bands = [each for each in picture.iter() if each.get("class") == "m run"]
        self.assertEqual(len(bands), len(STRETCHES))
        self.assertEqual(self.drawn(first=54, last=60).steps, [54, 60])
        self.assertIn("the thread runs", page.html(found, names.Names(), "lost"))

    def test_many_stretches(self):
        """Stretches without a line between two lines are a mark for each thread, where they are many."""
        step = ["1 2.2 call 00000012" + " 00000000" * 7, "1 2.2 reply 0000000a 00000003" + " 00000000" * 6, "end 41 done"]
        played, _ = events.read(b"tick 1\n" + b"pick 2 3\ntick 2\npick 2 2\ntick 2\n" * 10)
        found = chart.Chart(names.Names(), view.Filter(), stretches_of(step, played, 1))
        for line in step:
            found.feed(line)
        found.finish()
        labels = [mark.label for mark in found.marks if mark.kind == chart.RUN]
        self.assertEqual(labels, ["runs, steps 2 to 39, 10 times in turn with others", "runs, steps 4 to 41, 10 times in turn with others"])


class Traces(Case):
    def test_lend(self):
        found = chart.Chart(names.Names(), view.Filter(), keeps_all=True)
        for line in (LEND / "expected").read_text().splitlines():
            found.feed(line)
        found.finish()
        told = json.loads(trace.text(found, names.Names({2: "server", 3: "client"}), "lend"))
        rows = told["traceEvents"]
        self.assertEqual([row["args"]["name"] for row in rows if row["name"] == "process_name"], ["server (pid 2)", "client (pid 3)"])
        flows = [(row["ph"], row["ts"], row["pid"], row["id"]) for row in rows if row["ph"] in "sf"]
        self.assertEqual(flows, [("s", 81, 3, 1), ("f", 81, 2, 1), ("s", 96, 2, 2), ("f", 96, 3, 2)])
        loans = [(row["ph"], row["ts"], row["pid"]) for row in rows if row.get("cat") == "loan"]
        self.assertEqual(loans, [("b", 81, 3), ("e", 96, 3), ("b", 81, 2), ("e", 96, 2)])
        self.assertTrue(all(row["dur"] >= 1 for row in rows if row["ph"] == "X"))

    def test_many_marks(self):
        """Above 5,000 marks a trace takes the chart's place, with all of them, and it is said."""
        transcript, target = self.folder / "many", self.folder / "many.html"
        word = " 00000000"
        transcript.write_text("".join(f"{at} 2.2 call 0000002a{word * 7}\n{at} 2.2 reply 0000000a 00000002{word * 6}\n" for at in range(1, 6002)))
        ran = self.tool("xous-view", "--chart", target, transcript)
        self.assertEqual((ran.returncode, target.exists()), (0, False), ran.stderr)
        self.assertIn(f"6,001 marks, and a chart has at most 5,000; narrow it by --from 1 --to 5000 ", ran.stderr)
        self.assertIn(f"Wrote {self.folder}/many.json in its place, a trace for https://ui.perfetto.dev", ran.stderr)
        rows = json.loads((self.folder / "many.json").read_text())["traceEvents"]
        self.assertEqual(sum(row["ph"] == "X" for row in rows), 6001)


class Pictures(Case):
    def test_control_bytes(self):
        """A name with control bytes makes a picture that can be read."""
        found = chart.Chart(names.Names({2: "a\x01b"}), view.Filter())
        found.feed("1 2.2 byte 41")
        found.finish()
        for text in (draw.svg(found, names.Names({2: "a\x01b"}), "c\x00d\ud800"), draw.svg(found, names.Names(), "c\x1fd")):
            ElementTree.fromstring(text)
        self.assertIn("a?b (pid 2)", draw.svg(found, names.Names({2: "a\x01b"}), "title"))
        self.assertNotIn("\x01", page.html(found, names.Names({2: "a\x01b"}), "c\x01d"))

    def test_labels(self):
        """A label in two lines has no line of a letter alone."""
        for label in ("fault 13: load not allowed at 60000ffc (page on loan, m 1)", "x" * 53, "a " * 40, "word " * 11 + "a"):
            lines = draw.in_two(label)
            self.assertTrue(1 <= len(lines) <= 2 and all(len(line) <= draw.SHORT for line in lines), lines)
            self.assertTrue(len(lines) == 1 or min(map(len, lines)) > 8, lines)


class Speed(Case):
    is_alone = True

    def test_summary_of_a_million_lines(self):
        lines = []
        for at in range(0, 250_000):
            step, thread = 4 * at, f"{at % 3 + 2}.2"
            lines += [f"{step} {thread} call 0000002a" + " 00000000" * 7, f"{step} {thread} reply 0000000a 00000002" + " 00000000" * 6]
            lines += [f"{step + 1} {thread} call 00000003" + " 00000000" * 7, f"{step + 1} {thread} reply 00000000" + " 00000000" * 7]
        data = "\n".join(lines).encode()
        began = time.process_time()
        summed = summary.Summary(names.Names(), view.Filter())
        for part in view.lines_of(io.BytesIO(data)):
            for line in part:
                summed.feed(line)
        told = list(summed.report())
        self.assertIn("1,000,000 lines", told[0])
        self.assertLess(time.process_time() - began, 30)  # of a processor, which others may share; it takes four


class Listening(Case):
    def test_port(self):
        """A debugger over a port of the loopback address: packets are answered, and its end is the tool's."""
        program = need_program()
        words = [sys.executable, TOOLS / "xous-gdb", LEND / "image", LEND / "events", "--listen", "0"]
        how = {"stdin": subprocess.DEVNULL, "stdout": subprocess.DEVNULL, "stderr": subprocess.PIPE, "text": True}
        with subprocess.Popen(words, env={"XOUSIM": program, "PATH": "/usr/bin:/bin"}, **how) as started:
            line = started.stderr.readline()
            self.assertRegex(line, r"^xous-gdb: waits for a debugger; in gdb: target remote 127\.0\.0\.1:\d+\n$")
            with socket.create_connection(("127.0.0.1", int(line.rsplit(":", 1)[1])), 60) as debugger:
                debugger.sendall(b"$m10000,4#%02x" % (sum(b"m10000,4") & 0xFF))
                told = b""
                while told.count(b"#") < 1 or not told[told.find(b"#") :][2:]:
                    told += debugger.recv(4096)
                self.assertRegex(told, rb"^\+\$[0-9a-f]{8}#[0-9a-f]{2}$")
            self.assertEqual((started.wait(300), started.stderr.read()), (0, ""))
