"""Any bytes end with a sentence: readers of transcripts, states, images, programs, events and gdb's packets, by hypothesis."""

import io
import os
import struct
import types

from xous import names
from xous.charts import chart, draw, trace
from xous.checksum import check_number
from xous.errors import Fault, Refusal
from xous.gdb.packets import Closed, Packets, unescaped
from xous.gdb.server import HANDLERS, Server
from xous.images import layout, reading
from xous.programs.elf import read_program
from xous.programs.symbols import Program
from xous.runs import events
from xous.states import state, telling
from xous.transcripts import decode, summary, view
from xous.transcripts.stored import Transcript

from .builders import code, elf, image_of, process, zeros
from .frame import Case, need
from .test_gdb import NUMBERS, spelled_state
from .test_programs import DATA, TABLE, TEXT, WORDS

try:
    from hypothesis import HealthCheck, given, settings
    from hypothesis import strategies as some
except ImportError:  # the tests are skipped then
    given = settings = lambda *_, **__: lambda test: test
    some = types.SimpleNamespace(**dict.fromkeys(("binary", "lists", "tuples", "integers", "sampled_from", "one_of", "text"), lambda *_, **__: None))
    HealthCheck = types.SimpleNamespace(too_slow=None)

FEW = settings(max_examples=40, deadline=None, suppress_health_check=[HealthCheck.too_slow], database=None)
MANY = settings(max_examples=120, deadline=None, suppress_health_check=[HealthCheck.too_slow], database=None)
# Where bytes are changed, and into which.
CHANGES = some.lists(some.tuples(some.integers(0, 1 << 16), some.integers(0, 255)), max_size=6)
THREAD = [2, 2, 0x10000, *[0] * 33]
GOOD_STATE = spelled_state([*NUMBERS, 1, 0, 0, 1, *THREAD, 0, 0, 0, 0])
PARTS = [b"1 2.2 call", b"1 2.2 reply", b" 00000010", b" 00000002", b" 60001000", b" 00000009", b"2 3.2 retry", b"end 5 done", b"3 2 gone"]
PARTS += [b"\n", b" ", b"4 2.1 irq 3", b"5 2.2 fault 15 60000000", b"6 2.2 byte 07", b"\xff", b"\0", b"2.3 end", b"7 "]


def changed(data, changes):
    data = bytearray(data)
    for at, byte in changes:
        data[at % len(data)] = byte
    return bytes(data)


class AnyBytes(Case):
    def setUp(self):
        super().setUp()
        need("hypothesis")

    # Lines.

    def view_all(self, data):
        sink = io.BytesIO()
        view.run(view.View(names.Names(), view.Filter()), io.BytesIO(data), sink)
        view.run(view.JsonView(names.Names(), view.Filter()), io.BytesIO(data), sink)
        lines = [line for part in view.lines_of(io.BytesIO(data)) for line in part]
        summed, drawn = summary.Summary(names.Names(), view.Filter()), chart.Chart(names.Names(), view.Filter(), keeps_all=True)
        for line in lines:
            summed.feed(line)
            drawn.feed(line)
        list(summed.report())
        try:
            drawn.finish()
        except Refusal:
            return
        draw.svg(drawn, names.Names(), "any")
        trace.text(drawn, names.Names(), "any")

    @MANY
    @given(some.binary(max_size=200))
    def test_transcripts(self, data):
        self.view_all(data)

    @MANY
    @given(some.lists(some.sampled_from(PARTS), max_size=40))
    def test_transcripts_of_parts(self, parts):
        self.view_all(b"".join(parts))

    @MANY
    @given(some.text(max_size=60))
    def test_records(self, line):
        record = decode.record_of(line)
        self.assertTrue(record is None or decode.spelled(record) == line)

    def test_long_numbers(self):
        """Numbers of thousands of digits are none of a transcript, of events or of a word of the command line."""
        many = "9" * 5000
        for line in (f"{many} 2.2 call" + " 00000001" * 8, f"1 {many}.2 retry", f"1 2.{many} end", f"end {many} done", f"1 2.2 fault {many} 00000000"):
            self.assertIsNone(decode.record_of(line))
        self.assertEqual(events.read(f"tick {many}".encode()), ([], 1))

    @FEW
    @given(some.binary(max_size=300))
    def test_events(self, data):
        found, bad = events.read(data)
        again, none = events.read(events.spelled(found))
        self.assertEqual([event.text() for event in found], [event.text() for event in again])
        self.assertTrue(none is None and (bad is None or bad >= 1))

    # Files.

    def read_state(self, data):
        try:
            read = state.read(data)
        except Fault as fault:
            self.assertTrue(fault.name.startswith(("State", "NotState")) and fault.at <= max(len(data), 16))
            return
        self.assertEqual(read.to_bytes(), data)
        list(telling.lines(read))
        telling.tree(read, True)

    @MANY
    @given(some.binary(max_size=300))
    def test_states(self, data):
        self.read_state(data)

    @MANY
    @given(CHANGES)
    def test_changed_states(self, changes):
        body = changed(GOOD_STATE[16:], changes)
        self.read_state(state.MAGIC + struct.pack("<II", 16 + len(body), check_number(body)) + body)

    @MANY
    @given(some.binary(max_size=200))
    def test_images(self, data):
        self.assertRaises(Fault, reading.read, data)

    @MANY
    @given(CHANGES, some.sampled_from([1, 2]))
    def test_changed_images(self, changes, version):
        data = changed(layout.write(image_of(process(code(), zeros(0x2_0000)), process(), version=version)), changes)
        data = data[:4] + struct.pack("<H", check_number(data[8:28])) + data[6:]
        try:
            read = reading.read(data)
        except Fault as fault:
            self.assertLessEqual(fault.at, len(data))
        else:
            self.assertIn(len(read.processes), (1, 2))

    @FEW
    @given(CHANGES)
    def test_programs(self, changes):
        need("elftools")
        path = self.folder / "any.elf"
        path.write_bytes(changed(elf([TEXT, DATA, TABLE], symbols=WORDS, arch="rv32i2p1_m2p0"), [(at % 8192, byte) for at, byte in changes]))
        for read in (read_program, lambda path: Program(path).close()):
            try:
                read(str(path))
            except Refusal as refusal:
                self.assertNotIn("\n", str(refusal))

    # Packets of gdb.

    def server(self):
        """A server over a run without a step, whose state has one thread."""
        transcript = self.folder / "transcript"
        transcript.write_bytes(b"end 7 done\n")
        read = state.read(GOOD_STATE)
        run = types.SimpleNamespace(
            state_at=lambda step: read,
            actor=lambda step: read.actor(),
            transcript=Transcript(open(transcript, "rb")),
            last=7,
            ending=lambda: "end 7 done",
            events_until=lambda step: [],
            resume=None,
            folder=types.SimpleNamespace(name=str(self.folder)),
            expect=lambda step: None,
        )
        self.addCleanup(run.transcript.data.close)
        packets = types.SimpleNamespace(sent=[], acknowledges=False)
        packets.send = packets.sent.append
        packets.console = lambda text: None
        return Server(packets, run, {}, None)

    def answer(self, packet):
        server = self.server()
        try:
            server.answer(packet)
        except Closed:
            self.assertTrue(packet.startswith((b"k", b"vKill")))
        else:
            self.assertEqual(len(server.packets.sent), 1)

    @MANY
    @given(some.binary(max_size=40))
    def test_packets(self, packet):
        self.answer(packet)

    @MANY
    @given(some.sampled_from(sorted(HANDLERS)), some.text("0123456789abcdef,:;.-pxcsr", max_size=20))
    def test_packets_of_commands(self, name, rest):
        if name not in ("vCont", "bc", "bs", "c", "s"):  # those that go somewhere are tested by gdb itself
            self.answer((name + rest).encode())

    def test_malformed_packets(self):
        for packet in (b"m", b"mx,4", b"m10000", b"m-1,4", b"pzz", b"Hg", b"Hgpx", b"T", b"Z0", b"Z0,x,4", b"c10000", b"s10000", b"vCont;r1", b"vCont", b"qXfer:features:read", b"qRcmd,4"):
            server = self.server()
            server.answer(packet)
            self.assertEqual(server.packets.sent, ["E01"], packet)

    @MANY
    @given(some.binary(max_size=80))
    def test_streams_of_packets(self, data):
        """What comes over the pipe is read as packets up to its end, whatever it is."""
        source, target = os.pipe(), os.pipe()
        os.write(source[1], data)
        os.close(source[1])
        packets = Packets(source[0], target[1])
        try:
            with self.assertRaises(Closed):
                while True:
                    packets.read()
            unescaped(data)
        finally:
            for number in (source[0], *target):
                os.close(number)
