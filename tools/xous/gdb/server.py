"""Answers gdb: each packet that a debugger of recorded runs needs (gdb's manual, "Remote Protocol")."""

from __future__ import annotations

import contextlib
import os
import re
import sys

from ..errors import Refusal
from ..machine import FIRST_PID
from ..states import reach
from . import points, target
from .history import History
from .monitor import Monitor
from .packets import Closed, Interrupted
from .points import Breakpoint, Stop, Watchpoint

FEATURES = (
    "PacketSize=20000;QStartNoAckMode+;multiprocess+;ReverseStep+;ReverseContinue+;vContSupported+;"
    "qXfer:features:read+;qXfer:threads:read+;qXfer:exec-file:read+"
)
DIGITS = re.compile("[0-9a-fA-F]{1,16}")
NOT_WRITTEN = "nothing can be written: the run is what its image and its events make of it"
ALL, ANY = -1, 0
EXITED = "W00"  # at the end of the run, for LLDB: it goes on by itself until a thread has done what was asked
MOST_BYTES = 1 << 16  # of memory in one answer
# What comes of a packet that isn't formed as the protocol has it.
MALFORMED = (ValueError, IndexError, KeyError, TypeError, OverflowError)


def number(text):
    """A number of hexadecimal digits, and nothing else."""
    if not DIGITS.fullmatch(text):
        raise ValueError(f"{text[:40]!r} is no number")
    return int(text, 16)


class Server:
    def __init__(self, packets, run, programs, first):
        """`programs` are paths of ELF files by pid; `first` is the pid of the file that gdb has already, or None."""
        self.packets, self.run, self.programs, self.first = packets, run, programs, first
        self.history = History(run)
        self.monitor = Monitor(self.history)
        self.last_stop = Stop(0, self.first_thread())
        self.general = self.last_stop.who
        self.chosen = None  # the thread that steps backwards are of
        self.is_lldb = False

    def first_thread(self):
        return (self.first, 2) if self.first else self.history.actor() or (FIRST_PID, 2)

    def serve(self):
        try:
            while True:
                self.answer(self.packets.read())
        except Closed:
            return

    def answer(self, packet):
        text = packet.decode("latin-1")
        if text == "QStartNoAckMode":
            self.packets.send("OK")
            self.packets.acknowledges = False
            return
        name = next((name for name in HANDLERS if text.startswith(name)), None)
        try:
            reply = HANDLERS[name](self, text[len(name) :]) if name else None
        except Interrupted:
            reply = "E04"
        except MALFORMED:
            reply = "E01"
        except Refusal as refusal:
            print(f"xous-gdb: {refusal}", file=sys.stderr, flush=True)
            reply = "E01"
        self.packets.send("" if reply is None else reply)
        self.look_ahead()

    def look_ahead(self):
        """After steps the program makes the next state while gdb shows this one."""
        ahead, self.history.ahead = self.history.ahead, None
        if ahead is not None:
            with contextlib.suppress(Interrupted, Refusal):
                self.run.expect(ahead)

    # Going.

    def go(self, move):
        """Goes by `move`, which gives a stop, and tells it."""
        old, self.history.ahead = self.history.step, None
        try:
            if self.monitor.target is not None:
                step, self.monitor.target = self.monitor.target, None
                stop = self.history.goto(step)
            else:
                stop = move()
        except Interrupted:
            self.history.step = old
            stop = Stop(old, self.last_stop.who, points.SIGINT)
        except Refusal as refusal:
            self.history.step = old
            stop = Stop(old, self.last_stop.who, points.SIGINT, text=f"xous-gdb: {refusal}\n")
        if stop.text:
            self.packets.console(stop.text)
        if self.is_lldb and stop.step == old == self.run.last:
            return EXITED
        stop.who = self.thread_to_tell(stop.who)
        self.last_stop, self.general = stop, stop.who
        return self.stop_text(stop)

    def thread_to_tell(self, who):
        """That thread, or another where it is gone: who acts next, else one that gdb knows, else any."""
        threads = self.history.state().threads
        others = [who, self.history.actor(), self.last_stop.who, *sorted(threads, key=lambda other: -other[1])]
        return next((other for other in others if other in threads), self.last_stop.who)

    def stop_text(self, stop):
        thread = self.history.state().threads.get(stop.who)
        pc = f"{target.PC:x}:{thread.pc.to_bytes(4, 'little').hex()};" if thread else ""
        return f"T{stop.signal:02x}thread:{target.thread_text(stop.who)};{pc}{stop.detail}"

    def last_status(self, _):
        return self.stop_text(self.last_stop)

    def resume(self, text):
        """vCont: the first action counts, since the whole machine goes on with each."""
        action, _, thread = text.split(";")[1].partition(":")
        if action[0] in "cC":
            return self.go(self.history.forward)
        if action[0] in "sS":
            return self.go(self.history.step_forward)
        if action[0] == "r":
            start, end = (number(word) for word in action[1:].split(","))
            who = self.thread(thread) if thread else self.general
            return self.go(lambda: self.history.step_over(who, start, end))
        return None

    def go_on(self, text):
        """The packets c and s, which LLDB sends in place of vCont. None goes on at another address."""
        moves = {"c": self.history.forward, "s": self.history.step_forward}
        return self.go(moves[text]) if text in moves else "E01"

    def backward(self, text):
        moves = {"c": self.history.backward, "s": self.history.step_backward}
        return self.go(moves[text]) if text in moves else None

    # What is there.

    def thread(self, text):
        """The pid and tid of a thread id. LLDB leaves out the pid, and means its one process."""
        pid, tid = target.read_thread(text)
        return (self.general[0] if pid == ANY and tid not in (ALL, ANY) else pid), tid

    def choose(self, text):
        pid, tid = self.thread(text[1:])
        if text[0] == "g" and pid not in (ALL, ANY):
            self.general = pid, tid if tid not in (ALL, ANY) else self.some_tid(pid)
        return "OK"

    def some_tid(self, pid):
        return next((tid for other, tid in sorted(self.history.state().threads) if other == pid and tid > 1), 1)

    def current(self, _):
        return f"QC{target.thread_text(self.general)}"

    def is_alive(self, text):
        return "OK" if self.thread(text) in target.listed(self.history.state()) else "E01"

    def machine(self, _):
        """What LLDB asks for of the host, and of its process, if it has no program. gdb asks for neither."""
        self.is_lldb = True
        return f"pid:{self.general[0]:x};triple:{target.TRIPLE.encode().hex()};ptrsize:4;endian:little;"

    def first_threads(self, _):
        return "m" + ",".join(map(target.thread_text, target.listed(self.history.state(), self.first)))

    def more_threads(self, _):
        return "l"

    def extra(self, text):
        return target.thread_note(self.history.state(), self.thread(text)).encode().hex()

    def read_registers(self, _):
        return target.registers(self.history.state(), self.general)

    def read_register(self, text):
        at = 8 * number(text)
        return target.registers(self.history.state(), self.general)[at : at + 8] or "E01"

    def read_memory(self, text):
        address, length = (number(word) for word in text.split(","))
        length = min(length, MOST_BYTES)  # gdb asks for the rest again
        state, pid = self.history.state(), self.general[0]
        try:
            return reach.load(state, pid, address, length).hex()
        except reach.OutOfReach:
            return self.reached_part(state, pid, address, length)

    @staticmethod
    def reached_part(state, pid, address, length):
        """What can be loaded up to the first page that is out of reach; gdb asks for the rest again."""
        count = -address % reach.PAGE
        try:
            return reach.load(state, pid, address, count).hex() if 0 < count < length else "E14"
        except reach.OutOfReach:
            return "E14"

    def refuse_write(self, _):
        return f"E.{NOT_WRITTEN}"

    def refuse_memory(self, _):
        """gdb doesn't show why a store failed, but what the command that it started writes as an error."""
        print(f"xous-gdb: {NOT_WRITTEN}", file=sys.stderr, flush=True)
        return "E01"

    # Points.

    def points_of(self, text):
        """The set of the point that a packet names, and the point."""
        kind, address, length = text.split(";")[0].split(",")
        pid, address = self.general[0], number(address)
        if kind in "01":
            return self.history.breaks.points, Breakpoint(pid, address)
        if kind == "2":
            return self.history.watches.points, Watchpoint(pid, address, min(max(number(length), 1), MOST_BYTES))
        return None, None

    def insert(self, text):
        known, point = self.points_of(text)
        if known is None:
            return None
        known.add(point)
        return "OK"

    def remove(self, text):
        known, point = self.points_of(text)
        if known is None:
            return None
        known.discard(point)
        return "OK"

    # Texts.

    def command(self, text):
        answer = self.monitor.do(bytes.fromhex(text).decode(errors="replace"))
        if answer:
            self.packets.console(answer)
        return "OK"

    def transfer(self, text):
        kind, _, annex, part = text.split(":")
        contents = {
            "features": lambda: target.description() if annex == "target.xml" else None,
            "threads": lambda: target.thread_list(self.history.state(), self.first, self.programs),
            "exec-file": lambda: self.program_path(number(annex) if annex else self.general[0]),
        }.get(kind, lambda: None)()
        if contents is None:
            return "E00"
        offset, length = (number(word) for word in part.split(","))
        data = contents.encode()
        piece = data[offset : offset + length]
        return (b"m" if offset + len(piece) < len(data) else b"l") + piece

    def program_path(self, pid):
        """The process's program; where it wasn't given, a file that names the machine alone."""
        if pid in self.programs:
            return self.programs[pid]
        path = os.path.join(self.run.folder.name, f"process-{pid}")
        with open(path, "wb") as file:
            file.write(target.empty_program())
        return path

    def supported(self, _):
        return FEATURES

    def detach(self, text):
        return "OK"

    def kill(self, _):
        raise Closed


HANDLERS = {
    "qSupported": Server.supported,
    "vMustReplyEmpty": lambda server, _: None,
    "vCont?": lambda server, _: "vCont;c;C;s;S;r",
    "vCont": Server.resume,
    "vKill": Server.kill,
    "bc": lambda server, _: server.backward("c"),
    "bs": lambda server, _: server.backward("s"),
    "H": Server.choose,
    "?": Server.last_status,
    "qC": Server.current,
    "qHostInfo": Server.machine,
    "qProcessInfo": lambda server, text: server.machine(text) if not text else None,  # not qProcessInfoPID
    "qfThreadInfo": Server.first_threads,
    "qsThreadInfo": Server.more_threads,
    "qThreadExtraInfo,": Server.extra,
    "qAttached": lambda server, _: "1",
    "qRcmd,": Server.command,
    "qXfer:": Server.transfer,
    "T": Server.is_alive,
    "g": Server.read_registers,
    "p": Server.read_register,
    "G": Server.refuse_write,
    "P": Server.refuse_write,
    "m": Server.read_memory,
    "M": Server.refuse_memory,
    "Z": Server.insert,
    "z": Server.remove,
    "D": Server.detach,
    "k": Server.kill,
    "c": lambda server, text: server.go_on("c" + text),
    "s": lambda server, text: server.go_on("s" + text),
}
HANDLERS["qC"] = lambda server, text: server.current(text) if not text else None  # not qCRC
