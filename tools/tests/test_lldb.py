"""xous-gdb over a port, by LLDB itself: the lost update of test_gdb. LLDB knows one process of the machine, which --pid names."""

import contextlib
import subprocess
import sys

from .frame import COMPILER, EXAMPLES, TOOLS, Case, need, need_program
from .test_gdb import LOST, Bench, line_of, symbol

FAULT = EXAMPLES / "fault"
STORE = line_of(LOST, "store")


class Lldb(Case):
    def setUp(self):
        super().setUp()
        program = need_program()
        need("make", COMPILER, "elftools", "lldb")
        self.bench = Bench(program, self.folder)

    @contextlib.contextmanager
    def port(self, *words):
        """The port of a run that is served for as long."""
        command = [sys.executable, TOOLS / "xous-gdb", *words, "--listen", "0"]
        pipes = {"stdin": subprocess.DEVNULL, "stdout": subprocess.DEVNULL, "stderr": subprocess.PIPE, "text": True}
        with subprocess.Popen(command, env={"XOUSIM": self.bench.program, "PATH": "/usr/bin:/bin"}, **pipes) as served:
            line = served.stderr.readline()
            self.assertIn("waits for a debugger; in gdb: target remote 127.0.0.1:", line)
            yield line.rsplit(":", 1)[1].strip()
            self.assertEqual((served.wait(300), served.stderr.read()), (0, ""))

    def lldb(self, *commands):
        """What LLDB writes for each of these commands."""
        commands = ("settings set plugin.process.gdb-remote.packet-timeout 300", *commands)
        words = [word for command in commands for word in ("-o", command)]
        ran = subprocess.run(["lldb", "--no-lldbinit", "--batch", *words], stdin=subprocess.DEVNULL, capture_output=True, text=True, check=False, timeout=300)
        parts = ran.stdout.split("(lldb) ")
        return {command: part for command, part in zip(commands, parts[1:])}, ran.stdout + ran.stderr

    def test_breakpoint(self):
        """A breakpoint at a line, the backtrace, a variable and a word of memory, in a program with its lines."""
        program = self.bench.own(LOST, "lost")
        events = self.bench.events("one.events", "tick 1000\n")
        total = symbol(program, "total")
        with self.port(self.bench.image(program), events) as port:
            told, whole = self.lldb(
                f"target create --arch riscv32 {program}", f"gdb-remote {port}", f"breakpoint set --file lost.c --line {STORE}",
                "continue", "thread backtrace", "frame variable amount", f"memory read --format x --size 4 --count 1 {total:#x}",
                "breakpoint delete --force", "process continue",
            )  # fmt: skip
        self.assertIn(f"lost.c:{STORE}", told["continue"], whole)
        self.assertIn("stop reason = breakpoint 1.1", told["continue"], whole)
        self.assertRegex(told["thread backtrace"], rf"frame #0: 0x[0-9a-f]+ lost\.elf`add\S* at lost\.c:{STORE}")
        self.assertIn(f"{total:#010x}: 0x00000000", "".join(told.values()), whole)
        self.assertIn("stop reason = signal SIGTERM", told["process continue"], whole)

    def test_without_a_program(self):
        """The machine is known all the same: registers, threads and instructions of the process that --pid names."""
        with self.port(FAULT / "image", FAULT / "events", "--pid", "3") as port:
            told, whole = self.lldb(
                f"gdb-remote {port}", "register read pc", "continue", "thread list", "thread step-inst",
            )  # fmt: skip
        self.assertIn("pc = 0x00010000", whole)
        self.assertIn("stop reason = signal SIGSEGV", told["continue"], whole)
        self.assertRegex(told["thread list"], r"tid = 0x0003, 0x00010030", whole)
        self.assertIn("exited with status = 0", told["thread step-inst"], whole)
