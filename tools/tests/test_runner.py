"""The kit for Rust without Rust: how its runner ends over a stand-in for xousim, and what its script of cargo says is missing."""

import os
import pathlib
import shutil
import subprocess

from .builders import READ, WRITE, elf
from .frame import EXAMPLES, Case, need
from .test_programs import CODE, TEXT

KIT = EXAMPLES / "kit" / "rust"
MANIFEST = '[package]\nname = "mine"\n[package.metadata.xous]\nservers = []\n'
TERMINATES = "5 2.2 call 00000016 {:08x} 00000000 00000000 00000000 00000000 00000000 00000000\n5 2 gone\nend 5 done\n"
TEXT_OF_HI = "1 2.2 byte 48\n2 2.2 byte 69\n3 2.2 byte 0a\n"


class Runner(Case):
    def setUp(self):
        super().setUp()
        need("elftools")
        self.write("Cargo.toml", MANIFEST)
        self.program = self.folder / "mine"
        self.program.write_bytes(elf([TEXT]))

    def write(self, name, text, is_program=False):
        path = self.folder / name
        path.write_text(text)
        path.chmod(0o755 if is_program else 0o644)
        return path

    def stand_in(self, transcript, said=""):
        """A program that writes this transcript, whatever it is given."""
        self.write("transcript", transcript)
        self.write("said", said)
        return self.write("xousim", f'#!/bin/sh\ncat "{self.folder}/transcript"\ncat "{self.folder}/said" >&2\n', True)

    def environment(self, **more):
        usual = {name: value for name, value in os.environ.items() if not name.startswith(("PYTHON", "CARGO", "XOUS"))}
        return {**usual, "CARGO_MANIFEST_DIR": str(self.folder), "XOUSIM": str(self.folder / "xousim"), **more}

    def play(self, *words, **environment):
        """The status, what was written and what was said."""
        command = [KIT / "runner.py", self.program, *words]
        ran = subprocess.run(command, env=self.environment(**environment), cwd=self.folder, capture_output=True, text=True, check=False, timeout=600)
        self.assertNotIn("Traceback", ran.stderr)
        return ran.returncode, ran.stdout, ran.stderr

    def test_ends(self):
        files = f"{self.folder}/target/xous/mine.img {self.folder}/target/xous/mine.events"
        where = f"tools/xous-where {files} 1000000000 --elf 2={self.program}"
        for transcript, said, status, sentence in (
            (TERMINATES.format(0), "", 0, ""),
            (TERMINATES.format(3), "", 3, ""),
            (TERMINATES.format(101), "", 101, ""),
            (TERMINATES.format(0x300), "", 1, ""),
            ("7 2.2 fault 15 00000004\n7 2 gone\nend 7 done\n", "", 1, "mine: thread 2.2 faults by a store at 00000004, in step 7. Where: "),
            ("end 9 done\n", "", 1, "mine: waits for good; no thread is ready after step 9. For what: "),
            ("end 1000000000 limit\n", "step limit 1000000000\n", 1, "mine: met the limit of 1000000000 steps (steps in [package.metadata.xous]). Where: "),
            ("", "image fault BadRam at 16\n", 1, "mine: image fault BadRam at 16: xousim refuses "),
            ("", "", 1, "mine: the transcript has no end; XOUSIM has to name xousim"),
        ):
            with self.subTest(transcript):
                self.stand_in(TEXT_OF_HI + transcript if transcript else "", said)
                ended, out, told = self.play()
                self.assertEqual((ended, out), (status, "Hi\n" if transcript else ""), told)
                self.assertTrue(told.startswith(sentence) and told.count("\n") == bool(sentence), told)
                self.assertTrue("here: " not in sentence and "what: " not in sentence or where in told, told)

    def test_search(self):
        """`cargo orders`: the words are those of xousorders, and an order that fails names what looks into it."""
        self.stand_in("")
        script = '#!/bin/sh\necho "$*" >searched\ntouch target/xous/orders/ending-1.events\necho states 1 slices 0 whole\necho 1 ending\n'
        for status, more, text in (
            (0, "", "mine.img: no order fails: 1 ending in all orders (states 1 slices 0 whole)\n"),
            (1, "echo fails: exit in ending 1, 1 slice\n", "/xous-why target/xous/mine.img target/xous/orders/ending-1.events"),
        ):
            searcher = self.write("xousorders", f"{script}{more}exit {status}\n", True)
            ended, out, said = self.play("--quantum", "1", XOUS_SEARCH="1", XOUSORDERS=str(searcher))
            self.assertEqual((ended, said), (status, ""))
            self.assertIn(text, out)
            words = "target/xous/mine.img --write target/xous/orders --fails exit --fails fault --fails waits --quantum 1\n"
            self.assertEqual((self.folder / "searched").read_text(), words)

    def test_settings_that_make_no_sense(self):
        self.stand_in(TERMINATES.format(0))
        table = "[package.metadata.xous]\n"
        for manifest, text in (
            (table + "rom = 1\n", "Cargo.toml: metadata.xous has rom; known are servers, ram, stack, env, steps, turn, events"),
            (table + "ram = 16\n", "Cargo.toml: metadata.xous.ram is no str"),
            (table + "steps = 0\n", "metadata.xous: steps and turn are 1 to 4000000000"),
            ("[package.metadata]\nxous = 3\n", "metadata.xous is no table; write [package.metadata.xous]"),
            ("[package\n", "Cargo.toml: "),
            (table + 'servers = ["./none"]\n', "none isn't there; build it first"),
            (table + 'servers = ["log"]\n', "log isn't there; run the kit's cargo, which builds it"),
            (table + 'servers = []\nevents = "none"\n', "none: no such file of events; see metadata.xous.events"),
            (table + 'servers = []\nram = "many"\n', "many is no size"),
        ):
            with self.subTest(manifest):
                self.write("Cargo.toml", manifest)
                status, out, said = self.play(XOUS_RUST_OUT=str(self.folder / "empty"))
                self.assertIn(text, said)
                self.assertEqual((status, out, said.count("\n")), (1, "", 1), said)
        self.write("Cargo.toml", MANIFEST)
        self.assertIn("XOUS_ORDERS=x is no number", self.play(XOUS_ORDERS="x")[2])

    def test_programs_that_are_refused(self):
        """Compressed code, an image too large for its RAM, and a program or a player that isn't there."""
        self.stand_in(TERMINATES.format(0))
        room = (".bss", 0x2_0000, b"", 1_000_000, READ | WRITE)
        huge = [(".bss", 0x2_0000, b"", 8_000_000, READ | WRITE), (".text", 0x1_0000, CODE, 4, READ | 1)]
        compressed = ["has compressed instructions; compile with -march=rv32ima", "-Ctarget-feature=-c,-zca and std built anew (rustc)"]
        small = ["(RamTooSmall); the least RAM that boots is 1108K", '; set ram = "64M" in [package.metadata.xous]']
        for program, manifest, texts in (
            (elf([TEXT], flags=1), MANIFEST, compressed),
            (elf([TEXT, room]), MANIFEST + 'ram = "400K"\n', small),
            (elf(huge), MANIFEST.replace("[]", str(["./mine"] * 9)) + 'ram = "64M"\n', ["no RAM of at most 64M boots"]),
            (b"", MANIFEST, ["the file is empty; give a linked program"]),
        ):
            with self.subTest(texts[0]):
                self.program.write_bytes(program)
                self.write("Cargo.toml", manifest)
                status, out, said = self.play()
                self.assertTrue(all(text in said for text in texts), said)
                self.assertEqual((status, out, said.count("\n")), (1, "", 1), said)
                self.assertEqual('set ram = "64M"' in said, texts == small, said)
        self.program.write_bytes(elf([TEXT]))
        self.assertEqual(self.play(XOUSIM="/none/xousim")[::2], (1, "xous runner: /none/xousim: No such file or directory; XOUSIM names the program that plays\n"))
        self.program.unlink()
        self.assertIn(f"mine: no such program; build it by {KIT}/cargo build", self.play()[2])

    def test_output_that_takes_nothing(self):
        self.stand_in(TEXT_OF_HI * 3000 + TERMINATES.format(0))
        for line, status, text in (
            ("{} >/dev/full", 4, "xous runner: standard output: No space left on device\n"),
            ("{} >&-", 4, "xous runner: standard output is closed\n"),
        ):
            with self.subTest(line):
                words = ["/bin/bash", "-c", line.format(f"'{KIT}/runner.py' '{self.program}'")]
                ran = subprocess.run(words, env=self.environment(), capture_output=True, text=True, check=False, timeout=600)
                self.assertEqual((ran.returncode, ran.stderr), (status, text))

    def test_output_without_a_reader(self):
        """The reader goes before the run begins: one that goes later, as head, may come too late for a short text."""
        self.stand_in(TEXT_OF_HI * 3000 + TERMINATES.format(0))
        reader, writer = os.pipe()
        os.close(reader)
        words = [f"{KIT}/runner.py", str(self.program)]
        with open(writer, "wb") as out:
            ran = subprocess.run(words, env=self.environment(), stdout=out, stderr=subprocess.PIPE, text=True, check=False, timeout=600)
        self.assertEqual((ran.returncode, ran.stderr), (4, "xous runner: standard output: its reader has gone; the rest isn't written\n"))


class Cargo(Case):
    """The script looks for each package that it needs, in this order."""

    def setUp(self):
        super().setUp()
        self.root, self.commands = self.folder / "root", self.folder / "commands"
        self.commands.mkdir()
        for name in ("dirname", "find", "mkdir", "cat", "sh"):
            (self.commands / name).symlink_to(shutil.which(name))

    def command(self, path, body):
        path.parent.mkdir(parents=True, exist_ok=True)
        path.write_text(f"#!/bin/sh\n{body}\n")
        path.chmod(0o755)

    def said(self):
        environment = {"PATH": str(self.commands), "RUST_ROOT": str(self.root), "PYTHONPATH": str(self.folder / "hidden"), "HOME": str(self.folder)}
        ran = subprocess.run([KIT / "cargo", "run"], env=environment, cwd=self.folder, capture_output=True, text=True, check=False)
        self.assertEqual((ran.returncode, ran.stdout, ran.stderr.count("\n")), (1, "", 1), ran.stderr)
        return ran.stderr

    def test_packages_that_are_missing(self):
        usr = self.root / "usr"
        library = usr / "lib" / "rustlib" / "src" / "rust" / "library"
        self.assertIn(f"RUST_ROOT={self.root}: has no folder usr; examples/README.md says how to make it", self.said())
        usr.mkdir(parents=True)
        self.assertIn(f"{usr}/bin/cargo is missing: apt-get install cargo-web", self.said())
        self.command(usr / "bin" / "cargo", "exit 0")
        self.assertIn(f"{usr}/bin/rustc is missing: apt-get install rustc-web", self.said())
        self.command(usr / "bin" / "rustc", f"echo {usr}")
        self.assertIn(f"{library} is missing: apt-get install rust-web-src", self.said())
        (library / "std").mkdir(parents=True)
        self.assertIn("ld.lld is missing: apt-get install lld", self.said())
        self.command(self.commands / "ld.lld", "exit 0")
        hidden = pathlib.Path(self.folder, "hidden", "elftools")
        hidden.mkdir(parents=True)
        (hidden / "__init__.py").write_text('raise ImportError("hidden")\n')
        self.assertIn("pyelftools of /usr/bin/python3 is missing: apt-get install python3-pyelftools", self.said())
