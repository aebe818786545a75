"""Lines of the source, whatever compiler and linker wrote them: clang's DWARF 5, a program without .debug_aranges, each addr2line."""

import shutil
import subprocess
from unittest import mock

from xous.programs import lines, symbols

from . import test_kit as kit
from .frame import COMPILER, GIVEN, Case, need

STORES = """#include "xous_short.h"

static __attribute__((noinline)) void store(word *page)
{
    page[5] = 7; /* store */
}

int main(void)
{
    word *volatile place = (word *)0x20000000;

    store(place);
    return 0;
}
"""
OBJCOPY = "riscv64-unknown-elf-objcopy"


def line_of(comment):
    return next(number for number, line in enumerate(STORES.splitlines(), 1) if f"/* {comment} */" in line)


def sections(path):
    """The names of the sections of a program, and the version of its first unit of DWARF."""
    from elftools.elf.elffile import ELFFile

    with open(path, "rb") as file:
        elf = ELFFile(file)
        units = elf.get_dwarf_info().iter_CUs()
        return {section.name for section in elf.iter_sections()}, max(unit["version"] for unit in units)


class Lines(Case):
    def setUp(self):
        super().setUp()
        need("make", COMPILER, OBJCOPY, "riscv64-unknown-elf-addr2line", "elftools")

    def made(self, *words, line=""):
        """The folder of a program that stores where it has no page."""
        made, status, said = kit.new(self.folder, "stores")
        self.assertEqual(status, 0, said)
        (made / "stores.c").write_text(STORES)
        with open(made / "Makefile", "a", encoding="ascii") as file:
            file.write(f"\n{line}\n")
        status, said = kit.make(made, *words)
        self.assertEqual(status, 0, said)
        return made

    def fault_of(self, path):
        """The address of the instruction that stores."""
        told = subprocess.run(["riscv64-unknown-elf-objdump", "-d", path], capture_output=True, text=True, check=True).stdout
        body = told.split("<store>:\n")[1].split("\n\n")[0]
        return next(int(line.split(":")[0], 16) for line in body.splitlines() if "\tsw\t" in line)

    def assert_lines(self, made, path):
        address, wanted = self.fault_of(path), f"stores.c:{line_of('store')}"
        transcript = made / "transcript"
        transcript.write_text(f"9 2.2 fault 3 {address:08x}\n9 2 gone\nend 9 done\n")
        ran = self.tool("xous-view", "--elf", f"2={path}", transcript)
        self.assertIn(f"{address:x} <store+{address - self.start_of(path):x} {wanted}>\n", ran.stdout, ran.stderr)
        if GIVEN.program:
            ran = self.tool("xous-where", made / "stores.img", made / "events", "--fault", "--elf", f"2={path}")
            self.assertIn(f"2.2 in store at {wanted} (pc {address:08x})\n", ran.stdout, ran.stderr)

    def start_of(self, path):
        program = symbols.Program(str(path))
        self.addCleanup(program.close)
        return program.symbol("store")[0]

    def test_checks(self):
        """Two checks of a function keep lines of their own, whatever the compiler makes one of elsewhere."""
        need("clang", "ld.lld")
        for words in ([], ["CC=clang"]):
            made, _, _ = kit.new(self.folder / f"checks{len(words)}", "two", "volatile word one = 1;\n check(one == 1);\n check(one == 2);\n check(one == 3);\n")
            status, said = kit.make(made, *words)
            self.assertEqual(status, 0, said)
            told = subprocess.run(["riscv64-unknown-elf-objdump", "-d", made / "out" / "two.elf"], capture_output=True, text=True, check=True).stdout
            program = symbols.Program(str(made / "out" / "two.elf"))
            self.addCleanup(program.close)
            calls = [int(line.split(":")[0], 16) for line in told.splitlines() if line.endswith("ecall")]
            found = {program.spot(address).line for address in calls if program.spot(address).file == "two.c"}
            lines = (made / "two.c").read_text().splitlines()
            self.assertEqual(found, {number for number, line in enumerate(lines, 1) if "check(" in line}, words)

    def test_clang(self):
        need("clang", "ld.lld")
        made = self.made("CC=clang", line="out/stores.elf: CFLAGS += -gdwarf-5")
        path = made / "out" / "stores.elf"
        self.assertEqual(sections(path)[1], 5)
        self.assert_lines(made, path)

    def test_without_aranges(self):
        made = self.made()
        path, bare = made / "out" / "stores.elf", made / "out" / "bare.elf"
        subprocess.run([OBJCOPY, "--remove-section", ".debug_aranges", path, bare], check=True)
        self.assertIn(".debug_aranges", sections(path)[0])
        self.assertNotIn(".debug_aranges", sections(bare)[0])
        self.assert_lines(made, bare)

    def test_each_addr2line(self):
        """Each one that is here gives the same lines, by its answers to one question after another."""
        path = self.made() / "out" / "stores.elf"
        address = self.fault_of(path)
        found = [name for name in lines.TOOLS if shutil.which(name)]
        for name in found:
            with self.subTest(name), mock.patch.object(lines, "TOOLS", (name,)):
                program = symbols.Program(str(path))
                self.addCleanup(program.close)
                told = [str(program.spot(place)) for place in (address, 0x2000_0000, address)]
                wanted = f"store at stores.c:{line_of('store')}"
                self.assertEqual(told, [wanted, "20000000", wanted])

    def test_without_addr2line(self):
        """Functions are told, and once what brings the lines."""
        made = self.made()
        path, commands = made / "out" / "stores.elf", self.folder / "commands"
        commands.mkdir()
        (made / "transcript").write_text(f"9 2.2 fault 3 {self.fault_of(path):08x}\n" * 2)
        ran = self.tool("xous-view", "--elf", f"2={path}", made / "transcript", env={"PATH": str(commands)})
        self.assertIn("<store+", ran.stdout)
        self.assertIn("addr2line is missing, so no lines of the source are shown: apt-get install binutils-riscv64-unknown-elf", ran.stderr)
        self.assertEqual((ran.returncode, ran.stderr.count("\n")), (0, 1), ran.stderr)


class Missing(Case):
    def test_pyelftools(self):
        """A tool that reads programs says which package brings its library."""
        hidden = self.folder / "hidden" / "elftools"
        hidden.mkdir(parents=True)
        (hidden / "__init__.py").write_text('raise ImportError("hidden")\n')
        (self.folder / "a.elf").write_bytes(b"\x7fELF\1\1\1")
        env = {"PYTHONPATH": str(hidden.parent)}
        for words in (("xous-image", self.folder / "a.img", self.folder / "a.elf"), ("xous-view", "--elf", f"2={self.folder}/a.elf")):
            ran = self.tool(*words, env=env, stdin=subprocess.DEVNULL)
            self.assertRegex(ran.stderr, r"^\S+: pyelftools is missing for /usr/bin/python3[.0-9]*: apt-get install python3-pyelftools\n$")
            self.assertEqual((ran.returncode, ran.stdout), (1, ""))

    def test_compilers(self):
        """make says which package brings the compiler, the linker or the library."""
        need("make")
        commands = self.folder / "commands"
        commands.mkdir()
        for name in ("make", "sh", "mkdir", "rm"):
            (commands / name).symlink_to(shutil.which(name))
        made, _, _ = kit.new(self.folder, "mine")
        for words, text in (
            ([], "riscv64-unknown-elf-gcc is missing: apt-get install gcc-riscv64-unknown-elf, or set CC"),
            (["CC=clang"], "clang is missing: apt-get install clang lld"),
            (["CC=other"], "other is missing: apt-get install gcc-riscv64-unknown-elf, or set CC"),
            (["CC=true", "GCC=riscv64-none-gcc"], "riscv64-none-gcc is missing: apt-get install gcc-riscv64-unknown-elf"),
        ):
            with self.subTest(words):
                if "CC=true" in words:
                    (commands / "true").symlink_to(shutil.which("true"))
                ran = subprocess.run(["make", *words], cwd=made, env={"PATH": str(commands)}, capture_output=True, text=True, check=False)
                self.assertIn(text, ran.stdout + ran.stderr)
                self.assertNotEqual(ran.returncode, 0)

