"""A computer without the packages: what is left out is counted and named with its package, and nothing fails."""

import os
import pathlib
import re
import subprocess
import sys

from xous.commands.test import TESTS

from .frame import PACKAGES, TOOLS, Case

COMMANDS = [name for name in PACKAGES if name not in ("elftools", "hypothesis", "bash")]
OTHERS = ("riscv64-", "riscv32-", "llvm-", "clang", "gdb", "lldb", "chrom", "google-chrome", "python3-", "c++filt", "addr2line")
# Tests that need something; those alone that are quick without it.
NAMES = ("test_any_bytes", "test_assembled", "test_charts.Charts.test_p", "test_commands", "test_demangle", "test_gdb.Gdb", "test_kit.")
NAMES += ("test_lines", "test_lldb", "test_machines", "test_programs", "test_project.Projects", "test_readme", "test_release", "test_runner")
NAMES += ("test_shake.Shipped", "test_view.Command.test_s", "test_where", "test_why", "test_workflow")
HIDE = "import sys\nsys.path[:] = [each for each in sys.path if not each.endswith('dist-packages')]\n"


class Bare(Case):
    def setUp(self):
        super().setUp()
        self.commands, hidden = self.folder / "commands", self.folder / "hidden"
        for made in (self.commands, hidden):
            made.mkdir()
        (hidden / "sitecustomize.py").write_text(HIDE)
        for path in (each for folder in ("/usr/bin", "/bin") for each in pathlib.Path(folder).iterdir()):
            if path.name not in COMMANDS and not path.name.startswith(OTHERS) and not (self.commands / path.name).is_symlink():
                (self.commands / path.name).symlink_to(path)
        usual = {name: value for name, value in os.environ.items() if not name.startswith(("XOUS", "PYTHON"))}
        self.environment = {**usual, "PATH": str(self.commands), "PYTHONPATH": str(hidden)}

    def run_tool(self, name, *words, **more):
        how = {"env": {**self.environment, **more}, "capture_output": True, "text": True, "check": False, "timeout": 900}
        return subprocess.run([sys.executable, TOOLS / name, *words], **how)

    def test_tests(self):
        words = [word for name in NAMES for word in ("-k", f"tests.{name}")]
        ran = self.run_tool("test", *words)
        self.assertEqual(ran.returncode, 0, ran.stdout)
        lines = [line for line in ran.stdout.splitlines() if line.startswith("skipped ")]
        told = re.fullmatch(r"\d+ tests: 0 failed, (\d+) skipped", ran.stdout.splitlines()[-1])
        self.assertEqual(sum(int(line.split()[1].rstrip(":")) for line in lines), int(told[1]))
        packages = {word for line in lines for word in re.findall(r"apt-get install ([^(]*)", line)[0:1]}
        named = {word for text in packages for word in text.split()}
        for package in ("git", "make", "gcc-riscv64-unknown-elf", "python3-pyelftools", "python3-hypothesis", "llvm", "chromium", "binutils"):
            self.assertIn(package, named)
        self.assertEqual(self.run_tool("test", *words[:2], XOUS_TESTS="all").returncode, 1)

    def test_man_pages(self):
        """Their check needs no git and no other package."""
        ran = self.run_tool("make-man", "--check")
        self.assertEqual((ran.returncode, ran.stderr), (0, ""))
        self.assertRegex(ran.stdout, r"^0 of [1-9]\d* man pages can't be made\n$")

    def test_this_list_is_whole(self):
        """A test that needs a package is among those that are tried without."""
        for path in sorted(TESTS.glob("test_*.py")):
            if re.search(r"^ +need\(", path.read_text(), re.M):
                self.assertTrue(any(name.split(".")[0] == path.stem for name in NAMES) or path.stem in ("test_endings", "test_style"), path)
