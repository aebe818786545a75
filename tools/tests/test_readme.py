"""README's commands run as they are written, in each of its three ways to a first transcript."""

import pathlib
import re
import shutil
import subprocess
import tempfile
import textwrap
import unittest

from .frame import COMPILER, ROOT, need, need_program
from .trees import Installed, Tree, all_files, released

README = (ROOT / "README.md").read_text()
BLOCKS = [textwrap.dedent(block) for block in re.findall(r"(?:^    .*\n)+", README, re.M)]
FIRST_LOOK = [block for block in BLOCKS if block.startswith("tools/xous-try ")]
# A first transcript, and a program of one's own.
COMMANDS = [block for block in BLOCKS if re.match(r"\./xous|tools/xous-(?!try)|make ", block)]
# What README says that both ways from a clone print.
SHOWN = next(block for block in BLOCKS if block.endswith("end 100 done\n"))


def run(words, folder, env=None):
    ran = subprocess.run(["sh", "-ec", words], cwd=folder, env=env, capture_output=True, text=True, check=False, timeout=3000)
    if ran.returncode:
        raise AssertionError(ran.stdout + ran.stderr)
    return ran.stdout


class Readme(unittest.TestCase):
    takes_long = True

    def setUp(self):
        folder = tempfile.TemporaryDirectory(prefix="xous-test-readme-")
        self.addCleanup(folder.cleanup)
        self.folder = pathlib.Path(folder.name)

    def hold(self, printed):
        first, own = printed
        self.assertEqual(first, SHOWN)
        self.assertIn(" 2.2 byte 68\n", own)  # the first letter of `hello`
        self.assertRegex(own, r"(?m)^end \d+ done$")

    def test_blocks(self):
        self.assertEqual([len(FIRST_LOOK), len(COMMANDS)], [1, 2])

    @unittest.skipUnless(shutil.which("rt"), "command not found: rt (the Rattle kit)")
    def test_a_first_look(self):
        self.assertEqual(run(FIRST_LOOK[0], ROOT), SHOWN)

    def test_the_proved_programs(self):
        """In a clone whose programs are built."""
        need_program()
        need("git", "make", COMPILER, "elftools")
        tree = Tree(self.folder, all_files())
        self.hold([run(block, tree.top, tree.env) for block in COMMANDS])

    def test_a_release(self):
        """In the installed folder that is laid out as a clone; and elsewhere, where `xousim` and the tools are commands."""
        need_program()
        need("make", COMPILER, "elftools")
        installed = Installed(released().deb, self.folder / "unpacked")
        top = installed.path("share/xousim")
        elsewhere = [re.sub(r"\./xous|tools/xous", "xous", block).replace(" crates/", f" {top}/crates/") for block in COMMANDS]
        for kind, blocks in (("inside", [f"cd {top}\n{block}" for block in COMMANDS]), ("elsewhere", elsewhere)):
            with self.subTest(kind):
                self.hold([self.run_installed(installed, block) for block in blocks])

    def run_installed(self, installed, words):
        status, out, said = installed.run(words, tempfile.mkdtemp(dir=self.folder))
        self.assertEqual(status, 0, out + said)
        return out
