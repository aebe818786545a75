"""Rust's tests of std, which tools/test-std builds and plays; they take hours, so --std asks for them."""

import subprocess

from .frame import TOOLS, Case, need_program


class Std(Case):
    def test_std(self):
        program = need_program()
        self.assertEqual(subprocess.run([TOOLS / "test-std", program], check=False).returncode, 0)
