"""What pylint and mypy say of the tools, by tools/pylintrc and tools/mypy.ini; --style asks for it."""

import subprocess

from .frame import ROOT, Case, need


class Style(Case):
    def run_on(self, *words):
        ran = subprocess.run(words, cwd=ROOT, capture_output=True, text=True, check=False, timeout=3000)
        self.assertEqual(ran.returncode, 0, ran.stdout + ran.stderr)

    def test_types(self):
        need("mypy")
        self.run_on("mypy", "--config-file", "tools/mypy.ini")

    def test_lint(self):
        need("pylint")
        self.run_on("pylint", "--rcfile", "tools/pylintrc", "tools/xous")
