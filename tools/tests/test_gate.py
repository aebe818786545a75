"""The gate `.ci/run`, over stand-ins for rt and for the checks: what is left out is counted and named, and nothing fails silently."""

import os
import shutil
import subprocess

from .frame import ROOT, Case

CHECKS = ("examples/check", "tools/check-docs", "tools/test")
SKIPPING = "echo 'skipped 2: chromium missing (a, b)'; echo '9 tests: 0 failed, 2 skipped'"


class Gate(Case):
    def setUp(self):
        super().setUp()
        (self.folder / ".ci").mkdir()
        shutil.copy(ROOT / ".ci" / "run", self.folder / ".ci" / "run")
        self.script("bin/rt", 'echo "rt $*"')
        for name in CHECKS:
            self.script(name, f'echo "ran {name} $# words"')
        self.script("tools/test", f"echo ran tools/test $# words; {SKIPPING}")
        for name in ("xousim", "xousorders"):
            self.script(f"crates/{name}/out/{name}", "exit 2")

    def script(self, name, body):
        path = self.folder / name
        path.parent.mkdir(parents=True, exist_ok=True)
        path.write_text(f"#!/bin/sh\n{body}\n")
        path.chmod(0o755)

    def gate(self, **variables):
        environment = {"PATH": f"{self.folder}/bin:{os.environ['PATH']}", **variables}
        ran = subprocess.run([self.folder / ".ci" / "run"], env=environment, capture_output=True, text=True, check=False)
        return ran.returncode, ran.stdout.splitlines()

    def test_all_is_well(self):
        status, lines = self.gate()
        self.assertEqual(status, 0)
        self.assertEqual(lines[0], "rt ci")
        self.assertRegex(lines[1], r"^== rt ci took \d+ seconds by the clock, and \S+ \S+ of \d+ processors$")
        self.assertEqual([line for line in lines if line.startswith("ran ")], ["ran examples/check 1 words", "ran tools/check-docs 0 words", "ran tools/test 2 words"])
        self.assertEqual(lines[-3:], ["== left out: 2", "skipped 2: chromium missing (a, b)", lines[1]])

    def test_rt_fails(self):
        self.script("bin/rt", "exit 3")
        self.assertEqual(self.gate(), (3, []))

    def test_a_check_fails(self):
        for name in CHECKS:
            with self.subTest(name):
                self.script(name, "exit 1")
                self.assertEqual(self.gate()[0], 1)
                self.script(name, "exit 0")

    def test_no_program_is_left(self):
        for name in ("xousim", "xousorders"):
            for is_empty in (False, True):
                with self.subTest(name, is_empty=is_empty):
                    path = self.folder / "crates" / name / "out" / name
                    kept = path.read_bytes()
                    path.write_bytes(b"") if is_empty else path.unlink()
                    status, lines = self.gate()
                    self.assertEqual(status, 1)
                    self.assertIn(f"rt ci passed, and left no program at crates/{name}/out/{name}", lines)
                    path.write_bytes(kept)

    def test_program_without_right_to_execute(self):
        path = self.folder / "crates/xousim/out/xousim"
        path.chmod(0o644)
        self.assertEqual(self.gate()[0], 0)
        self.assertEqual(path.stat().st_mode & 0o777, 0o644)

    def test_skips_fail_by_the_variable(self):
        self.script("tools/test", f'[ "$XOUS_TESTS" != all ] || failed=1; {SKIPPING}; exit ${{failed:-0}}')
        self.assertEqual((self.gate()[0], self.gate(XOUS_TESTS="all")[0]), (0, 1))
