"""xous-try: which words it gives to rt, what it says, and what it ends with, over a stand-in for rt. test_readme.py runs it over rt itself."""

import os
import subprocess

from .frame import ROOT, Case

TRY = ROOT / "tools" / "xous-try"
# Notes its folder and words, and what the first file has that it is given.
RT = """#!/bin/sh
pwd
for word; do echo "$word"; done
case $3 in *=*) cat "${3#*=}" ;; esac
echo "interpreter: no-answer: a call" >&2
"""
ENDED = "echo 'step limit 5' >&2; echo 'checked: ended status=7' >&2; echo 'run=ended status=7 runners=1 proved=no' >&2; exit 7\n"
UNANSWERED = "echo 'checked: no-answer: the time limit' >&2; echo 'run=no-answer proved=no' >&2; exit 2\n"


class StandIn(Case):
    def setUp(self):
        super().setUp()
        self.write("image", "an image\n")
        self.write("events", "tick 1\n")

    def write(self, name, text):
        (self.folder / name).write_text(text)

    def start(self, *words, ends=ENDED, path=None):
        self.write("rt", RT + ends)
        (self.folder / "rt").chmod(0o755)
        env = {**os.environ, "PATH": path or f"{self.folder}:{os.environ['PATH']}"}
        return subprocess.run([TRY, *words], cwd=self.folder, env=env, capture_output=True, text=True, check=False)

    def words(self, *words):
        """The words that rt got, without the first, `try`."""
        return self.start(*words).stdout.splitlines()[2:]

    def test_files_by_name(self):
        folder = os.path.realpath(self.folder)
        files = ["--data", f"file-1={folder}/image", "--data", f"file-2={folder}/events", "--"]
        found = self.start("trace", "image", "events", "9")
        self.assertEqual(found.stdout.splitlines()[0], str(ROOT / "crates" / "xousim"))
        self.assertEqual(self.words("trace", "image", "events", "9"), [*files, "trace", "file-1", "file-2", "9", "an image"])
        self.assertEqual(self.words("check", "image", "8"), [*files[:2], "--", "check", "file-1", "8", "an image"])
        self.assertEqual(self.words("run", "image", "image"), [*files[:2], "--", "run", "file-1", "file-1", "an image"])
        self.assertEqual(self.words("ledger", "image", "events", "9", "4", "store")[-3:], ["4", "file-3", "an image"])
        self.assertEqual(self.words("demo", "3"), ["--", "demo", "3"])
        self.assertEqual(self.words(), ["--"])

    def test_a_file_that_is_missing(self):
        self.assertEqual(self.words("check", "../none"), ["--", "check", "file-1"])
        self.assertEqual(self.words("check", "."), ["--", "check", "file-1"])

    def test_a_pipe(self):
        os.mkfifo(self.folder / "pipe")
        with subprocess.Popen(["sh", "-c", "echo of a pipe >pipe"], cwd=self.folder):
            self.assertEqual(self.words("check", "pipe")[-1], "of a pipe")

    def test_status_and_notes(self):
        found = self.start("trace", "image", "events")
        self.assertEqual(found.returncode, 7)
        first, *rest = found.stderr.splitlines()
        self.assertIn("NOT PROVED", first)
        self.assertIn("50,000 steps a second", first)
        self.assertEqual(rest, ["step limit 5"])

    def test_no_answer(self):
        found = self.start("trace", "image", "events", ends=UNANSWERED)
        self.assertEqual(found.returncode, 126)
        self.assertEqual(found.stderr.splitlines()[1:-1], ["checked: no-answer: the time limit"])
        self.assertIn("60 seconds", found.stderr.splitlines()[-1])
        self.assertIn("./xousim", found.stderr.splitlines()[-1])

    def test_without_rt(self):
        empty = self.folder / "empty"
        empty.mkdir()
        found = self.start("demo", "3", path=str(empty))
        self.assertEqual((found.returncode, found.stdout), (127, ""))
        self.assertIn("command not found: rt", found.stderr)

    def test_help(self):
        found = self.start("--help")
        self.assertEqual((found.returncode, found.stderr), (0, ""))
        self.assertIn("xous-try WORD ..", found.stdout)
