"""The launchers xousim and xousorders, over a checkout whose command rt is a stand-in."""

import os
import pathlib
import re
import shutil
import signal
import subprocess
import tempfile
import time
import unittest

from .frame import heed_interrupts

TOP = pathlib.Path(__file__).resolve().parents[2]
FAR = 2**31 - 9
# What rt builds: a program that prints its usage line if it has no words.
PROGRAM = '''#!/bin/sh
[ $# -gt 0 ] || { echo "usage: xousim COMMAND" >&2; exit 2; }
echo "TEXT $*"
'''
FIRST_TIME = re.search('^first_time="(.*)"$', (TOP / "xousim").read_text(), re.M)[1]
# Stand-ins for rt, which runs in the program's folder and has its words `run`.
GOOD = """echo 'crate base: proved'; echo 'crate xousim: proved'
mkdir -p out && cp "$STANDIN/built" out/xousim && chmod 755 out/xousim
out/xousim"""
STOPS = "echo 'rt: crates.txt names a missing crate'; mkdir -p out; : >out/xousim; chmod 755 out/xousim; exit 2"
JUDGES_NOTHING = "echo 'rt: crates.txt names a missing crate'; exit 2"
FAILS = "echo 'crate base: an open goal'; exit 1"
SLOW = f"echo called >>\"$STANDIN/calls\"; until [ -e \"$STANDIN/go\" ]; do sleep 0.1; done; {GOOD}"
ENDLESS = "echo started >>\"$STANDIN/calls\"; exec sleep 600"
OTHER_PROGRAM = "mkdir -p out; printf '#!/bin/sh\\nexit 2\\n' >out/xousim; chmod 755 out/xousim; out/xousim; exit 2"


class Checkout:
    """A folder as a checkout is; its commands rt and find note that they were called."""

    def __init__(self, folder):
        self.top, self.commands = pathlib.Path(folder, "check out"), pathlib.Path(folder, "commands")
        self.logs = pathlib.Path(folder, "logs")
        for made in (self.top, self.commands, self.logs):
            made.mkdir()
        for name in ("xousim", "VERSION"):
            shutil.copy(TOP / name, self.top / name)
        shutil.copytree(TOP / "tools" / "help", self.top / "tools" / "help")
        (self.top / "xousorders").symlink_to("xousim")
        self.write("crates.txt", 100, "base:\nxousim: base\nxousorders: base\n")
        self.write(".git/index", 100)
        for name in ("crates/base/src/lib.rt", "crates/xousim/src/main.rt", "crates/xousim/src/tests/examples.rt"):
            self.write(name, 100)
        self.built = self.commands / "built"
        self.built.write_text(PROGRAM.replace("TEXT", "played"))
        self.program = self.top / "crates/xousim/out/xousim"
        self.command("find", f'echo look >>"$STANDIN/looks"; exec {shutil.which("find")} "$@"')
        self.rt(GOOD)

    def write(self, name, seconds, text=""):
        path = self.top / name
        path.parent.mkdir(parents=True, exist_ok=True)
        path.write_text(text)
        os.utime(path, (seconds, seconds))

    def command(self, name, body):
        path = self.commands / name
        path.write_text(f"#!/bin/sh\n{body}\n")
        path.chmod(0o755)

    def rt(self, body):
        self.command("rt", f'echo "rt $*" >>"$STANDIN/starts"\n{body}')

    def has_built(self, text, seconds=200):
        """A program that stands there already."""
        self.program.parent.mkdir(parents=True, exist_ok=True)
        self.program.write_text(PROGRAM.replace("TEXT", text))
        self.program.chmod(0o755)
        os.utime(self.program, (seconds, seconds))

    def environment(self, path=None):
        return {"PATH": path or f"{self.commands}:{os.environ['PATH']}", "STANDIN": str(self.commands), "TMPDIR": str(self.logs)}

    def begin(self, *words, name="xousim", **how):
        pipes = {"stdout": subprocess.PIPE, "stderr": subprocess.PIPE}
        return subprocess.Popen([self.top / name, *words], env=self.environment(), text=True, **pipes, **how)

    def start(self, *words, name="xousim", path=None):
        """The status, what was written, and what was said."""
        given = words or ("check", "an image")
        run = subprocess.run([self.top / name, *given], env=self.environment(path), capture_output=True, text=True, check=False)
        return run.returncode, run.stdout, run.stderr

    def count(self, name):
        """How often something was called since this was asked last."""
        path = self.commands / name
        lines = len(path.read_text().splitlines()) if path.exists() else 0
        path.unlink(missing_ok=True)
        return lines

    def left(self):
        return sorted(os.listdir(self.logs))


class Launcher(unittest.TestCase):
    def setUp(self):
        self.folder = tempfile.TemporaryDirectory()
        self.addCleanup(self.folder.cleanup)
        self.tree = Checkout(self.folder.name)

    def assert_played(self, text="played"):
        self.assertEqual(self.tree.start(), (0, f"{text} check an image\n", ""))

    # Starts of a program that is there.

    def test_looks_at_sources_once(self):
        self.tree.has_built("kept")
        self.assert_played("kept")
        self.assertEqual(self.tree.count("looks"), 1)
        self.assert_played("kept")
        self.assertEqual((self.tree.count("looks"), self.tree.count("starts")), (0, 0))

    def test_links(self):
        self.tree.has_built("kept")
        for place, target in (("link", "xousim"), ("second", "link")):
            (self.tree.top / place).symlink_to(target)
            status, out, _ = self.tree.start("words", name=place)
            self.assertEqual((status, out), (0, "kept words\n"))
        (self.tree.top / "search").symlink_to("xousorders")
        self.assertIn("usage: xousorders IMAGE", self.tree.start("--help", name="search")[1])

    def test_newer_test_isnt_proved(self):
        self.tree.has_built("kept")
        self.tree.write("crates/xousim/src/tests/examples.rt", FAR)
        self.assert_played("kept")

    def test_program_without_right_to_execute(self):
        self.tree.has_built("kept")
        self.tree.program.chmod(0o644)
        self.assert_played("kept")

    def test_help_and_version_build_nothing(self):
        for name in ("xousim", "xousorders"):
            status, out, said = self.tree.start("--help", name=name)
            self.assertEqual((status, said), (0, ""))
            self.assertTrue(out.startswith(f"usage: {name} ") and "event fault at line N" in out)
            self.assertIn(f"which takes {FIRST_TIME}. tools/xous-try", out)
            version = (TOP / "VERSION").read_text()
            self.assertEqual(self.tree.start("--version", name=name), (0, f"{name} {version}", ""))
        self.assertEqual(self.tree.count("starts"), 0)

    # Builds.

    def test_newer_source_is_built(self):
        self.tree.has_built("kept")
        self.tree.write("crates/base/src/lib.rt", 300)
        status, out, said = self.tree.start()
        self.assertEqual((status, out), (0, "played check an image\n"))
        self.assertIn("xousim: 1 of 2: base\nxousim: 2 of 2: xousim\n", said)
        self.assertEqual(self.tree.left(), [])
        self.tree.count("starts")
        self.assert_played()
        self.assertEqual(self.tree.count("starts"), 0)

    def test_first_look_is_named_before_a_build(self):
        """A start that builds says how long that takes, and what gives a first look. It never takes an unproved build by itself."""
        _, _, said = self.tree.start()
        sentence = (
            f"xousim: proving and building 2 crates, which takes {FIRST_TIME} the first time; for a first look without a proof, "
            "tools/xous-try runs a command of xousim in a minute or two"
        )
        self.assertEqual(said.splitlines()[0], sentence)
        self.tree.program.unlink()
        self.tree.rt(FAILS)
        self.assert_refused("an open goal")
        self.assertEqual((self.tree.commands / "starts").read_text(), "rt run\nrt run\n")

    def test_kept_program_is_not_touched(self):
        """rt leaves a program that doesn't change as it is: its time stays, and it isn't built again."""
        self.tree.has_built("kept")
        self.tree.rt("echo 'crate base: proved'; out/xousim")
        self.tree.write("crates/base/src/lib.rt", 300)
        self.assertEqual(self.tree.start()[:2], (0, "kept check an image\n"))
        self.assertEqual(self.tree.program.stat().st_mtime, 200)
        self.tree.write(".git/index", FAR)
        self.tree.count("starts")
        self.assert_played("kept")
        self.assertEqual(self.tree.count("starts"), 0)

    def test_source_that_changes_meanwhile(self):
        self.tree.rt(f'touch "{self.tree.top}/crates/base/src/lib.rt"; {GOOD}')
        self.assertEqual(self.tree.start()[0], 0)
        self.tree.rt(GOOD)
        self.tree.write(".git/index", FAR)
        self.tree.count("starts")
        self.assertEqual(self.tree.start()[0], 0)
        self.assertEqual(self.tree.count("starts"), 1)

    def assert_refused(self, text):
        status, out, said = self.tree.start()
        self.assertEqual((status, out), (126, ""))
        self.assertIn(text, said)
        self.assertIn("xousim: the build failed, and no program is started", said)
        log = said.strip().rsplit(" ", 1)[1]
        self.assertIn(text, pathlib.Path(log).read_text())
        pathlib.Path(log).unlink()
        self.assertEqual(self.tree.left(), [])

    def test_failed_builds_are_refused(self):
        for body, text in (
            (STOPS, "names a missing crate"),
            (JUDGES_NOTHING, "names a missing crate"),
            (FAILS, "an open goal"),
            (OTHER_PROGRAM, "rt ended with 2"),
        ):
            for is_there in (False, True):
                with self.subTest(body=body, is_there=is_there):
                    self.tree.program.unlink(missing_ok=True)
                    if is_there:
                        self.tree.has_built("older")
                        self.tree.write("crates/base/src/lib.rt", 300)
                    self.tree.rt(body)
                    self.assert_refused(text)
                    self.assert_refused(text)

    def test_good_build_after_failed_one(self):
        self.tree.has_built("older")
        self.tree.write("crates/base/src/lib.rt", 300)
        self.tree.rt(STOPS)
        self.assert_refused("names a missing crate")
        self.tree.rt(GOOD)
        self.assertEqual(self.tree.start()[:2], (0, "played check an image\n"))
        self.assert_played()

    def test_emptied_program_is_built_anew(self):
        self.tree.has_built("kept")
        self.assert_played("kept")
        self.tree.program.write_text("")
        self.assertEqual(self.tree.start()[:2], (0, "played check an image\n"))

    def test_rt_is_missing(self):
        bare = pathlib.Path(self.folder.name, "bare")
        bare.mkdir()
        for name in ("sh", "find", "head", "dirname", "cat", "cksum", "flock"):
            (bare / name).symlink_to(shutil.which(name))
        status, _, said = self.tree.start(path=str(bare))
        self.assertEqual(status, 127)
        self.assertIn("command not found: rt (Rattle kit). See README.md", said)

    def test_words_of_input_stay(self):
        """rt takes nothing of the standard input."""
        self.tree.rt(f"cat >/dev/null; {GOOD}")
        self.tree.built.write_text(PROGRAM.replace('echo "TEXT $*"', "cat"))
        run = subprocess.run([self.tree.top / "xousim", "-"], env=self.tree.environment(), input="text", capture_output=True, text=True, check=False)
        self.assertEqual((run.returncode, run.stdout), (0, "text"))

    # Several starts, and ends in the middle.

    def wait_for(self, name):
        end = time.monotonic() + 300
        while not (self.tree.commands / name).exists():
            self.assertLess(time.monotonic(), end, f"no file {name}")
            time.sleep(0.02)

    def test_two_starts_build_once(self):
        self.tree.rt(SLOW)
        first = self.tree.begin("one")
        self.wait_for("calls")
        second = self.tree.begin("two")
        with first, second:
            said = second.stderr.readline()
            (self.tree.commands / "go").touch()
            self.assertIn("another start is building; this one waits for its end", said)
            self.assertEqual([start.stdout.read() for start in (first, second)], ["played one\n", "played two\n"])
        self.assertEqual((self.tree.count("calls"), self.tree.left()), (1, []))

    def test_interrupt_leaves_no_log(self):
        self.tree.rt(ENDLESS)
        for number in (signal.SIGINT, signal.SIGTERM):
            with self.subTest(number=number):
                start = self.tree.begin("one", start_new_session=True, preexec_fn=heed_interrupts)
                self.wait_for("calls")
                os.killpg(start.pid, number)
                start.communicate(timeout=300)
                self.assertNotEqual(start.returncode, 0)
                self.assertEqual((self.tree.count("calls"), self.tree.left()), (1, []))
        self.tree.rt(GOOD)
        self.assertEqual(self.tree.start()[:2], (0, "played check an image\n"))
