"""What a service for continuous integration does with a project of xous-new: the commands of its workflow file, over a release.

The author has this clone. The file is played as it is, except for three things: what it has in /usr/share and /tmp is in a folder of the
test, apt-get installs nothing but the release, and the address of the release is that of a file.
"""

import os
import re
import subprocess

from .frame import COMPILER, EXAMPLES, GIVEN, TOOLS, Case, need, need_program, need_rust, need_searcher
from .trees import released

# Unpacks a package that is named as a file, and notes the names of all others.
APT_GET = """#!/bin/sh
[ "$1" = install ] || exit 0
shift
for word; do
    case $word in
    -*) ;;
    *.deb) dpkg -x "$word" "$TOP" ;;
    *) echo "$word" >>"$TOP/packages" ;;
    esac
done
"""
ADDRESS = "${{ vars.XOUSIM_DEB }}"


def run(words, folder, **env):
    ran = subprocess.run(["sh", "-ec", words], cwd=folder, env=env, stdout=subprocess.PIPE, stderr=subprocess.STDOUT, text=True, check=False, timeout=3000)
    return ran.returncode, ran.stdout


class Service:
    """A container in a folder."""

    def __init__(self, top):
        self.top, self.commands = top, top / "commands"
        for folder in (self.commands, top / "tmp"):
            folder.mkdir(parents=True)
        (self.commands / "apt-get").write_text(APT_GET)
        (self.commands / "apt-get").chmod(0o755)

    def packages(self):
        """Those of Debian that were asked for."""
        return set((self.top / "packages").read_text().split())

    def play(self, steps, clone, address):
        """The commands of the steps in turn, up to the first that fails: its status, and what they all print."""
        top, said = str(self.top), ""
        env = {"PATH": f"{self.commands}:{top}/usr/bin:/usr/bin:/bin", "HOME": top, "TMPDIR": top, "TOP": top, "LC_ALL": "C.UTF-8"}
        for step in (step for step in steps if "run" in step):
            given = {name: text.replace(ADDRESS, address) for name, text in step.get("env", {}).items()}
            status, printed = run(re.sub(r"(?<![\w.])/(tmp|usr/share)/", rf"{top}/\1/", step["run"]), clone, **env, **given)
            said += printed
            if status:
                return status, said
        return 0, said


class Workflow(Case):
    takes_long = True

    def setUp(self):
        super().setUp()
        need("git", "make", "curl", "elftools", "yaml")
        need_program()
        need_searcher()
        self.service, self.steps = Service(self.folder / "service"), None

    def author(self, words):
        """Commands of the author, who has a clone and its programs."""
        programs = {"XOUSIM": GIVEN.program, "XOUSORDERS": GIVEN.searcher, "HOME": str(self.folder)}
        status, said = run(words, self.folder, **{**os.environ, **programs})
        self.assertEqual(status, 0, said)

    def push(self, address=None):
        """The project is committed, and the service plays its clone: status, and what it prints."""
        import yaml  # pylint: disable=import-outside-toplevel

        git = "git -C mine -c user.name=t -c user.email=t@t"
        self.author(f"[ -e mine/.git ] || git init -q mine; {git} add -A; {git} commit -q --allow-empty -m change; rm -rf clone; git clone -q mine clone")
        clone = self.folder / "clone"
        self.steps = yaml.safe_load((clone / ".github" / "workflows" / "test.yml").read_text())["jobs"]["test"]["steps"]
        return self.service.play(self.steps, clone, f"file://{released().deb}" if address is None else address)

    def uploaded(self):
        """The folder that is kept of a test that failed."""
        return next(step["with"]["path"] for step in self.steps if step.get("if") == "failure()")

    def check(self, kind, source, events):
        """A project without its stored transcript, with it, and with another line on the console."""
        self.author(f"{TOOLS}/xous-new mine {kind}")
        status, said = self.push("")
        self.assertNotEqual(status, 0)
        self.assertIn("set this variable of the repository to the address of xousim_VERSION_amd64.deb", said)
        status, said = self.push()
        self.assertEqual(status, 2, said)
        self.assertIn("expected: no stored transcript; make it by `make expected`", said)
        self.author("make -s -C mine expected")
        status, said = self.push()
        self.assertEqual(status, 0, said)
        self.assertIn(f"the transcript of {events} is as stored\n", said)
        self.assertIn("1 ending in all orders", said)
        path = self.folder / "mine" / source
        path.write_text(path.read_text().replace("six times seven", "seven times six"))
        status, said = self.push()
        self.assertEqual(status, 2, said)
        self.assertRegex(said, rf"event file: {events}\n  why:      xous-why .*\n  chart:    xousim trace .* \| xous-view .*\n  debugger: gdb-multiarch .* \| xous-gdb ")
        self.assertTrue((self.folder / "clone" / events).exists())

    def test_a_project_in_c(self):
        need(COMPILER)
        self.check("--c", "mine.c", "events")
        self.assertEqual(self.uploaded(), "out/orders")
        self.assertEqual(self.service.packages(), {"ca-certificates", "curl", "make", "gcc-riscv64-unknown-elf"})

    def test_a_project_in_rust(self):
        """The kit of the release builds std, in three minutes of a processor."""
        need_rust()
        self.check("--rust", "src/main.rs", "target/xous/mine.events")
        self.assertEqual(self.uploaded(), "target/xous")
        named = re.search(r"^    apt-get install (.*)$", (EXAMPLES / "README.md").read_text(), re.M)[1]
        self.assertEqual(self.service.packages(), {"ca-certificates", "curl", "make", *named.split()})
