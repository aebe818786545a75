"""Repositories with files of this one whose gate is told to have passed, and a release that is made of one.

If no programs are given, a release is made of stand-ins, and no command of it can be played.
"""

import functools
import os
import pathlib
import shutil
import subprocess
import tempfile

from .frame import GIVEN, ROOT, need

PROGRAMS = ("xousim", "xousorders")
KIT = "a kit of tests"
PASSED = "xk_base: its tests passed\n7 passed, 0 failed\n"
OLD, NEW = 1_000_000_000, 1_000_000_100


def is_copied(name):
    """Sources are no part of a release, and a tree of tests has two of its own."""
    return not name.startswith(("bench/", "crates/")) or name.startswith("crates/xousim/data/")


def all_files():
    words = ["git", "ls-files", "--cached", "--others", "--exclude-standard"]
    names = subprocess.run(words, cwd=ROOT, capture_output=True, text=True, check=True).stdout.splitlines()
    return [name for name in names if is_copied(name) and (ROOT / name).exists()]


class Tree:
    """A repository with files of this one, whose gate is told to have passed: the programs are stand-ins, or those that are given."""

    def __init__(self, top, names):
        self.top, self.commands = pathlib.Path(top, "tree"), pathlib.Path(top, "commands")
        for name in names:
            source, target = ROOT / name, self.top / name
            target.parent.mkdir(parents=True, exist_ok=True)
            shutil.copy(source, target, follow_symlinks=False)
        self.write("crates/low/src/lib.rt", "// low\n")
        self.write("crates.txt", "low:\n")
        self.commands.mkdir()
        (self.commands / "rt").write_text(f"#!/bin/sh\necho '{KIT}'\n")
        (self.commands / "rt").chmod(0o755)
        dates = {f"GIT_{who}_DATE": f"{OLD} +0000" for who in ("AUTHOR", "COMMITTER")}
        self.env = {**os.environ, **dates, "PATH": f"{self.commands}:{os.environ['PATH']}"}
        self.git("init", "-q", "-b", "main")
        self.commit("all")
        for path in self.top.rglob("*"):
            os.utime(path, (OLD, OLD), follow_symlinks=False)
        for name, given in zip(PROGRAMS, (GIVEN.program, GIVEN.searcher)):
            out = self.top / "crates" / name / "out"
            out.mkdir(parents=True)
            shutil.copyfile(given or "/bin/true", out / name)
            os.utime(out / name, (NEW, NEW))
        self.log = pathlib.Path(top, "log")
        self.log.write_text(PASSED)

    def program(self, name):
        return self.top / "crates" / name / "out" / name

    def write(self, name, text):
        path = self.top / name
        path.parent.mkdir(parents=True, exist_ok=True)
        path.write_text(text)

    def git(self, *words):
        words = ["git", "-c", "user.name=t", "-c", "user.email=t@t", *words]
        subprocess.run(words, cwd=self.top, env=self.env, check=True, capture_output=True)

    def commit(self, subject):
        self.git("add", "-A")
        self.git("commit", "-q", "-m", subject)

    def release(self, *words):
        """The status, and what is said."""
        run = subprocess.run([self.top / "tools" / "release", *words], env=self.env, capture_output=True, text=True, check=False)
        return run.returncode, run.stderr.strip()

    def keep(self):
        return self.release("--keep-gate", self.log)


class Installed:
    """A release's package, unpacked into a folder."""

    def __init__(self, deb, folder):
        subprocess.run(["dpkg", "-x", deb, folder], check=True)
        self.top = pathlib.Path(folder)

    def path(self, name):
        return self.top / "usr" / name

    def environment(self, home):
        """A fresh one, with the installed commands first."""
        return {"PATH": f"{self.path('bin')}:/usr/bin:/bin", "HOME": str(home), "TMPDIR": str(home), "LC_ALL": "C.UTF-8"}

    def run(self, words, home):
        """A shell's commands in a fresh home: status, output and what is said."""
        how = {"cwd": home, "env": self.environment(home), "capture_output": True, "text": True, "timeout": 3000}
        run = subprocess.run(["sh", "-ec", words], check=False, **how)
        return run.returncode, run.stdout, run.stderr


class Release:
    """A release of a tree with all files of this one except the sources."""

    def __init__(self):
        self.folder = tempfile.TemporaryDirectory(prefix="xous-test-release-")
        top = pathlib.Path(self.folder.name)
        top.chmod(0o755)
        self.made, self.tree = top / "made", Tree(top, all_files())
        status, said = self.tree.keep()
        if status == 0:
            status, said = self.tree.release(self.made)
        if status:
            raise AssertionError(said)
        self.version = (ROOT / "VERSION").read_text().strip()
        self.deb = self.made / f"xousim_{self.version}_amd64.deb"
        self.installed = Installed(self.deb, top / "unpacked")  # for tests that write nothing there


@functools.cache
def released():
    """The release that all tests share; its folder goes when they end."""
    need("git", "dpkg-deb", "readelf")
    return Release()
