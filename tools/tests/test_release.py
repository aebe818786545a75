"""Releases: what makes none, and that what is made is the same twice, passes lintian, and works where it is unpacked.

If no programs are given, a release is made of stand-ins, and no command of it is played.
"""

import hashlib
import os
import pathlib
import subprocess
import tempfile
import unittest

from .frame import COMPILER, GDB, ROOT, need, need_program, need_searcher
from .trees import KIT, NEW, PASSED, PROGRAMS, Tree, all_files, released

RELEASE = [
    str(path.relative_to(ROOT))
    for folder in ("release", "commands", ".")
    for path in sorted((ROOT / "tools" / "xous" / folder).iterdir())
    if path.is_file()
]
FEW = ["VERSION", ".gitignore", "tools/release", *RELEASE]

class RefusedTrees(unittest.TestCase):
    """A tree whose gate didn't pass makes no release, and says why."""

    def setUp(self):
        need("git")
        folder = tempfile.TemporaryDirectory()
        self.addCleanup(folder.cleanup)
        self.tree, self.made = Tree(folder.name, FEW), pathlib.Path(folder.name, "made")

    def refuse(self, ended, *parts):
        status, said = ended
        self.assertEqual(status, 1, said)
        self.assertEqual(said.count("\n"), 0, said)
        for part in parts:
            self.assertIn(part, said)
        self.assertFalse(self.made.exists() and any(self.made.iterdir()))

    def refuse_release(self, *parts):
        self.refuse(self.tree.release(self.made), *parts, "run .ci/run")

    def test_no_program(self):
        self.assertEqual(self.tree.keep(), (0, ""))
        self.tree.program("xousorders").unlink()
        self.refuse_release("no proved program at crates/xousorders/out/xousorders")

    def test_an_empty_program(self):
        self.tree.program("xousim").write_bytes(b"")
        self.refuse(self.tree.keep(), "no proved program at crates/xousim/out/xousim")

    def test_a_program_older_than_a_source(self):
        self.assertEqual(self.tree.keep(), (0, ""))
        os.utime(self.tree.top / "crates/low/src/lib.rt", (NEW + 1, NEW + 1))
        self.refuse_release("crates/xousim/out/xousim is older than its source crates/low/src/lib.rt")

    def test_no_record(self):
        self.refuse_release("no gate has passed in this tree: crates/xousim/out/gate-passed is missing")

    def test_a_gate_that_failed(self):
        for log, last in (
            ("6 passed, 1 failed\n", "6 passed, 1 failed"),
            ("3 passed, 0 failed (low and the crates below alone: not the gate)\n", "not the gate"),
            ("0 passed, 0 failed\n", "0 passed"),
            (PASSED + "rt: killed\n", "rt: killed"),
            ("", "its last line is ''"),
        ):
            with self.subTest(log):
                self.tree.log.write_text(log)
                self.refuse(self.tree.keep(), "the gate didn't pass", last)
        self.tree.log.unlink()
        self.refuse(self.tree.keep(), "No such file or directory")
        self.refuse_release("no gate has passed")

    def test_a_tree_that_was_changed(self):
        self.assertEqual(self.tree.keep(), (0, ""))
        self.tree.write("VERSION", "1.0.0\n")
        self.refuse_release("VERSION differs from the commit")

    def test_another_commit(self):
        self.assertEqual(self.tree.keep(), (0, ""))
        self.tree.write("VERSION", "1.0.0\n")
        self.tree.commit("another version")
        self.refuse_release("the gate passed commit", "and the tree has")

    def test_another_program(self):
        self.assertEqual(self.tree.keep(), (0, ""))
        self.tree.program("xousim").write_bytes(b"another")
        self.refuse_release("crates/xousim/out/xousim isn't the program that passed the gate")

    def test_a_program_built_after_the_log(self):
        os.utime(self.tree.log, (NEW - 1, NEW - 1))
        self.refuse(self.tree.keep(), "crates/xousim/out/xousim is newer than the log")

    def test_a_broken_record(self):
        self.assertEqual(self.tree.keep(), (0, ""))
        self.tree.write("crates/xousim/out/gate-passed", "commit 1\n")
        self.refuse_release("is no record of a gate that passed")


# What `rt ci` does, as far as a gate sees it: it empties the folders of programs, and builds these anew.
RT_CI = """#!/bin/sh
[ "$1" = ci ] || { echo 'a kit of tests'; exit; }
rm -rf crates/*/out
for name in xousim xousorders; do
    mkdir -p crates/$name/out && cp /bin/true crates/$name/out/$name
done
echo '7 passed, %s failed'
exit %s
"""


class Gates(unittest.TestCase):
    """.ci/run keeps the record of a gate that passed, and of no other."""

    def setUp(self):
        need("git")
        folder = tempfile.TemporaryDirectory()
        self.addCleanup(folder.cleanup)
        self.tree = Tree(folder.name, [*FEW, ".ci/run"])
        for name in ("tools/check-docs", "tools/test", "examples/check"):
            self.tree.write(name, "#!/bin/sh\necho '1 tests: 0 failed, 0 skipped'\n")
            (self.tree.top / name).chmod(0o755)
        self.tree.commit("checks")

    def run_gate(self, failed):
        (self.tree.commands / "rt").write_text(RT_CI % (failed, failed))
        run = subprocess.run([self.tree.top / ".ci" / "run"], env=self.tree.env, capture_output=True, text=True, check=False)
        return run.returncode, run.stdout + run.stderr

    def record(self):
        return self.tree.top / "crates" / "xousim" / "out" / "gate-passed"

    def test_a_gate_that_passes(self):
        status, said = self.run_gate(0)
        self.assertEqual(status, 0, said)
        self.assertIn(f"kit {KIT}\ngate 7 passed, 0 failed\nsha256 ", self.record().read_text())

    def test_a_gate_that_fails_after_one_that_passed(self):
        self.run_gate(0)
        status, said = self.run_gate(1)
        self.assertEqual(status, 1, said)
        self.assertFalse(self.record().exists())

    def test_a_tree_that_was_changed(self):
        self.tree.write("VERSION", "1.0.0\n")
        status, said = self.run_gate(0)
        self.assertEqual(status, 0, said)
        self.assertIn("VERSION differs from the commit", said)
        self.assertFalse(self.record().exists())

    def test_a_check_that_fails(self):
        self.tree.write("examples/check", "#!/bin/sh\nexit 1\n")
        self.tree.commit("a check that fails")
        status, said = self.run_gate(0)
        self.assertEqual(status, 1, said)
        self.assertFalse(self.record().exists())


class Releases(unittest.TestCase):
    """A release of a tree with all files of this one, except the sources."""

    takes_long = True

    @classmethod
    def setUpClass(cls):
        cls.release = released()
        cls.made, cls.tree, cls.version, cls.deb = cls.release.made, cls.release.tree, cls.release.version, cls.release.deb

    def installed(self, path):
        return self.release.installed.path(path)

    def run_installed(self, words, folder):
        status, out, said = self.release.installed.run(words, folder)
        self.assertEqual(status, 0, out + said)
        return out

    def fresh(self):
        folder = tempfile.TemporaryDirectory()
        self.addCleanup(folder.cleanup)
        return pathlib.Path(folder.name)

    def test_two_releases_have_the_same_bytes(self):
        top = self.fresh()
        other = Tree(top, all_files())
        self.assertEqual(other.keep(), (0, ""))
        mask = os.umask(0o077)
        try:
            self.assertEqual(other.release(top / "made"), (0, ""))
        finally:
            os.umask(mask)
        names = sorted(path.name for path in self.made.iterdir())
        self.assertEqual(names, ["PROVED", f"xousim-{self.version}-linux-amd64.tar.xz", f"xousim_{self.version}_amd64.deb"])
        for name in names:
            self.assertEqual((self.made / name).read_bytes(), (top / "made" / name).read_bytes(), name)

    def test_proved(self):
        said = (self.made / "PROVED").read_text()
        self.assertEqual(said, self.installed("share/doc/xousim/PROVED").read_text())
        self.assertIn(f"xousim {self.version}\ncommit ", said)
        self.assertIn(f"kit {KIT}\ngate 7 passed, 0 failed\n", said)
        for name in PROGRAMS:
            data = self.installed(f"lib/xousim/{name}").read_bytes()
            self.assertEqual(data, self.tree.program(name).read_bytes())
            self.assertIn(f"sha256 {hashlib.sha256(data).hexdigest()} {name}\n", said)

    def test_what_it_has(self):
        """Both programs, the tools, the kits for C and Rust, examples, pages, man pages and completions."""
        for path in (
            *(f"bin/{name}" for name in (*PROGRAMS, "xous-view", "xous-image", "xous-gdb", "xous-where", "xous-why", "xous-new", "xous-state", "xous-events")),
            *(f"lib/xousim/{name}" for name in PROGRAMS),
            *(f"share/xousim/examples/kit/{name}" for name in ("kit.mk", "xous.h", "test", "new/workflow.yml", "rust/cargo", "rust/xous/src/lib.rs")),
            *(f"share/doc/xousim/{name}" for name in ("README.md", "docs/tutorial.md", "examples/lend/image", "PROVED", "copyright")),
            "share/man/man1/xousim.1.gz",
            "share/bash-completion/completions/xousim",
            "share/zsh/vendor-completions/_xousim",
        ):
            self.assertTrue(self.installed(path).exists(), path)

    def test_dependencies(self):
        run = subprocess.run(["dpkg-deb", "-f", self.deb, "Depends", "Recommends", "Suggests"], capture_output=True, text=True, check=True)
        fields = dict(line.split(": ") for line in run.stdout.splitlines())
        packages = {field: {name.split(" ")[0] for name in names.split(", ")} for field, names in fields.items()}
        self.assertLessEqual({"python3", "python3-pyelftools"}, packages["Depends"])
        self.assertLessEqual({"make", "gcc-riscv64-unknown-elf", "gdb-multiarch"}, packages["Recommends"])
        self.assertLessEqual({"cargo-web", "rustc-web", "rust-web-src", "lld"}, packages["Suggests"])

    def test_the_archive_has_the_files_of_the_package(self):
        top = self.fresh()
        subprocess.run(["tar", "-xJf", self.made / f"xousim-{self.version}-linux-amd64.tar.xz", "-C", top], check=True)
        self.assertEqual(contents(top / f"xousim-{self.version}"), contents(self.release.installed.path("")))

    def test_lintian(self):
        need("lintian")
        run = subprocess.run(["lintian", "--allow-root", "--fail-on", "error,warning", self.deb], capture_output=True, text=True, check=False)
        self.assertEqual((run.returncode, run.stdout), (0, ""), run.stderr)

    def test_man_pages(self):
        need("man")
        pages = sorted(self.installed("share/man/man1").iterdir())
        commands = sorted(path.name for path in self.installed("bin").iterdir())
        self.assertEqual([page.name for page in pages], [f"{name}.1.gz" for name in commands])
        for page in pages:
            run = subprocess.run(
                ["man", "--warnings", "-l", page], env={**os.environ, "LC_ALL": "C.UTF-8", "MANWIDTH": "110"}, capture_output=True, text=True, check=False
            )
            self.assertEqual((run.returncode, run.stderr), (0, ""), page.name)
            for section in ("NAME", "SYNOPSIS", "DESCRIPTION", "EXIT STATUS", "EXAMPLES", "SEE ALSO"):
                self.assertIn(f"\n{section}\n", run.stdout, page.name)

    def test_versions(self):
        for name in sorted(path.name for path in self.installed("bin").iterdir()):
            self.assertEqual(self.run_installed(f"{name} --version", self.fresh()), f"{name} {self.version}\n")

    def complete(self, words):
        script = (
            f". {self.installed('share/bash-completion/completions/xousim')}\n"
            f"COMP_WORDS=({words}); COMP_CWORD=$((${{#COMP_WORDS[@]}} - 1)); _xousim; echo ${{COMPREPLY[@]}}"
        )
        run = subprocess.run(["bash", "-c", script], capture_output=True, text=True, check=True)
        return run.stdout.split()

    def test_completion_of_bash(self):
        need("bash")
        self.assertEqual(self.complete("xousim re"), ["resume"])
        self.assertEqual(self.complete("xousim trace re"), [])
        self.assertEqual(self.complete("xousorders image --q"), ["--quantum"])
        self.assertEqual(self.complete("xousorders image --pre"), ["--preemptions"])
        self.assertIn("--chart", self.complete("xous-view --ch"))

    def test_completion_of_zsh(self):
        need("zsh")
        run = subprocess.run(["zsh", "-n", self.installed("share/zsh/vendor-completions/_xousim")], capture_output=True, text=True, check=False)
        self.assertEqual((run.returncode, run.stderr), (0, ""))

    def test_commands(self):
        need_program()
        lend = self.installed("share/xousim/examples/lend")
        told = self.run_installed(f"xousim trace {lend}/image {lend}/events", self.fresh())
        self.assertEqual(told, (lend / "expected").read_text())
        words = self.run_installed(f"xousim trace {lend}/image {lend}/events | xous-view", self.fresh())
        self.assertIn("3.2", words)
        self.assertIn("2.2", self.run_installed(f"xous-where {lend}/image {lend}/events", self.fresh()))

    def test_orders(self):
        need_searcher()
        lend = self.installed("share/xousim/examples/lend")
        told = self.run_installed(f"xousorders {lend}/image", self.fresh())
        self.assertEqual(told.splitlines()[-1], "1 ending")

    def test_a_program_of_ones_own(self):
        need_program()
        need("make", COMPILER)
        told = self.run_installed("xous-new mine; make -s -C mine console", self.fresh())
        self.assertIn("hello from mine", told)

    def test_gdb(self):
        need_program()
        need(GDB)
        lend = self.installed("share/xousim/examples/lend")
        start = f"target remote | xous-gdb {lend}/image {lend}/events"
        told = ["set osabi none", "set remotetimeout 100", start, "info threads"]
        words = " ".join(["gdb-multiarch -batch -nx", *(f"-ex '{each}'" for each in told), "</dev/null"])
        self.assertIn("Thread", self.run_installed(words, self.fresh()))


def contents(top):
    """Each path below a folder, with its mode, and the bytes of a file or the target of a link."""
    found = {}
    for path in sorted(top.rglob("*")):
        what = os.readlink(path) if path.is_symlink() else path.read_bytes() if path.is_file() else "folder"
        found[str(path.relative_to(top))] = (path.lstat().st_mode, what)
    return found
