"""What the tests share: the programs that are given, what is needed and where to get it, and checks with names."""

from __future__ import annotations

import dataclasses
import importlib.util
import os
import pathlib
import re
import shutil
import signal
import subprocess
import sys
import tempfile
import unittest
from collections.abc import Iterable

TOOLS = pathlib.Path(__file__).resolve().parent.parent
ROOT = TOOLS.parent
EXAMPLES = ROOT / "examples"
COMPILER, GDB = "riscv64-unknown-elf-gcc", "gdb-multiarch"
PACKAGES = {
    "make": "make",
    COMPILER: "gcc-riscv64-unknown-elf",
    "riscv64-unknown-elf-addr2line": "binutils-riscv64-unknown-elf",
    "riscv64-unknown-elf-objcopy": "binutils-riscv64-unknown-elf",
    "clang": "clang",
    "ld.lld": "lld",
    "lldb": "lldb",
    "pdftotext": "poppler-utils",
    GDB: "gdb-multiarch",
    "llvm-mc": "llvm",
    "bash": "bash",
    "curl": "curl",
    "dpkg-deb": "dpkg",
    "git": "git",
    "lintian": "lintian",
    "man": "man-db",
    "readelf": "binutils",
    "zsh": "zsh",
    "chromium": "chromium",
    "parallel": "parallel",
    "ssh": "openssh-client",
    "/usr/sbin/sshd": "openssh-server",
    "sbatch": "slurm-wlm",
    "/usr/sbin/slurmctld": "slurm-wlm",
    "/usr/sbin/slurmd": "slurm-wlm",
    "/usr/sbin/munged": "munge",
    "elftools": "python3-pyelftools",
    "hypothesis": "python3-hypothesis",
    "yaml": "python3-yaml",
    "mypy": "mypy",
    "pylint": "pylint",
}


# Names that a command may have elsewhere.
OTHER_NAMES = {"chromium": ("chromium", "chromium-browser", "google-chrome")}


@dataclasses.dataclass
class Given:
    """What tools/test is given."""

    program: str | None = None  # xousim
    searcher: str | None = None  # xousorders
    is_long: bool = False  # the searches of many states too


GIVEN = Given()


def heed_interrupts() -> None:
    """For a process that is started and gets SIGINT: where the tests run in the background of a shell, it is ignored."""
    signal.signal(signal.SIGINT, signal.SIG_DFL)


def need_program() -> str:
    if GIVEN.program is None:
        raise unittest.SkipTest("no program xousim is given: tools/test XOUSIM")
    return GIVEN.program


def need_searcher() -> str:
    if GIVEN.searcher is None:
        raise unittest.SkipTest("no program xousorders is given: tools/test XOUSIM XOUSORDERS")
    return GIVEN.searcher


def is_there(name: str) -> bool:
    if name in ("elftools", "hypothesis", "yaml"):
        return importlib.util.find_spec(name) is not None
    return any(shutil.which(each) for each in OTHER_NAMES.get(name, (name,)))


def need(*names: str) -> None:
    """Skips the test where a command or a library of Python is missing."""
    missing = [name for name in names if not is_there(name)]
    if missing:
        raise unittest.SkipTest(f"{', '.join(missing)} missing: apt-get install {' '.join(PACKAGES[name] for name in missing)}")


def need_rust() -> None:
    """Skips the test where a package of the kit for Rust is missing, or is Debian's older one without the edition 2024."""
    usr = pathlib.Path(os.environ.get("RUST_ROOT") or "/", "usr")
    parts = {"bin/cargo": "cargo-web", "bin/rustc": "rustc-web", "lib/rustlib/src/rust/library/std": "rust-web-src"}
    missing = [package for part, package in parts.items() if not (usr / part).exists()]
    missing += [package for name, package in (("ld.lld", "lld"), ("elftools", "python3-pyelftools")) if not is_there(name)]
    if missing:
        raise unittest.SkipTest(f"the kit for Rust: apt-get install {' '.join(missing)}")
    said = subprocess.run([usr / "bin" / "rustc", "--version"], capture_output=True, text=True, check=False).stdout
    found = re.match(r"rustc 1\.(\d+)", said)
    if not found or int(found[1]) < 85:
        raise unittest.SkipTest(f"the kit for Rust: {usr}/bin/rustc is {said.strip() or 'no compiler'}: apt-get install rustc-web cargo-web")


class Case(unittest.TestCase):
    """Tests with a folder of their own, and checks that go on after one that fails."""

    is_alone = False  # whether they need the machine to themselves, as their time or their ports are their own
    takes_long = False  # whether they are begun before others

    def setUp(self) -> None:
        made = tempfile.TemporaryDirectory(prefix="xous-test-")
        self.addCleanup(made.cleanup)
        self.folder = pathlib.Path(made.name)

    def hold(self, checks: Iterable[tuple[object, str]]) -> None:
        """Each check has whether it holds, and its name."""
        count = 0
        for good, name in checks:
            count += 1
            with self.subTest(name):
                self.assertTrue(good, name)
        self.assertGreater(count, 0, "there are checks")

    def tool(self, name: str, *words: object, **how) -> subprocess.CompletedProcess:
        """A run of a tool: with what it wrote and said, as text."""
        environment = {**os.environ, **how.pop("env", {})}
        if GIVEN.program:
            environment.setdefault("XOUSIM", GIVEN.program)
        given: dict = {"capture_output": True, "text": True, "timeout": 900, **how}
        return subprocess.run([sys.executable, str(TOOLS / name), *map(str, words)], env=environment, check=False, **given)
