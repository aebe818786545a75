"""Which file of the tree is where in a release, below a prefix such as /usr.

The folder share/xousim is as the top of a checkout is, without sources and proofs: so the tools, the kits and the pages find each
other by the same paths in both. What is in bin/ are links into it, and the proved programs are in lib/xousim/.
"""

from __future__ import annotations

import gzip
import os
import pathlib
import shutil

from . import gate

SHARE = "share/xousim"
DOC = "share/doc/xousim"
# For a checkout alone.
CHECKOUT_TOOLS = ("copy_examples", "make_man", "release", "test", "test_orders", "test_records", "trial")
LEFT_OUT = ("tools/xous-try", "tools/xous/release/", *(f"tools/xous/commands/{name}.py" for name in CHECKOUT_TOOLS))
TOP = ("README.md", "CHANGELOG.md", "VERSION", "xousim", "xousorders")
FOLDERS = ("docs/", "examples/", "tools/xous/", "tools/help/", "tools/xous-", "crates/xousim/data/")


def is_shipped(path: str) -> bool:
    return not path.startswith(LEFT_OUT) and (path in TOP or path.startswith(FOLDERS))


def shipped(root: pathlib.Path) -> list[str]:
    """The files of the tree that a release has, as git knows them, in order."""
    return [path for path in sorted(gate.output_of(root, "git", "ls-files").splitlines()) if is_shipped(path)]


def tools_of(paths: list[str]) -> list[str]:
    """The names of the tools for authors among these files."""
    return [path.removeprefix("tools/") for path in paths if path.startswith("tools/xous-")]


def commands(root: pathlib.Path) -> list[str]:
    """The names of the tools for authors by their folder alone, which needs no git."""
    paths = (f"tools/{path.name}" for path in sorted((root / "tools").glob("xous-*")) if path.is_file())
    return tools_of([path for path in paths if is_shipped(path)])


class Stage:
    """A folder in which a release is laid out. Times and modes don't depend on who makes it."""

    def __init__(self, top: pathlib.Path, time: int):
        self.top, self.time = top, time

    def place(self, path: str) -> pathlib.Path:
        place = self.top / path
        place.parent.mkdir(parents=True, exist_ok=True)
        return place

    def copy(self, source: pathlib.Path, path: str) -> None:
        """A file as it is, or a link with the target that it has."""
        if source.is_symlink():
            self.link(path, os.readlink(source))
            return
        shutil.copyfile(source, self.place(path))
        self.place(path).chmod(0o755 if os.access(source, os.X_OK) else 0o644)

    def program(self, source: pathlib.Path, path: str) -> None:
        """A program; what the gate leaves may lack the right to be executed."""
        shutil.copyfile(source, self.place(path))
        self.place(path).chmod(0o755)

    def write(self, path: str, data: bytes) -> None:
        self.place(path).write_bytes(data)
        self.place(path).chmod(0o644)

    def zip(self, path: str, data: bytes) -> None:
        self.write(path, gzip.compress(data, 9, mtime=0))

    def link(self, path: str, target: str) -> None:
        self.place(path).symlink_to(target)

    def settle(self) -> None:
        """Gives all one time, and folders one mode: after the last file."""
        for folder, folders, files in os.walk(self.top):
            for name in [*folders, *files]:
                place = os.path.join(folder, name)
                os.utime(place, (self.time, self.time), follow_symlinks=False)
            os.chmod(folder, 0o755)
            os.utime(folder, (self.time, self.time))


def lay_out(root: pathlib.Path, stage: Stage) -> list[str]:
    """The files of the tree, the programs and the links of bin/. Gives the names of all commands."""
    paths = shipped(root)
    for path in paths:
        stage.copy(root / path, f"{SHARE}/{path}")
    for name in gate.PROGRAMS:
        stage.program(gate.program_of(root, name), f"lib/xousim/{name}")
        stage.link(f"bin/{name}", f"../{SHARE}/{name}")
    for name in tools_of(paths):
        stage.link(f"bin/{name}", f"../{SHARE}/tools/{name}")
    for name in ("README.md", "docs", "examples"):
        stage.link(f"{DOC}/{name}", f"../../xousim/{name}")
    return [*gate.PROGRAMS, *tools_of(paths)]
