"""The record that a tree's gate passed: of which commit, by which kit, and which programs it left.

`.ci/run` keeps it when all has passed. It is in a folder that `rt ci` empties when it begins, so a gate that fails leaves none.
"""

from __future__ import annotations

import hashlib
import pathlib
import re
import subprocess
from collections.abc import Iterator
from dataclasses import dataclass

from ..errors import Refusal
from ..files import why

PROGRAMS = ("xousim", "xousorders")
PASSED = re.compile(r"[1-9][0-9]* passed, 0 failed").fullmatch
ANEW = "run .ci/run"


@dataclass(frozen=True)
class Record:
    """What a gate that passed says: the commit, `rt version`, the last line of `rt ci`, and the SHA-256 of each program."""

    commit: str
    kit: str
    gate: str
    sums: dict[str, str]

    def lines(self) -> Iterator[str]:
        yield f"commit {self.commit}"
        yield f"kit {self.kit}"
        yield f"gate {self.gate}"
        yield from (f"sha256 {sum_of_one} {name}" for name, sum_of_one in self.sums.items())


def path_of(root: pathlib.Path) -> pathlib.Path:
    return root / "crates" / "xousim" / "out" / "gate-passed"


def program_of(root: pathlib.Path, name: str) -> pathlib.Path:
    return root / "crates" / name / "out" / name


def sum_of(path: pathlib.Path) -> str:
    return hashlib.sha256(path.read_bytes()).hexdigest()


def output_of(root: pathlib.Path, *words: str) -> str:
    """What a command prints in this folder, without the last line feed."""
    try:
        run = subprocess.run(words, cwd=root, capture_output=True, text=True, check=False)
    except OSError as error:
        raise Refusal(f"command not found: {words[0]} ({why(error)})") from None
    if run.returncode:
        raise Refusal(f"{' '.join(words)}: {run.stderr.strip() or f'status {run.returncode}'}")
    return run.stdout.rstrip("\n")


# The tree.


def commit_of(root: pathlib.Path) -> str:
    """The commit of a tree in which nothing has changed since."""
    changed = output_of(root, "git", "status", "--porcelain").splitlines()
    if changed:
        raise Refusal(f"{changed[0][3:]} differs from the commit (git status lists {len(changed)}); commit it and {ANEW}")
    return output_of(root, "git", "rev-parse", "HEAD")


def time_of(root: pathlib.Path) -> int:
    """When the commit was made: the time of all that is made of it, in seconds."""
    return int(output_of(root, "git", "log", "-1", "--format=%ct"))


def sources(root: pathlib.Path) -> Iterator[pathlib.Path]:
    """What a program is built from, except tests."""
    yield root / "crates.txt"
    for part in ("src", "specs", "proofs"):
        for path in sorted(root.glob(f"crates/*/{part}/**/*")):
            if path.is_file() and path.name != "tests.rt" and "tests" not in path.relative_to(root).parts:
                yield path


def check_programs(root: pathlib.Path) -> None:
    """Each program is there, and newer than each source."""
    times = {path: path.stat().st_mtime for path in sources(root)}
    last = max(times, key=times.__getitem__)
    for name in PROGRAMS:
        program = program_of(root, name)
        where = program.relative_to(root)
        if not program.is_file() or not program.stat().st_size:
            raise Refusal(f"no proved program at {where}; {ANEW}")
        if program.stat().st_mtime < times[last]:
            raise Refusal(f"{where} is older than its source {last.relative_to(root)}; {ANEW}")


# The record.


def last_line(log: pathlib.Path) -> str:
    try:
        lines = log.read_text(errors="replace").split("\n")
    except OSError as error:
        raise Refusal(f"{log}: {why(error)}") from None
    return next((line for line in reversed(lines) if line.strip()), "")


def keep(root: pathlib.Path, log: pathlib.Path) -> Record:
    """Keeps the record of the gate whose log this is, of the tree as it is now."""
    passed = last_line(log)
    if not PASSED(passed):
        raise Refusal(f"{log}: the gate didn't pass: its last line is {passed!r}, and no `N passed, 0 failed`")
    commit = commit_of(root)
    check_programs(root)
    for name in PROGRAMS:
        if program_of(root, name).stat().st_mtime > log.stat().st_mtime:
            raise Refusal(f"{program_of(root, name).relative_to(root)} is newer than the log {log}; {ANEW}")
    sums = {name: sum_of(program_of(root, name)) for name in PROGRAMS}
    record = Record(commit, output_of(root, "rt", "version"), passed, sums)
    path_of(root).write_text("".join(f"{line}\n" for line in record.lines()))
    return record


def read(root: pathlib.Path) -> Record:
    """The record of the tree as it is now."""
    path = path_of(root)
    if not path.exists():
        raise Refusal(f"no gate has passed in this tree: {path.relative_to(root)} is missing; {ANEW}")
    said: dict[str, str] = {}
    sums: dict[str, str] = {}
    for line in path.read_text(errors="replace").splitlines():
        word, _, rest = line.partition(" ")
        if word == "sha256":
            sum_of_one, _, name = rest.partition(" ")
            sums[name] = sum_of_one
        else:
            said[word] = rest
    if set(said) != {"commit", "kit", "gate"} or set(sums) != set(PROGRAMS) or not PASSED(said["gate"]):
        raise Refusal(f"{path.relative_to(root)} is no record of a gate that passed; {ANEW}")
    return Record(said["commit"], said["kit"], said["gate"], {name: sums[name] for name in PROGRAMS})


def check(root: pathlib.Path) -> Record:
    """The record, where commit, sources and programs are those that passed."""
    check_programs(root)
    record = read(root)
    commit = commit_of(root)
    if commit != record.commit:
        raise Refusal(f"the gate passed commit {record.commit[:12]}, and the tree has {commit[:12]}; {ANEW}")
    for name in PROGRAMS:
        if sum_of(program_of(root, name)) != record.sums[name]:
            raise Refusal(f"{program_of(root, name).relative_to(root)} isn't the program that passed the gate; {ANEW}")
    return record

