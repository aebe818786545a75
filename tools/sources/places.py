"""Where a system call stands: the files that name GetProcessId or DecreaseHeap, the shortest calls without and with a word."""

import pathlib
import re
from collections.abc import Iterator

from . import kit
from .calls import MADE, capitals

ROOT = pathlib.Path(__file__).resolve().parents[2]
# A call, and how the names of its definitions and lemmas begin.
CALLS = (("GetProcessId", "process_id"), ("DecreaseHeap", "decrease"))
PARTS = ("src", "specs", "proofs", "data")  # of a crate
OTHERS = ("docs", "examples/kit", "tools/xous", "tools/tests")
# Made by tools/make-lists, as files and in pages.
LEFT_OUT = (MADE, kit.CALLS_H, kit.SHORT_H, ROOT / "docs" / "definitions.md", ROOT / "docs" / "architecture.md")
MADE_LIST = re.compile(r"<!-- ([\w ]+): made by tools/make-lists -->.*?<!-- end of the \1 -->", re.S)


def names_of(call: str, stem: str) -> list[str]:
    return [call, capitals(call), capitals(call).lower(), f"{stem}_"]


NAMES = {call: names_of(call, stem) for call, stem in CALLS}
NAMED = {call: re.compile(rf"(?:\b|XOUS_|xous_)(?:{'|'.join(names)})") for call, names in NAMES.items()}


def named_in(path: pathlib.Path) -> list[str]:
    """The calls that a file names."""
    text = MADE_LIST.sub("", path.read_text(encoding="utf-8", errors="replace")) if path.is_file() else ""
    return [call for call, names in NAMES.items() if any(name in text for name in names) and NAMED[call].search(text)]


def files_of(folder: pathlib.Path) -> dict[pathlib.Path, list[str]]:
    """The files of a folder that name one of the calls, with those that each names."""
    paths = [path for path in sorted(folder.rglob("*")) if "__pycache__" not in path.parts and path not in LEFT_OUT]
    found = {path: named_in(path) for path in paths}
    return {path: calls for path, calls in found.items() if calls}


def rows(crates: list[str]) -> Iterator[str]:
    """A row for each crate, in their order, and for each folder besides. Then how many files name each call."""
    yield "| Crate or folder | Files that name GetProcessId or DecreaseHeap |"
    yield "|---|---|"
    tops = [(f"`{crate}`", ROOT / "crates" / crate, PARTS) for crate in crates] + [(name, ROOT / name, (".",)) for name in OTHERS]
    counts = dict.fromkeys(NAMES, 0)
    for name, top, parts in tops:
        found = {path: calls for part in parts for path, calls in files_of(top / part).items()}
        for call in (call for calls in found.values() for call in calls):
            counts[call] += 1
        if found:
            shown = (path.relative_to(top) for path in found)
            yield f"| {name} | {', '.join(str(path.with_suffix('') if name[0] == '`' else path) for path in shown)} |"
    yield ""
    yield ", ".join(f"{call}: {count} files" for call, count in counts.items()) + "."
