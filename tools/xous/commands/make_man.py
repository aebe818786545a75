"""The words of make-man: makes the man pages of the commands, or says which can't be made."""

from __future__ import annotations

import pathlib
from collections.abc import Iterator

from ..command import DONE, REFUSED, ROOT, Parser, version
from ..errors import Refusal
from ..release import gate, layout, manual

USAGE = "make-man FOLDER | --check"
DESCRIPTION = """Makes the man pages of xousim, xousorders and the tools for authors, of each --help, docs/output.md and docs/transcript.md.

With --check it writes nothing, and prints what a page can't be made of: a help that lacks statuses or an example, or one that
docs/output.md contradicts."""


def stale(commands: list[str]) -> Iterator[str]:
    """What is wrong with each page that can't be made."""
    for name in commands:
        try:
            list(manual.page(ROOT, name, commands, "0", "0"))
        except Refusal as refusal:
            yield f"{name}: {refusal}"


def main(line: list[str]) -> int:
    known = Parser("make-man", USAGE, DESCRIPTION, "tools/make-man out/man && man -l out/man/xousim.1")
    known.add_argument("folder", metavar="FOLDER", nargs="?", type=pathlib.Path, help="the folder for the pages")
    known.add_argument("--check", action="store_true", help="print which pages can't be made")
    given = known.parse_args(line)
    if given.check == (given.folder is not None):
        known.error("give a folder, or --check")
    commands = [*gate.PROGRAMS, *layout.commands(ROOT)]
    if given.check:
        wrong = list(stale(commands))
        print("\n".join([*wrong, f"{len(wrong)} of {len(commands)} man pages can't be made"]))
        return REFUSED if wrong else DONE
    given.folder.mkdir(parents=True, exist_ok=True)
    for name, page in manual.pages(ROOT, commands, version(), gate.time_of(ROOT)).items():
        (given.folder / f"{name}.1").write_text(page, encoding="utf-8")
    return DONE
