"""The commands that look into a run, as the author can type them: a chart, and a debugger."""

from __future__ import annotations

import os
import shlex
import shutil
from collections.abc import Iterator

from ..command import ROOT


def spelled(name: str, path: str) -> str:
    return name if shutil.which(name) else shlex.quote(path)


def commands_for(image: str, events: str, limits: tuple[int, ...] = (), programs: dict[int, str] | None = None) -> Iterator[str]:
    """The commands for an image over an event file; `limits` are the step limit and the slots, `programs` the ELF files by pid."""
    program = os.environ.get("XOUSIM") or str(ROOT / "xousim")
    view, gdb = (spelled(name, str(ROOT / "tools" / name)) for name in ("xous-view", "xous-gdb"))
    words = " ".join([shlex.quote(image), shlex.quote(events), *map(str, limits)])
    chart = f"{view} --image {shlex.quote(image)} --events {shlex.quote(events)} --chart chart.html"
    served = " ".join([gdb, words, *(f"--elf {pid}={shlex.quote(path)}" for pid, path in (programs or {}).items())])
    yield f"  chart:    {spelled('xousim', program)} trace {words} | {chart}"
    yield f"  debugger: gdb-multiarch -ex 'set osabi none' -ex {shlex.quote(f'target remote | {served}')}"
