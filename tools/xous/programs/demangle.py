"""The names of Rust's functions as they stand in the source, by c++filt of binutils, which rustc needs anyway.

Without c++filt, names stay as they are. A name has no spaces, since those that read it end it at one.
"""

from __future__ import annotations

import re
import subprocess
from collections.abc import Iterable

MANGLED = ("_R", "_ZN")
COMMANDS = ("riscv64-unknown-elf-c++filt", "c++filt")
CRATE_NUMBER = re.compile(r"\[[0-9a-f]{1,16}\]")  # `std[96cd2d5c94a0960b]`
HASH = re.compile(r"::h[0-9a-f]{16}$")  # of the older spelling


def filtered(names: list[str]) -> list[str]:
    """What c++filt makes of these names, in order; the names themselves if it isn't there."""
    for command in COMMANDS:
        try:
            ran = subprocess.run([command], input="\n".join(names), capture_output=True, text=True, check=False)
        except FileNotFoundError:
            continue
        made = ran.stdout.splitlines()
        if ran.returncode == 0 and len(made) == len(names):
            return made
    return names


def short(name: str) -> str:
    """A name without the numbers of crates and without spaces."""
    plain = HASH.sub("", CRATE_NUMBER.sub("", name))
    return plain.replace(", ", ",").replace(" as ", "_as_").replace(" ", "_")


def readable(names: Iterable[str]) -> dict[str, str]:
    """The readable form of each mangled name among these, by name."""
    mangled = sorted({name for name in names if name.startswith(MANGLED)})
    return {name: short(made) for name, made in zip(mangled, filtered(mangled)) if made != name}
