"""The crates of crates.txt and the libraries that each uses."""

import pathlib
import re
from collections.abc import Iterator

ROOT = pathlib.Path(__file__).resolve().parents[2]
PARTS = ("src", "specs", "proofs")  # of a crate
NAMED = re.compile(r"\bRattle\.(\w+)\.|\b(\w+)::")


def of_crates(root: pathlib.Path = ROOT) -> dict[str, list[str]]:
    """The crates, lowest first, each with its libraries."""
    lines = re.findall(r"^(\w+):(.*)$", (root / "crates.txt").read_text(encoding="utf-8"), re.M)
    return {crate: names.split() for crate, names in lines}


def named(crate: pathlib.Path) -> set[str]:
    """What the files of a crate name as libraries are named; and more, such as types."""
    paths = [path for part in PARTS for suffix in (".rt", ".antt") for path in crate.glob(f"{part}/**/*{suffix}")]
    return {one or other for path in paths for one, other in NAMED.findall(path.read_text(encoding="utf-8"))}


def unused(root: pathlib.Path = ROOT) -> Iterator[str]:
    """The libraries that crates.txt gives a crate and no file of it names: each check of the crate would load them."""
    for crate, names in of_crates(root).items():
        used = named(root / "crates" / crate)
        yield from (f"crates.txt: {crate} doesn't use {name}" for name in names if name not in used)
