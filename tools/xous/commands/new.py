"""The words of xous-new: makes a folder with a program of one's own, or with a project that has tests."""

from __future__ import annotations

import pathlib
import re
from collections.abc import Iterator

from ..command import ROOT, Parser
from ..errors import Refusal
from ..files import why

TEMPLATE = ROOT / "examples" / "kit" / "new"
USAGE = "xous-new FOLDER [--c | --rust]"
DESCRIPTION = """Makes a folder with a program of your own: its source, a Makefile and a file of events.

The program is named after the folder, which may lie anywhere and must not be there yet, or be empty. The Makefile names the
folder that has the kit by its variable XOUS_CHECKOUT. `make orders` searches the orders of the threads: it fails if a process
ends with an error or a thread waits for good. It names the event file of each such order, and the commands that look into it.

With --c or --rust it is a project with tests, in C or over Rust's std. `make expected` stores the transcript. `make test`
compares each later run with it, and searches the orders. A file for GitHub has these tests run on each push."""
EXAMPLE = "tools/xous-new mine && make -C mine run"
# What the compilers need of Debian, for the service that runs the tests.
OF_C = "make gcc-riscv64-unknown-elf"
OF_RUST = "make rustc-web cargo-web rust-web-src lld python3-pyelftools"
Files = Iterator[tuple[str, str]]


def template(name: str) -> str:
    return (TEMPLATE / name).read_text(encoding="utf-8")


def workflow(packages: str, orders: str) -> tuple[str, str]:
    text = template("workflow.yml").replace("PACKAGES", packages).replace("ORDERS", orders)
    return ".github/workflows/test.yml", text


def plain_files(name: str) -> Files:
    """A program in C."""
    yield f"{name}.c", template("program.c")
    yield "Makefile", template("Makefile")
    yield "events", template("events")


def c_files(name: str) -> Files:
    """A project in C, with tests."""
    files = dict(plain_files(name))
    files["Makefile"] += template("tests.mk")
    yield from files.items()
    yield ".gitignore", f"out/\n{name}.img\nchart.html\n"
    yield workflow(OF_C, "out/orders")


def rust_files(name: str) -> Files:
    """A package of cargo, with tests."""
    yield "Cargo.toml", template("rust/Cargo.toml")
    yield "src/main.rs", template("rust/main.rs")
    yield "Makefile", template("rust/Makefile")
    yield ".gitignore", "target/\nchart.html\n"
    yield workflow(OF_RUST, "target/xous")


def write(folder: pathlib.Path, name: str, files: Files) -> None:
    for path, text in files:
        place = folder / path
        place.parent.mkdir(parents=True, exist_ok=True)
        place.write_text(text.replace("NAME", name).replace("CHECKOUT_FOLDER", str(ROOT)), encoding="utf-8")


def parser() -> Parser:
    known = Parser("xous-new", USAGE, DESCRIPTION, EXAMPLE)
    known.add_argument("folder", metavar="FOLDER", type=pathlib.Path, help="the new folder")
    kinds = known.add_mutually_exclusive_group()
    kinds.add_argument("--c", dest="kind", action="store_const", const="c", help="a project in C, with tests")
    kinds.add_argument("--rust", dest="kind", action="store_const", const="rust", help="a project over Rust's std, with tests")
    return known


def main(line: list[str]) -> int:
    given = parser().parse_args(line)
    folder = given.folder
    name = folder.resolve().name
    if not re.fullmatch(r"[a-z][a-z0-9_-]*", name):
        raise Refusal(f"{name}: the folder's name is that of the program; give a letter from a to z, then letters, digits, - or _")
    if re.search(r"[\s:#$%]", str(ROOT)):
        raise Refusal(f"{ROOT}: make can't work with this checkout's path; move it to one without spaces, :, #, $ and %")
    files = {None: plain_files, "c": c_files, "rust": rust_files}[given.kind]
    try:
        if folder.exists() and (not folder.is_dir() or any(folder.iterdir())):
            raise Refusal(f"{folder}: {'has files already' if folder.is_dir() else 'is a file'}; name a new folder")
        write(folder, name, files(name))
    except OSError as error:
        raise Refusal(f"{folder}: {why(error)}") from None
    if given.kind is None:
        print(f"{folder}: {name}.c, Makefile and events; `make -C {folder} run` plays it, `make -C {folder} console` its console alone")
    else:
        print(f"{folder}: `make -C {folder} run` plays it, `make -C {folder} expected` stores its transcript, `make -C {folder} test` tests it")
    return 0
