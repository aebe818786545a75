"""The words of xous-state: prints a state file, or its first fault."""

from __future__ import annotations

import json
import sys

from ..command import Parser
from ..errors import Fault, Refusal
from ..files import MOST_STATE_BYTES, read_file
from ..states import state, telling

DESCRIPTION = """Prints a state file of `xousim suspend`, or its first fault (docs/state.md).

A page's line has the accesses that its process has there (docs/machine.md, "Pages")."""


def parser() -> Parser:
    words = Parser("xous-state", "xous-state FILE [--json [--bytes]]", DESCRIPTION, "xous-state first.state")
    words.add_argument("--json", action="store_true", help="print one JSON object with the names of docs/state.md")
    words.add_argument("--bytes", action="store_true", help="with the bytes of pages, in JSON")
    words.add_argument("file", metavar="FILE", help="a state file, or - for standard input")
    return words


def read_bytes(path: str) -> bytes:
    return sys.stdin.buffer.read(MOST_STATE_BYTES + 1) if path == "-" else read_file(path, MOST_STATE_BYTES)


def main(line: list[str]) -> int:
    known = parser()
    given = known.parse_args(line)
    if given.bytes and not given.json:
        known.error("--bytes is for --json")
    try:
        read = state.read(read_bytes(given.file))
    except Fault as fault:
        raise Refusal(f"{given.file}: {fault}") from None
    if given.json:
        print(json.dumps(telling.tree(read, given.bytes)))
    else:
        print("\n".join(telling.lines(read)))
    return 0
