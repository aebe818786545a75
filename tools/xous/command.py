"""How each tool begins and ends: with a status and, if something is wrong, one sentence; never with a traceback.

`start(name)` runs `xous.commands.NAME`, whose `main` takes the words and returns the status.
"""

from __future__ import annotations

import argparse
import contextlib
import errno
import importlib
import io
import os
import pathlib
import signal
import sys
import traceback
from collections.abc import Callable
from typing import NoReturn

from .errors import Fault, Refusal
from .files import why

ROOT = pathlib.Path(__file__).resolve().parents[2]
DONE, REFUSED, USAGE, WRITE_FAULT, NO_MEMORY, INTERNAL, INTERRUPTED = 0, 1, 2, 4, 9, 70, 130
STATUSES = """statuses:
  0   done
  1   refused, or an input has a fault; the sentence says which
  2   the words make no sense
  4   the output is closed, or its disk is full
  9   memory has run out
  130 interrupted by Control-C"""
OWN_STATUSES = "statuses: 0 if all is as it should be, 1 if not, 2 if the words make no sense"
OUTPUT_ERRORS = (errno.EPIPE, errno.ENOSPC, errno.EFBIG, errno.EDQUOT, errno.EBADF, errno.EIO)


def version() -> str:
    """The version of the repository."""
    try:
        return (ROOT / "VERSION").read_text(encoding="ascii").strip()
    except OSError as error:
        raise Refusal(f"{ROOT / 'VERSION'}: {why(error)}") from None


class ShowVersion(argparse.Action):
    """Prints the version, and ends."""

    def __init__(self, option_strings, dest, **given):
        super().__init__(option_strings, dest, nargs=0, **given)

    def __call__(self, parser, namespace, values, option_string=None):
        print(f"{parser.prog} {version()}")
        parser.exit()


class Parser(argparse.ArgumentParser):
    """The words of a tool. Its help has the statuses and an example; no option is taken by a part of its name."""

    def __init__(self, prog: str, usage: str, description: str, example: str, notes: str = "", statuses: str = STATUSES):
        parts = [part for part in (statuses, notes, f"example:\n  {example}") if part]
        super().__init__(
            prog=prog,
            usage=usage,
            description=description,
            epilog="\n\n".join(parts),
            formatter_class=argparse.RawDescriptionHelpFormatter,
            allow_abbrev=False,
        )
        self.add_argument("--version", action=ShowVersion, help="print the version, and end")

    def error(self, message: str) -> NoReturn:
        raise Refusal(f"{message}; see {self.prog} --help", USAGE)


def decimal(text: str, what: str, least: int = 0, most: int | None = None) -> int:
    """A number of decimal digits."""
    if not (text.isascii() and text.isdigit() and len(text) <= 20 and least <= int(text) and (most is None or int(text) <= most)):
        limits = f"{least} or more" if most is None else f"{least} to {most}"
        raise argparse.ArgumentTypeError(f"{text} is no {what}; give a number, {limits}")
    return int(text)


def say(name: str, text: object) -> None:
    """Writes a sentence to standard error, if that is there."""
    with contextlib.suppress(OSError, ValueError):
        print(f"{name}: {text}", file=sys.stderr, flush=True)


class ErrorStream(io.FileIO):
    """Standard error. What it doesn't take, as its disk is full or its reader has gone, is lost: no status hangs on it."""

    def write(self, data):
        try:
            return super().write(data)
        except OSError:
            return len(data)


def error_stream(encoding: str) -> io.TextIOWrapper:
    lossy = io.BufferedWriter(ErrorStream(2, "w", closefd=False))
    return io.TextIOWrapper(lossy, encoding, "backslashreplace", line_buffering=True)


def open_streams() -> bool:
    """Makes what is closed of the three streams lead nowhere, so that no file takes its number. Whether output is open."""
    missing = []
    for number in range(3):
        try:
            os.fstat(number)
        except OSError:
            os.open(os.devnull, os.O_RDWR)  # takes the least free number, which is this one
            missing.append(number)
    if sys.stdin is None:
        sys.stdin = open(0, encoding="utf-8", errors="surrogateescape")
    if sys.stdout is None:
        sys.stdout = open(1, "w", encoding="utf-8")
    sys.stderr = error_stream("utf-8" if sys.stderr is None else sys.stderr.encoding)
    sys.stdout.reconfigure(errors="backslashreplace")  # type: ignore[attr-defined,union-attr]
    return 1 not in missing


def lose_output() -> None:
    """What is still to be written is dropped: the stream's end would fail again."""
    with contextlib.suppress(OSError):
        os.dup2(os.open(os.devnull, os.O_WRONLY), 1)


def output_text(error: OSError) -> str:
    if isinstance(error, BrokenPipeError):
        return "standard output: its reader has gone; the rest isn't written"
    return f"standard output: {why(error)}"


def ended(name: str, error: BaseException) -> int:
    """The status for what ended a tool, after a sentence about it."""
    if isinstance(error, SystemExit):
        return error.code if isinstance(error.code, int) else DONE
    if isinstance(error, Refusal):
        say(name, error)
        return error.status
    if isinstance(error, Fault):
        say(name, error)
        return REFUSED
    if isinstance(error, KeyboardInterrupt):
        say(name, "interrupted")
        return INTERRUPTED
    if isinstance(error, MemoryError):
        say(name, "memory has run out; give a smaller file, or more memory")
        return NO_MEMORY
    if isinstance(error, OSError):
        if error.filename is None and error.errno in OUTPUT_ERRORS:
            lose_output()
            say(name, output_text(error))
            return WRITE_FAULT
        place = "" if error.filename is None else f"{os.fsdecode(error.filename)}: "
        say(name, f"{place}{why(error)}")
        return REFUSED
    if os.environ.get("XOUS_DEBUG"):
        traceback.print_exception(error)
    say(name, f"a mistake of the tool itself: {type(error).__name__}: {error}; XOUS_DEBUG=1 shows where")
    return INTERNAL


def run(name: str, main: Callable[[list[str]], int], words: list[str]) -> int:
    """The status of a tool with these words."""
    if signal.getsignal(signal.SIGINT) is signal.SIG_DFL:
        signal.signal(signal.SIGINT, signal.default_int_handler)
    status = DONE
    try:
        if not open_streams():
            raise Refusal("standard output is closed", WRITE_FAULT)
        status = main(words)
    except BaseException as error:  # pylint: disable=broad-exception-caught
        status = ended(name, error)
    try:
        sys.stdout.flush()
    except OSError as error:
        return ended(name, error) or WRITE_FAULT
    return status


def start(name: str, module: str) -> NoReturn:
    """Runs `xous.commands.MODULE` with the words of the command line, and ends with its status."""
    finish(run(name, lambda words: importlib.import_module(f"xous.commands.{module}").main(words), sys.argv[1:]))


def start_own(name: str, text: str, main: Callable[[list[str]], int], example: str = "", statuses: str = OWN_STATUSES) -> NoReturn:
    """Runs a tool that is one file, whose help is its own text. It takes --help and --version alone."""

    def guarded(words: list[str]) -> int:
        if words == ["--help"]:
            print("\n\n".join((text.strip(), statuses, f"example:\n  {example or f'tools/{name}'}")))
        elif words == ["--version"]:
            print(f"{name} {version()}")
        else:
            return main(words)
        return DONE

    finish(run(name, guarded, sys.argv[1:]))


def refuse_words(name: str, words: list[str]) -> NoReturn:
    """Ends a tool that doesn't take these words."""
    raise Refusal(f"{' '.join(words) or 'no word'}: not the words of this tool; see tools/{name} --help", USAGE)


def finish(status: int) -> NoReturn:
    if status == WRITE_FAULT:
        lose_output()
    sys.exit(status)
