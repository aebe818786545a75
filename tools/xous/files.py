"""Files that are read up to a limit, and files that are written whole or not at all."""

from __future__ import annotations

import contextlib
import os
import stat
import tempfile
from collections.abc import Callable, Iterable

from .errors import Refusal

MOST_EVENT_BYTES = 1 << 30  # of an event file; its lines are bad from there on
MOST_STATE_BYTES = 167_772_160
MOST_IMAGE_BYTES = 64 << 20
MOST_ELF_BYTES = 1 << 30
BEGINNING = 64  # bytes of a file by which its kind is told


def why(error: OSError) -> str:
    """What an error of the system says."""
    return error.strerror or str(error)


def read_file(path: str | os.PathLike[str], most: int = MOST_IMAGE_BYTES) -> bytes:
    """The bytes of a file, or the first `most` of them and one more."""
    try:
        with open(path, "rb") as file:
            return file.read(most + 1)
    except OSError as error:
        raise Refusal(f"{path}: {why(error)}") from None


def read_whole(path: str | os.PathLike[str], most: int) -> bytes:
    """The bytes of a file that has at most so many."""
    data = read_file(path, most)
    if len(data) > most:
        raise Refusal(f"{path}: more than {most:,} bytes; give another file")
    return data


def refuse_inputs(target: str, inputs: Iterable[str]) -> None:
    """A file isn't written over one that is read."""
    for path in inputs:
        with contextlib.suppress(OSError):
            if os.path.samefile(target, path):
                raise Refusal(f"{target}: it is read by this command; give another name for what is written")


def write_whole(target: str, data: bytes, is_own: Callable[[bytes], bool], kind: str) -> None:
    """Writes a file beside the target and renames it. A file that is there already has to be of the same kind, by its first bytes."""
    path = os.path.realpath(target)
    mode = 0o666 & ~current_umask()
    try:
        if os.path.lexists(path):
            mode = refuse_others(target, path, is_own, kind)
        handle, beside = tempfile.mkstemp(prefix=f".{os.path.basename(path)}.", dir=os.path.dirname(path))
        try:
            with open(handle, "wb") as file:
                file.write(data)
                os.fchmod(handle, mode)
            os.replace(beside, path)
        except BaseException:
            with contextlib.suppress(OSError):
                os.unlink(beside)
            raise
    except OSError as error:
        raise Refusal(f"{target}: {why(error)}") from None


def refuse_others(target: str, path: str, is_own: Callable[[bytes], bool], kind: str) -> int:
    """The mode of a file that may be replaced."""
    found = os.stat(path)
    if not stat.S_ISREG(found.st_mode):
        raise Refusal(f"{target}: it isn't a regular file; name a new file, or {kind} to replace")
    with open(path, "rb") as file:
        if not is_own(file.read(BEGINNING)):
            raise Refusal(f"{target}: it is there, and isn't {kind}; it stays as it is. Name a new file, or remove this one")
    return stat.S_IMODE(found.st_mode)


def current_umask() -> int:
    mask = os.umask(0)
    os.umask(mask)
    return mask
