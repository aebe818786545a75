"""What an image tells a reader of transcripts: the names of its processes, and their sections."""

from __future__ import annotations

from ..errors import Fault, Refusal
from ..files import read_file
from ..machine import FIRST_PID, MOST_SLOTS, PAGE
from .layout import EXECUTABLE, WRITABLE, Image
from .reading import read


def read_image(path: str, slots: int | None = MOST_SLOTS) -> Image:
    """The image of a file; its first fault is a sentence. RAM is enough if it is with these slots, which a run may be given."""
    try:
        return read(read_file(path), slots)
    except Fault as fault:
        raise Refusal(f"{path}: {fault}") from None


def right_text(flags: int) -> str:
    return f"r{'w' if flags & WRITABLE else '-'}{'x' if flags & EXECUTABLE else '-'}"


def plain(name: str) -> str:
    """A name without spaces and letters that don't print."""
    return "".join(letter if letter.isprintable() and letter != " " else "?" for letter in name)


def names_of(image: Image) -> dict[int, str]:
    """The names of processes by pid; the first of several counts."""
    return {pid: plain(name.decode("utf-8", "replace")) for pid, name in reversed(image.names)}


def sections_of(image: Image) -> dict[int, list[tuple[int, int, str]]]:
    """By pid the start, end and right of each section's pages."""
    return {
        pid: [
            (section.pages()[0] * PAGE, (section.pages()[-1] + 1) * PAGE, right_text(section.flags))
            for section in process.sections
            if section.size
        ]
        for pid, process in enumerate(image.processes, FIRST_PID)
    }
