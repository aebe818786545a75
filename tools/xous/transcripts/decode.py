"""The lines of a transcript as records (docs/transcript.md, "A line")."""

from __future__ import annotations

import re
import struct
from typing import NamedTuple

CALL, REPLY, RETRY, BYTE, FAULT = "call", "reply", "retry", "byte", "fault"
END, IRQ, GONE, DONE, LIMIT = "end", "irq", "gone", "done", "limit"

NUMBER = "(0|[1-9][0-9]{0,17})"
THREAD = r"((?:0|[1-9][0-9]{0,17})\.(?:0|[1-9][0-9]{0,17}))"
MOST_DIGITS = 18
WORD = "[0-9a-f]{8}"
A_THREAD = re.compile(THREAD).fullmatch
EIGHT_WORDS = re.compile(rf"{WORD}(?: {WORD}){{7}}").fullmatch
OF_THREAD = re.compile(
    rf"{NUMBER} {THREAD} (?:(retry|end)|(byte) ([0-9a-f]{{2}})|(fault) {NUMBER} ({WORD})|(irq) {NUMBER})"
).fullmatch
OF_PROCESS = re.compile(rf"{NUMBER} {NUMBER} gone").fullmatch
LAST = re.compile(rf"end {NUMBER} (done|limit)").fullmatch
WITH_WORDS = (CALL, REPLY)
INTERRUPT_THREAD = 1
MOST_KEPT = 1 << 14  # texts whose meanings are kept; many lines of a long transcript have words that came before


class Record(NamedTuple):
    """One line: its step, its thread as (pid, tid), what it tells, and its words. The tid is 0 of a process."""

    step: int
    thread: tuple
    what: str
    words: tuple

    @property
    def pid(self):
        return self.thread[0]

    @property
    def tid(self):
        return self.thread[1]


class Kept(dict):
    """A function of texts, which keeps what it answered."""

    def __init__(self, function):
        super().__init__()
        self.function = function

    def __missing__(self, text):
        if len(self) >= MOST_KEPT:
            self.clear()
        self[text] = value = self.function(text)
        return value


def words_of(text):
    """The eight words of a text, or none where it has another form."""
    return struct.unpack(">8I", bytes.fromhex(text)) if EIGHT_WORDS(text) else None


def thread_of(text):
    """A thread as (pid, tid), or none where the text names none."""
    pid, _, tid = text.partition(".")
    return (int(pid), int(tid)) if A_THREAD(text) else None


WORDS, THREADS = Kept(words_of), Kept(thread_of)


def spelled(record: Record) -> str:
    """The line of a record."""
    step, (pid, tid), what, words = record
    if what in (DONE, LIMIT):
        return f"end {step} {what}"
    if what == GONE:
        return f"{step} {pid} gone"
    head = f"{step} {pid}.{tid} {what}"
    if what in WITH_WORDS:
        return " ".join([head, *(f"{word:08x}" for word in words)])
    rest = {BYTE: "{:02x}", FAULT: "{} {:08x}", IRQ: "{}"}.get(what, "").format(*words)
    return f"{head} {rest}" if rest else head


def is_number(text):
    return len(text) <= MOST_DIGITS and text.isdigit() and text.isascii() and (text[0] != "0" or text == "0")


def of_thread(match):
    step, thread, bare, byte, value, fault, cause, address, irq, number = match.groups()
    thread = THREADS[thread]
    if bare:
        what, words = bare, ()
    elif byte:
        what, words = BYTE, (int(value, 16),)
    elif fault:
        what, words = FAULT, (int(cause), int(address, 16))
    elif thread[1] == INTERRUPT_THREAD:
        what, words = irq, (int(number),)
    else:
        return None
    return Record(int(step), thread, what, words)


def record_of(line: str) -> Record | None:
    """The record of a line without its line feed, or none where it is no line of a transcript."""
    parts = line.split(" ", 3)
    if len(parts) == 4 and parts[2] in WITH_WORDS:  # most lines: no pattern is looked for in what came before
        step, thread, what, text = parts
        who, words = THREADS[thread], WORDS[text]
        return Record(int(step), who, what, words) if who and words and is_number(step) else None
    match = OF_THREAD(line)
    if match:
        return of_thread(match)
    match = OF_PROCESS(line)
    if match:
        return Record(int(match[1]), (int(match[2]), 0), GONE, ())
    match = LAST(line)
    if match:
        return Record(int(match[1]), (0, 0), match[2], ())
    return None
