"""What a program finds of its own file and of the words that it is started with.

A program that asks for these has a symbol for each, which names one word of its file:

    xous_eh_frame    the address of its section .eh_frame, or 0
    xous_arguments   the address of a block of arguments and environment, in read-only pages behind the program
    xous_stack_size  how many bytes of stack its start maps for its first thread; changed by --stack alone

The block is that of Rust's std for Xous: three blocks without padding, lowest byte first.
"""

from __future__ import annotations

import struct
from dataclasses import dataclass, field

from ..errors import Refusal
from ..images.layout import IMAGE_WINDOW, Section
from ..machine import PAGE

EH_FRAME, ARGUMENTS, STACK_SIZE = "xous_eh_frame", "xous_arguments", "xous_stack_size"
LARGEST_STACK = 8 << 20
LONGEST_TEXT = 0xFFFF


@dataclass
class Words:
    """The words of the command for one program."""

    arguments: list = field(default_factory=list)
    environment: list = field(default_factory=list)  # NAME=VALUE
    stack: int | None = None


@dataclass
class Target:
    path: str
    name: str
    symbols: dict
    pages: dict
    unwinding: int  # the address of .eh_frame


def text_bytes(path, text):
    try:
        data = text.encode()
    except UnicodeEncodeError:
        raise Refusal(f"{path}: {text!r} isn't UTF-8, and no argument can have it") from None
    if len(data) > LONGEST_TEXT:
        raise Refusal(f"{path}: an argument or value of {len(data)} bytes; at most {LONGEST_TEXT} have room")
    return struct.pack("<H", len(data)) + data


def listed(path, name, count, texts):
    if count > LONGEST_TEXT:
        raise Refusal(f"{path}: {count} arguments or names; at most {LONGEST_TEXT} have room")
    data = struct.pack("<H", count) + b"".join(text_bytes(path, text) for text in texts)
    return name + struct.pack("<I", len(data)) + data


def block_of(path, name, words):
    """The bytes of the block; the program's name is the first argument."""
    texts = [name, *words.arguments]
    pairs = [pair.split("=", 1) for pair in words.environment]
    for pair in pairs:
        if len(pair) < 2 or not pair[0]:
            raise Refusal(f"{path}: --env {pair[0]} has no value; say --env NAME=VALUE")
    rest = listed(path, b"ArgL", len(texts), texts)
    rest += listed(path, b"EnvB", len(pairs), [text for pair in pairs for text in pair])
    return b"AppP" + struct.pack("<III", 8, 16 + len(rest), 3) + rest


def set_word(target, symbol, word):
    address = target.symbols[symbol]
    page, offset = target.pages.get(address // PAGE), address % PAGE
    if address % 4 or page is None or offset + 4 > len(page.data):
        rule = "isn't a word with bytes in the file"
        raise Refusal(f"{target.path}: symbol {symbol} at 0x{address:08x} {rule}; define it in a section with data")
    page.data[offset : offset + 4] = struct.pack("<I", word)


def refuse_unasked(target, words):
    for asked, word, symbol in (
        (words.arguments, "--arg", ARGUMENTS),
        (words.environment, "--env", ARGUMENTS),
        (words.stack is not None, "--stack", STACK_SIZE),
    ):
        if asked and symbol not in target.symbols:
            how = "link it with a start that has it, such as the Rust kit's, and not stripped"
            raise Refusal(f"{target.path}: {word} is given, and the program has no symbol {symbol}; {how}")
    if words.stack is not None and (words.stack % PAGE or not PAGE <= words.stack <= LARGEST_STACK):
        raise Refusal(f"{target.path}: --stack {words.stack}: a stack is a multiple of {PAGE} bytes, from 4K to 8M")


def fill(target, words):
    """Sets the words that the program asks for; gives the section of the block, if it has one."""
    refuse_unasked(target, words)
    if EH_FRAME in target.symbols:
        set_word(target, EH_FRAME, target.unwinding)
    if words.stack is not None:
        set_word(target, STACK_SIZE, words.stack)
    if ARGUMENTS not in target.symbols:
        return []
    first = max(target.pages) + 1
    block = block_of(target.path, target.name, words)
    set_word(target, ARGUMENTS, first * PAGE)
    if first + (len(block) - 1) // PAGE not in IMAGE_WINDOW:
        raise Refusal(f"{target.path}: no pages are left behind the program for {len(block)} bytes of arguments")
    return [Section(first * PAGE, len(block), 0, block)]
