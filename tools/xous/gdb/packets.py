"""Packets of gdb's remote protocol over a pair of file descriptors."""

from __future__ import annotations

import os
import select

ESCAPED = b"#$}*"
LONGEST = 1 << 20  # bytes without an end, which are no packet


class Closed(Exception):
    """gdb has gone."""


class Interrupted(Exception):
    """gdb asks to stop what goes on."""


def escaped(data):
    return b"".join(b"}" + bytes([byte ^ 0x20]) if byte in ESCAPED else bytes([byte]) for byte in data)


def unescaped(data):
    parts = data.split(b"}")
    return parts[0] + b"".join(bytes([part[0] ^ 0x20]) + part[1:] for part in parts[1:] if part)


class Packets:
    def __init__(self, source, target):
        self.source, self.target = source, target
        self.buffer = b""
        self.acknowledges = True
        self.sent = b""

    def fill(self):
        try:
            data = os.read(self.source, 1 << 16)
        except ConnectionResetError:
            raise Closed from None
        if not data:
            raise Closed
        self.buffer += data

    def check_interrupt(self):
        """Raises Interrupted where gdb has sent Control-C meanwhile."""
        while select.select([self.source], [], [], 0)[0]:
            self.fill()
        if b"\x03" in self.buffer:
            self.buffer = self.buffer.replace(b"\x03", b"")
            raise Interrupted

    def write(self, data):
        try:
            while data:
                data = data[os.write(self.target, data) :]
        except (BrokenPipeError, ConnectionResetError):
            raise Closed from None

    def read(self):
        """The next packet's contents. gdb sends one again where the answer to it takes long; the last counts."""
        while True:
            while select.select([self.source], [], [], 0)[0]:
                self.fill()
            start, end = self.buffer.find(b"$"), self.buffer.find(b"#")
            if self.buffer[:1] == b"-":
                self.buffer = self.buffer[1:]
                self.write(self.sent)
            elif 0 <= start < end and len(self.buffer) >= end + 3:
                contents, check = self.buffer[start + 1 : end], self.buffer[end + 1 : end + 3]
                sent, self.buffer = self.buffer[start : end + 3], self.buffer[end + 3 :]
                if self.is_whole(contents, check) and not self.buffer.endswith(sent):
                    return unescaped(contents)
            elif end >= 0 and not 0 <= start < end:
                self.buffer = self.buffer[end + 1 :]
            elif start != 0 and self.buffer:
                self.buffer = self.buffer[start:] if start > 0 else b""
            else:
                if len(self.buffer) > LONGEST:
                    self.buffer = b""
                self.fill()

    def is_whole(self, contents, check):
        good = not self.acknowledges or check.lower() == b"%02x" % (sum(contents) & 0xFF)
        if self.acknowledges:
            self.write(b"+" if good else b"-")
        return good

    def send(self, text):
        """Sends a packet with these contents: text, or bytes that are to be escaped."""
        contents = text.encode() if isinstance(text, str) else escaped(text)
        self.sent = b"$%s#%02x" % (contents, sum(contents) & 0xFF)
        self.write(self.sent)

    def console(self, text):
        """Shows text in gdb while it waits for an answer."""
        for start in range(0, len(text), 2000):
            self.send("O" + text[start : start + 2000].encode().hex())
