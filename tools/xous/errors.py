"""What a tool can't do, and the first fault of a file."""

from __future__ import annotations


class Refusal(Exception):
    """Why a tool does nothing, as one line; with the status that it ends with."""

    def __init__(self, text: str, status: int = 1):
        super().__init__(text)
        self.status = status


class Fault(Exception):
    """The first fault of an image or a state file: its name, and where. `section` is that of an image that has it."""

    def __init__(self, name: str, at: int, section: object = None):
        super().__init__(f"image fault {name} at {at}")
        self.name, self.at, self.section = name, at, section
