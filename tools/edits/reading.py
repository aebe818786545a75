"""Edits: each puts texts of a crate's running code out, and others in their place. Two folders of a crate hold them."""

import pathlib
import re

FOLDERS = ("must-fail", "wrong-bodies")
NAME = re.compile(r"[A-Za-z0-9_-][A-Za-z0-9_.-]*\.edit")
WORDS = ("file: ", "old: ", "new:")


def pairs_of(text):
    """The file, the old text and the new text of each pair of an edit's lines; ValueError where a line can't be read."""
    name = old = None
    for line in text.splitlines():
        word = next((word for word in WORDS if line.startswith(word)), None)
        rest = line.removeprefix(word or "").removeprefix(" " if word == "new:" else "")
        if word == "file: ":
            name = rest.strip()
        elif word == "old: ":
            old = rest
        elif word == "new:":
            if not name or not old:
                raise ValueError("a line new: without a file and a line old: before it")
            yield name, old, rest
            old = None
        elif line.strip():
            raise ValueError(f"a line that isn't read: {line}")


def texts_with(crate, pairs):
    """The texts of the crate's files that the pairs change, by file; ValueError where one can't be put in."""
    before, after = {}, {}
    for name, old, new in pairs:
        if name not in before:
            if not name.startswith("src/") or not (crate / name).is_file():
                raise ValueError(f"{name} is no file of running code")
            before[name] = after[name] = (crate / name).read_text()
        if after[name].count(old) != 1:
            raise ValueError(f"this stands {after[name].count(old)} times in {name}, and not once: {old}")
        after[name] = after[name].replace(old, new)
    changed = {name: text for name, text in after.items() if text != before[name]}
    if not changed:
        raise ValueError("it changes nothing")
    return changed


def files_of(crate, folders=FOLDERS):
    """The files in the crate's folders of edits, in their order."""
    return [path for folder in folders for path in sorted(pathlib.Path(crate, folder).glob("*"))]
