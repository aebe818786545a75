"""The copies of the examples in the cases of whole runs, and the edits of wrong bodies."""

import pathlib
import subprocess

from edits import reading
from xous.commands import copy_examples as copier

from .frame import TOOLS, Case
from .loading import load


def checks_of_copies():
    is_same = copier.COPIES.read_text() == copier.copies()
    yield is_same, "the copies of the examples: make them by tools/copy-examples"
    if not is_same:
        return
    before = copier.COPIES.stat().st_mtime_ns
    subprocess.run([TOOLS / "copy-examples"], capture_output=True, check=True)
    yield copier.COPIES.stat().st_mtime_ns == before, "copies that are as the examples are stay untouched"


EDIT = "file: src/lib.rt\nold: one\nnew: two\n"
BAD_EDITS = {
    "a text that stands twice": "file: src/lib.rt\nold: three\nnew: four\n",
    "a text that an earlier pair took away": EDIT + "old: one\nnew: five\n",
    "a text that stands nowhere": "file: src/lib.rt\nold: six\nnew: two\n",
    "no change": "file: src/lib.rt\nold: one\nnew: one\n",
    "no pair": "file: src/lib.rt\n",
    "a definition": "file: specs/Lib.antt\nold: one\nnew: two\n",
    "a line that isn't read": EDIT + "odd: one\n",
}


def is_applied(crate, text):
    try:
        reading.texts_with(crate, reading.pairs_of(text))
    except ValueError:
        return False
    return True


def checks_of_edits(folder):
    crate = pathlib.Path(folder, "edited")
    for name in ("src/lib.rt", "specs/Lib.antt", "must-fail/first.edit"):
        (crate / name).parent.mkdir(parents=True)
        (crate / name).write_text("one three three\n")
    yield is_applied(crate, EDIT), "an edit"
    yield is_applied(crate, EDIT + "old: two three\nnew:\n"), "an edit of what it put in"
    for name, text in BAD_EDITS.items():
        yield not is_applied(crate, text), f"an edit of {name}"
    yield from checks_of_same_edits(load("check-edits").wrong_edits, crate)


def checks_of_same_edits(wrong_edits, crate):
    """Two edits that make the same code, and two that don't, in one folder and in both."""
    (crate / "must-fail/first.edit").write_text(EDIT)
    (crate / "wrong-bodies").mkdir()
    for folder in ("must-fail", "wrong-bodies"):
        for text, is_same in ((EDIT.replace("two", "five"), False), (EDIT + "old: two\nnew:  two\n", True)):
            second = crate / folder / "second.edit"
            second.write_text(text)
            told = [f"edited/{folder}/second.edit: it makes the same code as must-fail/first.edit"] * is_same
            yield list(wrong_edits(crate)) == told, f"a second edit {text!r} in {folder}"
            second.unlink()


class Repository(Case):
    def test_copies(self):
        self.hold(checks_of_copies())

    def test_edits(self):
        self.hold(checks_of_edits(self.folder))
