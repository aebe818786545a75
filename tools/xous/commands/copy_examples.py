"""The words of copy-examples: copies the stored examples into the cases of whole runs.

The cases are played where no file of the repository lies, so images, events and transcripts stand in one of their files:
images in hexadecimal, transcripts in the short form of the other cases.
"""

from __future__ import annotations

import re

from ..command import ROOT, Parser

EXAMPLES = ROOT / "examples"
COPIES = ROOT / "crates" / "run_cases" / "data" / "examples.cases"
WIDTH = 120  # digits of a line
HEAD = """\
# The stored examples: each image is played over its events, and what is written is the stored transcript. `tools/copy-examples`
# makes this file of those in the folder `examples`.
"""


def short(line):
    """A line of a transcript, without the zeros of its words that go without saying."""
    call = re.fullmatch(r"(.* (?:call|reply)) (.*)", line)
    if not call:
        return line
    words = [f"{int(word, 16):x}" for word in call[2].split()]
    while len(words) > 1 and words[-1] == "0":
        words.pop()
    return " ".join([call[1], *words])


def copy_of_run(events):
    expected = events.with_name(events.name.removesuffix("events") + "expected")
    place = events.relative_to(EXAMPLES)
    case = re.sub("[./]", "_", str(place))
    given = "".join(f'    text "{line}\\n"\n' for line in events.read_text().splitlines())
    lines = "".join(f"    {short(line)}\n" for line in expected.read_text().splitlines())
    return f"""
# {place}
case example_{case}
  image image-of-{place.parent}
  file e
{given}  out
{lines}"""


def copy_of_example(folder):
    digits = (folder / "image").read_bytes().hex()
    lines = "".join(f"  hex {digits[at : at + WIDTH]}\n" for at in range(0, len(digits), WIDTH))
    runs = "".join(copy_of_run(events) for events in sorted(folder.glob("*events")))
    return f"\nbytes image-of-{folder.name}\n{lines}{runs}"


def copies():
    """The text of the file."""
    folders = sorted(image.parent for image in EXAMPLES.glob("*/image"))
    return HEAD + "".join(copy_of_example(folder) for folder in folders)


def main(line: list[str]) -> int:
    """Writes where something changed."""
    description = "Copies the stored examples into the cases of whole runs, if something changed."
    Parser("copy-examples", "copy-examples", description, "tools/copy-examples").parse_args(line)
    text = copies()
    place = COPIES.relative_to(ROOT)
    if COPIES.exists() and COPIES.read_text(encoding="utf-8") == text:
        print(f"{place}: as the examples are")
    else:
        COPIES.write_text(text, encoding="utf-8")
        print(f"{place}: written")
    return 0
