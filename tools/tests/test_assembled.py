"""The words of an assembler in the cases of whole runs: each is what llvm-mc makes of the source line beside it."""

import re
import subprocess

from .frame import ROOT, Case, need

CASES = ROOT / "crates" / "run_cases" / "data"
FILES = (CASES / "pages.cases", CASES / "largest.cases")
ASSEMBLER = "llvm-mc"
# A word, and its source line.
ROW = re.compile(r"^ +0x([0-9a-f]{8})  # (.+)$", re.M)
ENCODED = re.compile(r"# encoding: \[(.*)\]")


def assembled(lines):
    """The words of these lines."""
    command = [ASSEMBLER, "-arch=riscv32", "-mattr=+m,+a", "-show-encoding"]
    ran = subprocess.run(command, input="\n".join(lines) + "\n", capture_output=True, text=True, check=False)
    return [int.from_bytes(bytes.fromhex(re.sub("0x|,", "", word)), "little") for word in ENCODED.findall(ran.stdout)]


def checks():
    for file in FILES:
        rows = [(int(word, 16), line) for word, line in ROW.findall(file.read_text())]
        yield bool(rows), f"{file.name}: there are words"
        words = assembled([line for _, line in rows])
        yield len(words) == len(rows), f"{file.name}: {len(words)} of {len(rows)} lines have a word"
        for (word, line), made in zip(rows, words):
            yield word == made, f"{file.name}: {line} is {made:08x}, not {word:08x}"


class Assembled(Case):
    def test_words(self):
        need(ASSEMBLER)
        self.hold(checks())
