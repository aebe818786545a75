"""The words of xous-try: runs a command of xousim by `rt try`, before any proof."""

from __future__ import annotations

import os
import re
import shutil
import subprocess
import sys
import tempfile

from ..command import ROOT, Parser
from ..errors import Refusal

USAGE = "xous-try WORD .."
DESCRIPTION = """Runs a command of xousim before any proof: a first look, within a minute or two from a clean clone.

The words are those of xousim, such as `trace IMAGE EVENTS`; xousim --help has them all. Each call builds the program anew by
`rt try` of the Rattle kit. It proves nothing, and prints the output when the run has ended. This build is slow: some 50,000
steps a second. It gives no answer past 60 seconds of running or 1 MiB of output. The program gets copies of the files, so a
STORE isn't kept."""
STATUSES = """statuses:
  0   done; the other statuses of xousim, with its notes, are those of the run
  126 this build gave no answer
  127 the command rt is missing
  130 interrupted by Control-C"""
EXAMPLE = "tools/xous-try trace crates/xousim/data/first.img crates/xousim/data/first.events"
UNANSWERED, MISSING = 126, 127
NOTE = (
    "xous-try: this build is NOT PROVED, and slow: some 50,000 steps a second; the output comes at the end, in a minute or two. "
    "The proved program: ./xousim"
)
NO_ANSWER = (
    "no answer from this build: it runs for at most 60 seconds and writes at most 1 MiB; give fewer steps (STEPS), or take the "
    "proved program, which has no such limits: ./xousim"
)
NO_RT = "command not found: rt (the Rattle kit); see README.md, or install a release, which needs no kit"
# At which places of a command's words files stand that are read, and where one that is made if it is missing.
READ: dict[str, tuple[int, ...]] = {
    **dict.fromkeys(("check", "convert"), (1,)),
    **dict.fromkeys(("trace", "run", "ledger", "suspend", "resume"), (1, 2)),
}
MADE = dict.fromkeys(("trace", "run", "ledger"), (5,))
# What rt says besides the program: a line for each of its runs, and how the program ended.
OF_RT = re.compile(rb"^(?:interpreter|checked|races): .*\n|^run=.*\n", re.M)
OF_NO_ANSWER = re.compile(rb"^interpreter: no-answer: .*\n|^run=.*\n", re.M)  # it never runs programs that read files
ENDED = re.compile(rb"^run=ended status=(\d+) .*\n\Z", re.M)


class Names:
    """The names under which the program finds its files: rt takes each by name into the folder where it runs the program."""

    def __init__(self, folder: str):
        self.folder = folder
        self.known: dict[str, str] = {}
        self.data: list[str] = []

    def name(self, word: str) -> str:
        """The name for a word that may name a file. No file has the name if there is none."""
        place = os.path.realpath(word)
        if place not in self.known:
            self.known[place] = f"file-{len(self.known) + 1}"
            if os.path.exists(word) and not os.path.isdir(word):
                self.data += ["--data", f"{self.known[place]}={self.readable(word, self.known[place])}"]
        return self.known[place]

    def readable(self, word: str, name: str) -> str:
        """A regular file with what the word names, which may be a pipe."""
        if os.path.isfile(word):
            return os.path.abspath(word)
        copy = os.path.join(self.folder, name)
        with open(word, "rb") as source, open(copy, "wb") as target:
            shutil.copyfileobj(source, target)
        return copy


def spelled(words: list[str], names: Names) -> list[str]:
    """The words with the program's names in the place of files."""
    command = words[0] if words else ""
    places = READ.get(command, ()) + MADE.get(command, ())
    return [names.name(word) if at in places else word for at, word in enumerate(words)]


def run(words: list[str], folder: str) -> int:
    names = Names(folder)
    words = spelled(words, names)
    print(NOTE, file=sys.stderr, flush=True)
    command = ["rt", "try", *names.data, "--", *words]
    tried = subprocess.run(command, cwd=ROOT / "crates" / "xousim", stdin=subprocess.DEVNULL, stderr=subprocess.PIPE, check=False)
    ended = ENDED.search(tried.stderr)
    sys.stderr.buffer.write((OF_RT if ended else OF_NO_ANSWER).sub(b"", tried.stderr))
    sys.stderr.buffer.flush()
    if ended:
        return int(ended[1])
    raise Refusal(NO_ANSWER, UNANSWERED)


def main(line: list[str]) -> int:
    if line in (["--help"], ["-h"], ["--version"]):
        Parser("xous-try", USAGE, DESCRIPTION, EXAMPLE, statuses=STATUSES).parse_args(line)
    if shutil.which("rt") is None:
        raise Refusal(NO_RT, MISSING)
    with tempfile.TemporaryDirectory(prefix="xous-try-") as folder:
        return run(line, folder)
