"""The program xousim: $XOUSIM, else that of the release, or the one that the launcher builds."""

from __future__ import annotations

import os
import subprocess
import sys

from ..command import ROOT
from ..errors import Refusal
from ..files import why

LAUNCHER = ROOT / "xousim"
IS_CHECKOUT = (ROOT / "crates.txt").exists()
BUILT = ROOT / "crates" / "xousim" / "out" / "xousim"
INSTALLED = ROOT.parents[1] / "lib" / "xousim" / "xousim"  # by a release, which has no sources
USAGE, CANT_START = 2, (126, 127)


def find_program() -> str:
    """The program. The launcher is run once without words, and what it tells of a build is passed on; the built program is run after that."""
    given = os.environ.get("XOUSIM")
    if given:
        if os.path.isdir(given):
            raise Refusal(f"XOUSIM={given}: a folder; XOUSIM names the program, such as {LAUNCHER}")
        return given
    if not IS_CHECKOUT:
        return str(INSTALLED)
    status, last = launched()
    if status in CANT_START:
        raise Refusal(f"{LAUNCHER} built no program: {last}; or name one by the variable XOUSIM")
    if status != USAGE or not BUILT.exists():
        raise Refusal(f"{LAUNCHER} ended with {status} and built no program; name one by the variable XOUSIM")
    return str(BUILT)


def launched() -> tuple[int, str]:
    """The status of the launcher without words, and the last line that it said. Its lines are passed on, but for the usage line."""
    last = "it said nothing"
    try:
        with subprocess.Popen([LAUNCHER], stdin=subprocess.DEVNULL, stdout=subprocess.DEVNULL, stderr=subprocess.PIPE) as started:
            assert started.stderr is not None
            for line in started.stderr:
                text = line.decode("utf-8", "replace").rstrip("\n")
                if not text.startswith("usage: xousim "):
                    print(text, file=sys.stderr, flush=True)
                    last = text
    except OSError as error:
        raise Refusal(f"{LAUNCHER}: {why(error)}") from None
    return started.returncode, last
