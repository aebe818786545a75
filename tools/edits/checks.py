"""Checks of a crate: as it stands by `rt check`, and with other texts over what that check kept."""

import os
import pathlib
import re
import shutil
import subprocess
import tempfile

from sources import libraries

PARTS = ("src", "specs", "proofs")
KEPT = "out/incremental"
# Parts of a function's line that speak of another function.
OF_ANOTHER = re.compile(r"it (calls|passes|depends on|rests on|names|derives)\b|a call of\b")
ERROR = re.compile(r"(?:\./)?(\S+?):\d+:\d+: error: (?:(`[^`]*`): )?(.*)")
NO_NAME = re.compile(r"is not in scope|has no field|has no `|is no name|operand is missing|expected the end|cannot continue")


def kit():
    """The folder of the toolchain; None where there is no `rt`."""
    if not shutil.which("rt"):
        return None
    said = subprocess.run(["rt", "doc"], capture_output=True, text=True, check=True).stdout
    return pathlib.Path(said.strip()).parent


class Crate:
    """A crate of the repository, and how `rattle check` is called for it."""

    def __init__(self, root, name, kit):
        self.folder, self.name, self.kit = root / "crates" / name, name, kit
        self.lists = libraries.of_crates(root)

    def below(self):
        """The repository's libraries that the crate rests on."""
        found, left = set(), [self.name]
        while left:
            new = {it for it in self.lists[left.pop()] if it in self.lists} - found
            found |= new
            left += new
        return sorted(found)

    def words(self, jobs):
        top = "src/main.rt" if (self.folder / "src/main.rt").is_file() else "src/lib.rt"
        yield from (self.kit / "bin/rattle", "check", "--crate-name", self.name, top)
        for name in ("std", *(it for it in self.lists[self.name] if it not in self.lists)):
            yield from ("--extern", f"{name}={self.kit}/rlibs/{name}.rlib")
        yield from ("-L", f"dependency={self.kit}/rlibs")
        for name in self.below():
            folder = self.folder.parent / name / "out/rlib"
            yield from ("-L", f"dependency={folder}")
            if name in self.lists[self.name]:
                yield from ("--extern", f"{name}={folder}/{name}.rlib")
        yield from ("--antt-project", self.kit / "rattle/logic/antt-project.json", "--logic-built", self.kit / "logic_built")
        yield from ("--jobs", str(jobs), "--links", f"{self.name}=")


class Check:
    """What a check said: of each function its line, and the lines of its goals."""

    def __init__(self, status, text):
        self.status, self.lines = status, text.rstrip("\n").split("\n")
        self.functions, self.goals, notes = {}, {}, []
        for line in self.lines:
            if line.startswith("fn "):
                symbol, _, self.functions[symbol] = line.removeprefix("fn ").partition(": ")
                self.goals[symbol], notes = notes, []
            elif line.startswith("note: src/"):
                notes.append(line)

    def has_verdict(self):
        """Whether it came to a verdict. A line that can't be read in the crate's own code and specs is none."""
        errors = (ERROR.match(line) for line in self.lines)
        unread = any(it and it[1].startswith(("src/", "specs/")) and (not it[2] or NO_NAME.search(it[3])) for it in errors)
        return self.lines[-1].startswith(("logic=", "only=")) and not unread

    def fell(self):
        """The functions that aren't proved for a reason of their own."""
        return {symbol for symbol, words in self.functions.items() if own_reason(words)}

    def reason(self, symbol):
        """The goals at which a function fell, and whether these are but names that its proof misses."""
        below = "proofs/" + "/".join(symbol.split("::")[1:]) + "/"
        errors = [it for it in map(ERROR.match, self.lines) if it and it[1].startswith(below)]
        goals = [name for line in self.goals[symbol] for name in re.findall(r"\(`([^`]+)`\)", line)]
        goals += [it[2].strip("`") for it in errors if it[2]]
        only_names = bool(errors) and not self.goals[symbol] and all(NO_NAME.search(it[3]) for it in errors)
        return f"{symbol}: {', '.join(dict.fromkeys(goals)) or self.functions[symbol]}", only_names


def own_reason(words):
    """What a function's line says of the function itself; empty where it is proved, or isn't only because another one isn't."""
    if words.startswith(("proved", "assumed")):
        return ""
    kind, _, why = words.partition(": ")
    return "; ".join(part for part in why.split("; ") if not OF_ANOTHER.match(part)) if why else kind


def build_below(crate):
    """Proves and builds the libraries below the crate that aren't built; of the crate itself nothing."""
    subprocess.run(["rt", "check", "--only="], cwd=crate.folder, stdout=subprocess.DEVNULL, stderr=subprocess.STDOUT, check=False)


def link_or_copy(one, other):
    """What was proved is linked: a check replaces such a file, and doesn't write into it."""
    try:
        if one.endswith(".oantt"):
            return os.link(one, other)
    except OSError:  # the temporary folder is on another disk
        pass
    return shutil.copy2(one, other)


def check_with(crate, texts, paths, jobs, is_first=False):
    """Checks the functions of these paths and those that they call, in a copy of the crate with these texts in the place of its own;
    without a path the whole crate. The first check keeps what it proves where `rt check` does; the others begin with that, and keep
    nothing."""
    with tempfile.TemporaryDirectory(prefix="try-edits-") as folder:
        room = pathlib.Path(folder)
        for part in PARTS:
            if (crate.folder / part).is_dir():
                shutil.copytree(crate.folder / part, room / part)
        for name, text in texts.items():
            (room / name).write_text(text)
        kept = crate.folder / KEPT if is_first else room / "kept"
        if is_first or not (crate.folder / KEPT).is_dir():
            kept.mkdir(parents=True, exist_ok=True)
        else:
            shutil.copytree(crate.folder / KEPT, kept, symlinks=True, copy_function=link_or_copy)
        words = [*crate.words(jobs), "--incremental", kept]
        words += [word for path in paths for word in ("--only", path)]
        ran = subprocess.run(words, cwd=room, stdout=subprocess.PIPE, stderr=subprocess.STDOUT, text=True, errors="replace")
    if paths and ran.returncode == 2:  # one of them fits no function
        return check_with(crate, texts, [], jobs, is_first)
    return Check(ran.returncode, ran.stdout)
