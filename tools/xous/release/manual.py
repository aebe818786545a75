"""Man pages, made of what `--help` prints, of docs/output.md and of docs/transcript.md, so that they say what these say."""

from __future__ import annotations

import os
import pathlib
import re
import subprocess
import time as clock
from collections.abc import Iterable, Iterator

from ..errors import Refusal
from . import gate

PAGES = "/usr/share/doc/xousim/"
SHARE = "/usr/share/xousim/"
OUTPUT = "docs/output.md"
# The sections of pages that the page of xousim has, with the names that they get there.
OF_PAGES = {(OUTPUT, "Event files"): "EVENT FILES", (OUTPUT, "What a command writes"): "OUTPUT", ("docs/transcript.md", "A line"): "TRANSCRIPT"}
ITEM = re.compile(r"  (\S.*?)(?:  +(\S.*)|$)").fullmatch
STATUS = re.compile(r"  (\d+) +(.*)").fullmatch
FAULT = re.compile(r"[A-Z]\w+ at \d+: ").match  # begins a line of its own
SECTIONS = {"positional arguments": "ARGUMENTS", "options": "OPTIONS", "example": "EXAMPLES", "examples": "EXAMPLES"}
# What a command reads in its environment, where its help names it.
ENVIRONMENT = {
    "XOUSIM": "The program that plays runs, if it isn't the one that was installed with the tools.",
}
DEBUG = ("XOUS_DEBUG", "If it is set, a mistake of a tool itself is shown with where it happened.")
# Files by the words that stand for them in a synopsis, with the page that has their format.
FILES = {
    "IMAGE": ("A boot image; xous-image makes one.", "image"),
    "EVENTS": ("Which threads run for how long, interrupts and kills: a text.", "output"),
    "STATE": ("The state of a run; `xousim suspend` writes one.", "state"),
    "STORE": ("Pages that aren't in RAM. It is made if it is missing, and filled with zeros.", "output"),
    "TRANSCRIPT": ("What `xousim trace` writes.", "transcript"),
}


class Stale(Refusal):
    """What a page can't be made of, since two texts differ or one lacks something."""


# Text for troff.


def installed(text: str) -> str:
    """A text of a checkout with the paths and commands that an installed release has."""
    text = text.replace("tools/xous-", "xous-").replace("./xousim", "xousim").replace("./xousorders", "xousorders")
    return re.sub(r"(?<![\w/])(?=(?:examples|crates)/\w)", SHARE, text)


def plain(text: str) -> str:
    """A text as troff writes it, character by character."""
    text = text.replace("\\", "\\e").replace("-", "\\-").replace("^", "\\(ha").replace("~", "\\(ti").replace("`", "\\(ga")
    return "\\&" + text if text.startswith((".", "'")) else text


def marked(text: str) -> str:
    """A line of Markdown: links lose their targets, and what is in backticks is bold."""
    text = re.sub(r"\[([^\]]*)\]\([^)]*\)", r"\1", text)
    parts = re.split(r"`([^`]*)`", text)
    return plain(parts[0]) + "".join(
        (f"\\fB{plain(part)}\\fR" if at % 2 == 0 else plain(part).removeprefix("\\&" * part.startswith((".", "'"))))
        for at, part in enumerate(parts[1:])
    )


def as_it_is(lines: Iterable[str]) -> list[str]:
    return [".PP", ".nf", *map(plain, lines), ".fi"]


def listed(pairs: Iterable[Iterable[str]]) -> Iterator[str]:
    for term, text in pairs:
        first, *rest = text.split("\n")
        yield from (".TP", f"\\fB{plain(term)}\\fR", plain(first) or "\\&")
        yield from (line for each in rest for line in (".br", plain(each)))


# What --help prints.


def help_of(root: pathlib.Path, name: str) -> str:
    """The text of `NAME --help`. The programs' own is a file, which the launcher prints."""
    file = root / "tools" / "help" / name
    if file.exists():
        return file.read_text(encoding="utf-8")
    words = [str(root / "tools" / name), "--help"]
    run = subprocess.run(
        words, env={**os.environ, "COLUMNS": "110", "LC_ALL": "C.UTF-8"}, capture_output=True, text=True, check=False
    )
    if run.returncode or not run.stdout.startswith("usage: "):
        raise Stale(f"tools/{name} --help ends with {run.returncode}, and its first word isn't `usage:`: {run.stderr.strip()}")
    return run.stdout


def items(lines: Iterable[str]) -> list[list[str]]:
    """The pairs of a list in two columns; what is indented further goes on with the text before it."""
    pairs: list[list[str]] = []
    for line in lines:
        found = STATUS(line) or ITEM(line)
        if found and not line.startswith("   "):
            pairs.append([found[1], re.sub(" {2,}", ": ", found[2] or "")])
        elif pairs:
            between = "\n" if FAULT(line.strip()) else " "
            pairs[-1][1] = f"{pairs[-1][1]}{between}{line.strip()}".strip()
        else:
            raise Stale(f"no list of two columns: {line!r}")
    return pairs


def runs_of(lines: Iterable[str]) -> Iterator[list[str]]:
    """A block cut before each line that isn't indented and ends with a colon."""
    part: list[str] = []
    for line in lines:
        if part and line.endswith(":") and not line.startswith(" "):
            yield part
            part = []
        part.append(line)
    yield part


def is_list(lines: Iterable[str]) -> bool:
    return all(line.startswith("  ") for line in lines)


class Help:
    """The parts of a help text, by section of the page."""

    def __init__(self, name: str, text: str):
        self.name = name
        self.sections: dict[str, list[tuple[str, list]]] = {}
        self.statuses: list[list[str]] = []
        first, *rest = re.split(r"\n\s*\n", text.rstrip("\n"))
        self.usage = first.removeprefix("usage: ").split("\n")
        for block in rest:
            for lines in runs_of(block.split("\n")):
                self.take(lines)
        if not self.sections.get("DESCRIPTION"):
            raise Stale(f"{name} --help doesn't say what the command does")
        self.summary = " ".join(self.sections["DESCRIPTION"][0][1]).split(". ")[0].rstrip(".")
        self.summary = re.sub(r" \(docs/[^)]*\)", "", self.summary)

    def add(self, section: str, kind: str, lines: list) -> None:
        self.sections.setdefault(section, []).append((kind, lines))

    def take(self, lines: list[str]) -> None:
        head, rest = lines[0], lines[1:]
        if head.endswith(":") and rest and is_list(rest):
            title = head[:-1].split(",")[0].lower()
            if title in ("statuses", "of the launcher"):
                self.add("EXIT STATUS", "list", items(rest))
                self.statuses += items(rest)
                return
            section = SECTIONS.get(title)
            if section == "EXAMPLES":
                self.add(section, "lines", [line[2:] for line in rest])
            elif section:
                self.add(section, "list", items(rest))
            else:
                self.add("DESCRIPTION", "text", [head])
                self.add("DESCRIPTION", "list", items(rest))
        elif is_list(lines):
            self.add("DESCRIPTION", "list", items(lines))
        else:
            self.add("DESCRIPTION", "text", lines)

    def lines(self, section: str) -> Iterator[str]:
        """The lines of a section for troff."""
        for kind, said in self.sections.get(section, []):
            if kind == "list":
                yield from listed(said)
            elif kind == "lines":
                yield from as_it_is(said)
            else:
                yield from (".PP", *(plain(line.strip()) for line in said))


# What the pages have.


def part_of(root: pathlib.Path, where: str, title: str) -> str:
    """A section of a page of Markdown, without its heading."""
    text = (root / where).read_text(encoding="utf-8")
    found = re.search(rf"^## {re.escape(title)}\n(.*?)(?=^## |\Z)", text, re.M | re.S)
    if not found:
        raise Stale(f"{where} has no section {title!r}, which the page of xousim has")
    return found[1].strip()


def cells(row: str) -> list[str]:
    return [cell.strip() for cell in row.strip("|").split("|")]


def of_markdown(text: str) -> Iterator[str]:
    """Paragraphs, tables of two columns or more, lists and code, for troff."""
    for block in re.split(r"\n\s*\n", text):
        lines = [line for line in block.split("\n") if not line.startswith("```")]
        if lines[0].startswith("|"):
            for first, *rest in map(cells, lines[2:]):
                yield from (".TP", marked(first), marked("; ".join(rest)))
        elif is_list(lines) and block.startswith("    "):
            yield from as_it_is([line[4:] for line in lines])
        elif lines[0].startswith("#"):
            yield from (".PP", f"\\fB{plain(lines[0].lstrip('# '))}\\fR")
        elif lines[0].startswith("- "):
            for item in re.split(r"\n- ", block[2:]):
                yield from (".IP \\(bu 2", *map(marked, map(str.strip, item.split("\n"))))
        else:
            yield from (".PP", *map(marked, lines))


def check_statuses(root: pathlib.Path, said: Help) -> None:
    """Each status of docs/output.md has its line in the help of xousim, with its text, and the help has no other below 126."""
    rows = [cells(row) for row in part_of(root, OUTPUT, "Statuses").split("\n") if row.startswith("|")][2:]
    wanted = {number: note.strip("`").split(" NAME")[0].split(" N")[0].split(" at ")[0] for _, number, _, note in rows}
    found = {number: words for number, words in said.statuses if int(number) < 126}
    if set(wanted) != set(found):
        raise Stale(f"{OUTPUT} has the statuses {', '.join(wanted)}, and tools/help/xousim {', '.join(found)}")
    for number, note in wanted.items():
        if note not in ("none", "the usage line") and note not in found[number]:
            raise Stale(f"{OUTPUT}: the text of status {number} is {note!r}, and tools/help/xousim says {found[number]!r}")


# The pages.


def see_also(root: pathlib.Path, name: str, commands: list[str], text: str) -> Iterator[str]:
    """The other commands, and the pages that the help names."""
    others = [f"\\fB{plain(other)}\\fR(1)" for other in commands if other != name]
    named = sorted(set(re.findall(r"docs/[\w-]+\.md", text)))
    for where in named:
        if not (root / where).exists():
            raise Stale(f"{name} --help names {where}, which isn't there")
    yield ", ".join(others)
    yield from (line for where in named for line in (".PP", plain(PAGES + where)))


def files(text: str) -> Iterator[tuple[str, str]]:
    """The files that a help names by a word, and the folders of a release."""
    for word, (what, where) in FILES.items():
        if re.search(rf"\b{word}\b", text):
            yield word, f"{what} The format: docs/{where}.md."
    yield PAGES, "The pages and the examples."
    yield f"{SHARE}examples/kit/", "The kits for C and Rust."


def page(root: pathlib.Path, name: str, commands: list[str], version: str, date: str) -> Iterator[str]:
    text = installed(help_of(root, name))
    said = Help(name, text)
    yield f'.TH "{name.upper()}" 1 "{date}" "xousim {version}" "xousim"'
    yield from (".SH NAME", f"{plain(name)} \\- {plain(said.summary[:1].lower() + said.summary[1:])}")
    yield from (".SH SYNOPSIS", ".nf", *(plain(line.strip()) for line in said.usage), ".fi")
    for section in ("DESCRIPTION", "ARGUMENTS", "OPTIONS"):
        if section in said.sections:
            yield from (f".SH {section}", *said.lines(section))
    if name == "xousim":
        check_statuses(root, said)
        for (where, title), section in OF_PAGES.items():
            yield from (f".SH {section}", *of_markdown(installed(part_of(root, where, title))))
    if not said.statuses:
        raise Stale(f"{name} --help names no statuses")
    yield from (".SH EXIT STATUS", *said.lines("EXIT STATUS"))
    if name not in gate.PROGRAMS:
        named = [(variable, what) for variable, what in ENVIRONMENT.items() if f"${variable}" in text]
        yield from (".SH ENVIRONMENT", *listed([*named, DEBUG]))
    yield from (".SH FILES", *listed(files(text)))
    if "EXAMPLES" not in said.sections:
        raise Stale(f"{name} --help has no example")
    yield from (".SH EXAMPLES", *said.lines("EXAMPLES"))
    yield from (".SH SEE ALSO", *see_also(root, name, commands, text))


def pages(root: pathlib.Path, commands: list[str], version: str, time: int) -> dict[str, str]:
    """The man page of each command, by name."""
    date = clock.strftime("%Y-%m-%d", clock.gmtime(time))
    return {name: "\n".join(page(root, name, commands, version, date)) + "\n" for name in commands}
