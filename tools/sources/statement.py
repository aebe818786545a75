"""The statement of the headline, and what the names mean that it uses and doesn't define."""

import pathlib
import re
from collections.abc import Iterator

ROOT = pathlib.Path(__file__).resolve().parents[2]
PAGE = ROOT / "crates" / "xous_program" / "specs" / "Headline.antt"
IMPORT = re.compile(r"^use Rattle\.(\w+)\.specs\.([\w.]+?)\.\{([^}]*)\}$", re.M)
SENTENCE = re.compile(r"(?<=[.:;])\s")
LABEL = re.compile(r"^[A-Z]{2}[A-Z ]*: ")
DECLARED = re.compile(r"^(?:(?:abbrev|unfoldable) pub |pub (?:record|data) |pub )\w+ ", re.M)
PLAIN = "std"  # words of Rattle's own library, which docs/reading.md explains

# Names whose comments don't stand by themselves.
SAID = {
    "records_of": "the records of moments, in order",
    "LoanSpan": "the lifetime of the loan of one number over a run",
    "Matched": "the invariant of the machine",
    "Number": "the number of a message",
    "WasInRam": "a sound kernel for each state of the task's run, the last one with this store",
    **dict.fromkeys(("Command", "Plays", "Suspends", "Resumes"), "a command; Plays is trace, run or ledger"),
}


def lines() -> Iterator[str]:
    """The definitions as they stand, without blank lines, comments and imports."""
    yield "```"
    yield from (line for line in PAGE.read_text().splitlines() if line and not line.startswith(("--", "use ")))
    yield "```"


def said_above(text: str, at: int, mark: str) -> str:
    """The first sentence of the comment right above this place, or nothing."""
    comment: list[str] = []
    for line in reversed(text[:at].splitlines()):
        stripped = line.strip()
        if stripped.startswith("#["):
            continue
        if not stripped.startswith(mark):
            break
        comment.append(stripped.removeprefix(mark).strip())
    words = LABEL.sub("", " ".join(reversed(comment)))
    return SENTENCE.split(words)[0].rstrip(".:;") if words else ""


def definition(crate: str, place: str, name: str) -> tuple[str, str]:
    """What is said of a definition, by its comment or the nearest one before it, and its file."""
    text = (ROOT / "crates" / crate / "specs" / (place.replace(".", "/") + ".antt")).read_text()
    own = re.search(rf"^(?:(?:(?:abbrev|unfoldable) pub |pub (?:record|data) |pub ){re.escape(name)} |  {re.escape(name)} : )", text, re.M)
    if not own:
        raise ValueError(f"{crate} {place} has no {name}")
    before = [match.start() for match in DECLARED.finditer(text) if match.start() <= own.start()]
    said = SAID.get(name) or next((said for said in (said_above(text, at, "--") for at in reversed(before)) if said), "")
    return said, f"{crate} {place.replace('.', '/')}"


def rust_type(crate: str, name: str) -> tuple[str, str]:
    """What the comment of a type or trait says, and its file."""
    for file in sorted((ROOT / "crates" / crate / "src").rglob("*.rt")):
        text = file.read_text()
        found = re.search(rf"^pub (?:struct|enum|trait) {re.escape(name)}\b", text, re.M)
        if found:
            where = file.relative_to(ROOT / "crates" / crate).with_suffix("")
            return SAID.get(name) or said_above(text, found.start(), "///"), f"{crate} {where}"
    raise ValueError(f"{crate} has no type {name}")


def plain(said: str) -> str:
    """A sentence with a small first letter, unless it begins with an abbreviation."""
    return said if said[1:2].isupper() else said[:1].lower() + said[1:]


def rows() -> Iterator[str]:
    """The names that the statement uses and doesn't define, by their files in the order of its imports: a line for each, or for all of one
    comment."""
    used = "\n".join(lines())
    found: dict[str, dict[str, list[str]]] = {}
    for crate, place, names in IMPORT.findall(PAGE.read_text()):
        parts = place.split(".")
        if crate == PLAIN or "TheVariants" in parts:  # the variants of a type that has a line
            continue
        for name in names.split(", "):
            shown = name.split(" as ")[-1]
            if re.search(rf"\b{re.escape(shown)}\b", used):
                said, file = rust_type(crate, parts[-1]) if "declared" in parts else definition(crate, place, name)
                found.setdefault(file, {}).setdefault(plain(said), []).append(shown)
    yield "```"
    for file, names_of in found.items():
        yield file
        for said, shown_names in names_of.items():
            yield f"    {', '.join(shown_names)}: {said}"
    yield "```"
