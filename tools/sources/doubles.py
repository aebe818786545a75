"""Lines of the crates that stand twice: runs of equal lines in src/ and specs/, without blank lines, comments, imports, and what
stands above a module."""

import pathlib
from collections.abc import Iterator
from dataclasses import dataclass

ROOT = pathlib.Path(__file__).resolve().parents[2]
RUN = 8  # the fewest lines of a run
PASSED_OVER = ("//", "--", "use ", "ghost use ", "pub use ", "mod ", "pub mod ", "ghost mod ", "#[cfg(test)]", "#![")


@dataclass(frozen=True)
class Line:
    text: str
    file: str
    number: int


def lines_of(path: pathlib.Path, root: pathlib.Path) -> Iterator[Line]:
    for number, line in enumerate(path.read_text(encoding="utf-8").splitlines(), 1):
        text = line.strip()
        if text and not text.startswith(PASSED_OVER):
            yield Line(text, str(path.relative_to(root)), number)


def files(root: pathlib.Path) -> list[pathlib.Path]:
    patterns = ("crates/*/src/**/*.rt", "crates/*/specs/**/*.antt")
    return sorted(path for pattern in patterns for path in root.glob(pattern))


def doubled(root: pathlib.Path = ROOT) -> list[tuple[Line, Line]]:
    """Each line of a run that another run before it equals, in order of files; with the line of that one."""
    seen: dict[tuple[str, ...], tuple[int, int]] = {}
    texts = [list(lines_of(path, root)) for path in files(root)]
    found = []
    for at, lines in enumerate(texts):
        reached = 0  # lines before this one are counted
        for start in range(len(lines) - RUN + 1):
            window = tuple(line.text for line in lines[start : start + RUN])
            file, first = seen.setdefault(window, (at, start))
            if (file, first) != (at, start) and not (file == at and first + RUN > start):
                fresh = range(max(start, reached), start + RUN)
                found += [(lines[place], texts[file][first + place - start]) for place in fresh]
                reached = start + RUN
    return found


def runs(found: list[tuple[Line, Line]]) -> Iterator[str]:
    """The runs of these lines, each by its first line and that of the run which it equals."""
    for place, (line, other) in enumerate(found):
        before = found[place - 1] if place else None
        if before is None or before[0].file != line.file or before[1].file != other.file or line.number - before[0].number > RUN:
            yield f"{line.file}:{line.number} is as {other.file}:{other.number}"
