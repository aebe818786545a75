"""System calls as the crates define them: the numbers of calls, replies, errors and kinds of messages, and the words of each call.

`made` is the text of tools/xous/numbers.py, by which the tools know them, and `word_rows` the table of docs/transcript.md.
`wrong_numbers` names each other list that differs.
"""

import pathlib
import re
from collections.abc import Iterator

ROOT = pathlib.Path(__file__).resolve().parents[2]
MADE = ROOT / "tools" / "xous" / "numbers.py"
CODEC = ROOT / "crates" / "syscall_codec"
NUMBERS = CODEC / "specs" / "CallNumbers.antt"
NAMES = ROOT / "crates" / "xk_base" / "specs" / "Calls"
WORDS = {"u32": 1, "Sid": 4, "[u32; 4]": 4}  # how many words a field of a type has
TYPES = {
    "CALLS": "int, tuple[str, tuple[tuple[str, int], ...]]",
    "REPLIES": "str, int",
    "ERRORS": "int, str",
    "KINDS": "str, int",
}
HEAD = '''"""The numbers of calls, replies, errors and kinds of messages, and the words of each call. tools/make-lists makes this file of the
definitions of `syscall_codec` and `xk_base`: change these, and make it anew."""

'''


class Unread(Exception):
    """A source that isn't of the form that this reads."""


def definitions(name: str) -> str:
    return (NAMES / f"{name}.antt").read_text(encoding="utf-8")


def constants() -> dict[str, int]:
    """The numbers of calls and of the first words of replies, by their names in the definitions."""
    return {name: int(number) for name, number in re.findall(r"^(\w+) = (\d+)$", NUMBERS.read_text(encoding="utf-8"), re.M)}


def cases(text: str, function: str) -> dict[str, int]:
    """A function that gives a number to each name."""
    return {name: int(number) for name, number in re.findall(rf"^{function} (\w+) = (\d+)$", text, re.M)}


def variants() -> str:
    """The variants of the enum of calls, as its source has them."""
    text = (CODEC / "src" / "calls.rt").read_text(encoding="utf-8")
    body = re.search(r"^pub enum Call \{\n(.*?)^\}", text, re.M | re.S)
    if not body:
        raise Unread("crates/syscall_codec/src/calls.rt: no enum Call")
    return body[1]


def comments() -> dict[str, str]:
    """Of each call what its variant's comment says."""
    found = re.findall(r"((?:^    ///.*\n)+)    (\w+)", variants(), re.M)
    return {name: " ".join(line.strip().removeprefix("/// ") for line in text.splitlines()) for text, name in found}


def fields() -> dict[str, list[tuple[str, int]]]:
    """Of each call the fields behind its number, with how many words each has."""
    found = {}
    for name, inside in re.findall(r"^    (\w+)(?: \{\n(.*?)^    \})?,$", variants(), re.M | re.S):
        found[name] = [(field, WORDS[kind]) for field, kind in re.findall(r"^ +(\w+): (.*),$", inside, re.M)]
    return found


def calls() -> dict[int, tuple[str, tuple[tuple[str, int], ...]]]:
    """The calls by their numbers, each with its name and fields."""
    known, of_call = constants(), fields()
    text = (CODEC / "specs" / "Calls.antt").read_text(encoding="utf-8")
    named = dict(re.findall(r"^Asks words \(?(\w+)[^=]*=\s*\(?call_number words ≡ (\w+)", text, re.M))
    if set(named) != set(of_call) or set(named.values()) - set(known):
        raise Unread("crates/syscall_codec: Call, Asks and CallNumbers don't have the same calls")
    return dict(sorted((known[number], (name, tuple(of_call[name]))) for name, number in named.items()))


def replies() -> dict[str, int]:
    """The first words of replies, by name."""
    return {name.removeprefix("reply_"): number for name, number in constants().items() if name.startswith("reply_")}


def errors() -> dict[int, str]:
    return {number: name for name, number in cases(definitions("Errors"), "code_of").items()}


def kinds() -> dict[str, int]:
    return cases(definitions("Kinds"), "kind_number")


def shown(name: str, comment: str, table: dict) -> str:
    rows = "".join(f"    {key!r}: {value!r},\n" for key, value in table.items()).replace("'", '"')
    return f"# {comment}\n{name}: dict[{TYPES[name]}] = {{\n{rows}}}\n"


def made() -> str:
    """The text of tools/xous/numbers.py."""
    return HEAD + "\n".join(
        (
            shown("CALLS", "Calls by number: the name, and the fields behind the number with how many words each has.", calls()),
            shown("REPLIES", "The first words of replies.", replies()),
            shown("ERRORS", "Errors by number.", errors()),
            shown("KINDS", "Kinds of messages.", kinds()),
        )
    )


# What docs/transcript.md calls a field, where the definitions have another name; others stand by their own.
PLAIN = {"arg": "argument", "sid": "identifier", "cid": "connection", "exit": "exit word", "words": "four words", "args": "four arguments"}


def word_rows() -> list[str]:
    """The table of calls with their words, two calls in a row."""
    cells = []
    for number, (name, words) in calls().items():
        of_call = ", ".join(PLAIN.get(field, field) for field, _ in words)
        cells.append(f"| `{number:02x}` | {name}{f': {of_call}' if of_call else ''} ")
    half = (len(cells) + 1) // 2
    right = cells[half:] + ["| | "] * (2 * half - len(cells))
    return ["| Word | Call | Word | Call |", "|---|---|---|---|", *(f"{each}{other}|" for each, other in zip(cells[:half], right))]


# Other lists, by hand.


def capitals(name: str) -> str:
    """A name as constants have it: SEND_MESSAGE of SendMessage."""
    return re.sub(r"(?<=[a-z])(?=[A-Z])", "_", name).upper()


def listed(path: str, pattern: str) -> list[tuple[str, str]]:
    """Names and numbers, as a file has them."""
    return re.findall(pattern, (ROOT / path).read_text(encoding="utf-8"), re.M)


def differing(path: str, found: dict[str, int], wanted: dict[str, int], is_whole: bool) -> Iterator[str]:
    for name, number in found.items():
        if name in wanted and wanted[name] != number:
            yield f"{path}: {name} is {wanted[name]}, not {number}"
    if is_whole:
        yield from (f"{path}: {name} ({number}) is missing" for name, number in wanted.items() if name not in found)


def wrong_numbers() -> Iterator[str]:
    """Numbers of calls that another list has otherwise, and calls that a whole list lacks."""
    by_name = {name: number for number, (name, _) in calls().items()}
    by_constant = {capitals(name): number for name, number in by_name.items()}
    page = "docs/calls.md"
    rows = {name: int(number) for name, number in listed(page, r"\b([A-Z]\w+) \((\d+)\)")}
    yield from differing(page, rows, by_name, True)
    page = "docs/definitions.md"
    rows = {name: int(number) for name, number in listed(page, r"\b([A-Z]\w+) \((\d+)\)")}
    yield from differing(page, rows, by_name, False)
    path = "crates/run_cases/src/acts.rt"
    acts = {name: int(number) for name, number in listed(path, r'"(\w+)" => Some\((\d+)\)')}
    yield from differing(path, acts, by_name, False)
    path = "crates/syscall_codec/src/numbers.rt"
    codec = {name: int(number) for name, number in listed(path, r"^pub const (\w+): u32 = (\d+);")}
    yield from differing(path, codec, by_constant, True)
    path = "examples/kit/rust/xous/src/call.rs"
    rust = {name.replace("_1", "1").replace("_2", "2"): int(number) for name, number in listed(path, r"const (\w+): u32 = (\d+);")}
    yield from differing(path, rust, by_constant, False)
