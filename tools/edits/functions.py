"""The functions of a crate's running code, found by the layout that rt fmt gives, and their names in a check."""

import dataclasses
import re

HEAD = re.compile(r"( *)(?:pub(?:\(\w+\))? )?(?:const |unsafe )*fn (\w+)")
BLOCK = re.compile(r"( *)(?:pub )?(impl|trait)\b(.*)")


@dataclasses.dataclass(frozen=True)
class Function:
    file: str
    opens: int  # the line that opens the body, and the line that closes it
    closes: int
    module: tuple  # of its file
    type: str  # whose method it is, or empty
    trait: str  # that it is a method of, or empty
    name: str

    def path(self):
        """What a check is asked for: a function by its path below the crate, a method by the end of its name, for its type may be of another
        module, and a method of a trait by its module; empty at the crate's root then."""
        if self.type and not self.trait:
            return f"{self.type}::{self.name}"
        return "::".join([*self.module, *([] if self.trait else [self.name])])


def modules_of(file):
    parts = file.removeprefix("src/").removesuffix(".rt").split("/")
    return tuple(parts[:-1] if parts[-1] in ("lib", "main", "mod") else parts)


def owner_of(lines, at):
    """The type and the trait of the impl or trait whose head begins at a line."""
    text = " ".join(lines[at : at + 8]).partition("{")[0].partition(" where")[0]
    while "<" in text:
        shorter = re.sub(r"<[^<>]*>", "", text)
        if shorter == text:
            break
        text = shorter
    kind, head = BLOCK.match(text)[2], BLOCK.match(text)[3]
    trait, _, of = head.partition(" for ") if " for " in head else ("", "", head.partition(":")[0])
    of, trait = (re.sub(r"\W+$", "", word).rpartition(":")[2].rpartition(" ")[2] for word in (of, trait))
    return (of, of) if kind == "trait" else (of, trait)


def functions_of(file, text):
    """The functions of a file that have a body of more than one line."""
    lines, owner = text.splitlines(), ("", "")
    for at, line in enumerate(lines):
        block = BLOCK.match(line)
        if block and not block[1]:
            owner = owner_of(lines, at)
        head = HEAD.match(line)
        if not head:
            continue
        indent = head[1]
        ends = re.compile(rf"{indent}(\{{|(?:\S.*)?\)?.* \{{)")
        closed = re.compile(rf"{indent}(\}}|\S.*(;|\{{.*\}}))")
        opens = next((k for k in range(at, len(lines)) if ends.fullmatch(lines[k]) or closed.fullmatch(lines[k])), None)
        if opens is None or not ends.fullmatch(lines[opens]):
            continue
        closes = next((k for k in range(opens + 1, len(lines)) if lines[k] == indent + "}"), None)
        if closes is not None:
            yield Function(file, opens, closes, modules_of(file), *(owner if indent else ("", "")), head[2])


def function_with(functions, crate, pairs):
    """The one function in whose body all old texts stand that the files have; None where there isn't one."""
    found = set()
    for file, old, _ in pairs:
        before, is_there, _ = (crate / file).read_text().partition(old)
        if not is_there:  # an earlier pair made the text
            continue
        first = before.count("\n")
        inside = [it for it in functions if it.file == file and it.opens <= first and first + old.count("\n") <= it.closes]
        found.add(max(inside, key=lambda it: it.opens, default=None))
    return found.pop() if len(found) == 1 else None


def is_named(function, path):
    """Whether a path, below the function's module, names it in a check."""
    if not function.type:
        return path == [function.name]
    if len(path) != 2 or path[1] != function.name:
        return False
    if function.trait and function.trait != function.type:
        return function.type in path[0] and function.trait in path[0]
    return path[0].partition("+")[0] == function.type


def symbols_of(function, crate, symbols):
    """The name of the function in a check, with the names of the closures in its body; empty where it isn't sure. A method is named by the
    module of its type."""
    own, closures = [], []
    for symbol in symbols:
        parts = symbol.split("::")
        at = parts.index("fn") if "fn" in parts else len(parts) - (2 if function.type else 1)
        module, path = parts[:at], parts[at:]
        if module[:1] != [crate] or not function.type and module[1:] != [*function.module]:
            continue
        if is_named(function, path):
            own.append(symbol)
        elif path[0] == "fn" and any(is_named(function, path[1:end]) for end in (2, 3)):
            closures.append(symbol)
    return {*own, *closures} if len(own) == 1 else set()
