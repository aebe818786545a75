"""What is made of the kit for C: examples/kit/calls.h of the definitions of calls, and xous_short.h of the kit's headers."""

import pathlib
import re
import textwrap
from collections.abc import Iterator

from . import calls

ROOT = pathlib.Path(__file__).resolve().parents[2]
KIT = ROOT / "examples" / "kit"
CALLS_H, SHORT_H = KIT / "calls.h", KIT / "xous_short.h"
HEADERS = ("xous.h", "calls.h", "checked.h", "log.h", "text.h")
WIDTH = 120

HEAD = """/* The numbers of calls, replies, errors and kinds of messages, and each call as a function: a part of xous.h.
 * tools/make-lists makes this file of the definitions of `syscall_codec` and `xk_base`. */
#ifndef XOUS_CALLS_H
#define XOUS_CALLS_H
"""
# What a field is called here, where the definitions have another name.
PARAMETERS = {"phys": "physical", "virt": "address", "arg": "argument", "sp": "stack", "cid": "connection", "tid": "thread"}
# What a writer of C has to know of a call besides its first sentence.
REMARKS = {
    "MapMemory": "New ones have zeros, and physical is 0 for them. If address is 0, the kernel chooses the place.",
    "CreateThread": "It begins at entry with the arguments in a0 to a3, and ends when entry returns.",
    "JoinThread": "The reply's second word is what its function returned.",
    "GetProcessId": "The reply is an XOUS_SCALAR1, whose second word is the pid.",
    "CreateServerWithAddress": "The reply's sixth word is a connection to it.",
    "Connect": "The reply's second word is the connection.",
    "SendMessage": "Of pages the words are address, length, offset and valid.",
    "TrySendMessage": "Of pages the words are address, length, offset and valid.",
    "ClaimInterrupt": "The handler is called with the number and the argument, as the process's thread 1.",
}
WITHOUT_REPLY = ("TerminateProcess",)
KINDS = {"LendMut": "MutableLend"}  # what the kit calls a kind


def comment(text: str) -> str:
    return textwrap.fill(text, WIDTH - 3, initial_indent="/* ", subsequent_indent=" * ", break_on_hyphens=False) + " */"


def wrapped(start: str, words: list[str], end: str) -> str:
    """Words with commas between them, whose further lines begin below the first word."""
    text = ", ".join(word.replace(" ", "~") for word in words)
    return textwrap.fill(f"{start}{text}{end}", WIDTH, subsequent_indent=" " * len(start)).replace("~", " ")


def numbers(heading: str, name: str, rows: dict[str, int], first: str = "") -> str:
    listed = "".join(f"    XOUS_{constant} = {number},\n" for constant, number in rows.items())
    return f"/* {heading} */\nenum {name} {{\n{first}{listed}}};\n"


def parameters(fields: tuple[tuple[str, int], ...]) -> Iterator[tuple[str, list[str]]]:
    """The parameters of a call's function, each with the words that it gives to the call."""
    for field, size in fields:
        name = PARAMETERS.get(field, field)
        if field == "sid":
            yield "struct xous_identifier server", [f"server.word[{at}]" for at in range(size)]
        elif size == 1:
            yield f"xous_word {name}", [name]
        else:
            yield from ((f"xous_word w{at}", [f"w{at}"]) for at in range(size))


def function(name: str, fields: tuple[tuple[str, int], ...], first: str) -> str:
    """The function of a call, behind its comment."""
    made = list(parameters(fields))
    words = [word for _, given in made for word in given]
    words += ["0"] * (7 - len(words))
    is_last = name in WITHOUT_REPLY
    result = "__attribute__((noreturn)) void" if is_last else "struct xous_reply"
    start = f"XOUS_INLINE {result} xous_{calls.capitals(name).lower()}("
    head = wrapped(start, [each for each, _ in made] or ["void"], ")")
    call = wrapped(f"    {'' if is_last else 'return '}xous_call(", [f"XOUS_{calls.capitals(name)}", *words], ");")
    body = call + ("\n    __builtin_unreachable();" if is_last else "")
    return f"{comment(' '.join(filter(None, (first, REMARKS.get(name)))))}\n{head}\n{{\n{body}\n}}\n"


def calls_header() -> str:
    """The text of calls.h."""
    known, comments = calls.calls(), calls.comments()
    of_calls = {calls.capitals(name): number for number, (name, _) in known.items()}
    of_replies = {name.upper(): number for name, number in calls.replies().items()}
    of_errors = {calls.capitals(name): number for number, name in calls.errors().items()}
    of_kinds = {calls.capitals(KINDS.get(name, name)): number for name, number in calls.kinds().items()}
    parts = (
        HEAD,
        numbers("The first word of a call.", "xous_call_number", of_calls),
        numbers("The first word of a reply.", "xous_reply_kind", of_replies),
        numbers("Why a call was refused.", "xous_error", of_errors, "    XOUS_NO_ERROR = 0, /* of checked.h: the call was served */\n"),
        numbers("The kind of a send, and of the message that comes of it.", "xous_message_kind", of_kinds),
        *(function(name, fields, comments.get(name, "")) for name, fields in known.values()),
        "#endif\n",
    )
    return "\n".join(parts)


# The short names.

SHORT_HEAD = """/* The names of the kit without xous_ and XOUS_, for a program whose own names are others: `need(open_console(&console))`.
 * They are macros, so this header comes behind those of other libraries. A server's name is SERVER("fill").
 * tools/make-lists makes this file of the kit's headers. */
#ifndef XOUS_SHORT_H
#define XOUS_SHORT_H

#include "checked.h"
#include "log.h"
#include "text.h"

typedef xous_word word;

#define SERVER XOUS_SERVER
"""
INNER = ("xous_call", "xous_end_by_error")  # functions that others of the kit call
TYPE = re.compile(r"^(?:struct|enum) xous_(\w+) \{", re.M)
FUNCTION = re.compile(r"^(?:#define|XOUS_INLINE|XOUS_CHECKED|static) .*?\b(xous_\w+)\(", re.M)
NUMBER = re.compile(r"^(?:    XOUS_(\w+) = \d+,|#define XOUS_(\w+) (?:0[xX][0-9A-F]+u|\d+u|XOUS_SERVER\(.*\))$)", re.M)


def short_header() -> str:
    """The text of xous_short.h."""
    text = "\n".join((calls_header() if name == CALLS_H.name else (KIT / name).read_text(encoding="utf-8")) for name in HEADERS)
    functions = [name.removeprefix("xous_") for name in FUNCTION.findall(text) if name not in INNER]
    constants = ["".join(each) for each in NUMBER.findall(text)]
    parts = (
        "/* Types, behind `struct` and `enum` */\n",
        "".join(f"#define {name} xous_{name}\n" for name in TYPE.findall(text)),
        "/* Functions */\n",
        "".join(f"#define {name}(...) xous_{name}(__VA_ARGS__)\n" for name in functions),
        "/* Numbers */\n",
        "".join(f"#define {name} XOUS_{name}\n" for name in constants),
        "#endif\n",
    )
    return "\n".join((SHORT_HEAD, *parts))
