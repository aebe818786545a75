"""The words of xous-image: makes an image of programs, or lists one."""

from __future__ import annotations

import argparse
import itertools
import json
from collections import defaultdict

from ..command import Parser, say
from ..errors import Refusal
from ..files import write_whole
from ..images import making
from ..images.layout import RAM_START, VERSIONS, Image
from ..images.named import read_image
from ..programs.arguments import Words
from ..programs.elf import read_program

NAME = "xous-image"
USAGE = """xous-image OUT [--ram SIZE] [--format 1 | --slots N] PROGRAM.elf [WORDS] [PROGRAM.elf [WORDS]] ..
       xous-image --list IMAGE [--json]
WORDS, for the program before them: --arg TEXT, --env NAME=VALUE, --stack SIZE"""
DESCRIPTION = """Makes a boot image of 32-bit RISC-V programs, one process each, or lists an image.

The first program is the process with pid 2, the next one pid 3, and so on. OUT is written where no file stands, or in place of
an image. What would be refused at the start of a run is refused here. The rules of images and the names of their faults
are in docs/image.md."""
MAGIC = b"XArg"
OF_A_PROGRAM = {"--arg", "--env", "--stack"}
WITH_VALUE = {"--ram", "--slots", "--format", "--list"}


def parse_size(text: str) -> int:
    units = {"K": 10, "M": 20}
    unit = units.get(text[-1:].upper(), 0)
    try:
        return int(text[:-1] if unit else text, 0) << unit
    except ValueError:
        raise argparse.ArgumentTypeError(f"{text} is no size, such as 16M, 512K or 65536") from None


def parser() -> Parser:
    words = Parser(NAME, USAGE, DESCRIPTION, "xous-image mine.img --ram 2M server.elf client.elf --arg fast")
    size = "the size of RAM; if not given what the programs start with and a megabyte or more beside it"
    words.add_argument("--ram", type=parse_size, metavar="SIZE", help=size)
    slots = "the slots of the swap store; none if not given"
    words.add_argument("--slots", type=int, metavar="N", help=slots)
    form = "the version of the image's format: 1, or 2 if not given"
    words.add_argument("--format", type=int, default=2, choices=VERSIONS, help=form)
    words.add_argument("--list", metavar="IMAGE", help="print what an image has")
    words.add_argument("--json", action="store_true", help="with --list, as one JSON object (docs/image.md)")
    files = "the image to write, then the programs in order of pid"
    words.add_argument("files", nargs="*", metavar="OUT PROGRAM.elf", help=files)
    return words


def give(words: Words, option: str, value: str) -> None:
    if option == "--arg":
        words.arguments.append(value)
    elif option == "--env":
        words.environment.append(value)
    else:
        words.stack = parse_size(value)


def split(line: list[str]) -> tuple[list[str], dict[int, Words]]:
    """The words of the command itself, and those of each program by its place."""
    own: list[str] = []
    programs: dict[int, Words] = defaultdict(Words)
    files = 0
    rest = iter(line)
    for word in rest:
        option, equals, value = word.partition("=")
        if option in OF_A_PROGRAM:
            given = [value] if equals else list(itertools.islice(rest, 1))
            if not given or files < 2:
                raise Refusal(f"{option} stands behind the program that it is for, with a value")
            give(programs[files - 2], option, given[0])
        elif word in WITH_VALUE:
            own.append(word)
            own += itertools.islice(rest, 1)
        else:
            own.append(word)
            files += not word.startswith("-")
    return own, programs


def refuse_program_as_target(target: str, paths: list[str]) -> None:
    """The image to write is the first word, and easily forgotten."""
    try:
        with open(target, "rb") as file:
            is_program = file.read(4) == b"\x7fELF"
    except OSError:
        is_program = False
    if is_program or target.endswith(".elf") or target in paths:
        raise Refusal(f"{target}: a program, and the image would be written over it; name the image first: {NAME} OUT PROGRAM.elf ..")


def make_image(target: str, paths: list[str], words: dict[int, Words], given: argparse.Namespace) -> None:
    refuse_program_as_target(target, paths)
    processes = [read_program(path, words[place]) for place, path in enumerate(paths)]
    image = Image(RAM_START, given.ram or 0, processes, given.format, given.slots)
    image.ram_size = making.usual_ram(image) if given.ram is None else given.ram
    data = making.make(image)
    write_whole(target, data, lambda beginning: beginning.startswith(MAGIC), "a boot image")
    for line in making.shared_names(processes):
        say(NAME, line)
    count = f"{len(processes)} process{'es' if len(processes) > 1 else ''}"
    print(f"{target}: {count}, {len(data)} bytes; {making.room_text(image)} (--ram SIZE); {making.least_text(image)}")


def main(line: list[str]) -> int:
    known = parser()
    if "--version" in line and len(line) > 1:
        raise Refusal("--version prints the version of the tools, and stands alone; --format names the format of the image", 2)
    try:
        own, programs = split(line)
        given = known.parse_intermixed_args(own)
    except argparse.ArgumentTypeError as error:
        raise Refusal(str(error)) from None
    if given.list is not None:
        if given.files:
            known.error("--list takes one image and nothing else")
        image = read_image(given.list, None)
        print(json.dumps(making.tree(image)) if given.json else "\n".join(making.listing(image)))
    elif given.json:
        known.error("--json is for --list")
    elif len(given.files) < 2:
        known.error("the image to write and at least one program are needed")
    else:
        make_image(given.files[0], given.files[1:], programs, given)
    return 0
