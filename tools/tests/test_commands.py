"""The command xous-image with words as a person gives them."""

import pathlib
import subprocess
import sys

from xous.commands.image import parse_size
from xous.errors import Refusal
from xous.images import layout as image
from xous.images import making

from .builders import elf, image_of, process
from .frame import Case, need
from .test_programs import TABLE, TEXT, WORDS

TOOL = pathlib.Path(__file__).resolve().parent.parent / "xous-image"


def run(words, tool=TOOL):
    ran = subprocess.run([sys.executable, tool, *words], capture_output=True, text=True, check=False)
    return ran.returncode, ran.stdout + ran.stderr


def checks_of_lists(folder):
    missing = folder / "missing.elf"
    older = folder / "older"
    older.write_bytes(image.write(image_of(process(), version=1)))
    listed = folder / "listed"
    listed.write_bytes(image.write(image_of(process(), slots=9)))
    for words, status, text in (
        (["--list", older], 0, "pid 2 one: entry 0x00010000, bytes from 72\n"),
        (["--list", listed], 0, "version 2, 92 bytes, tags to 88\n"),
        (["--list", listed], 0, "\nslots 9\npid 2 one: entry 0x00010000, bytes from 88, check word 0x"),
        (["--list", missing], 1, "No such file"),
        ([listed, "--format", "3", missing], 2, "invalid choice"),
        ([listed], 2, "at least one program"),
        ([listed, "--ram", "many", missing], 2, "many is no size"),
        ([listed, "--arg", "one", missing], 1, "--arg stands behind the program"),
        ([listed, missing, "--env"], 1, "--env stands behind the program that it is for, with a value"),
        ([listed, missing, "--stack", "many"], 1, "many is no size"),
    ):
        ended, said = run([str(word) for word in words])
        yield ended == status and text in said, f"command {words}: {said}"


def checks_of_programs(folder):
    """Programs that are there, with what is told of them."""
    plain, asking, other = folder / "plain.elf", folder / "asking.elf", folder / "other.elf"
    target = folder / "made.img"
    plain.write_bytes(elf([TEXT]))
    asking.write_bytes(elf([TEXT, TABLE], symbols=WORDS))
    other.write_bytes(elf([TEXT]))
    asked = [target, "--ram", "1M", plain, asking, "--arg", "--two", "--env=A=1", "--stack", "8K", other]
    for words, status, text in (
        ([target, plain], 0, "RAM of 2M has room for 480 pages more (--ram SIZE); the least RAM that boots is 128K"),
        (asked, 0, "3 processes"),
        ([target, plain, other, plain], 0, "pids 2, 4 are all named plain"),
        ([plain, other], 1, "plain.elf: a program, and the image would be written over it; name the image first"),
        ([folder / "new.elf", other], 1, "new.elf: a program"),
        ([target, plain, target], 1, "made.img: a program, and the image would"),
    ):
        ended, said = run([str(word) for word in words])
        yield ended == status and text in said, f"command {words}: {said}"
    yield plain.read_bytes() == elf([TEXT]), "a program in place of the image stays as it was"
    run([str(word) for word in asked])
    made = target.read_bytes()
    yield b"\x06\0asking\x05\0--twoEnvB" in made and made.count(b"ArgL") == 1, "words for the second program"


def checks_of_links(folder):
    link = folder / "linked-tool"
    link.symlink_to(TOOL)
    ended, said = run(["--list", str(folder / "listed")], link)
    yield ended == 0 and "version 2" in said, "xous-image by a symbolic link"


def checks_of_limits():
    """What is refused of an image that is to be made, before its programs are looked at."""
    for asked, text in (
        (image_of(*[process()] * 33, version=1), "33 programs; an image of version 1 takes at most 32"),
        (image_of(*[process()] * 65), "65 programs; an image of version 2 takes at most 64"),
        (image_of(process(), version=1, slots=0), "version 1 has no slots"),
        (image_of(process(), slots=16_385), "16385 slots"),
        (image_of(process(), slots=-1), "-1 slots"),
    ):
        try:
            making.make(asked)
        except Refusal as refusal:
            yield text in str(refusal), f"limit: {refusal}"
        else:
            yield False, f"limit: {text}"


class ImageTool(Case):
    def test_sizes(self):
        self.assertEqual((parse_size("16M"), parse_size("0x1000")), (16 << 20, 4096))

    def test_limits(self):
        self.hold(checks_of_limits())

    def test_lists(self):
        self.hold(checks_of_lists(self.folder))
        self.hold(checks_of_links(self.folder))

    def test_programs(self):
        need("elftools")
        self.hold(checks_of_programs(self.folder))
