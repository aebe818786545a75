"""Which files the program opens, and which words it takes: what only a run of the built program can show."""

import os
import pathlib
import subprocess

from xous.images import layout as image

from .builders import code, image_of, process
from .frame import Case, need_program

# Two images and two event files that no other pair's output is like: RAM differs, and so do the steps.
IMAGES = {"one": image_of(process()), "two": image_of(process(), process(code(size=8)))}
TICKS = {"few": 3, "many": 70}
FOLDERS = ("plain", "with a space", "größe")


def run(program, *words, folder=None, name=None):
    words = [name or program, *[str(word) for word in words]]
    ran = subprocess.run(words, executable=program, cwd=folder, capture_output=True, check=False)
    return ran.returncode, ran.stdout.decode(), ran.stderr.decode()


def write_files(folder):
    """Each folder has files of the same names; in each next folder the two are exchanged."""
    for place, name in enumerate(FOLDERS):
        inside = pathlib.Path(folder, name)
        inside.mkdir()
        images, ticks = list(IMAGES.values()), list(TICKS.values())
        for file, made in zip(IMAGES, images[place % 2 :] + images[: place % 2]):
            (inside / file).write_bytes(image.write(made))
        for file, count in zip(TICKS, ticks[place % 2 :] + ticks[: place % 2]):
            (inside / file).write_text(f"tick {count}\n")


def said_of(inside, file):
    """How many processes the file's image has, as `check` tells."""
    return (inside / file).read_bytes().count(b"IniE")


def checks_of_files(program, folder):
    for name in FOLDERS:
        inside = pathlib.Path(folder, name)
        for first in IMAGES:
            status, out, _ = run(program, "check", inside / first)
            count = said_of(inside, first)
            yield status == 0 and out.count("pid ") == count, f"the image {name}/{first}: {out}"
            for second in TICKS:
                steps = (inside / second).read_text().split()[1]
                wanted = (0, f"end {steps} done\n", "")
                yield run(program, "trace", inside / first, inside / second) == wanted, f"{name}/{first} over {second}"
                near = run(program, "trace", first, f"../{name}/{second}", folder=inside)
                yield near == wanted, f"{first} over {second} in {name}"


def checks_of_missing_files(program, folder):
    inside = pathlib.Path(folder, FOLDERS[0])
    link = inside / "link"
    link.symlink_to("../plain/many")
    yield run(program, "trace", "one", "link", folder=inside) == (0, "end 70 done\n", ""), "an event file by a link"
    fault = (3, "", "read fault\n")
    for words in (("none", "few"), ("one", "none"), ("few/one", "few"), (".", "few"), ("one", ".")):
        yield run(program, "trace", *words, folder=inside) == fault, f"files that can't be read: {words}"
    yield sorted(os.listdir(inside)) == ["few", "link", "many", "one", "two"], "no file is made"


def checks_of_words(program, folder):
    """The words are those behind the program's name, whatever that is."""
    inside = pathlib.Path(folder, FOLDERS[0])
    for name in ("demo", "trace", "check", ""):
        status, out, said = run(program, "3", folder=inside, name=name)
        yield (status, out) == (2, "") and said.startswith("usage: "), f"the word 3 of a program named {name}: {said}"
        status, out, said = run(program, "one", "few", folder=inside, name=name)
        yield (status, out) == (2, "") and said.startswith("usage: "), f"two files of a program named {name}: {said}"
        wanted = (0, "end 3 done\n", "")
        yield run(program, "trace", "one", "few", folder=inside, name=name) == wanted, f"a program named {name}"


class Hosts(Case):
    def setUp(self):
        super().setUp()
        self.program = need_program()
        write_files(self.folder)

    def test_files(self):
        self.hold(checks_of_files(self.program, self.folder))

    def test_missing_files(self):
        self.hold(checks_of_missing_files(self.program, self.folder))

    def test_words(self):
        self.hold(checks_of_words(self.program, self.folder))
