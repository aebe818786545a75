"""The words of release: makes a release of a tree whose gate passed, or keeps the record that it did."""

from __future__ import annotations

import pathlib
import tempfile

from ..command import DONE, ROOT, Parser, version
from ..release import archive, completion, debian, gate, layout, manual

USAGE = "release [FOLDER] | --keep-gate LOG"
DESCRIPTION = """Makes a release of a tree whose gate passed: a package for Debian, an archive, and PROVED.

FOLDER gets xousim_VERSION_amd64.deb, xousim-VERSION-linux-amd64.tar.xz and PROVED, which names the commit, the kit, the gate's
last line and the SHA-256 of each program. Two releases of one commit and the same programs have the same bytes. A tree whose
gate didn't pass makes none: one without the record of a gate, with another commit or a changed file, or whose programs are
missing, older than a source or not those of the record. It needs git, and Debian's dpkg and binutils.

With --keep-gate it makes no release, and keeps that record: LOG is what `rt ci` printed in this tree. .ci/run calls it."""
HERE = pathlib.Path(layout.__file__).parent
PROVED = """\
xousim {version}
{record}

The programs lib/xousim/xousim and lib/xousim/xousorders of this release are byte for byte those that
the gate of this commit proved and built with this kit. If you run .ci/run on the same commit with the
same kit, on the same release of Debian, you get programs with the same sums:

    sha256sum crates/xousim/out/xousim crates/xousorders/out/xousorders
"""


def proved(record: gate.Record) -> bytes:
    return PROVED.format(version=version(), record="\n".join(record.lines())).encode()


def lay_out(top: pathlib.Path, record: gate.Record, time: int) -> None:
    """The whole release below the prefix `top`: the files of the tree, and the texts that are made of them."""
    stage = layout.Stage(top, time)
    commands = layout.lay_out(ROOT, stage)
    for name, page in manual.pages(ROOT, commands, version(), time).items():
        stage.zip(f"share/man/man1/{name}.1.gz", page.encode())
    bash, zsh = completion.scripts(ROOT, commands)
    stage.write("share/bash-completion/completions/xousim", bash.encode())
    for name in commands[1:]:
        stage.link(f"share/bash-completion/completions/{name}", "xousim")
    stage.write("share/zsh/vendor-completions/_xousim", zsh.encode())
    stage.copy(HERE / "copyright", f"{layout.DOC}/copyright")
    stage.copy(HERE / "lintian-overrides", "share/lintian/overrides/xousim")
    stage.zip(f"{layout.DOC}/changelog.gz", debian.changelog(version(), record.commit, time))
    stage.write(f"{layout.DOC}/PROVED", proved(record))
    stage.settle()


def make(folder: pathlib.Path) -> list[pathlib.Path]:
    """The files of a release, made beside their place and moved there when all are whole."""
    record, time = gate.check(ROOT), gate.time_of(ROOT)
    folder.mkdir(parents=True, exist_ok=True)
    with tempfile.TemporaryDirectory(prefix="release-", dir=folder) as name:
        made = pathlib.Path(name)
        packed, packaged, said = made / f"xousim-{version()}-linux-amd64.tar.xz", made / f"xousim_{version()}_amd64.deb", made / "PROVED"
        lay_out(made / "tar", record, time)
        archive.make(made / "tar", packed, pathlib.PurePath(f"xousim-{version()}"), time)
        lay_out(made / "deb" / "usr", record, time)
        programs = [gate.program_of(ROOT, program) for program in gate.PROGRAMS]
        debian.make(layout.Stage(made / "deb", time), packaged, version(), programs)
        said.write_bytes(proved(record))
        return [file.replace(folder / file.name) for file in (packed, packaged, said)]


def main(line: list[str]) -> int:
    known = Parser("release", USAGE, DESCRIPTION, ".ci/run && tools/release")
    known.add_argument("folder", metavar="FOLDER", nargs="?", type=pathlib.Path, help="the folder for the release; out/release if none is given")
    known.add_argument("--keep-gate", metavar="LOG", type=pathlib.Path, help="keep the record of the gate with this log")
    given = known.parse_args(line)
    if given.keep_gate is not None and given.folder is not None:
        known.error("--keep-gate makes no release")
    if given.keep_gate is not None:
        gate.keep(ROOT, given.keep_gate)
        print(gate.path_of(ROOT).relative_to(ROOT))
    else:
        print("\n".join(map(str, make(given.folder or ROOT / "out" / "release"))))
    return DONE
