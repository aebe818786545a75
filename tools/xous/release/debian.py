"""The package for Debian, made by dpkg-deb of a folder with usr/."""

from __future__ import annotations

import hashlib
import os
import pathlib
import re
import subprocess
import time
from collections.abc import Iterator

from ..errors import Refusal
from ..files import why
from . import gate, layout

MAINTAINER = "Rudzvante maintainers <maintainers@users.noreply.rudzvante.example>"
CONTROL = """\
Package: xousim
Version: {version}
Architecture: amd64
Maintainer: {maintainer}
Installed-Size: {size}
Depends: {depends}
Recommends: binutils-riscv64-unknown-elf, gcc-riscv64-unknown-elf, gdb-multiarch, make
Suggests: cargo-web, lld, picolibc-riscv64-unknown-elf, rust-web-src, rustc-web
Section: devel
Priority: optional
Description: message kernel of Xous on a modelled RISC-V machine, proved
 xousim plays a boot image over a file of events, such as ticks, thread picks,
 interrupts and kills, and writes the transcript of every system call, reply,
 console byte, fault and death. xousorders searches the orders of an image's
 threads. Both programs are proved to meet their contracts, and are here byte
 for byte as they were proved.
 .
 With them come tools that make boot images, view and chart transcripts, show
 where each thread waits, and serve a run to gdb forwards and backwards, and
 the kits for programs in C and Rust.
"""
CHANGELOG = """\
xousim ({version}) unstable; urgency=medium

  * Version {version}, of commit {commit}.

 -- {maintainer}  {date}
"""
DEPENDS = "python3 (>= 3.11), python3-pyelftools"


def changelog(version: str, commit: str, when: int) -> bytes:
    date = time.strftime("%a, %d %b %Y %H:%M:%S +0000", time.gmtime(when))
    return CHANGELOG.format(version=version, commit=commit[:12], maintainer=MAINTAINER, date=date).encode()


def installed_size(top: pathlib.Path) -> int:
    """In KiB, as Debian's policy counts: each file in whole KiB, and one KiB for each folder and link."""
    places = [path for path in top.rglob("*")]
    files = [path for path in places if path.is_file() and not path.is_symlink()]
    return sum(-(-path.stat().st_size // 1024) for path in files) + len(places) - len(files)


def libraries(programs: list[pathlib.Path]) -> str:
    """The least C library of Debian with each version of symbols that the programs need; nothing where they need none."""
    versions = []
    for program in programs:
        run = gate.output_of(program.parent, "readelf", "--version-info", str(program))
        versions += [tuple(map(int, found)) for found in re.findall(r"\bGLIBC_(\d+)\.(\d+)", run)]
    return f", libc6 (>= {'.'.join(map(str, max(versions)))})" if versions else ""


def sums(top: pathlib.Path) -> Iterator[str]:
    for path in sorted(top.rglob("*")):
        if path.is_file() and not path.is_symlink():
            yield f"{hashlib.md5(path.read_bytes()).hexdigest()}  {path.relative_to(top)}\n"


def make(stage: layout.Stage, target: pathlib.Path, version: str, programs: list[pathlib.Path]) -> None:
    """Makes the package `target` of a stage whose files are below usr/."""
    control = CONTROL.format(
        version=version, maintainer=MAINTAINER, size=installed_size(stage.top), depends=DEPENDS + libraries(programs)
    )
    md5sums = "".join(sums(stage.top))
    stage.write("DEBIAN/control", control.encode())
    stage.write("DEBIAN/md5sums", md5sums.encode())
    stage.settle()
    words = ["dpkg-deb", "--build", "--root-owner-group", "-Zxz", "--threads-max=1", str(stage.top), str(target)]
    try:
        run = subprocess.run(
            words, env={**os.environ, "SOURCE_DATE_EPOCH": str(stage.time)}, capture_output=True, text=True, check=False
        )
    except OSError as error:
        raise Refusal(f"command not found: dpkg-deb ({why(error)}); apt-get install dpkg") from None
    if run.returncode:
        raise Refusal(f"dpkg-deb: {run.stderr.strip()}")
