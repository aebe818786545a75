"""The archive for any Linux on amd64: the same bytes whoever makes it."""

from __future__ import annotations

import lzma
import pathlib
import tarfile


def member(path: pathlib.Path, name: str, time: int) -> tarfile.TarInfo:
    """A member of the archive without owner, with one time."""
    info = tarfile.TarInfo(name)
    info.mtime, info.uname, info.gname = time, "root", "root"
    if path.is_symlink():
        info.type, info.linkname, info.mode = tarfile.SYMTYPE, str(path.readlink()), 0o777
    elif path.is_dir():
        info.type, info.mode = tarfile.DIRTYPE, 0o755
    else:
        info.size, info.mode = path.stat().st_size, path.stat().st_mode & 0o777
    return info


def make(top: pathlib.Path, target: pathlib.Path, folder: pathlib.PurePath, time: int) -> None:
    """Packs what is below `top`, in order of its names, below `folder`."""
    with lzma.open(target, "wb", preset=9) as packed, tarfile.open(fileobj=packed, mode="w", format=tarfile.GNU_FORMAT) as archive:
        for path in [top, *sorted(top.rglob("*"))]:
            info = member(path, str(folder / path.relative_to(top)), time)
            if info.isreg():
                with path.open("rb") as file:
                    archive.addfile(info, file)
            else:
                archive.addfile(info)
