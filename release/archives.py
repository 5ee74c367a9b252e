"""Archives that have the same bytes whoever makes them, where and when: names in order, one time, one owner, two modes."""
import gzip
import hashlib
import pathlib
import tarfile
from typing import List


def members(root: pathlib.Path) -> List[pathlib.Path]:
    """All that is in a folder, in order."""
    return sorted(root.rglob("*"), key=lambda it: it.relative_to(root).parts)


def entry(archive: tarfile.TarFile, path: pathlib.Path, name: str, when: int) -> tarfile.TarInfo:
    """What an archive says of a file."""
    # A second name of one file is a file, too.
    archive.inodes = {}  # type: ignore
    info = archive.gettarinfo(str(path), name)
    info.uid = info.gid = 0
    info.uname = info.gname = "root"
    info.mtime = when
    info.mode = 0o755 if info.isdir() or info.issym() or info.mode & 0o100 else 0o644
    return info


def pack(folder: pathlib.Path, name: str, when: int, made: pathlib.Path) -> pathlib.Path:
    """Packs a folder under the name NAME; the archive."""
    with open(made, "wb") as file, gzip.GzipFile("", "wb", 9, file, 0) as packed:
        with tarfile.open(fileobj=packed, mode="w", format=tarfile.USTAR_FORMAT) as archive:  # type: ignore
            archive.addfile(entry(archive, folder, name, when))
            for path in members(folder):
                info = entry(archive, path, f"{name}/{path.relative_to(folder)}", when)
                if info.isreg():
                    with open(path, "rb") as content:
                        archive.addfile(info, content)
                else:
                    archive.addfile(info)
    return made


def gzipped(text: bytes) -> bytes:
    """A file for Debian's folders of manual pages and documents."""
    return gzip.compress(text, 9, mtime=0)


def sum_of(file: pathlib.Path) -> str:
    return hashlib.sha256(file.read_bytes()).hexdigest()
