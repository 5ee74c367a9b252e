"""Makes the Debian packages of an installed program, of the C library and of its Python module, and a folder from which apt installs them."""
import email.utils
import os
import pathlib
import re
import shutil
import subprocess
from typing import Dict, List, NamedTuple, Sequence

import archives
import running

SUITE = "stable"
RUNTIME = f"libforth83-{running.ABI}"
# Debian's names of the targets that it has packages for, and of their folders of libraries.
ARCHITECTURES = {
    "x86_64-linux": ("amd64", "x86_64-linux-gnu"),
    "aarch64-linux": ("arm64", "aarch64-linux-gnu"),
    "armv7-linux": ("armhf", "arm-linux-gnueabihf"),
    "riscv64-linux": ("riscv64", "riscv64-linux-gnu"),
}
# Who makes packages for others names himself by Debian's variables; .invalid is a name that never is a host's.
MAINTAINER = f"{os.environ.get('DEBFULLNAME', 'Jaurimet maintainers')} <{os.environ.get('DEBEMAIL', 'jaurimet@maintainers.invalid')}>"
PROVED = "Its machine is proved: each primitive is one row of a written table, and\n the program does exactly what that table says."
UNPROVED = "This package is for trials: NOTHING IN IT IS PROVED. It was made\n without its proofs, with checks at run time."
FORTH = """ Jaurimet is a complete Forth-83 system with block storage: at the terminal,
 with a screen editor, a decompiler and a tracer, in scripts, and for images
 of programs that run on their own.
 .
 {state}
 .
 Commands: forth and forth83. The Forth in a browser is the file
 /usr/share/jaurimet/forth.html.
"""
LIBRARY = """ A host owns a Forth-83 machine as a record of plain bytes: it types lines,
 calls words, answers for blocks, and goes back to copies that it made.
 .
 {what}
 .
 {state}
"""
COPYRIGHT = """Format: https://www.debian.org/doc/packaging-manuals/copyright-format/1.0/
Upstream-Name: Jaurimet

Files: *
Copyright: {holder}
License: Expat
{text}
"""
OVERRIDES = """# The program is, byte for byte, the one that the record of its proof names; stripping it would make it another.
jaurimet: unstripped-binary-or-object [usr/lib/jaurimet/forth83]
# HELP, the course and the page are made from these texts; they are no documents alone.
jaurimet: package-contains-documentation-outside-usr-share-doc [usr/share/jaurimet/*]
"""
# What Python's own makers of packages write: modules are compiled when they are installed.
SCRIPTS = {"postinst": "py3compile", "prerm": "py3clean"}
SCRIPT = "#!/bin/sh\nset -e\nif command -v {tool} > /dev/null 2>&1; then\n  {tool} -p {package}\nfi\n"


class Package(NamedTuple):
    """What a package says of itself, and the root whose files it has."""

    name: str
    version: str
    architecture: str
    section: str
    depends: str
    summary: str
    text: str
    root: pathlib.Path
    more: str = ""


class Source(NamedTuple):
    """What packages are made of: the version, whether it is proved, the time of all files, the tree, and a folder for what is made."""

    version: str
    is_proved: bool
    when: int
    tree: pathlib.Path
    room: pathlib.Path

    @property
    def state(self) -> str:
        return PROVED if self.is_proved else UNPROVED

    @property
    def number(self) -> str:
        """The packages' version. One without proofs is older than the proved one, for apt."""
        return self.version if self.is_proved else f"{self.version}~unproved"

    def root(self, name: str) -> pathlib.Path:
        """A folder for the files of a package, with nothing in it."""
        made = self.room / "packages" / name
        shutil.rmtree(made, ignore_errors=True)
        made.mkdir(parents=True)
        return made


def put(path: pathlib.Path, content: bytes, mode: int = 0o644) -> None:
    """Writes a file, and makes its folder."""
    path.parent.mkdir(parents=True, exist_ok=True)
    path.write_bytes(content)
    path.chmod(mode)


def program(source: Source, prefix: pathlib.Path, page: pathlib.Path) -> Package:
    """What ./install installed, where Debian has such files. The program itself belongs to one processor, so it is in usr/lib."""
    root = source.root("jaurimet")
    share, usr = prefix / "share", root / "usr"
    tree = usr / "share/jaurimet"
    shutil.copytree(share / "jaurimet", tree, symlinks=True)
    for name in ("install", "installed", "LICENSE"):
        (tree / name).unlink()
    built = tree / "crates/forth83/out/forth83"
    put(usr / "lib/jaurimet/forth83", built.read_bytes(), 0o755)
    built.unlink()
    built.symlink_to("../../../../../lib/jaurimet/forth83")
    (usr / "bin").mkdir()
    for name in ("forth", "forth83"):
        (usr / "bin" / name).symlink_to(f"../share/jaurimet/{name}")
        put(usr / f"share/man/man1/{name}.1.gz", archives.gzipped((share / f"man/man1/{name}.1").read_bytes()))
        put(usr / f"share/bash-completion/completions/{name}", (share / f"bash-completion/completions/{name}").read_bytes())
        put(usr / f"share/zsh/vendor-completions/_{name}", (share / f"zsh/site-functions/_{name}").read_bytes())
    for file in archives.members(tree / "data/editors/vim"):
        if file.is_file():
            put(usr / "share/vim/vimfiles" / file.relative_to(tree / "data/editors/vim"), file.read_bytes())
    put(tree / "forth.html", page.read_bytes())
    (usr / "share/doc/jaurimet").mkdir(parents=True)
    (usr / "share/doc/jaurimet/examples").symlink_to("../../jaurimet/examples")
    put(usr / "share/lintian/overrides/jaurimet", OVERRIDES.encode())
    summary = "proved Forth-83 system" if source.is_proved else "Forth-83 system, a trial without proofs"
    return Package("jaurimet", source.number, "amd64", "interpreters", "libc6 (>= 2.34), python3 (>= 3.8)", summary, FORTH.format(state=source.state), root)


def library(source: Source, folder: pathlib.Path, target: str) -> List[Package]:
    """The C library in a folder as two packages: what programs over it need when they run, and what makes them."""
    architecture, triplet = ARCHITECTURES[target]
    runs, makes = (source.root(f"{name}-{architecture}") for name in (RUNTIME, "libforth83-dev"))
    place, there = f"usr/lib/{triplet}", makes / f"usr/lib/{triplet}"
    put(runs / place / running.SHARED, (folder / "lib" / running.SHARED).read_bytes())
    put(runs / "DEBIAN/shlibs", f"libforth83 {running.ABI} {RUNTIME} (>= {source.version}~)\n".encode())
    put(runs / "DEBIAN/triggers", b"activate-noawait ldconfig\n")
    put(makes / "usr/include/forth83.h", (folder / "include/forth83.h").read_bytes())
    put(there / "libforth83.a", (folder / "lib/libforth83.a").read_bytes())
    (there / "libforth83.so").symlink_to(running.SHARED)
    shutil.copytree(folder / "lib/cmake", there / "cmake")
    described = (folder / "lib/pkgconfig/forth83.pc").read_text(encoding="utf-8")
    for was, becomes in (("${pcfiledir}/../..", "/usr"), ("${prefix}/lib", f"${{prefix}}/lib/{triplet}")):
        described = described.replace(was, becomes)
    put(there / "pkgconfig/forth83.pc", described.encode())
    documents = makes / "usr/share/doc/libforth83-dev"
    for name in ("docs", "examples", "images"):
        shutil.copytree(folder / name, documents / ("." if name == "docs" else name), dirs_exist_ok=True)
    what = [LIBRARY.format(what=f"This package has {it}.", state=source.state) for it in ("the shared library", "the header, the static library and examples")]
    same, summary = "Multi-Arch: same\n", "Forth-83 machine for other programs"
    return [
        Package(RUNTIME, source.number, architecture, "libs", "libc6 (>= 2.14)", summary, what[0], runs, same),
        Package("libforth83-dev", source.number, architecture, "libdevel", f"{RUNTIME} (= {source.number})", f"{summary} (development)", what[1], makes, same),
    ]


def python(source: Source) -> Package:
    """The Python module over the shared library."""
    root, name = source.root("python3-forth83"), "python3-forth83"
    for file in ("__init__.py", "py.typed"):
        put(root / "usr/lib/python3/dist-packages/forth83" / file, (source.tree / "build/targets/python/forth83" / file).read_bytes())
    for script, tool in SCRIPTS.items():
        put(root / "DEBIAN" / script, SCRIPT.format(tool=tool, package=name).encode(), 0o755)
    text = LIBRARY.format(what="This package has a Python module, with types, over the shared library.", state=source.state)
    depends = f"python3 (>= 3.8), python3:any, {RUNTIME} (>= {source.version}~)"
    return Package(name, source.number, "all", "python", depends, "Forth-83 machine for Python programs", text, root)


def documents_of(package: Package, source: Source) -> None:
    """The package's documents as Debian wants them."""
    folder, date = package.root / "usr/share/doc" / package.name, email.utils.formatdate(source.when)
    licence = (source.tree / "LICENSE").read_text(encoding="utf-8").split("\n\n", 2)
    text = "".join(f" {line}\n" if line else " .\n" for line in licence[2].strip().split("\n"))
    put(folder / "copyright", COPYRIGHT.format(holder=licence[1].replace("Copyright (c) ", ""), text=text.rstrip()).encode())
    entry = f"jaurimet ({package.version}) {SUITE}; urgency=medium\n\n  * See CHANGELOG.md in the source.\n\n -- {MAINTAINER}  {date}\n"
    put(folder / "changelog.gz", archives.gzipped(entry.encode()))


def control(package: Package) -> None:
    """The package's description, and the sums of its files."""
    files = [it for it in archives.members(package.root) if it.is_file() and not it.is_symlink() and package.root / "DEBIAN" not in it.parents]
    sums = [subprocess.run(["md5sum", str(it.relative_to(package.root))], cwd=package.root, stdout=subprocess.PIPE, check=True).stdout for it in files]
    size = sum((it.stat().st_size + 1023) // 1024 for it in files)
    fields = {
        "Package": package.name,
        "Source": "jaurimet",
        "Version": package.version,
        "Section": package.section,
        "Priority": "optional",
        "Architecture": package.architecture,
        "Maintainer": MAINTAINER,
        "Installed-Size": size,
        "Depends": package.depends,
    }
    text = "".join(f"{name}: {value}\n" for name, value in fields.items() if name != "Source" or package.name != "jaurimet")
    put(package.root / "DEBIAN/control", f"{text}{package.more}Description: {package.summary}\n{package.text}".encode())
    put(package.root / "DEBIAN/md5sums", b"".join(sums))


def tidy(root: pathlib.Path, when: int) -> None:
    """One time for all files, and two modes."""
    paths: List[pathlib.Path] = archives.members(root)
    for path in [*reversed(paths), root]:
        if not path.is_symlink():
            path.chmod(0o755 if path.is_dir() or path.stat().st_mode & 0o100 else 0o644)
        os.utime(path, (when, when), follow_symlinks=False)


def make(package: Package, source: Source, out: pathlib.Path) -> pathlib.Path:
    """A package of these files."""
    made = out / f"{package.name}_{package.version}_{package.architecture}.deb"
    documents_of(package, source)
    control(package)
    tidy(package.root, source.when)
    subprocess.run(
        ["dpkg-deb", "--root-owner-group", "-Zxz", "--threads-max=1", "--build", str(package.root), str(made)],
        env={**os.environ, "SOURCE_DATE_EPOCH": str(source.when)},
        stdout=subprocess.DEVNULL,
        check=True,
    )
    return made


def repository(packages: Sequence[pathlib.Path], source: Source, folder: pathlib.Path, key: str) -> None:
    """A folder from which apt installs these packages, and finds newer ones. It is signed with this key of gpg, if one is named."""
    lists, how = folder / "dists" / SUITE, {"cwd": folder, "env": {**os.environ, "SOURCE_DATE_EPOCH": str(source.when)}}
    (folder / "pool").mkdir(parents=True)
    for file in packages:
        os.link(file, folder / "pool" / file.name)
    names = sorted({file.stem.rpartition("_")[2] for file in packages} - {"all"})
    for name in names:
        listed = output(["apt-ftparchive", "--arch", name, "packages", "pool"], how)
        put(lists / f"main/binary-{name}/Packages", listed)
        put(lists / f"main/binary-{name}/Packages.gz", archives.gzipped(listed))
    said = {"Origin": "Jaurimet", "Label": "Jaurimet", "Suite": SUITE, "Codename": SUITE, "Components": "main", "Architectures": " ".join(names)}
    options = [word for field, value in said.items() for word in ("-o", f"APT::FTPArchive::Release::{field}={value}")]
    listed = output(["apt-ftparchive", *options, "release", f"dists/{SUITE}"], how)
    put(lists / "Release", re.sub(rb"(?m)^Date: .*$", f"Date: {email.utils.formatdate(source.when)}".encode(), listed))
    if key:
        gpg = ["gpg", "--batch", "--yes", "--local-user", key]
        put(lists / "InRelease", output([*gpg, "--clearsign", "-o", "-", str(lists / "Release")], {}))
        put(lists / "Release.gpg", output([*gpg, "--armor", "--detach-sign", "-o", "-", str(lists / "Release")], {}))
        put(folder / "jaurimet.gpg", output(["gpg", "--batch", "--export", key], {}))


def output(words: List[str], how: Dict[str, object]) -> bytes:
    """What a command writes; it must succeed."""
    return bytes(subprocess.run(words, stdout=subprocess.PIPE, check=True, **how).stdout)  # type: ignore
