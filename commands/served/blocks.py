"""The file of blocks of a session: what is refused, a new one, and one whose place another file has taken."""
from __future__ import annotations

import fcntl
import os
import shutil

import whole
from served import image
from served.target import BLOCK
from served.texts import Unreadable

LONGEST_NAME = 240  # bytes


def open_blocks(program: str, name: str) -> bool:
    """Refuses a file that cannot be one of blocks, and makes one that does not exist; whether it is new."""
    is_new = not os.path.exists(name)
    if is_new:
        make(program, name)
    look_at_kind(name)
    look_inside(name)
    return is_new


def look_at_name(name: str) -> None:
    """Refuses a name that no new file can have."""
    last = os.fsencode(os.path.basename(name))
    folder = os.path.dirname(name) or "."
    if len(last) > LONGEST_NAME:
        raise Unreadable(f"the name {os.fsdecode(last[:16])}.. has {len(last)} bytes, too many for a new file")
    if not os.path.isdir(folder):
        raise Unreadable(f"cannot make {name}: there is no folder {folder}")


def make(program: str, name: str) -> None:
    """A new file of blocks, with the kernel's screens. Of two that are made at once the first one stays."""
    look_at_name(name)
    folder = os.path.dirname(name) or "."
    if not os.access(folder, os.W_OK):
        raise Unreadable(f"cannot make {name}: the folder {folder} cannot be written; name a file elsewhere, as in ./forth ~/my.blk")
    import tempfile  # files are seldom made

    beside = os.path.join(image.beside(program), image.NEW)
    try:
        with tempfile.TemporaryDirectory(prefix=".forth-", dir=folder) as room:
            new = os.path.join(room, "new")
            if os.path.isfile(beside):
                shutil.copyfile(beside, new)
            else:
                image.run(program, "kernel", new)
            os.link(new, name)
    except FileExistsError:
        pass
    except (image.NotMade, OSError) as error:
        raise Unreadable(f"cannot make {name}: {error}") from error


def look_at_kind(name: str) -> None:
    if os.path.isdir(name):
        raise Unreadable(f"{name} is a folder; name a file of blocks")
    if not os.path.isfile(name):
        raise Unreadable(f"{name} is not a file of blocks")
    if not os.access(name, os.R_OK):
        raise Unreadable(f"cannot read {name}: its permissions do not allow it; run chmod u+r {name}")
    if not os.access(name, os.W_OK):
        advice = f"run chmod u+w {name}, or work on a copy: cp {name} my.blk && chmod u+w my.blk"
        raise Unreadable(f"cannot write {name}: it is read-only; {advice}")


def look_inside(name: str) -> None:
    with open(name, "rb") as file:
        try:
            start, size = file.read(BLOCK), os.fstat(file.fileno()).st_size
        except OSError as error:
            raise Unreadable(f"cannot read {name}: {error.strerror}") from error
        try:
            fcntl.flock(file, fcntl.LOCK_EX | fcntl.LOCK_NB)
        except OSError as error:
            advice = "end that run with BYE, or work on a copy"
            raise Unreadable(f"{name} is in use by another run{holder(os.fstat(file.fileno()).st_ino)}; {advice}") from error
    if start.startswith(b"FTH83IMG"):
        raise Unreadable(f"{name} is an image, not a file of blocks; ./forth83 run {name} runs it")
    if size % BLOCK:
        advice = f"./forth {name} runs it as a script if it is called NAME.fs, and ./forth83 screens {name} NEW makes blocks from a text"
        raise Unreadable(f"{name} has {size} bytes, which is not a whole number of blocks; {advice}")
    if start.count(b"\n") > 7 and not name.endswith(".blk"):
        raise Unreadable(f"{name} has line ends, as a text has and blocks do not; call it NAME.fs, or NAME.blk if it has blocks")


def holder(inode: int) -> str:
    """The process that has a lock on the file, if the system says it."""
    try:
        with open("/proc/locks", encoding="ascii") as locks:
            rows = [line.split() for line in locks]
    except OSError:
        return ""
    found = [row[4] for row in rows if len(row) > 5 and row[1] == "FLOCK" and row[5].endswith(f":{inode}")]
    return f" (process {found[0]})" if found else ""


def keep_lost(file: int, blocks: str) -> str:
    """If another file has taken the place of the blocks, keeps what the session wrote beside it; what to say of that."""
    mine = os.fstat(file)
    if os.path.exists(blocks) and os.path.samestat(os.stat(blocks), mine):
        return ""
    what = "another file took the place of" if os.path.exists(blocks) else "meanwhile there is no"
    kept = whole.free_name(f"{blocks}.session")
    try:
        with open(os.dup(file), "rb") as written, open(kept, "xb") as copy:
            written.seek(0)
            shutil.copyfileobj(written, copy)
    except OSError as error:
        return f"{what} {blocks}, and what this session wrote cannot be saved: {error.strerror}\n"
    return f"{what} {blocks}; what this session wrote is in {kept}\n"
