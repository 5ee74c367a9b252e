"""Bytes of a Forth as texts, and files that are made whole or not at all."""
import os
import pathlib

import program
import whole


def shown(name: bytes) -> str:
    """A name as a text: bytes that are no text and control bytes as `\\x07`."""
    text = name.decode("utf-8", "backslashreplace")
    return "".join(letter if letter.isprintable() else letter.encode("unicode_escape").decode() for letter in text)


def file_name(name: bytes, suffix: str) -> str:
    """A name as a part of a file's name: what isn't a letter, a digit or a `-` within is `_` and its number."""
    parts = [chr(byte) if chr(byte).isalnum() and byte < 128 or byte == 45 and place else "_%02X" % byte for place, byte in enumerate(name)]
    return "".join(parts) + suffix


def is_ours(path: pathlib.Path, mark: str) -> bool:
    """Whether a file is one that the tool made: the mark is in its first bytes."""
    with open(path, "rb") as file:
        return mark.encode() in file.read(400)


def check_target(named: str, mark: str, what: str) -> None:
    """Refuses a place where the tool can't write, or where something else is."""
    path = pathlib.Path(named)
    folder = path.parent
    if path.is_dir():
        raise program.Refusal(f"{path} is a folder; name a file with -o")
    if not folder.is_dir():
        raise program.Refusal(f"cannot make {path}: there is no folder {folder}")
    if path.exists() and not (path.is_file() and os.access(path, os.R_OK) and is_ours(path, mark)):
        raise program.Refusal(f"{path} already exists and is not a {what}; name another file with -o")
    if not os.access(folder, os.W_OK):
        raise program.Refusal(f"cannot make {path}: the folder {folder} cannot be written; name a file elsewhere with -o")


def write_whole(path: str, text: str) -> None:
    """Writes a file beside its place, and puts it there when it is whole."""
    try:
        whole.replace(path, text.encode())
    except OSError as error:
        raise program.Refusal(f"cannot write {path}: {error.strerror}") from error
