"""The course: its file of blocks, its hints and solutions."""
from __future__ import annotations

import os
import shutil
import tempfile

import course_lessons
from launcher.program import Refused, ROOT
from served import image

FOLDER = os.path.join(ROOT, "screens", "course")
SCREENS = os.path.join(FOLDER, "course.txt")
START = os.path.join(FOLDER, "course.fs")
KINDS = {"--hints": "hints", "--solutions": "solution"}


def make(program: str, blocks: str) -> None:
    """Makes the course's file of blocks."""
    with tempfile.TemporaryDirectory() as room:
        made = os.path.join(room, "course.blk")
        try:
            image.run(program, "new", made, "64")
            image.run(program, "screens", SCREENS, made)
            shutil.copyfile(made, blocks)
        except (image.NotMade, OSError) as error:
            raise Refused(f"cannot make {blocks}: {error.strerror if isinstance(error, OSError) else error}") from error


def lesson(kind: str, number: str) -> str:
    """The hints or the solutions of a lesson."""
    try:
        lessons = course_lessons.read()
    except course_lessons.Malformed as error:
        raise Refused(str(error)) from None
    lines = [getattr(it, KINDS[kind]) for it in lessons if number.isascii() and number.isdigit() and it.number == int(number)]
    if not any(lines):
        raise Refused(f"there are no {kind[2:]} for lesson {number}; lessons have numbers from 1 on")
    return "".join(f"{line}\n" for line in lines[0])
