#!/usr/bin/env python3
"""Makes a page like another one, of another version: screens of its disks are others, and so is its Forth's sum.

    tests/pages/editions.py PAGE TARGET NUMBER [IMAGE]      with another image for its Forth, if one is given
"""
import argparse
import base64
import json
import pathlib
import re
import sys
import zlib
from typing import Any, Dict

sys.dont_write_bytecode = True

DATA = re.compile(r'(<script type="text/plain" id="packed-(data|image)" data-size=")(\d+)(">)([^<]*)')


def unpacked(page: str) -> Dict[str, Any]:
    """A page's data."""
    found = {one[2]: one[5] for one in DATA.finditer(page)}
    return json.loads(zlib.decompress(base64.b64decode(found["data"]), -15))


def packed(content: bytes) -> str:
    packing = zlib.compressobj(9, zlib.DEFLATED, -15)
    return base64.b64encode(packing.compress(content) + packing.flush()).decode()


def other_edition(source: pathlib.Path, target: pathlib.Path, number: int, image: bytes = b"") -> None:
    """The page of a number."""
    text = source.read_text(encoding="utf-8")
    data = unpacked(text)
    for name in ("course.blk", "kiln.blk"):
        data["disks"][name]["text"] = re.sub(r"(?m)^% screen (\d+)\n.*", rf"% screen \1\n( Edition {number} of screen \1 )", data["disks"][name]["text"], count=4 + number % 3)
    data["version"] = {"text": f"forth83 9.{number}.0 in a page, unproved", "image": f"{number:064}"}
    contents = {"data": json.dumps(data).encode(), "image": image}

    def put(found: "re.Match[str]") -> str:
        content = contents[found[2]]
        return f"{found[1]}{len(content)}{found[4]}{packed(content)}" if content else found[0]

    target.write_text(DATA.sub(put, text), encoding="utf-8")


def main() -> int:
    words = argparse.ArgumentParser(description="Makes a page like another one, of another version.")
    for name, kind in (("page", pathlib.Path), ("target", pathlib.Path), ("number", int)):
        words.add_argument(name, type=kind)
    words.add_argument("image", nargs="?", type=pathlib.Path)
    asked = words.parse_args()
    other_edition(asked.page, asked.target, asked.number, asked.image.read_bytes() if asked.image else b"")
    return 0


if __name__ == "__main__":
    sys.exit(main())
