#!/usr/bin/env python3
"""Packs the images of vectors/expected.tsv into one file for a program to replay.

For each row, in the order of the table: the number that intake answers (0 where it accepts) and the length in bytes, each as 4 bytes,
little-endian, and then the image's bytes.

    python3 tools/pack_vectors.py OUT
"""

import struct
import sys
from pathlib import Path

VECTORS = Path(__file__).resolve().parent.parent / "vectors"


def number(answer: str) -> int:
    """0 for `ok`, N for `refused N`."""
    if answer == "ok":
        return 0
    word, digits = answer.split(" ")
    if word != "refused":
        raise ValueError(f"no answer of intake: {answer}")
    return int(digits)


def packed(folder: Path) -> bytes:
    """The images of the folder's table, each behind its number and its length."""
    out = bytearray()
    for line in (folder / "expected.tsv").read_text(encoding="utf-8").splitlines():
        name, answer, _link, _what = line.split("\t")
        image = (folder / f"{name}.img").read_bytes()
        out += struct.pack("<II", number(answer), len(image))
        out += image
    return bytes(out)


def main() -> int:
    if len(sys.argv) != 2:
        print("usage: python3 tools/pack_vectors.py OUT", file=sys.stderr)
        return 2
    Path(sys.argv[1]).write_bytes(packed(VECTORS))
    return 0


if __name__ == "__main__":
    sys.exit(main())
