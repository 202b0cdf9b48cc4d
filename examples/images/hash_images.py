#!/usr/bin/env python3
"""Hashes the images of a folder: hash_images.py FOLDER OUT.

Reads each PGM, PPM and PNG file of the folder, and writes two files into the folder OUT:

    batch.csv    a line `+,NUMBER,HASH` for each image, the input of `once hamming 64 EPS MINPTS`
    names.csv    a line `NUMBER,FILE` for each image

Numbers count from 1, by the order of the file names. The hash is the difference hash of 64 bits: the image is made 9
cells wide and 8 high, and each bit says whether a cell is darker than the one to its right. So it stays the same, or
nearly, where an image is scaled, made brighter or darker, or cropped a little.
"""

from __future__ import annotations

import os
import sys
from typing import List

import pixels


def difference_hash(image: pixels.Grey) -> str:
    """The 64 bits of an image as a text of `0` and `1`, row by row."""
    bits = []
    for row in pixels.block_mean(image, 9, 8):
        for (grey, size), (grey_right, size_right) in zip(row, row[1:]):
            bits.append("1" if grey * size_right < grey_right * size else "0")
    return "".join(bits)


def files_of(folder: str) -> List[str]:
    """The names of the image files in a folder, in order."""
    return sorted(it for it in os.listdir(folder) if it.lower().endswith(pixels.ENDINGS))


def main() -> None:
    if len(sys.argv) != 3:
        sys.exit("usage: hash_images.py FOLDER OUT")
    folder, out = sys.argv[1:]
    batch, names = [], []
    for name in files_of(folder):
        try:
            bits = difference_hash(pixels.read(os.path.join(folder, name)))
        except ValueError as error:
            print(f"hash_images: left out {name}: {error}", file=sys.stderr)
            continue
        names.append(f"{len(names) + 1},{name}\n")
        batch.append(f"+,{len(names)},{bits}\n")
    if not names:
        sys.exit(f"hash_images: no image in {folder} was read")
    os.makedirs(out, exist_ok=True)
    for name, lines in (("batch.csv", batch), ("names.csv", names)):
        with open(os.path.join(out, name), "w", encoding="utf-8", newline="\n") as file:
            file.writelines(lines)


if __name__ == "__main__":
    main()
