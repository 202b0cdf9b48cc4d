"""Reads image files as grey pixels: PGM and PPM, and PNG with 8 bits a channel that isn't interlaced."""

from __future__ import annotations

import zlib
from typing import List, NamedTuple, Tuple

ENDINGS = (".pgm", ".ppm", ".png")


class Grey(NamedTuple):
    """A grey image: its width and height in pixels, and its rows from the top, each with a byte for each pixel."""

    width: int
    height: int
    rows: List[bytes]


def grey_of(pixels: bytes, channels: int) -> bytes:
    """The grey of pixels: of red, green and blue the usual weights; a channel behind them (alpha) isn't looked at."""
    if channels < 3:
        return pixels[::channels]
    reds, greens, blues = (pixels[place::channels] for place in range(3))
    return bytes((299 * r + 587 * g + 114 * b) // 1000 for r, g, b in zip(reds, greens, blues))


def in_rows(width: int, height: int, channels: int, pixels: bytes) -> Grey:
    """The image of pixels that lie row by row; a ValueError where there are too few."""
    stride = width * channels
    if not width or not height or len(pixels) < stride * height:
        raise ValueError("the file ends before its last pixel")
    rows = [grey_of(pixels[stride * y : stride * (y + 1)], channels) for y in range(height)]
    return Grey(width, height, rows)


def header_numbers(content: bytes, count: int) -> Tuple[List[int], int]:
    """The numbers of a PGM or PPM header behind its two letters, and the place behind the last one's space."""
    numbers, place = [], 2
    while len(numbers) < count:
        while content[place : place + 1].isspace():
            place += 1
        start = place
        if content[place : place + 1] == b"#":
            place = content.index(b"\n", place)
            continue
        while content[place : place + 1].isdigit():
            place += 1
        numbers.append(int(content[start:place]))
    return numbers, place + 1


def read_pnm(content: bytes) -> Grey:
    """A PGM or PPM image, written in bytes (P5, P6) or in digits (P2, P3), with at most 255 as its greatest value."""
    channels = 3 if content[:2] in (b"P3", b"P6") else 1
    (width, height, most), start = header_numbers(content, 3)
    if not 0 < most < 256:
        raise ValueError("values over 255 aren't read")
    pixels = content[start:]
    if content[:2] in (b"P2", b"P3"):
        pixels = bytes(min(int(word), most) for word in pixels.split())
    if most != 255:
        pixels = bytes(min(value, most) * 255 // most for value in pixels)
    return in_rows(width, height, channels, pixels)


def chunks_of(content: bytes) -> List[Tuple[bytes, bytes]]:
    """The chunks of a PNG file: the four letters and the content of each."""
    chunks, place = [], 8
    while place + 8 <= len(content):
        length = int.from_bytes(content[place : place + 4], "big")
        chunks.append((content[place + 4 : place + 8], content[place + 8 : place + 8 + length]))
        place += length + 12
    return chunks


def nearest(left: int, above: int, corner: int) -> int:
    """The one of three neighbours that is nearest to left + above - corner: Paeth's predictor."""
    guess = left + above - corner
    steps = (abs(guess - left), abs(guess - above), abs(guess - corner))
    return (left, above, corner)[steps.index(min(steps))]


def unfiltered(kind: int, line: bytearray, above: bytes, channels: int) -> bytearray:
    """A row of a PNG image, whose bytes are told as differences from neighbours in one of five ways."""
    if kind > 4:
        raise ValueError("a row has an unknown filter")
    for place in range(len(line)) if kind else ():
        left = line[place - channels] if place >= channels else 0
        corner = above[place - channels] if place >= channels else 0
        added = (0, left, above[place], (left + above[place]) // 2, 0)[kind]
        if kind == 4:
            added = nearest(left, above[place], corner)
        line[place] = (line[place] + added) % 256
    return line


def read_png(content: bytes) -> Grey:
    """A PNG image of 8 bits a channel: grey, coloured or with a palette, with or without alpha."""
    chunks = chunks_of(content)
    head = dict(chunks).get(b"IHDR", bytes(13))
    width, height = int.from_bytes(head[:4], "big"), int.from_bytes(head[4:8], "big")
    depth, kind, interlaced = head[8], head[9], head[12]
    if depth != 8 or interlaced or kind not in (0, 2, 3, 4, 6):
        raise ValueError("only PNG of 8 bits a channel that isn't interlaced is read")
    channels = {0: 1, 2: 3, 3: 1, 4: 2, 6: 4}[kind]
    packed = zlib.decompress(b"".join(said for name, said in chunks if name == b"IDAT"))
    above, pixels, stride = bytes(width * channels), bytearray(), width * channels + 1
    for start in range(0, stride * height, stride):
        line = bytearray(packed[start + 1 : start + stride])
        above = unfiltered(packed[start], line, above, channels)
        pixels += above
    if kind == 3:
        palette = dict(chunks)[b"PLTE"]
        pixels = bytearray(b"".join(palette[3 * value : 3 * value + 3] for value in pixels))
    return in_rows(width, height, 3 if kind == 3 else channels, bytes(pixels))


def read(path: str) -> Grey:
    """The image in a file; a ValueError with the reason where it isn't read."""
    with open(path, "rb") as file:
        content = file.read()
    try:
        if content[:8] == b"\x89PNG\r\n\x1a\n":
            return read_png(content)
        if content[:2] in (b"P2", b"P3", b"P5", b"P6"):
            return read_pnm(content)
    except (IndexError, KeyError, zlib.error) as error:
        raise ValueError(f"the file is broken ({error})") from error
    raise ValueError("it is no PGM, PPM or PNG file")


def block_mean(image: Grey, columns: int, rows: int) -> List[List[Tuple[int, int]]]:
    """The image cut into columns x rows cells of nearly one size: for each its sum of grey, and its pixels."""
    cells = []
    for row in range(rows):
        top = row * image.height // rows
        lines = image.rows[top : max(top + 1, (row + 1) * image.height // rows)]
        line = []
        for column in range(columns):
            left = column * image.width // columns
            right = max(left + 1, (column + 1) * image.width // columns)
            line.append((sum(sum(it[left:right]) for it in lines), len(lines) * (right - left)))
        cells.append(line)
    return cells
