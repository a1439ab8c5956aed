"""Pages as grey pictures: P4 files are made smaller by a whole factor, get a thin frame, and become PNG files.

A page is its width and its rows, as a P4 file has them: the most significant bit left, 1 black, and nothing behind the width. A picture is its rows, too;
there a row is a byte for each dot, 255 where it is white.
"""

import functools
import operator
import re
import struct
import zlib

BITS = [bytes(byte >> (7 - bit) & 1 for byte in range(256)) for bit in range(8)]    # of each byte, from the left
SPACE = rb"(?:[ \t\n\v\f\r]|#[^\n\r]*[\n\r])"
HEADER = re.compile(rb"P4" + SPACE + rb"+(\d+)" + SPACE + rb"+(\d+)(?:#[^\n\r]*)?[ \t\n\v\f\r]")
MOST_IN_A_BYTE = 255
INVERTED = bytes(255 - byte for byte in range(256))   # a PNG's 1 is white
METRES_PER_INCH = 0.0254
GREY, BY_PALETTE = 0, 3
PACKED = 4   # of zlib: of a halftone a tenth of the time of 9, and a file 6 per cent larger; of a page with little on it half as large again
FRAME = 128
PAPER = 255
GAP = 8
MOST_COLUMNS = 8


def read_p4(data):
    """Width and rows of a P4 file."""
    header = HEADER.match(data)
    if not header:
        raise ValueError("no P4 file")
    width, height = int(header[1]), int(header[2])
    if width == 0 or height == 0:
        raise ValueError("a picture without dots")
    stride = (width + 7) // 8
    packed = data[header.end() : header.end() + stride * height]
    if len(packed) < stride * height:
        raise ValueError("the file ends too early")
    rows = [packed[start : start + stride] for start in range(0, len(packed), stride)]
    inside = 0xFF << -width % 8 & 0xFF
    return width, rows if inside == 0xFF else [row[:-1] + bytes([row[-1] & inside]) for row in rows]


def dots_of(packed):
    """A byte for each bit, 1 where it is set."""
    dots = bytearray(8 * len(packed))
    for bit, table in enumerate(BITS):
        dots[bit::8] = packed.translate(table)
    return bytes(dots)


def black_in_squares(rows, factor):
    """How many dots are black in each square of some rows, from the left.

    Lines, and the columns of a line, are added as whole numbers whose bytes are the sums, while these fit a byte.
    """
    across = 8 * len(rows[0])
    if len(rows) > MOST_IN_A_BYTE:
        return list(map(operator.add, black_in_squares(rows[:MOST_IN_A_BYTE], factor), black_in_squares(rows[MOST_IN_A_BYTE:], factor)))
    dots = dots_of(b"".join(rows))
    line = sum(int.from_bytes(dots[start : start + across], "big") for start in range(0, len(dots), across)).to_bytes(across, "big")
    if factor * len(rows) > MOST_IN_A_BYTE:
        return [sum(line[left : left + factor]) for left in range(0, across, factor)]
    line += bytes(-across % factor)
    return sum(int.from_bytes(line[column::factor], "big") for column in range(factor)).to_bytes(len(line) // factor, "big")


def grey_rows(width, rows, factor):
    """The rows of the picture: each of its dots is a square of FACTOR by FACTOR dots, the darker the more of them are black."""
    squares = -(-width // factor)
    white = bytes([PAPER]) * squares
    for top in range(0, len(rows), factor):
        band = rows[top : top + factor]
        if not b"".join(band).strip(b"\0"):
            yield white
            continue
        blacks = black_in_squares(band, factor)[:squares]
        yield shaded(blacks[:-1], factor * len(band)) + shaded(blacks[-1:], (width - (squares - 1) * factor) * len(band))


def shaded(blacks, size):
    """The greys of squares of so many dots, of each of which so many are black."""
    greys = greys_of(size)
    return blacks.translate(greys) if type(blacks) is bytes else bytes(map(greys.__getitem__, blacks))


@functools.lru_cache(maxsize=64)
def greys_of(size):
    """The grey of a square of so many dots, by how many of them are black."""
    greys = bytes(PAPER - PAPER * black // size for black in range(size + 1))
    return greys.ljust(MOST_IN_A_BYTE + 1)


def framed(rows):
    """The picture with a line of one dot round it."""
    across = bytes([FRAME]) * (len(rows[0]) + 2)
    return [across, *(bytes([FRAME]) + row + bytes([FRAME]) for row in rows), across]


def page_picture(width, rows, factor):
    return framed(list(grey_rows(width, rows, factor)))


def contact_sheet(pictures):
    """Pictures side by side, at most eight in a row, each at the upper left of its place."""
    columns = min(MOST_COLUMNS, len(pictures))
    across = max(len(picture[0]) for picture in pictures)
    down = max(len(picture) for picture in pictures)
    blank = bytes([PAPER]) * across
    rows = []
    for first in range(0, len(pictures), columns):
        band = pictures[first : first + columns]
        band = [[row.ljust(across, blank[:1]) for row in picture] + [blank] * (down - len(picture)) for picture in band]
        band += [[blank] * down] * (columns - len(band))
        gap = blank[:1] * GAP
        rows += [blank[:1] * (GAP + columns * (across + GAP))] * GAP
        rows += [gap + gap.join(line) + gap for line in zip(*band)]
    return rows + [blank[:1] * len(rows[0])] * GAP


def chunk(name, data):
    return struct.pack(">I", len(data)) + name + data + struct.pack(">I", zlib.crc32(name + data))


def file_of(width, height, depth, data, about=b"", colours=GREY):
    """A PNG of rows that begin with the byte of their filter, 0."""
    head = struct.pack(">IIBBBBB", width, height, depth, colours, 0, 0, 0)
    return b"\x89PNG\r\n\x1a\n" + chunk(b"IHDR", head) + about + chunk(b"IDAT", zlib.compress(data, PACKED)) + chunk(b"IEND", b"")


def png(rows):
    """The bytes of a grey PNG with these rows."""
    return file_of(len(rows[0]), len(rows), 8, b"".join(b"\0" + row for row in rows))


def png_of_dots(width, rows, resolution):
    """A PNG of all dots, one bit each; the rows are bytes, 1 black, and the resolution is in dots per inch."""
    per_metre = round(resolution / METRES_PER_INCH)
    data = b"".join(b"\0" + row.translate(INVERTED) for row in rows)
    return file_of(width, len(rows), 1, data, chunk(b"pHYs", struct.pack(">IIB", per_metre, per_metre, 1)))


def rows_of(data):
    """The rows of a PNG that was made here, each as its bytes."""
    width, height, depth = struct.unpack(">IIB", data[16:25])
    packed, place, size = b"", 8, (width * depth + 7) // 8
    while place < len(data):
        (length,) = struct.unpack(">I", data[place : place + 4])
        if data[place + 4 : place + 8] == b"IDAT":
            packed += data[place + 8 : place + 8 + length]
        place += 12 + length
    plain = zlib.decompress(packed)
    return [plain[start + 1 : start + 1 + size] for start in range(0, height * (size + 1), size + 1)]
