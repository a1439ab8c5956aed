"""Page sizes, the frame, and sheets.

The frame is the physical page, turned by the two landscape orientations. A page keeps its black dots by frame
line: a map from line to a whole number whose bit a is the dot in column a. Every page is marked in one
orientation only, since a change of orientation closes a marked page first.
"""

import hashlib
from typing import NamedTuple, Optional

from . import pbm
from .values import FACTORY_RESOLUTION, dot_positions

PORTRAIT, LANDSCAPE, REVERSE_PORTRAIT, REVERSE_LANDSCAPE = 0, 1, 2, 3


class Size(NamedTuple):
    """A size of paper in dots of a resolution."""
    name: str
    width: int
    height: int
    portrait_offset: int
    landscape_offset: int
    resolution: int = FACTORY_RESOLUTION

    def at(self, resolution):
        """The same paper in dots of a resolution that the factory's divides."""
        assert self.resolution == FACTORY_RESOLUTION
        times = resolution // self.resolution
        return Size(self.name, self.width * times, self.height * times,
                    self.portrait_offset * times, self.landscape_offset * times, resolution)


SIZES = {
    size.name: size
    for size in [
        Size("Letter", 2550, 3300, 75, 60),
        Size("Legal", 2550, 4200, 75, 60),
        Size("A4", 2480, 3507, 71, 59),
        Size("Executive", 2175, 3150, 75, 60),
        Size("Ledger", 3300, 5100, 75, 60),
        Size("A3", 3507, 4960, 71, 59),
    ]
}


def is_landscape(orientation):
    return orientation in (LANDSCAPE, REVERSE_LANDSCAPE)


def frame(size, orientation):
    """Width and height of the frame in dots."""
    if is_landscape(orientation):
        return size.height, size.width
    return size.width, size.height


def offset(size, orientation):
    return size.landscape_offset if is_landscape(orientation) else size.portrait_offset


def logical_page(size, orientation):
    """Width and length of the logical page in positions."""
    width, height = frame(size, orientation)
    positions = dot_positions(size.resolution)
    return (width - 2 * offset(size, orientation)) * positions, height * positions


def to_physical(size, orientation, column, line):
    """The physical dot of a frame dot."""
    if orientation == PORTRAIT:
        return column, line
    if orientation == LANDSCAPE:
        return line, size.height - 1 - column
    if orientation == REVERSE_PORTRAIT:
        return size.width - 1 - column, size.height - 1 - line
    return size.width - 1 - line, column


class Bitmap:
    """A page of dots with its size, in the frame of one orientation."""

    def __init__(self, size, orientation=PORTRAIT):
        self.size = size
        self.orientation = orientation
        self.lines = {}

    def width(self):
        return self.size.width

    def height(self):
        return self.size.height

    def count_black(self):
        return sum(line.bit_count() for line in self.lines.values())

    def paint(self, line, covered, source, pattern, source_opaque, pattern_opaque):
        """One frame line under the dot rule. Each argument after the line is a set of columns, as bits."""
        width, height = frame(self.size, self.orientation)
        if not 0 <= line < height:
            return
        inside = (1 << width) - 1
        black = source & pattern
        white = 0
        if pattern_opaque:
            white |= source & ~pattern
        if source_opaque:
            white |= covered & ~source
        old = self.lines.get(line, 0)
        new = (old | black) & ~white & inside
        if new:
            self.lines[line] = new
        else:
            self.lines.pop(line, None)

    def black_dots(self):
        """The set of physical black dots."""
        dots = set()
        for line, columns in self.lines.items():
            for column, bit in enumerate(reversed(bin(columns)[2:])):
                if bit == "1":
                    dots.add(to_physical(self.size, self.orientation, column, line))
        return dots

    def physical_rows(self):
        """The rows of the physical page, top first, each a text of 0 and 1, left first."""
        width, height = frame(self.size, self.orientation)
        rows = [format(self.lines.get(line, 0), "0%db" % width)[::-1] for line in range(height)]
        if self.orientation == PORTRAIT:
            return rows
        if self.orientation == REVERSE_PORTRAIT:
            return [row[::-1] for row in reversed(rows)]
        columns = ["".join(column) for column in zip(*rows)]
        if self.orientation == LANDSCAPE:
            return columns[::-1]
        return [column[::-1] for column in columns]


class Sheet(NamedTuple):
    front: Bitmap
    back: Optional[Bitmap]

    def sides(self):
        return [("front", self.front)] + ([("back", self.back)] if self.back else [])


def listing(sheets, replies):
    """What the program prints: a line a side, then the replies."""
    text = ""
    for number, sheet in enumerate(sheets, 1):
        for name, side in sheet.sides():
            text += "sheet %d %s %dx%d black %d\n" % (
                number, name, side.width(), side.height(), side.count_black())
    return text.encode() + replies


def listing_with_sums(sheets, replies):
    """The same, with the SHA-256 of the P4 file of each side behind its line."""
    sums = [hashlib.sha256(pbm.bytes_of_side(side)).hexdigest() for sheet in sheets for _, side in sheet.sides()]
    lines = listing(sheets, b"").decode().splitlines()
    return "".join(f"{line} sha256 {digest}\n" for line, digest in zip(lines, sums)).encode() + replies
