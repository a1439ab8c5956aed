"""Two pages over one another: the regions in which they differ, and whether what stands there was shifted.

A row is a whole number whose bits are its dots, the leftmost the highest of as many bits as the page is wide; 1 is black.
"""

import functools
import operator
from typing import NamedTuple, Optional

from seen import png

TILE = 64
FULL = (1 << TILE) - 1
PALETTE = bytes((255, 255, 255, 32, 64, 224, 224, 32, 32, 96, 96, 96))   # white, only in the new, only in the old, in both
WIDER = [sum((byte >> bit & 1) << 2 * bit for bit in range(8)).to_bytes(2, "big") for byte in range(256)]


class Dots(NamedTuple):
    width: int
    rows: list

    def count(self):
        return sum(map(int.bit_count, self.rows))


class Box(NamedTuple):
    """Its ends are within."""
    left: int
    top: int
    right: int
    bottom: int

    def joined(self, other):
        return Box(min(self.left, other.left), min(self.top, other.top), max(self.right, other.right), max(self.bottom, other.bottom))

    def holds(self, other):
        return self.joined(other) == self


class Region(NamedTuple):
    """Dots that differ: how many are only in the old and only in the new, and the first of each, as line and column."""
    box: Box
    only_old: int
    only_new: int
    first_old: Optional[tuple]
    first_new: Optional[tuple]
    shift: Optional[tuple] = None     # dots right and down, where it is one

    def joined(self, other):
        return Region(self.box.joined(other.box), self.only_old + other.only_old, self.only_new + other.only_new,
                      earlier(self.first_old, other.first_old), earlier(self.first_new, other.first_new), self.shift)


def earlier(one, other):
    return min(filter(None, (one, other)), default=None)


def pictures_in(data):
    """The pictures of a P4 file, one after another."""
    while data:
        header = png.HEADER.match(data)
        if not header:
            raise ValueError("no P4 file")
        width, height = int(header[1]), int(header[2])
        stride, start = (width + 7) // 8, header.end()
        if not width or not height or len(data) < start + stride * height:
            raise ValueError("a P4 file without dots, or one that ends too early")
        yield Dots(width, [int.from_bytes(data[place:place + stride], "big") >> -width % 8
                           for place in range(start, start + stride * height, stride)])
        data = data[start + stride * height:]


def side_in(path):
    """The page of a file that the program made."""
    return next(pictures_in(path.read_bytes()))


def bounds(dots):
    """The box of the black dots; None where there are none."""
    across = functools.reduce(operator.or_, dots.rows, 0)
    if not across:
        return None
    lines = [line for line, row in enumerate(dots.rows) if row]
    return Box(dots.width - across.bit_length(), lines[0], dots.width - (across & -across).bit_length(), lines[-1])


def cut(dots, box):
    """What stands in a box of a page."""
    width = box.right - box.left + 1
    mask, behind = (1 << width) - 1, dots.width - 1 - box.right
    return Dots(width, [row >> behind & mask for row in dots.rows[box.top:box.bottom + 1]])


def moved(dots, right, down, width=None, height=None):
    """A picture on a frame of this size, or of its own, with its upper left corner at this place; what falls beside the frame is gone."""
    width, height = width or dots.width, height or len(dots.rows)
    mask, left = (1 << width) - 1, width - dots.width - right
    rows = [(row << left if left >= 0 else row >> -left) & mask for row in dots.rows[max(0, -down):max(0, height - down)]]
    rows = [0] * max(0, min(down, height)) + rows
    return Dots(width, rows + [0] * (height - len(rows)))


def pairwise(operation, one, other):
    return Dots(one.width, list(map(operation, one.rows, other.rows)))


def without(one, other):
    return pairwise(lambda row, more: row & ~more, one, other)


def tiles(old, new):
    """Of each tile of 64 by 64 dots in which some differ, what a region of these dots is."""
    pad, across, found = -old.width % TILE, -(-old.width // TILE), {}
    for line, (one, other) in enumerate(zip(old.rows, new.rows)):
        if one == other:
            continue
        left, one = (one ^ other) << pad, one << pad
        while left:
            number = ((left & -left).bit_length() - 1) // TILE
            some = left >> number * TILE & FULL
            left ^= some << number * TILE
            gone = some & one >> number * TILE
            found.setdefault((across - 1 - number, line // TILE), []).append((line, some, gone))
    return {key: region_of((key[0] + 1) * TILE, lines) for key, lines in found.items()}


def region_of(end, lines):
    """The region of dots of a tile that ends before a column: of each line the dots that differ, and those of them that only the old has."""
    across, only_old, only_new, first_old, first_new = 0, 0, 0, None, None
    for line, some, gone in lines:
        across |= some
        only_old += gone.bit_count()
        only_new += (some ^ gone).bit_count()
        if gone and first_old is None:
            first_old = line, end - gone.bit_length()
        if some != gone and first_new is None:
            first_new = line, end - (some ^ gone).bit_length()
    return Region(Box(end - across.bit_length(), lines[0][0], end - (across & -across).bit_length(), lines[-1][0]), only_old, only_new, first_old, first_new)


def groups(keys, through=frozenset()):
    """Tiles that touch, or touch others of `through` between them, each group with those."""
    left, every = set(keys), set(keys) | set(through)
    while left:
        waiting, group = [left.pop()], set()
        while waiting:
            column, line = waiting.pop()
            beside = {(column + right, line + down) for right in (-1, 0, 1) for down in (-1, 0, 1)} & every - group
            group |= beside
            waiting += beside
        left -= group
        yield group


def regions(old, new):
    """The regions in which two pages of one size differ, the largest first; a shift is one region."""
    parts = tiles(old, new)
    if not parts:
        return []
    found = [functools.reduce(Region.joined, (parts[key] for key in sorted(group))) for group in groups(parts)]
    every, page = functools.reduce(Region.joined, found), Box(0, 0, old.width - 1, len(old.rows) - 1)
    if shift := shift_in(old, new, every.box) or shift_of_page(old, new):
        return [every._replace(shift=shift)]
    for shape in shapes(old, new, parts, page):
        if (shift := shift_in(old, new, shape)) is not None:
            within = [region for region in found if shape.holds(region.box)]
            if within:
                found = [region for region in found if region not in within] + [functools.reduce(Region.joined, within)._replace(shift=shift)]
    return sorted(found, key=lambda region: -(region.only_old + region.only_new))


def shapes(old, new, parts, page):
    """The boxes of what touches dots that differ, through black dots, and those of the regions alone."""
    black = {(column, line // TILE) for line in range(0, len(old.rows), TILE) for column in black_tiles(old, new, line)}
    for through in (black, frozenset()):
        for group in groups(parts, through):
            columns, lines = zip(*group)
            box = Box(min(columns) * TILE, min(lines) * TILE, max(columns) * TILE + TILE - 1, max(lines) * TILE + TILE - 1)
            if through:
                yield Box(box.left, box.top, min(box.right, page.right), min(box.bottom, page.bottom))
            else:
                yield functools.reduce(Region.joined, (parts[key] for key in group)).box


def black_tiles(old, new, line):
    """The columns of the tiles of 64 lines in which a dot is black."""
    some = functools.reduce(operator.or_, old.rows[line:line + TILE] + new.rows[line:line + TILE]) << -old.width % TILE
    last = -(-old.width // TILE) - 1
    return [last - number for number in range(last + 1) if some >> number * TILE & FULL]


def shift_in(old, new, box):
    """How many dots right and down the dots in a box have gone, or those of them that differ; None where they did something else."""
    one, other = cut(old, box), cut(new, box)
    for first, second in ((one, other), (without(one, other), without(other, one))):
        places = bounds(first), bounds(second)
        if None in places or first.count() != second.count():
            continue
        right, down = places[1].left - places[0].left, places[1].top - places[0].top
        if (right, down) != (0, 0) and moved(first, right, down) == second:
            return right, down
    return None


def shift_of_page(old, new):
    """The same of all dots of a page, where some fell beside its edges, or came from there."""
    places = bounds(old), bounds(new)
    if None in places:
        return None
    for right, down in ((places[1].left - places[0].left, places[1].top - places[0].top),
                        (places[1].right - places[0].right, places[1].bottom - places[0].bottom)):
        there, back = moved(old, right, down), moved(new, -right, -down)
        if (right, down) != (0, 0) and there.count() and back == moved(there, -right, -down) and there == moved(back, right, down):
            return right, down
    return None


def coloured(old, new):
    """A PNG of two pages over one another: what is only in the old red, only in the new blue, in both grey."""
    stride, pad, rows = (old.width + 7) // 8, -old.width % 8, []
    blank = bytes(1 + -(-old.width // 4))
    for one, other in zip(old.rows, new.rows):
        if one or other:
            first, second = (b"".join(map(WIDER.__getitem__, (row << pad).to_bytes(stride, "big"))) for row in (one, other))
            both = int.from_bytes(first, "big") << 1 | int.from_bytes(second, "big")
            rows.append(b"\0" + both.to_bytes(2 * stride, "big")[:len(blank) - 1])
        else:
            rows.append(blank)
    return png.file_of(old.width, len(old.rows), 2, b"".join(rows), png.chunk(b"PLTE", PALETTE), png.BY_PALETTE)
