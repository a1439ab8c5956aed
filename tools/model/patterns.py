"""Pattern tiles. A tile is a list of rows, a row a list of truth values: True is black."""

BLACK, WHITE, SHADING, HATCH, USER = 0, 1, 2, 3, 4

# Greatest per cent of each shading, and its rows of eight dots.
SHADINGS = [
    (2, "80 00 00 00 00 00 00 00"),
    (10, "88 00 00 00 88 00 00 00"),
    (20, "88 00 22 00 88 00 22 00"),
    (35, "AA 00 AA 00 AA 00 AA 00"),
    (55, "AA 55 AA 55 AA 55 AA 55"),
    (80, "FF 55 FF 55 FF 55 FF 55"),
    (99, "77 FF DD FF 77 FF DD FF"),
    (100, "FF FF FF FF FF FF FF FF"),
]

HATCHES = {
    1: lambda column, row: row == 0,
    2: lambda column, row: column == 0,
    3: lambda column, row: column + row == 15,
    4: lambda column, row: column == row,
    5: lambda column, row: row == 0 or column == 0,
    6: lambda column, row: column + row == 15 or column == row,
}

SOLID_BLACK = [[True]]
SOLID_WHITE = [[False]]


class BadHeader(Exception):
    number = 201


class ShortData(Exception):
    number = 202


def dots_of_bytes(row, width):
    """The first dots of a row of bytes, most significant bit left."""
    return [bool(row[column // 8] >> (7 - column % 8) & 1) for column in range(width)]


def shading(per_cent):
    """The tile of a shading, or None."""
    if not 1 <= per_cent <= 100:
        return None
    for greatest, rows in SHADINGS:
        if per_cent <= greatest:
            return [dots_of_bytes([row], 8) for row in bytes.fromhex(rows)]


def hatch(number):
    """The tile of a cross-hatch, or None."""
    if number not in HATCHES:
        return None
    black = HATCHES[number]
    return [[black(column, row) for column in range(16)] for row in range(16)]


def tile_of_data(data):
    """The tile that a definition's data describe."""
    if len(data) < 8 or data[:4] != b"\0\0\1\0":
        raise BadHeader()
    height = data[4] * 256 + data[5]
    width = data[6] * 256 + data[7]
    if height == 0 or width == 0:
        raise BadHeader()
    row_bytes = (width + 7) // 8
    rows = data[8:]
    if len(rows) < height * row_bytes:
        raise ShortData()
    starts = range(0, height * row_bytes, row_bytes)
    return [dots_of_bytes(rows[start:start + row_bytes], width) for start in starts]


class Patterns:
    """The user's patterns: from ID to tile, and whether it is permanent."""

    def __init__(self):
        self.tiles = {}
        self.permanent = set()

    def define(self, number, data):
        self.tiles[number] = tile_of_data(data)
        self.permanent.discard(number)

    def delete(self, number):
        self.tiles.pop(number, None)
        self.permanent.discard(number)

    def delete_all(self):
        self.tiles.clear()
        self.permanent.clear()

    def delete_temporary(self):
        for number in set(self.tiles) - self.permanent:
            del self.tiles[number]

    def set_permanent(self, number, permanent):
        if number in self.tiles and permanent:
            self.permanent.add(number)
        else:
            self.permanent.discard(number)

    def tile(self, kind, number):
        """The tile of a kind and ID, or None where it does not exist."""
        if kind == BLACK:
            return SOLID_BLACK
        if kind == WHITE:
            return SOLID_WHITE
        if kind == SHADING:
            return shading(number)
        if kind == HATCH:
            return hatch(number)
        return self.tiles.get(number)
