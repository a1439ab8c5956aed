"""Streams that print: how many dots of each side are black, and where they lie on the first side. They were worked out by hand, but
for those whose boxes are the model's.

In a stream `^` is an escape character, `<` a carriage return, `|` a line feed and `~` a form feed, and data stands in brackets, two
hexadecimal digits a byte.
"""

import re


def stream_of(text):
    """The bytes of a stream, as it is spelled here."""
    parts = re.split(r"\[([0-9A-F]*)\]", text)
    for place in range(0, len(parts), 2):
        parts[place] = parts[place].translate(str.maketrans("^<|~", "\x1b\r\n\x0c")).encode()
    return b"".join(part if isinstance(part, bytes) else bytes.fromhex(part) for part in parts)


# Streams, and the black dots of front and perhaps back of each sheet.
SIDES = [
    ("^E~^E", [(0,)]),
    ("", []),
    ("^E^*p0x0Y^*c3a2b0P^E", [(6,)]),
    ("^*p10<~", [(0,)]),
    ("^*p2400x3149Y^*c1000a1000b0P^%-12345X", [(75,)]),
    ("^*p+6x-5Y^*c2a2b-2a1P^*c0P~~", [(4,), (0,)]),
    ("^&l1S~^E", [(0,)]),
    ("^&l1S~^&a1G", [(0,)]),
    ("^&l1S~^&l26A", [(0,)]),
    ("^&l1S~^&l2S", [(0,)]),
    ("^&l1S~^&l1O^*c2a3b0P~", [(0, 6)]),
    ("^&l1S^&l2X~~", [(0, 0), (0, 0)]),
    ("^&l1S^&a2G^*c2a3b0P~", [(0, 6)]),
    ("^&l2S^&a2G^&a2G^*c2a3b0P^E", [(0, 6)]),
    ("^&l1S^*c2a3b0P^&a2G^*c1a1b0P~", [(6, 1)]),
    ("^&a2G^*c2a3b0P~", [(6,)]),
    ("^&l1S^*c2a3b0P~~^*c0P~^E", [(6, 0), (6,)]),
    ("^&f2y0X^*c4a1b0P~^&f1x4X~~", [(4,), (4,)]),
    ("^&f2y0X^*c4a1b0P^&f1x4X^E", []),
    ("^&f2y0X^*c4a1b0P^&f1x4X^*p100x100Y^*c1a1b0P^E", [(5,)]),
    ("^&l1S^&f2y0X^*c4a1b0P^&f1x4X~~", [(4, 4)]),
    ("^&l1S^&f2y0X^*c4a1b0P^&f1x4X^&a2G~", [(0, 4)]),
    ("^&l2X^&f2y0X^*c4a1b0P^&l5X^&f1x4X~", [(4,), (4,)]),
    ("^&f2y0X^*c4a1b0P^&f1x4X^*p3150Y|", [(4,)]),
    ("^&f2y0X^*c4a1b0P^&f1x4x5X~", [(0,)]),
    ("^&f2y0X^*c4a1b0P^&f1x4x8X~", [(0,)]),
    ("^&f2y0X^*c4a1b0P^&f5x1x4X~~", [(4,), (0,)]),
    ("^&f2y0X^*c4a1b0P^&f2y8x1x4X~~", [(4,), (0,)]),
    ("^&f2y0X^*c4a1b0P^%0B^&f1x4X~~", [(4,)]),
    ("^&f2y0X^&l1o1s3a1H^&a1G^*c4a1b0P^&f1x4X~~", [(4,), (4,)]),
    ("^&f2y0X^*c4a1b0P^&f1x4X^*p100x100Y^*c1a1b0P^&l1O~", [(5,), (0,)]),
    ("^&f2y0X^*c7G^*c9W[0000010000010001][80]^*c4a1b0P^&f1x4X~^*c7g1a1b4P^E", [(4,), (4,)]),
    ("^&f1y0X~~^&f1x3X", [(0,), (0,)]),
    ("^&l3X^&f1y0X^&l1X^&f1x3X~", [(0,), (0,), (0,)]),
    ("^&l3X^&f1y0X^&l1X^&f1x2X~", [(0,)]),
    ("^*b5m0W^E", []),
    ("^*b5m3W[040000]^E", []),
    ("^*b0m0W^E", [(0,)]),
]

# Streams, and the black dots of the first side, as boxes that do not meet: left column, upper line, width and height of each.
BOXES = [
    ("^E^*p0x0Y^*c3a2b0P^E", [(75, 150, 3, 2)]),
    ("^*p10x20Y^*c3a2b0P~", [(85, 170, 3, 2)]),
    ("^*p2400x3149Y^*c1000a1000b0P^%-12345X", [(2475, 3299, 75, 1)]),
    ("^*p+6x-5Y^*c2a2b-2a1P^*c0P~~", [(81, 182, 2, 2)]),
    ("^*p0x0Y^*c3a2b0P~", [(75, 150, 3, 2)]),
    ("^&l1O^*p0x0Y^*c3a2b0P~", [(150, 3237, 2, 3)]),
    ("^&l2O^*p0x0Y^*c3a2b0P~", [(2472, 3148, 3, 2)]),
    ("^&l3O^*p0x0Y^*c3a2b0P~", [(2398, 60, 2, 3)]),
    ("^*p2400x3149Y^*c100a100b0P~", [(2475, 3299, 75, 1)]),
    ("^*t300R^*r0A^*b1m2W[02F0]~", [(75, 187, 4, 1), (83, 187, 4, 1), (91, 187, 4, 1)]),
    ("^*t300R^*r0A^*b3m2W[00FF]^*b0W^*b0m0W^*b3m0W^*rC~", [(75, 187, 8, 2)]),
    ("^*p0x0Y^*c16a1b0P^*t300R^*r8S^*v1N^*r1A^*b0W^*rC~", [(83, 150, 8, 1)]),
    ("^*c5G^*c16W[0000010000080008FFFFFFFFFFFFFFFF]^*c15W[000001000008000800000000000000]^*p0x0Y^*c2a1b4P~",
     [(75, 150, 2, 1)]),
    ("^*t75R^*r1A^*b1W[80]~", [(75, 187, 4, 4)]),
    ("^*c50G^*p0x0Y^*c4a1b2P~", [(76, 150, 1, 1), (78, 150, 1, 1)]),
    ("^*t300R^*r0A^*b3m2W[00FF]^*b1Y^*b0W^*rC~", [(75, 187, 8, 1)]),
    ("^*t300R^*r0A^*b2m3W[FEFF01]^*b3m2W[0100]~", [(75, 187, 24, 1), (75, 188, 8, 1), (91, 188, 8, 1)]),
    ("^*t300R^*r1T^*r0A^*b1W[80]^*b1W[FF]~", [(75, 187, 1, 1)]),
    ("^*t150R^*r3S^*r0A^*b1W[BF]~", [(75, 187, 2, 2), (79, 187, 2, 2)]),
    ("^*t300R^*r0A^*b5m15W[000001FF0500020400010300020081]~", [(75, 187, 8, 3), (75, 191, 1, 1), (82, 191, 1, 1)]),
    ("^*t300R^*r0A^*b5m15W[000001FF0500000500010300020081]~", [(75, 187, 8, 1), (75, 189, 1, 1), (82, 189, 1, 1)]),
    ("^*t300R^*r0A^*b5m15W[000001FF0400000500010300020081]~", [(75, 187, 8, 1), (75, 189, 1, 1), (82, 189, 1, 1)]),
    ("^*t300R^*r2T^*r0A^*b5m7W[000001FF050005]~", [(75, 187, 8, 2)]),
    ("^*t300R^*r0A^*b5m12W[000001FF060001FF000001FF]~", [(75, 187, 8, 1)]),
    ("^*t300R^*r0A^*b5m4W[000005F0]~", [(75, 187, 4, 1)]),
    ("^*t300R^*r0A^*b5m6W[000001FF0500]~", [(75, 187, 8, 1)]),
    ("^*t300R^*r0A^*b5m4W[000001C3]^*b3m0W~", [(75, 187, 2, 2), (81, 187, 2, 2)]),
    ("^*t300R^*r0A^*b5m7W[000001FF050100]~", [(75, 187, 8, 257)]),
    ("^*t300R^*r0A^*b5m7W[0000018005FFFF]~", [(75, 187, 1, 3113)]),
    (f"^*t300R^*r0A^*b5m4W[00000180]^*b65535W[{'05FFFF' * 21845}]~", [(75, 187, 1, 3113)]),
    ("^*t300R^*r0A^*b1m2W[02F0]^*b4m2W[02F0]~",
     [(75, 187, 4, 1), (83, 187, 4, 1), (91, 187, 4, 1), (75, 188, 4, 1), (83, 188, 4, 1), (91, 188, 4, 1)]),
    ("^&l1O^*t100R^*r0A^*b5m7W[00000180050001]~", [(187, 3237, 6, 3)]),
    ("^&l1O^*t100R^*r0A^*b1W[80]~", [(187, 3237, 3, 3)]),
    ("^&l2O^*t300R^*r2S^*r0A^*b1W[40]~", [(2473, 3112, 1, 1)]),
    ("^&l3O^*t300R^*r0A^*b1W[C0]~", [(2362, 60, 1, 2)]),
    ("^*c3G^*v2T^*t300R^*p0x2Y^*r16S^*r1A^*b2W[FFFF]~",
     [(76, 152, 1, 1), (80, 152, 1, 1), (84, 152, 1, 1), (88, 152, 1, 1)]),
    ("^*c50G^*v2T^*t300R^*r0A^*p0x0Y^*b1W[F0]~", [(76, 150, 1, 1), (78, 150, 1, 1)]),
    ("^*c7G^*c9W[0000010000010001][80]^*v4T^*c2Q^*p0x0Y^*c2a1b5P~", [(75, 150, 2, 1)]),
    ("^*p0x0Y^*c3a2b0P^*c1a1b1P~", [(76, 150, 2, 1), (75, 151, 3, 1)]),
    ("^*v1T^*p0x0Y^*c3a2b0P^*c1a1b5P~", [(76, 150, 2, 1), (75, 151, 3, 1)]),
    ("^*c7.2h4.8v0P~", [(75, 187, 3, 2)]),
    ("^*p0x0Y^&f1y0X^*c1a1b0P^*p+2X^&f3x1x3X~", [(75, 150, 1, 1), (77, 150, 1, 1)]),
    ("^&f1y0X^&f8X^*c1a1b0P^&f1x2x2X~", [(75, 187, 1, 1)]),
    ("^&f2y0X^*c4a1b0P~^&f1x4X~~", [(75, 187, 4, 1)]),
    ("^&f2y0X^*c4a1b0P~^&f1x4X^*c1a1b0P^&f3y0X^%-12345X", [(75, 187, 4, 1)]),
    ("^*p10X^&f0S^&f2y0X^&f1S^*c1a1b0P^&f1x4X^*p20X~", [(85, 187, 1, 1)]),
    ("^*v1T^*p5x5Y^&f2y0X^*c4a1b0P^*c5P^&f1x4X~", [(75, 187, 4, 1)]),
    ("^*t300R^*p10x0Y^*r1A^&f2y0x1x3X^*b1W[80]~", [(75, 150, 1, 1)]),
    ("^*t300R^*p10x0Y^*r1A^&f2y0x1x2X^*b1W[80]~", [(85, 150, 1, 1)]),
    ("^&f1y0X^*c1a1b0P^*p+2X^&f1y3x1X^&f2y0X^&f1y3x1x4X~", [(75, 187, 1, 1)]),
    ("^&f2y0X^*c1a1b0P|^*c0P|^*c0P^&f1x4X~", [(75, 187, 1, 1), (75, 237, 1, 1), (75, 287, 1, 1)]),
    ("^&f2y0X^*p3150Y|^*p-1Y^*c1a1b0P^&f1x4X~", [(75, 3299, 1, 1)]),
    ("^&f2y0X^&u600D^*p10x0Y^*c4a2b0P^&f1x4X~", [(80, 150, 2, 1)]),
]

# The same at 600 dots per inch: a unit of 1/300 inch has two dots, and tiles stay in dots.
FINE = "^%-12345X@PJL SET RESOLUTION=600|"
FINE_BOXES = [
    ("^E^*p0x0Y^*c3a2b0P^E", [(150, 300, 6, 4)]),
    ("^*t200R^*r1A^*b1W[80]~", [(150, 375, 3, 3)]),
    ("^*t200R^*r1A^*b5m7W[00000180050001]~", [(150, 375, 3, 6)]),
    ("^&l1O^*p0x0Y^*c3a2b0P~", [(300, 6474, 4, 6)]),
    ("^&l2O^*p0x0Y^*c3a2b0P~", [(4944, 6296, 6, 4)]),
    ("^&l3O^*p0x0Y^*c3a2b0P~", [(4796, 120, 4, 6)]),
    ("^*p2400x3149Y^*c100a100b0P~", [(4950, 6598, 150, 2)]),
    ("^&u600D^*p1x1Y^*c1a1b0P~", [(151, 301, 1, 1)]),
    ("^*c50G^*p0x0Y^*c2a1b2P~", [(150, 300, 1, 1), (152, 300, 1, 1), (151, 301, 1, 1), (153, 301, 1, 1)]),
    ("^*t600R^*r0A^*b1m2W[02F0]~", [(150, 375, 4, 1), (158, 375, 4, 1), (166, 375, 4, 1)]),
    ("^&l3O^*t600R^*r0A^*b1W[C0]~", [(4724, 120, 1, 2)]),
    ("^*t300R^*r0A^*b3m2W[00FF]^*b1Y^*b0W^*rC~", [(150, 375, 16, 2)]),
    ("^*p0x0Y^&f1y0X^*c1a1b0P^*p+2X^&f3x1x3X~", [(150, 300, 2, 2), (154, 300, 2, 2)]),
    ("^&f2y0X^*c4a1b0P~^&f1x4X~~", [(150, 375, 8, 2)]),
]

# A user-defined pattern of three by two dots: black, black, white; black, white, white.
USER = "^*c9G^*c10W[0000010000020003C080]^*v4T"

# A row of raster graphics in that pattern, and a fill with it over a black box, in each orientation. The boxes are the model's.
IN_THE_FRAME = [
    (f"^&l0O{USER}^*t300R^*p1x2Y^*r5S^*r1A^*b1W[D0]~",
     [(76, 152, 1, 1), (79, 152, 1, 1)]),
    (f"^&l0O{USER}^*t150R^*p1x2Y^*r5S^*r1A^*b1W[D0]~",
     [(76, 152, 1, 1), (78, 152, 2, 1), (82, 152, 1, 1), (78, 153, 1, 1)]),
    (f"^&l1O{USER}^*t300R^*p1x2Y^*r5S^*r1A^*b1W[D0]~",
     [(152, 3235, 1, 1), (152, 3238, 1, 1)]),
    (f"^&l1O{USER}^*t150R^*p1x2Y^*r5S^*r1A^*b1W[D0]~",
     [(152, 3232, 1, 1), (152, 3235, 1, 1), (152, 3236, 2, 1), (152, 3238, 1, 1)]),
    (f"^&l2O{USER}^*t300R^*p1x2Y^*r5S^*r1A^*b1W[D0]~",
     [(2470, 3147, 1, 1), (2473, 3147, 1, 1)]),
    (f"^&l2O{USER}^*t150R^*p1x2Y^*r5S^*r1A^*b1W[D0]~",
     [(2471, 3146, 1, 1), (2467, 3147, 1, 1), (2470, 3147, 2, 1), (2473, 3147, 1, 1)]),
    (f"^&l3O{USER}^*t300R^*p1x2Y^*r5S^*r1A^*b1W[D0]~",
     [(2397, 61, 1, 1), (2397, 64, 1, 1)]),
    (f"^&l3O{USER}^*t150R^*p1x2Y^*r5S^*r1A^*b1W[D0]~",
     [(2397, 61, 1, 1), (2396, 63, 2, 1), (2397, 64, 1, 1), (2397, 67, 1, 1)]),
    (f"^&l0O^*p0x0Y^*c4a4b0P^*p1x1Y^*v1O{USER}^*c4a2b5P~",
     [(75, 150, 4, 1), (75, 151, 1, 1), (78, 151, 1, 1), (75, 152, 2, 1), (78, 152, 2, 1), (75, 153, 4, 1)]),
    (f"^&l1O^*p0x0Y^*c4a4b0P^*p1x1Y^*v1O{USER}^*c4a2b5P~",
     [(152, 3235, 1, 1), (150, 3236, 4, 1), (150, 3237, 1, 2), (153, 3237, 1, 1), (152, 3238, 2, 1), (150, 3239, 4, 1)]),
    (f"^&l2O^*p0x0Y^*c4a4b0P^*p1x1Y^*v1O{USER}^*c4a2b5P~",
     [(2471, 3146, 4, 1), (2470, 3147, 2, 1), (2473, 3147, 2, 1), (2471, 3148, 1, 1), (2474, 3148, 1, 1), (2471, 3149, 4, 1)]),
    (f"^&l3O^*p0x0Y^*c4a4b0P^*p1x1Y^*v1O{USER}^*c4a2b5P~",
     [(2396, 60, 4, 1), (2396, 61, 2, 1), (2399, 61, 1, 2), (2396, 62, 1, 1), (2396, 63, 4, 1), (2397, 64, 1, 1)]),
]

# A pattern, and what becomes of the dots 11001100 of a row where the first four dots of the line are black: with source and pattern
# transparent, the pattern opaque, the source opaque, and both.
MODES = [
    ("^*v0T", [0xFC, 0xFC, 0xCC, 0xCC]),
    ("^*v1T", [0x30, 0x30, 0x00, 0x00]),
    ("^*c50G^*v2T", [0xF4, 0x74, 0xC4, 0x44]),
    ("^*c2G^*v3T", [0xF4, 0x34, 0xC4, 0x04]),
    (USER, [0xF8, 0xF8, 0xC8, 0xC8]),
]

# A resolution, and how many dots wide and high a black dot of a row is; every other dot of its pattern is black.
WIDE_DOTS = [(75, 4), (100, 3), (150, 2), (300, 1)]
FINE_DOTS = [(75, 8), (100, 6), (150, 4), (200, 3), (300, 2), (600, 1)]

# Rows by their data, one below the other: how many dots they are wide, the method and the data of each, in hexadecimal, and what it gives.
# First the examples of the manual: "UUUUATTTTT" by methods 0 to 2, and three rows by method 3, each after the one before.
DATA = [
    (80, [(0, "55555555415454545454", "55555555415454545454"), (1, "035500410454", "55555555415454545454"),
          (2, "FD550041FC54", "55555555415454545454")]),
    (40, [(3, "01FF", "00FF000000"), (3, "02F0", "00FFF00000"), (3, "000F22AAAA", "0FFFF0AAAA")]),
    (40, [(2, "FE41800142", "4141414200")]),
    (32, [(1, "02F005", "F0F0F000")]),
    # offsets of 31, 285 and 286 bytes, and what stands past the width
    (2296, [(3, "1F0007", "00" * 31 + "07" + "00" * 255)]),
    (2296, [(3, "1FFE07", "00" * 285 + "0700")]),
    (2296, [(3, "1FFF0007", "00" * 286 + "07")]),
    (248, [(3, "3E07080009", "00" * 30 + "07")]),
    # more than the row has room for
    (32, [(2, "01070880F009", "07080909"), (1, "FF05", "05050505"), (0, "0102030405", "01020304")]),
]

# A method, its data, and the row of each cut of them after the row 01020304, from none of its bytes on.
CUTS = [
    (0, "0708090A0B", ["00000000", "07000000", "07080000", "07080900", "0708090A", "0708090A"]),
    (1, "01070008FF", ["00000000", "00000000", "07070000", "07070000", "07070800", "07070800"]),
    (2, "01070880F009", ["00000000", "00000000", "07000000", "07080000", "07080000", "07080000", "07080909"]),
    (3, "2107081FFF", ["01020304", "01020304", "01070304", "01070804", "01070804", "01070804"]),
]
DATA += [(32, [(0, "01020304", "01020304"), (method, data[:2 * cut], row)])
         for method, data, rows in CUTS for cut, row in enumerate(rows)]

# Blocks after the row C33C: their rows, and the seed row behind them, which an empty delta row prints.
BLOCKS = [
    ("", [], "C33C"),
    ("000002F00F050002", ["F00F", "F00F", "F00F"], "F00F"),
    ("040002", ["0000", "0000"], "0000"),
    ("050001", ["C33C"], "C33C"),
    ("040000", [], "0000"),
    ("050000050001", ["0000"], "0000"),
    ("0100020181", ["8181"], "8181"),
    ("020002FF18", ["1818"], "1818"),
    ("03000201AA", ["C3AA"], "C3AA"),
    # a block that is cut has the bytes that are there
    ("000005F0", ["F000"], "F000"),
    ("0300092011", ["113C"], "113C"),
    # a count of 0 by a method is a row of no data
    ("000000", ["0000"], "0000"),
    ("030000", ["C33C"], "C33C"),
    # an unknown command ends the data, and so does a header that is cut
    ("000001F0060001FF000001FF", ["F000"], "F000"),
    ("000001F00500", ["F000"], "F000"),
    ("05", [], "C33C"),
]


def transfer(method, data):
    """The transfer of data in hexadecimal by a method."""
    return f"*b{method}m{len(data) // 2}W[{data}]"


def in_rows(width, transfers):
    """The stream of these transfers of rows that are so many dots wide, on a page of its own."""
    return f"^*t300R^*r{width}S^*r0A" + "".join("^" + transfer(method, data) for method, data in transfers) + "~"


def dots_of(rows, width):
    """The black dots of these rows, one below the other where raster graphics begins after power on."""
    return [(75 + place, 187 + line, 1, 1) for line, row in enumerate(rows) for place in range(width)
            if bytes.fromhex(row)[place // 8] & 0x80 >> place % 8]


WIDTH, HEIGHT = 2550, 3300


def page(boxes, scale=1):
    """The file of a side of Letter whose dots in these boxes are black; at so many times 300 dots per inch."""
    side, lines = scale * WIDTH, scale * HEIGHT
    rows = [bytearray((side + 7) // 8) for _ in range(lines)]
    for left, top, width, height in boxes:
        for line in range(top, top + height):
            for column in range(left, left + width):
                rows[line][column // 8] |= 0x80 >> column % 8
    return b"P4\n%d %d\n" % (side, lines) + b"".join(rows)


def listing(sheets):
    """The lines of sheets of Letter with so many black dots on each side."""
    return "".join(f"sheet {number} {side} {WIDTH}x{HEIGHT} black {black}\n" for number, sides in enumerate(sheets, 1)
                   for side, black in zip(["front", "back"], sides))


ROWS = [("print --list -", 0, listing(sheets), stream_of(stream)) for stream, sheets in SIDES]
ROWS += [("print - page-%d.pbm", 0, [page(boxes), ...], stream_of(stream)) for stream, boxes in BOXES]
ROWS += [("print - page-%d.pbm", 0, [page(boxes), ...], stream_of(stream)) for stream, boxes in IN_THE_FRAME]
ROWS += [("print - page-%d.pbm", 0, [page([(75 + place, 150, 1, 1) for place in range(8) if dots[mode] & 0x80 >> place])],
          stream_of(f"^*p0x0Y^*c4a1b0P{pattern}^*v{mode // 2}n{mode % 2}O^*t300R^*r8S^*r1A^*b1W[CC]~"))
         for pattern, dots in MODES for mode in range(4)]
ROWS += [("print - page-%d.pbm", 0,
          [page([(x, y, 1, 1) for x in range(75, 75 + side) for y in range(187, 187 + side) if x % 2 == y % 2])],
          stream_of(f"^*c50G^*v2T^*t{resolution}R^*r8S^*r0A^*b1W[80]~")) for resolution, side in WIDE_DOTS]
ROWS += [("print - page-%d.pbm", 0, [page(dots_of([row for _, _, row in rows], width))],
          stream_of(in_rows(width, [(method, data) for method, data, _ in rows]))) for width, rows in DATA]
ROWS += [("print - page-%d.pbm", 0, [page(dots_of(["C33C", *rows, seed], 16))],
          stream_of(in_rows(16, [(0, "C33C"), (5, data), (3, "")]))) for data, rows, seed in BLOCKS]
ROWS += [("print - page-%d.pbm", 0, [page(boxes, scale=2), ...], stream_of(FINE + stream)) for stream, boxes in FINE_BOXES]
ROWS += [("print - page-%d.pbm", 0,
          [page([(x, y, 1, 1) for x in range(150, 150 + side) for y in range(375, 375 + side) if x % 2 == y % 2], scale=2)],
          stream_of(f"{FINE}^*c50G^*v2T^*t{resolution}R^*r8S^*r0A^*b1W[80]~")) for resolution, side in FINE_DOTS]
# a page with a mark, and a front that waits, go out at the resolution that held
ROWS += [("print - page-%d.pbm", 0, [page([(75, 187, 3, 2)]), page([], scale=2)], stream_of(f"^*c3a2b0P{FINE}~"))]
ROWS += [("print - page-%d.pbm", 0, [page([(75, 187, 3, 2)]), page([], scale=2)], stream_of(f"^&l1S^*c3a2b0P~{FINE}~"))]
# in duplex: a front with a box, a white back, and a white front alone
ROWS += [("print - page-%d.pbm", 0, [page([(75, 150, 3, 2)]), page([]), page([])], stream_of("^&l1S^*p0x0Y^*c3a2b0P~~~"))]

# neither binding turns a back
ROWS += [("print - page-%d.pbm", 0, [page([(75, 150, 3, 2)]), page([(75, 150, 1, 1)])], stream_of(f"^&l{sides}S^*p0x0Y^*c3a2b0P~^*p0x0Y^*c1a1b0P~")) for sides in (1, 2)]

# How the second of three files is made one that cannot be made, or that can be opened and takes no byte.
BROKEN = {"folder": lambda path: path.mkdir(), "full": lambda path: path.symlink_to("/dev/full")}
ROWS += [(f"print - {name}-%d.pbm", 1, "fault 301\n", b"\x0c\x0c\x0c") for name in BROKEN]
