"""Where the dots of a first side lie: raster graphics, rectangles and patterns, macros and overlays. All were worked out by hand. Streams are
spelled as in `pages`: the first dot of Letter's logical page is 75, its first line below the top margin 150, and the cursor begins on 187.
"""

from asked.pages import page, stream_of

# Raster graphics is on at 300 dots to the inch, at column 10; and what tells whether it is on still: a coarse row at the left, if it is not.
ON, TELLS = "^*t300R^*p10x0Y^*r1A", "^*t75R^*b1W[80]~"
STILL, OFF = [(85, 150, 1, 1)], [(75, 150, 4, 4)]
TWENTY = "^*p10x0Y" + "^&f0S" * 20

# What is done while raster graphics is on, and whether it is on then.
WITHIN = {
    "a move": (ON + "^*p20X", OFF),
    "a move to where the cursor is": (ON + "^*p10X", OFF),
    "a relative move by 0": (ON + "^*p+0X", OFF),
    "a move down to where the cursor is": (ON + "^*p0Y", OFF),
    "a carriage return": (ON + "<", OFF),
    "a push": (ON + "^&f0S", OFF),
    "a push at twenty": (TWENTY + "^*t300R^*r1A^&f0S", STILL),
    "a pop": ("^*p10x0Y^&f0S^*t300R^*r1A^&f1S", OFF),
    "a pop of nothing": (ON + "^&f1S", STILL),
    "a left margin left of the cursor": (ON + "^&a0L", STILL),
    "a left margin right of the cursor": (ON + "^&a10L", OFF),
    "a left margin at the cursor": (ON + "^&k4H^&a1L", STILL),
    "a right margin at the cursor": (ON + "^&k4H^&a0M", STILL),
    "a right margin right of the cursor": (ON + "^&a9M", STILL),
    "a right margin left of the cursor": ("^*t300R^*p500x0Y^*r1A^&a9M", OFF),
    "cleared margins": (ON + "^9", STILL),
    "a perforation skip that leaves the top margin": (ON + "^&l0L", STILL),
    "a perforation skip that changes the top margin": ("^&l2E" + ON + "^&l0L", OFF),
    "a text length": (ON + "^&l5F", STILL),
    "a motion index": (ON + "^&l4D^&k20H", STILL),
    "a rectangle": (ON + "^*c1a1b0P", STILL),
    "a method": (ON + "^*b3m0M", STILL),
    "another start": (ON + "^*r0A", STILL),
    "the end by B": (ON + "^*rB", OFF),
    "the end by C": (ON + "^*rC", OFF),
    "the end by B of another value": (ON + "^*r5B", OFF),
    "the end by C of another value": (ON + "^*r5C", OFF),
    "an execute": ("^&f1y0X^&f1X" + ON + "^&f2X", STILL),
    "a call": ("^&f1y0X^&f1X" + ON + "^&f3X", OFF),
    "a call of a macro that there is not": (ON + "^&f9y3X", STILL),
}

# What a stream shows, and its dots.
RASTER = {
    "a top margin ends raster graphics, and puts the cursor home": (ON + "^&l3E" + TELLS, [(75, 187, 4, 4)]),
    "a reset ends raster graphics": (ON + "^E" + TELLS, [(75, 187, 4, 4)]),
    "a call begins with raster graphics off": ("^&f1y0X^*t75R^*b1W[80]^&f1X" + ON + "^&f3X~", OFF),
    "a call ends with raster graphics off": ("^&f1y0X^*t300R^*r1A^&f1X^*p10x0Y^&f3X^*t100R^*b1W[80]~", [(75, 150, 3, 3)]),
    "the end by B leaves the method": ("^*t300R^*b1M^*r0A^*rB^*b2W[01F0]~", [(75, 187, 4, 1), (83, 187, 4, 1)]),
    "the end by C sets method 0": ("^*t300R^*b1M^*r0A^*rC^*b2W[01F0]~", [(82, 187, 5, 1)]),
    "the end by C sets method 0 while off": ("^*t300R^*b1M^*rC^*b2W[01F0]~", [(82, 187, 5, 1)]),
    "the end zeroes the seed": ("^*t300R^*r0A^*b1W[80]^*rB^*r0A^*b3m0W~", [(75, 187, 1, 1)]),
    "a row by another method has the seed": ("^*t300R^*r0A^*b1W[80]^*b3m0W~", [(75, 187, 1, 2)]),
    "the source width stays while on": ("^*t300R^*r0A^*r8S^*b2W[FFFF]~", [(75, 187, 16, 1)]),
    "the source height stays while on": ("^*t300R^*r0A^*r1T^*b1W[80]^*b1W[80]~", [(75, 187, 1, 2)]),
    "no source width of 0": ("^*r8s0S^*t300R^*b2W[FFFF]~", [(75, 187, 8, 1)]),
    "no source height of 0": ("^*r1t0T^*t300R^*b1W[80]^*b1W[80]~", [(75, 187, 1, 1)]),
    "a start sets the count of rows to 0": ("^*t300R^*r1T^*r0A^*b1W[80]^*rB^*r0A^*b1W[80]~", [(75, 187, 1, 2)]),
    "a source width within a byte": ("^*r5S^*t300R^*b1W[FF]~", [(75, 187, 5, 1)]),
    "the resolution stays while on": ("^*t300R^*r0A^*t75R^*b1W[80]~", [(75, 187, 1, 1)]),
    "a start by 0 is at the left": ("^*t300R^*p10x0Y^*r0A^*b1W[80]~", [(75, 150, 1, 1)]),
    "a start by 0 is left of the left margin": ("^&a10L^*t300R^*r0A^*b1W[80]~", [(75, 187, 1, 1)]),
    "a start by 0 moves the cursor": ("^*t300R^*p10x0Y^*r0A^*rB^*c1a1b0P~", [(75, 150, 1, 1)]),
    "a start by 1 is at the cursor": ("^*t300R^*p10x0Y^*r1A^*b1W[80]~", [(85, 150, 1, 1)]),
    "a start by 2 is at the left": ("^*t300R^*p10x0Y^*r2A^*b1W[80]~", [(75, 150, 1, 1)]),
    "a start by 2": ("^*t300R^*p10x0Y^*r2A^*t75R^*b1W[80]~", [(75, 150, 1, 1)]),
    "a source width of 1": ("^*r1S^*t300R^*b1W[FF]~", [(75, 187, 1, 1)]),
    "a start by 3 is at the cursor": ("^*t300R^*p10x0Y^*r3A^*b1W[80]~", [(85, 150, 1, 1)]),
    "no start by 4": ("^*t300R^*p10x0Y^*r4A^*t150R^*b1W[80]~", [(75, 150, 2, 2)]),
    "a row while off is at the left": ("^*t300R^*p10x0Y^*b1W[80]~", [(75, 150, 1, 1)]),
    "75 dots to the inch": ("^*t300R^*t75R^*b1W[80]~", [(75, 187, 4, 4)]),
    "100 dots to the inch": ("^*t100R^*b1W[80]~", [(75, 187, 3, 3)]),
    "150 dots to the inch": ("^*t150R^*b1W[80]~", [(75, 187, 2, 2)]),
    "no 50 dots to the inch": ("^*t50R^*b1W[80]~", [(75, 187, 4, 4)]),
    "no 200 dots to the inch": ("^*t200R^*b1W[80]~", [(75, 187, 4, 4)]),
    "no 600 dots to the inch": ("^*t600R^*b1W[80]~", [(75, 187, 4, 4)]),
    "a row to the end of the logical page": (f"^*t300R^*b301W[{'FF' * 301}]~", [(75, 187, 2400, 1)]),
    "a coarse row to the end of the logical page": (f"^*b100W[{'FF' * 100}]~", [(75, 187, 2400, 4)]),
    "a row from the cursor to the end of the logical page": (f"^*t300R^*p2300X^*r1A^*b20W[{'FF' * 20}]~", [(2375, 187, 100, 1)]),
    "a row past the right margin": (f"^&a9M^*t300R^*b50W[{'FF' * 50}]~", [(75, 187, 400, 1)]),
    "128 bytes of one code": (f"^*t300R^*b2m129W[7F{'FF' * 128}]~", [(75, 187, 1024, 1)]),
    "a skip while off": ("^*b5Y^*c1a1b0P~", [(75, 187, 1, 1)]),
    "no skip upwards": ("^*t300R^*r0A^*b-5Y^*b1W[80]~", [(75, 187, 1, 1)]),
    "no skip of no rows": ("^*t300R^*r0A^*b1W[80]^*b0Y^*b3m0W~", [(75, 187, 1, 2)]),
    "a skip counts against the source height": ("^*t300R^*r2T^*r0A^*b1Y^*b1W[80]^*b1W[80]~", [(75, 188, 1, 1)]),
    "a skip goes past the source height": ("^*t300R^*r1T^*r0A^*b5Y^*rB^*c1a1b0P~", [(75, 192, 1, 1)]),
    "rows of a block that are empty": ("^*t300R^*b5m7W[04000300000180]~", [(75, 190, 1, 1)]),
    "no blocks start raster graphics": ("^*t300R^*b5m0W^*t75R^*b0m1W[80]~", [(75, 187, 1, 1)]),
    "a byte 128 times": ("^*t300R^*b2m2W[81FF]~", [(75, 187, 1024, 1)]),
    "a row has no dot that is partly past the logical page": (f"^*p1X^*r1A^*b75W[{'FF' * 75}]~", [(76, 187, 2396, 4)]),
    "a row without width moves the cursor down": ("^*t300R^*p9999X^*r1A^*b1W[80]^*b1W[80]^*rC^*p0X^*c1a1b0P~", [(75, 189, 1, 1)]),
    "a row without width counts": ("^*t300R^*r1T^*p9999X^*r1A^*b1W[80]^*b1W[80]^*rC^*p0X^*c1a1b0P~", [(75, 188, 1, 1)]),
    "a row past the source height leaves the cursor": ("^*t300R^*r1T^*r0A^*b1W[80]^*b1W[80]^*rC^*c1a1b0P~", [(75, 187, 1, 2)]),
    "rows stop at the end of the page": ("^*t300R^*p3149Y^*r0A^*b1W[00]^*b1W[00]^*b5Y^*rC^*p-1Y^*c1a1b0P~", [(75, 3299, 1, 1)]),
}

# Rows of the tiles, from the least shading up to the greatest per cent of each.
TILES = [(1, 2, "8000000000000000"), (3, 10, "8800000088000000"), (11, 20, "8800220088002200"), (21, 35, "AA00AA00AA00AA00"),
         (36, 55, "AA55AA55AA55AA55"), (56, 80, "FF55FF55FF55FF55"), (81, 99, "77FFDDFF77FFDDFF"), (100, 100, "FFFFFFFFFFFFFFFF")]
HATCHES = {1: lambda column, row: row == 0, 2: lambda column, row: column == 0, 3: lambda column, row: column + row == 15,
           4: lambda column, row: column == row, 5: lambda column, row: 0 in (column, row), 6: lambda column, row: column == row or column + row == 15}


def tiled(black):
    """The dots of a box of 16 by 16 from the first dot of the logical page on, where the tile of the page's corner is black."""
    return [(x, y, 1, 1) for x in range(75, 91) for y in range(150, 166) if black(x, y)]


def shaded(tile):
    return tiled(lambda x, y: bytes.fromhex(tile)[y % 8] & 0x80 >> x % 8)


PATTERNS = {f"{per_cent} per cent": (f"^*p0x0Y^*c{per_cent}g16a16b2P~", shaded(tile)) for least, most, tile in TILES for per_cent in {least, most}}
PATTERNS |= {f"cross-hatch {number}": (f"^*p0x0Y^*c{number}g16a16b3P~", tiled(lambda x, y, black=black: black(x % 16, y % 16)))
             for number, black in HATCHES.items()}

# A tile of one black dot, and of one white one, under ID 5.
BLACK, WHITE = "^*c5G^*c9W[000001000001000180]", "^*c5G^*c9W[000001000001000100]"
SHOWS, SHOWN = "^*c5g2a1b4P~", [(75, 187, 2, 1)]
PATTERNS |= {
    "no shading of 0 per cent": ("^*c0g8a8b2P~", []),
    "no shading of 101 per cent": ("^*c101g8a8b2P~", []),
    "no cross-hatch 0": ("^*c0g16a16b3P~", []),
    "no cross-hatch 7": ("^*c7g16a16b3P~", []),
    "a pattern of the user": (BLACK + SHOWS, SHOWN),
    "a pattern replaces an older one": (BLACK + WHITE + SHOWS, []),
    "a pattern of another format": (f"^*c5G^*c9W[010001000001000180]{SHOWS}", []),
    "a pattern that goes on": (f"^*c5G^*c9W[000101000001000180]{SHOWS}", []),
    "a pattern of another encoding": (f"^*c5G^*c9W[000000000001000180]{SHOWS}", []),
    "a pattern of another reserved byte": (f"^*c5G^*c9W[000001010001000180]{SHOWS}", []),
    "a pattern with a bad header leaves the older one": (f"{BLACK}^*c9W[010001000001000180]{SHOWS}", SHOWN),
    "a pattern of seven bytes": (f"^*c5G^*c7W[00000100000100]{SHOWS}", []),
    "a pattern 257 dots high": (f"^*c5G^*c9W[000001000101000180]{SHOWS}", []),
    "a pattern 257 dots wide": (f"^*c5G^*c9W[000001000001010180]{SHOWS}", []),
    "a pattern 257 dots high, with its rows": (f"^*c5G^*c265W[0000010001010001{'80' * 257}]{SHOWS}", SHOWN),
    "a pattern 257 dots wide, with its row": (f"^*c5G^*c41W[0000010000010101{'FF' * 33}]{SHOWS}", SHOWN),
    "a pattern without height": (f"^*c5G^*c9W[000001000000000180]{SHOWS}", []),
    "a pattern without width": (f"^*c5G^*c9W[000001000001000080]{SHOWS}", []),
    "a pattern with more bytes": (f"^*c5G^*c10W[00000100000100018000]{SHOWS}", SHOWN),
    "rows of a pattern begin with bytes": ("^*c5G^*c12W[000001000002000CFFF08010]^*p0x0Y^*c12a2b4P~", [(75, 150, 12, 1), (83, 151, 2, 1)]),
    "a pattern is temporary": (f"{BLACK}^E{SHOWS}", []),
    "a permanent pattern": (f"{BLACK}^*c5Q^E{SHOWS}", SHOWN),
    "a pattern that is defined again is temporary": (f"{BLACK}^*c5Q{BLACK}^E{SHOWS}", []),
    "a permanent pattern that is made temporary": (f"{BLACK}^*c5q4Q^E{SHOWS}", []),
    "a permanent pattern stays so where another one is made temporary": (f"{BLACK}^*c5q6g4Q^E{SHOWS}", SHOWN),
    "no permanent pattern before it is defined": (f"^*c5g5Q{BLACK}^E{SHOWS}", []),
    "all patterns are deleted": (f"{BLACK}^*c5Q^*c6g0Q{SHOWS}", []),
    "temporary patterns are deleted": (f"{BLACK}^*c6g1Q{SHOWS}", []),
    "permanent patterns are not deleted with temporary ones": (f"{BLACK}^*c5q1Q{SHOWS}", SHOWN),
    "the pattern of the ID is deleted": (f"{BLACK}^*c2Q{SHOWS}", []),
    "the pattern of the ID is deleted though it is permanent": (f"{BLACK}^*c5q2Q{SHOWS}", []),
    "the pattern of another ID is not deleted": (f"{BLACK}^*c6g2Q{SHOWS}", SHOWN),
    "pattern control 6": (f"{BLACK}^*c5q6Q^E{SHOWS}", SHOWN),
    "pattern ID 0": (f"^*c5g0G^*c9W[000001000001000180]{SHOWS}", []),
    "the current pattern is 0 to 4": (f"{BLACK}^*v1t5T^*c2a1b5P~", []),
    "the source is transparent again": ("^*c8a1b0P^*v1n0N^*t300R^*r8S^*r0A^*b1W[0F]~", [(75, 187, 8, 1)]),
    "the pattern is transparent again": ("^*c4a1b0P^*v1o0O^*c1G^*c4a1b2P~", [(75, 187, 4, 1)]),
    "pattern control 3": (f"{BLACK}^*c3Q{SHOWS}", SHOWN),
    "the greatest pattern ID": ("^*c32767G^*c9W[000001000001000180]^*c5G^*c32767g2a1b4P~", SHOWN),
    "no greater pattern ID": (f"^*c5g32768G^*c9W[000001000001000180]{SHOWS}", SHOWN),
    "no negative pattern ID": (f"^*c5G^*c-1G^*c9W[000001000001000180]{SHOWS}", SHOWN),
    "the current pattern has its ID": ("^*c50G^*v2T^*c1G^*p0x0Y^*c4a1b5P~", [(76, 150, 1, 1), (78, 150, 1, 1)]),
    "the current pattern is what its ID has": (f"{BLACK}^*v4T{WHITE}^*c2a1b5P~", []),
    "the current pattern that is deleted is black": (f"{WHITE}^*v4T^*c2Q^*c2a1b5P~", SHOWN),
    "a pattern that there is not leaves the current one": ("^*v1T^*c7G^*v4T^*c2a1b5P~", []),
    "a shading that there is not leaves the current one": ("^*v1T^*c0G^*v2T^*c2a1b5P~", []),
    "a cross-hatch that there is not leaves the current one": ("^*v1T^*c0G^*v3T^*c2a1b5P~", []),
    "the current pattern is black again": ("^*v1t0T^*c2a1b5P~", SHOWN),
    "a source transparency that there is not": ("^*c8a1b0P^*v1n2N^*t300R^*r8S^*r0A^*b1W[0F]~", [(79, 187, 4, 1)]),
    "a pattern transparency that there is not": ("^*c4a1b0P^*v1o2O^*c1G^*c4a1b2P~", []),
    "an opaque white dot is white in a black pattern": ("^*c8a1b0P^*v1N^*t300R^*r8S^*r0A^*b1W[0F]~", [(79, 187, 4, 1)]),
    # rectangles
    "a rectangle is as wide and high as it begins": ("^*p0x0Y^*c1h25v0P~", [(75, 150, 1, 11)]),
    "a rectangle between dots": ("^&a10h0V^*c24h24v0P~", [(79, 150, 10, 10)]),
    "a rectangle of a fraction": ("^*c1.5a1b0P~", [(75, 187, 2, 1)]),
    "the size of a rectangle with a sign is no move": ("^*c2a+3A^*c1b0P~", [(75, 187, 3, 1)]),
    "no negative size of a rectangle": ("^*c5a5b-3a0P~", [(75, 187, 5, 5)]),
    "no negative height of a rectangle": ("^*c5a5b-3b0P~", [(75, 187, 5, 5)]),
    "no negative width of a rectangle in decipoints": ("^*c5a5b-30h0P~", [(75, 187, 5, 5)]),
    "no negative height of a rectangle in decipoints": ("^*c5a5b-30v0P~", [(75, 187, 5, 5)]),
    "a rectangle in a pattern that there is not": ("^*c5a5b4P~", []),
    "a rectangle leaves the cursor": ("^*c5a1b0P^*c1a5b0P~", [(75, 187, 5, 1), (75, 188, 1, 4)]),
}

BOX, BOXED = "^*c1a1b0P", [(75, 187, 1, 1)]
ONE, RUNS = f"^&f1y0X{BOX}^&f1X", "^&f1y2X~"
MACROS = {
    "a macro": (ONE + RUNS, BOXED),
    "a macro replaces an older one": (f"{ONE}^&f0X^*p5X{BOX}^&f1x2X~", [(80, 187, 1, 1)]),
    "a definition is ended by the whole part": (f"^&f1y0X{BOX}^&f+1.7X{RUNS}", BOXED),
    "a reset drops a definition": (f"^&f1y0X{BOX}^E{RUNS}", []),
    "a reset leaves the older macro of a definition": (f"{ONE}^&f10x0X^*c3A^E{RUNS}", BOXED),
    "no definition begins in a body": (f"^&f1y0X^&f2y0X{BOX}^&f1x2X~", BOXED),
    "no definition begins in an overlay": (f"^&f1y0X^&f0X{BOX}^&f1x4X~", BOXED),
    "a macro is temporary": (f"{ONE}^E{RUNS}", []),
    "a permanent macro": (f"{ONE}^&f10X^E{RUNS}", BOXED),
    "a macro that is defined again is temporary": (f"{ONE}^&f10x0X{BOX}^&f1X^E{RUNS}", []),
    "a permanent macro that is made temporary": (f"{ONE}^&f10x9X^E{RUNS}", []),
    "no permanent macro before it is defined": (f"^&f1y10X{ONE}^E{RUNS}", []),
    "a macro that was deleted is permanent no more": (f"{ONE}^&f10x8X{ONE}^E{RUNS}", []),
    "macro control 11": (f"{ONE}^&f11X^E{RUNS}", []),
    "all macros are deleted": (f"{ONE}^&f10X^&f2y6X{RUNS}", []),
    "temporary macros are deleted": (f"{ONE}^&f2y7X{RUNS}", []),
    "permanent macros are not deleted with temporary ones": (f"{ONE}^&f10x7X{RUNS}", BOXED),
    "the macro of the ID is deleted": (f"{ONE}^&f8X{RUNS}", []),
    "the macro of the ID is deleted though it is permanent": (f"{ONE}^&f10x8X{RUNS}", []),
    "the macro of another ID is not deleted": (f"{ONE}^&f2y8X{RUNS}", BOXED),
    "the greatest macro ID": (f"^&f32767y0X{BOX}^&f1X^&f5Y^&f32767y2X~", BOXED),
    "no greater macro ID": (f"^&f5Y^&f32768y0X{BOX}^&f1X^&f5y2X~", BOXED),
    "no negative macro ID": (f"^&f5Y^&f-1y0X{BOX}^&f1X^&f5y2X~", BOXED),
    "a line of the job language leaves permanent macros": (f"{ONE}^&f10X^%-12345X@PJL JOB|{RUNS}", BOXED),
    "a call leaves macros deleted": (f"{ONE}^&f2y0X^&f6X^&f1x3X{RUNS}", []),
    "a call leaves patterns deleted": (f"{BLACK}^&f2y0X^*c0Q^&f1x3X{SHOWS}", []),
    "a call leaves the overlay on": (f"{ONE}^&f2y0X^&f1y4X^&f1x3X~", BOXED),
    "a call leaves the orientation": ("^&f1y0X^&l1O^&f1x3X^*p0x0Y^*c3a2b0P~", [(150, 3237, 2, 3)]),
    # overlays
    "an overlay that is defined later": (f"^&f1y4X{ONE}~", BOXED),
    "a reset puts the overlay off": (f"{ONE}^&f10x4X^E~", []),
    "an overlay in landscape": ("^&l1O^&f1y0X^*p0x0Y^*c3a2b0P^&f1x4X~", [(150, 3237, 2, 3)]),
    "a form feed in an overlay stays across": (f"^&f1y0X^&k2G^*p10x0Y~{BOX}^&f1x4X~", [(85, 150, 1, 1)]),
    "a form feed in an overlay stays down": (f"^&f1y0X^*p10x0Y~{BOX}^&f1x4X~", [(85, 150, 1, 1)]),
    "a form feed in an overlay leaves raster graphics on": (f"^&f1y0X{ON}~{TELLS[:-1]}^&f1x4X~", STILL),
    "a line feed in an overlay goes past the text area": (f"^&f1y0X^*p2951Y|{BOX}^&f1x4X~", [(75, 3151, 1, 1)]),
    "a half line feed in an overlay goes past the text area": (f"^&f1y0X^*p2976Y^={BOX}^&f1x4X~", [(75, 3151, 1, 1)]),
    "a carriage return in an overlay goes to the left margin": (f"^&f1y0X^*p10X<{BOX}^&f1x4X~", [(75, 187, 1, 1)]),
    "a line feed in an overlay goes to the left margin by line termination 2": (f"^&f1y0X^&k2G^*p10X|{BOX}^&f1x4X~", [(75, 237, 1, 1)]),
    "an orientation in an overlay leaves the motion index": (f"^&f1y0X^&l4d0O^&a1R{BOX}^&f1x4X~", [(75, 281, 1, 1)]),
    "a page size in an overlay does not close": (f"^&f1y0X{BOX}^&l2A^*p5x0Y{BOX}^&f1x4X~", [(75, 187, 1, 1), (80, 150, 1, 1)]),
    "an orientation in an overlay does not close": (f"^&f1y0X{BOX}^&l0O^*p5x0Y{BOX}^&f1x4X~", [(75, 187, 1, 1), (80, 150, 1, 1)]),
    "simplex in an overlay does not close": (f"^&f1y0X{BOX}^&l0S^*p5x0Y{BOX}^&f1x4X~", [(75, 187, 1, 1), (80, 150, 1, 1)]),
    "the paper source in an overlay does not close": (f"^&f1y0X{BOX}^&l1H^*p5x0Y{BOX}^&f1x4X~", [(75, 187, 1, 1), (80, 150, 1, 1)]),
    "the paper source in an overlay leaves the cursor": (f"^&f1y0X^*p0x500Y{BOX}^&l1H{BOX}^&f1x4X~", [(75, 650, 1, 1)]),
    "the choice of a side in an overlay does not close": (f"^&f1y0X{BOX}^&a0G^*p5x0Y{BOX}^&f1x4X~", [(75, 187, 1, 1), (80, 150, 1, 1)]),
    "the choice of a side in an overlay leaves the cursor": (f"^&f1y0X^*p0x500Y{BOX}^&a0G{BOX}^&f1x4X~", [(75, 650, 1, 1)]),
    "an overlay under a page that closes in a macro": ("^&f1y0X^*c4a1b0P^&f1x4X^&f2y0X~^&f1x2X", [(75, 187, 4, 1)]),
    "an overlay under a page that closes in a second macro": ("^&f1y0X^*c4a1b0P^&f1x4X^&f2y0X~^&f1X^&f3y0X^&f2y2X^&f1x2X", [(75, 187, 4, 1)]),
    "an overlay that runs a macro": ("^&f4y0X^*c4a1b0P^&f1X^&f1y0X^&f4y2X^&f1x4X~", [(75, 187, 4, 1)]),
    "an overlay that runs a macro, under a page that closes in a macro":
        ("^&f4y0X^*c4a1b0P^&f1X^&f1y0X^&f4y2X^&f1x4X^&f2y0X~^&f1x2X", [(75, 187, 4, 1)]),
    "an overlay that runs a macro, under a page that closes in a second macro":
        ("^&f4y0X^*c4a1b0P^&f1X^&f1y0X^&f4y2X^&f1x4X^&f2y0X~^&f1X^&f3y0X^&f2y2X^&f1x2X", [(75, 187, 4, 1)]),
    "no third macro runs behind one that has ended":
        (f"{ONE}^&f2y0X^&f1y2X^&f1X^&f3y0X^&f2y2X^&f1X^&f5y0x1x2X^&f3y2X~", []),
    "no third macro is called": (f"{ONE}^&f2y0X^&f1y3X^&f1X^&f3y0X^&f2y3X^&f1x3X~", []),
    "no second macro runs in an overlay":
        ("^&f5y0X^*c4a1b0P^&f1X^&f4y0X^&f5y2X^&f1X^&f1y0X^&f4y2X^&f1x4X~", []),
}

EVERY = {f"within raster graphics: {name}": (stream + TELLS, dots) for name, (stream, dots) in WITHIN.items()} | RASTER | PATTERNS | MACROS
NAMED = {name: ("print - page-%d.pbm", 0, [page(boxes), ...], stream_of(stream)) for name, (stream, boxes) in EVERY.items()}
ROWS = [*NAMED.values()]
