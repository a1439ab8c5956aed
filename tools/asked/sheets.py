"""Which sheets a stream has, of what size, how many dots of each side are black, and what is replied behind them: what closes a page, copies,
sides, page sizes, the counts and the status of the job language. All were worked out by hand. Streams are spelled as in `pages`.
"""

from asked.pages import stream_of

LETTER, A4 = "2550x3300", "2480x3507"
BOX, FOUR = "^*c1a1b0P", "^*c4a1b0P"


def line(words):
    """A line of the job language behind a universal exit."""
    return f"^%-12345X@PJL {words}|"


# What closes a page, and which front goes out when: the stream, and the black dots of front and perhaps back of each sheet of Letter.
CLOSES = {
    "a rectangle without width": ("^*c0a5b0P^E", []),
    "a rectangle without height": ("^*c5a0b0P^E", []),
    "a rectangle whose size was set to 0": ("^*c5a5b0a0P^E", []),
    "a white rectangle marks": ("^*c5a5b1P^E", [(0,)]),
    "a rectangle in a white tile marks": ("^*c9G^*c9W[000001000001000100]^*c5a5b4P^E", [(0,)]),
    "a rectangle outside of the page marks": ("^*p9999Y^*c1a1b0P^E", [(0,)]),
    "a rectangle in a pattern that there is not": ("^*c5a5b4P^E", []),
    "a rectangle filled by 6": ("^*c5a5b6P^E", []),
    "a move marks nothing": ("^*p10x10Y^E", []),
    "a white row marks": ("^*b1W[00]^E", [(0,)]),
    "a row past the source height marks nothing": ("^*t300R^*r1T^*r0A^*b65535Y^*b1Y^*b1W[80]^E", []),
    "empty rows of a block mark": ("^*b5m3W[040001]^E", [(0,)]),
    "a row without width marks": ("^*p9999X^*r1A^*b1W[80]^E", [(0,)]),
    "a reset puts HP-GL/2 off before the page closes": (f"^&f2y0X^*c4a1b0P^&f1x4X^*p100x100Y{BOX}^%0B^E", [(5,)]),
    "a reset closes a marked page alone": (f"^E{BOX}^E^E", [(1,)]),
    "a reset delivers a front in the copies of before": ("^&l1S^&l3X~^E", [(0,), (0,), (0,)]),
    "a reset delivers a page in the copies of before": (f"^&l3X{BOX}^E", [(1,), (1,), (1,)]),
    "a reset closes a back": (f"^&l1S~{BOX}^E", [(0, 1)]),
    "a reset sets one copy": ("^&l3X^E~", [(0,)]),
    "a reset sets the copies of the job language": (line("SET COPIES=2") + "^&l1X^E~", [(0,), (0,)]),
    "a reset sets simplex": ("^&l1S^E~~", [(0,), (0,)]),
    "a reset sets the sides of the job language": (line("SET DUPLEX=ON") + "^&l0S^E~~", [(0, 0)]),
    "a page size closes a marked page": (f"{BOX}^&l2A{BOX}~", [(1,), (1,)]),
    "a page size leaves a blank page": ("^&l2A~", [(0,)]),
    "a page size closes a back": (f"^&l1S~{BOX}^&l2A", [(0, 1)]),
    "a page size delivers a front at once": (f"^&l1S{BOX}~^&l2A~", [(1,), (0,)]),
    "a page size that there is not": (f"{BOX}^&l99A{BOX}~", [(1,)]),
    "an orientation closes a marked page": (f"{BOX}^&l0O{BOX}~", [(1,), (1,)]),
    "an orientation leaves a front": (f"^&l1S{BOX}~^&l0O~", [(1, 0)]),
    "an orientation that there is not": (f"{BOX}^&l4O{BOX}~", [(1,)]),
    "duplex closes a marked page": (f"{BOX}^&l1S~", [(1,), (0,)]),
    "duplex closes a front": (f"^&l1S{BOX}^&l1S{BOX}~", [(1,), (1,)]),
    "duplex closes a back": (f"^&l1S~{BOX}^&l1S", [(0, 1)]),
    "duplex leaves a blank page": ("^&l1S^&l1S~~", [(0, 0)]),
    "duplex delivers a front at once": (f"^&l1S{BOX}~^&l1S~", [(1,), (0,)]),
    "duplex along the short edge delivers a front at once": (f"^&l1S{BOX}~^&l2S~", [(1,), (0,)]),
    "simplex delivers a front at once": (f"^&l1S{BOX}~^&l0S~", [(1,), (0,)]),
    "sides that there are not": (f"{BOX}^&l3S{BOX}~~", [(1,), (0,)]),
    "sides that there are not are no duplex": ("^&l3S~~", [(0,), (0,)]),
    "the paper source closes a marked page": (f"{BOX}^&l1H{BOX}~", [(1,), (1,)]),
    "the paper source leaves a blank page": ("^&l1H~", [(0,)]),
    "a side leaves a blank page": ("^&a0G~", [(0,)]),
    "the next side leaves a front": (f"^&l1S{BOX}~^&a0G~", [(1, 0)]),
    "the front side delivers a front": (f"^&l1S{BOX}~^&a1G~", [(1,), (0,)]),
    "the back side makes a blank front": (f"^&l1S^&a2G{BOX}~", [(0, 1)]),
    "the next side makes no front": (f"^&l1S^&a0G{BOX}~", [(1,)]),
    "no third macro runs behind a page that closed in the second, with an overlay":
        (f"^&f1y0X{BOX}^&f1x4X^&f4y0X^*p10X{BOX}^&f1X^&f2y0X~^&f4y2X^&f1X^&f3y0X^&f2y2X^&f1x2X~", [(1,), (1,)]),
    "a side that there is not": (f"{BOX}^&a3G{BOX}~", [(1,)]),
    "copies of 0": ("^&l2x0X~", [(0,), (0,)]),
    "copies below 0": ("^&l2x-3X~", [(0,), (0,)]),
    "copies above 999": ("^&l2000X~", [(0,)] * 999),
    "a call leaves duplex": ("^&f1y0X^&l1S^&f1x3X~~", [(0, 0)]),
    "a call leaves a front": ("^&l1S^&f1y0X~^&f1x3X~", [(0, 0)]),
    "a call restores copies": ("^&f1y0X^&l3X^&f1x3X~", [(0,)]),
    "an execute leaves copies": ("^&f1y0X^&l3X^&f1x2X~", [(0,), (0,), (0,)]),
    "copies of an overlay": ("^&f1y0X^&l3X^&f1x4X~", [(0,)]),
    "duplex leaves the overlay on": ("^&f1y0X^*c2a1b0P^&f1x4X^&l1S~", [(2,)]),
    "an overlay that deletes its own macro runs on": (f"^&f1y0X^&f1y8X{FOUR}^&f1x4X~~", [(4,), (0,)]),
    "an overlay that puts itself off runs on": (f"^&f1y0X^&f5X{FOUR}^&f1x4X~~", [(4,), (0,)]),
    "an overlay whose macro is deleted and defined again": (f"^&f1y0X{BOX}^&f1x4x8x0X{FOUR}^&f1X~", [(4,)]),
    "an overlay under a front and under its back": ("^&l1S^&f1y0X^*c2a1b0P^&f1x4X~~", [(2, 2)]),
    "the front side in an overlay delivers no front": (f"^&l1S^&f1y0X^&a1G{BOX}^&f1x4X~~", [(1, 1)]),
    "the back side in an overlay makes no front": (f"^&l1S^&f1y0X^&a2G{BOX}^&f1x4X~~", [(1, 1)]),
    "simplex in an overlay leaves duplex": (f"^&l1S^&f1y0X^&l0S{BOX}^&f1x4X~~", [(1, 1)]),
    "duplex in an overlay leaves simplex": (f"^&f1y0X^&l1S{BOX}^&f1x4X~~", [(1,), (1,)]),
    "a second macro behind a page that closed in the first, with an overlay":
        (f"^&f1y0X{BOX}^&f1x4X^&f3y0X^*p10X{BOX}^&f1X^&f2y0X~^&f3y2X^&f1x2X~", [(1,), (2,)]),
    "a macro of a form feed, in a macro": (f"^&f1y0X~^&f1X^&f2y0X^&f1y2X{BOX}^&f1x2X", [(0,), (1,)]),
    "a duplex page that closes in a second macro, with an overlay that runs a macro":
        ("^&l1S^&f4y0X^*c4a1b0P^&f1X^&f1y0X^&f4y2X^&f1x4X^&f2y0X~^&f1X^&f3y0X^&f2y2X^&f1x2X~", [(4, 4)]),
}

# What closes no page in a macro that an overlay runs, behind a box of four dots or before it.
IN_ITS_MACRO = {"a form feed": f"{FOUR}~", "a line feed": f"{FOUR}^*p3150Y|", "the paper source": f"{FOUR}^&l1H", "the next side": f"{FOUR}^&a0G", "simplex": f"{FOUR}^&l0S",
                "a page size": f"{FOUR}^&l2A", "an orientation": f"{FOUR}^&l0O"}
CLOSES |= {f"{name} in a macro that an overlay runs": (f"^&f4y0X{text}^&f1X^&f1y0X^&f4y2X^&f1x4X~", [(4,)]) for name, text in IN_ITS_MACRO.items()}

# Sizes: the number of the command, the name in the job language, width and height, and the space at the left in portrait and in landscape.
SIZES = [(1, "EXECUTIVE", 2175, 3150, 75, 60), (2, "LETTER", 2550, 3300, 75, 60), (3, "LEGAL", 2550, 4200, 75, 60),
         (6, "LEDGER", 3300, 5100, 75, 60), (26, "A4", 2480, 3507, 71, 59), (27, "A3", 3507, 4960, 71, 59)]


def side(size, boxes):
    """The file of a side of this size, in dots, whose dots in these boxes are black."""
    width, height = size
    rows = [bytearray((width + 7) // 8) for _ in range(height)]
    for left, top, across, down in boxes:
        for row in rows[top:top + down]:
            for column in range(left, left + across):
                row[column // 8] |= 0x80 >> column % 8
    return b"P4\n%d %d\n" % size + b"".join(rows)


# Boxes at the corner of the logical page, and behind its right edge, in portrait; at its corner in landscape.
PLACED = {}
for number, name, width, height, portrait, landscape in SIZES:
    PLACED |= {
        f"{name} in portrait": (f"^&l{number}A^*p0x0Y^*c2a3b0P~", (width, height), [(portrait, 150, 2, 3)]),
        f"{name} and its right edge": (f"^&l{number}A^*p9999x0Y^*c2a3b0P~", (width, height), [(width - portrait, 150, 2, 3)]),
        f"{name} in landscape": (f"^&l{number}a1O^*p0x0Y^*c2a3b0P~", (width, height), [(150, height - landscape - 2, 3, 2)]),
        f"{name} in landscape and its right edge":
            (f"^&l{number}a1O^*p9999x0Y^*c2a3b0P~", (width, height), [(150, landscape - 2, 3, 2)]),
        f"{name} by the job language": (line(f"SET PAPER={name}") + "^*p0x0Y^*c2a3b0P~", (width, height), [(portrait, 150, 2, 3)]),
        f"{name} at 600 dots to the inch": (f"{line('SET RESOLUTION=600')}^&l{number}A^*p0x0Y^*c2a3b0P~", (2 * width, 2 * height),
                                            [(2 * portrait, 300, 4, 6)]),
    }
PLACED |= {
    "a page size leaves the orientation": ("^&l1o3A^*p0x0Y^*c2a3b0P~", (2550, 4200), [(150, 4138, 3, 2)]),
    "a page size again": ("^&l26a2A^*p0x0Y^*c2a3b0P~", (2550, 3300), [(75, 150, 2, 3)]),
    "a call leaves the page size": ("^&f1y0X^&l26A^&f1x3X^*p0x0Y^*c2a3b0P~", (2480, 3507), [(71, 150, 2, 3)]),
    "a reset sets the page size": ("^&l26A^E^*p0x0Y^*c2a3b0P~", (2550, 3300), [(75, 150, 2, 3)]),
    "a reset sets the page size of the job language": (line("SET PAPER=A4") + "^&l2A^E^*p0x0Y^*c2a3b0P~", (2480, 3507), [(71, 150, 2, 3)]),
    "a reset sets portrait": ("^&l1O^E^*p0x0Y^*c2a3b0P~", (2550, 3300), [(75, 150, 2, 3)]),
    "a reset sets the orientation of the job language":
        (line("SET ORIENTATION=LANDSCAPE") + "^&l0O^E^*p0x0Y^*c2a3b0P~", (2550, 3300), [(150, 3238, 3, 2)]),
}

# Replies behind sheets of one blank side: how many of these, and what is replied.
ON, OFF = line("USTATUS PAGE=ON"), line("USTATUS PAGE=OFF")


def status(*counts):
    return "".join(f"@PJL USTATUS PAGE\r\n{count}\r\n\f" for count in counts)


def answer(question, value):
    return f"@PJL {question}\r\n{value}\r\n\f"


REPLIES = {
    "the status is off": ("~", 1, ""),
    "the status of each sheet": (ON + "~~", 2, status(1, 2)),
    "the status of each copy": (ON + "^&l3X~", 3, status(1, 2, 3)),
    "the status is put off": (ON + "~" + OFF + "~", 2, status(1)),
    "USTATUSOFF": (ON + "~" + line("USTATUSOFF") + "~", 2, status(1)),
    "USTATUSOFF with white space": (ON + "~" + line("USTATUSOFF \t") + "~", 2, status(1)),
    "USTATUSOFF x": (ON + "~" + line("USTATUSOFF x") + "~", 2, status(1, 2)),
    "USTATUS of another name": (ON + "~" + line("USTATUS JOB=OFF") + "~", 2, status(1, 2)),
    "USTATUS of another name does not put it on": (line("USTATUS JOB=ON") + "~", 1, ""),
    "a line of another word leaves the status": (ON + "~" + line("FOO") + "~", 2, status(1, 2)),
    "a line of another word does not put it on": (line("FOO PAGE=ON") + "~", 1, ""),
    "USTATUS of another value": (ON + "~" + line("USTATUS PAGE=MAYBE") + "~", 2, status(1, 2)),
    "a reset leaves the status and its count": (ON + "~^E~", 2, status(1, 2)),
    "JOB leaves the status, and counts from 0": (ON + "~" + line("JOB") + "~", 2, status(1, 1)),
    "JOB counts the page that it closes to the job before": (ON + "^*c1a1b1P" + line("JOB") + "~", 2, status(1, 1)),
    "EOJ leaves the status and its count": (ON + "~" + line("EOJ") + "~", 2, status(1, 2)),
    "RESET leaves the status and its count": (ON + "~" + line("RESET") + "~", 2, status(1, 2)),
    "INITIALIZE leaves the status and its count": (ON + "~" + line("INITIALIZE") + "~", 2, status(1, 2)),
    "SET leaves the status and its count": (ON + "~" + line("SET COPIES=1") + "~", 2, status(1, 2)),
    "the count of all sheets": ("^&l3X~" + line("INFO PAGECOUNT"), 3, answer("INFO PAGECOUNT", 3)),
    "JOB leaves the count of all sheets": ("~" + line("JOB") + "~" + line("INFO PAGECOUNT"), 2, answer("INFO PAGECOUNT", 2)),
    "a reset leaves the count of all sheets": ("~^E~" + line("INFO PAGECOUNT"), 2, answer("INFO PAGECOUNT", 2)),
    "SET leaves the other values": (line("SET COPIES=3") + line("SET PAPER=LETTER") + line("INQUIRE COPIES"), 0, answer("INQUIRE COPIES", 3)),
    "300 dots to the inch again": (line("SET RESOLUTION=600") + line("SET RESOLUTION=300") + line("INQUIRE RESOLUTION"), 0,
                                   answer("INQUIRE RESOLUTION", 300)),
    "a reset leaves the values": (line("SET COPIES=3") + "^E" + line("INQUIRE COPIES"), 0, answer("INQUIRE COPIES", 3)),
    "INFO knows no variables": (line("INFO COPIES"), 0, answer("INFO COPIES", '"?"')),
    "INQUIRE knows no counts": (line("INQUIRE PAGECOUNT"), 0, answer("INQUIRE PAGECOUNT", '"?"')),
    "JOB= is no such line": (line("SET COPIES=3") + line("JOB=x") + line("INQUIRE COPIES"), 0, answer("INQUIRE COPIES", 3)),
    "RESETS is no such line": (line("SET COPIES=3") + line("RESETS") + line("INQUIRE COPIES"), 0, answer("INQUIRE COPIES", 3)),
    "a value keeps a second carriage return": (line("SET COPIES=3<<") + line("INQUIRE COPIES"), 0, answer("INQUIRE COPIES", 1)),
}


def listing(sheets, size=LETTER):
    return "".join(f"sheet {number} {name} {size} black {black}\n" for number, sides in enumerate(sheets, 1)
                   for name, black in zip(["front", "back"], sides))


# A front that waits, or a page that is marked, is of Letter, and the next page of A4.
OF_TWO_SIZES = {"a page size delivers a front of the size before": f"^&l1S{BOX}~^&l26A~", "a page size closes a page of the size before": f"{BOX}^&l26A~"}

NAMED = {name: ("print --list -", 0, listing(sheets), stream_of(stream)) for name, (stream, sheets) in CLOSES.items()}
NAMED |= {name: ("print --list -", 0, f"sheet 1 front {LETTER} black 1\nsheet 2 front {A4} black 0\n", stream_of(stream))
          for name, stream in OF_TWO_SIZES.items()}
NAMED |= {name: ("print - page-%d.pbm", 0, [side(size, boxes), ...], stream_of(stream)) for name, (stream, size, boxes) in PLACED.items()}
NAMED |= {name: ("", 0, (listing([(0,)] * count) + replied).encode(), stream_of(stream)) for name, (stream, count, replied) in REPLIES.items()}
ROWS = [*NAMED.values()]
