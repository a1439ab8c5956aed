"""What `tools/why` ends with for words, and what the JSON says of the first finding that has such a grade.

The files are those of a folder; of a finding are asked the number of the fault, the page, the place, the command and the count of dots.
"""

from typing import NamedTuple, Optional

UEL = b"\x1b%-12345X"
DOT = b"\x1b*c1a1b0P"
PICTURE = b"\x1b*t300R\x1b*r0A\x1b*b1W\xf0\x1b*rC"
FILES = {
    "plain.pcl": DOT + b"\x1bE",
    "harmless.pcl": b"\x1b&l66P" + DOT + b"\x1bE",
    "moved.pcl": DOT + b"\x0c\x1b&l-180U" + DOT + b"\x0c",
    "open.pcl": DOT,
    "blank.pcl": b"Dear Sir\x0c",
    "second.pcl": DOT + b"\x0cDear Sir\x0c",
    "lost.pcl": b"\x1b*p2390X\x1b*t300R\x1b*r1A\x1b*b2W\xff\xff\x0c",
    "behind.pcl": b"\x1b*p2390X\x1b*t300R\x1b*r1A\x1b*b3M" + b"".join(b"\x1b*b2W\x00" + each + b"\x1b*b0W" for each in (b"\xf0", b"\xf8", b"\xfc"))
                  + b"\x1b*b2M\x1b*b2W\x00\xf0\x1b*b3M\x1b*b2W\x00\xfe\x1b*b2W\x01\xff\x0c",
    "under.pcl": b"\x1b*t300R\x1b*p3140Y\x1b*r1A" + b"\x1b*b1W\xf0" * 50 + b"\x0c",
    "late.pcl": b"\x1b*t300R\x1b*r4T\x1b*r1A" + b"\x1b*b1W\xf0" * 7 + b"\x1b*rC\x0c",
    "both.pcl": b"\x1b&l-180U\x1b*p2390X\x1b*t300R\x1b*r1A\x1b*b2W\xff\xff\x0c",
    "large.pcl": b"\x1b*t600R\x1b*r0A\x1b*b2W\xff\xff\x1b*rC\x0c",
    "skipped.pcl": DOT + b"\x0c" + UEL + b"@PJL ENTER LANGUAGE=PCLXL\n) HP-PCL XL;2;0\n" + UEL,
    "zeros.pcl": b"\x1b&a0P\x1b&l0U\x1b&l0Z\x1b&p0X" + DOT + b"\x1bE",
    "margin.pcl": b"\x1b&l0E\x1b&l0O\x1b&l0E" + DOT + b"\x1bE",
    "low.pcl": DOT + b"\x0c\x1b&l0E\x1b&l0O" + DOT + b"\x1bE",
    "again.pcl": b"\x1b*t300R\x1b*r1A\x1b*b0W\x1b*b3M\x1b*b2W\x00\xf0" + b"\x1b*b0W" * 30 + b"\x1b*rC\x0c",
    "once.pcl": b"\x1b*t300R\x1b*r1A\x1b*b0W\x1b*b3M\x1b*b2W\x00\xf0" + b"\x1b*b0W" * 29 + b"\x1b*rC\x0c",
    "drawn.pcl": b"\x1b*t300R\x1b*r1A\x1b*b3M\x1b*b2W\x00\xf0" + b"\x1b*b0W" * 300 + b"\x1b*rC\x0c",
    "within.pcl": b"\x1b*t300R\x1b*r1A\x1b*b0W\x1b*b3M\x1b*b2W\x00\xf0" + b"\x1b*b0W" * 30 + b"\x1b*b2W\x00\x0f\x1b*rC\x0c",
    "overlay.pcl": b"\x1b&f5y0X" + DOT + b"\x1b&f1X\x1b&f4X\x1b*p50Y" + DOT + b"\x0c",
    "off.pcl": b"\x1b&f5y4X\x1b&f5X" + DOT + b"\x0c",
    "none.pcl": DOT + b"\x0c\x1b&f5y4X" + DOT + b"\x0c",
    "open-macro.pcl": DOT + b"\x0c\x1b&f0X" + DOT + b"\x1bE",
    "white.pcl": PICTURE + b"\x1b*p0x0Y\x1b*c2a90b1P\x0c",
    "erased.pcl": PICTURE + b"\x1b*p0x0Y\x1b*c90a90b1P\x0c",
    "even.pcl": (b"\x1b*p100Y" + DOT + b"\x0c") * 3,
    "uneven.pcl": b"".join(b"\x1b*p%dY" % place + DOT + b"\x0c" for place in (100, 79, 60)),
    "two.pcl": b"".join(b"\x1b*p%dY" % place + DOT + b"\x0c" for place in (100, 79)),
    "moving.pcl": b"".join(b"\x1b*p%dY" % place + DOT + b"\x0c" for place in (100, 79, 58)),
    "picture.png": b"\x89PNG\r\n\x1a\n",
    "ticket": b"[1]",
    "control.pcl": UEL + b"@PJL SET RESOLUTION=\x07\x7f\xc2\x9b\n" + DOT + b"\x1bE",
}


class Row(NamedTuple):
    words: str
    status: int
    number: Optional[int] = None
    page: Optional[int] = None
    place: Optional[int] = None
    command: Optional[str] = None
    dots: Optional[int] = None
    says: str = ""          # in the sentence


def printed(name, status, *facts, says=""):
    return Row(f"print --list {name}", status, None, *facts, says=says)


ROWS = [
    printed("plain.pcl", 0),
    printed("harmless.pcl", 0, 1, 0, "ESC&l66P", says="it moves no dot"),
    printed("moved.pcl", 3, 2, 10, "ESC&l-180U", says="75 dots right"),
    printed("open.pcl", 3, says="ends while a page with marks is open"),
    printed("large.pcl", 3, 1, 0, "ESC*t600R", says="8 times as wide"),
    printed("blank.pcl", 1, 1, 0, says="it is blank"),
    printed("second.pcl", 1, 2, 10, says="side 2 is blank"),
    printed("lost.pcl", 1, 1, 20, "ESC*b2W", 6, says="loses 6 of the 16 black dots"),
    printed("behind.pcl", 1, 1, 85, "ESC*b2W", 6, says="loses 6 of the 15 black dots"),
    printed("under.pcl", 1, 1, 80, "ESC*b1W", 160, says="160 past the lower edge"),
    printed("late.pcl", 1, 1, 41, "ESC*b1W", says="has 3 rows past the raster height of 4"),
    printed("both.pcl", 1, 1, 28, "ESC*b2W", 6, says="loses 6 of the 16 black dots"),
    printed("skipped.pcl", 1, None, 45, says="enters the language PCLXL"),
    printed("zeros.pcl", 0),
    printed("margin.pcl", 0),
    printed("low.pcl", 3, 2, 15, "ESC&l0O", says="puts the top margin back"),
    printed("again.pcl", 3, 1, 29, "ESC*b0W", 120, says="each repeats the row above it"),
    printed("once.pcl", 0),
    printed("drawn.pcl", 0),
    printed("within.pcl", 0),
    printed("overlay.pcl", 0),
    printed("off.pcl", 0),
    printed("none.pcl", 1, 2, 15, "ESC&f4X", says="there is no macro 5"),
    printed("open-macro.pcl", 1, None, 10, "ESC&f0X", says="ends it without ESC&f1X"),
    printed("white.pcl", 3, 1, 37, "ESC*c1P", 2, says="a fill with white"),
    printed("erased.pcl", 1, 1, 38, "ESC*c1P", 4, says="white ones replace"),
    printed("even.pcl", 0),
    printed("uneven.pcl", 0),
    printed("two.pcl", 0),
    printed("moving.pcl", 3, 2, 30, "ESC*c0P", says="21 dots above"),
    printed("picture.png", 1, says="is a PNG picture"),
    printed("control.pcl", 3, 1, 9, says="none of the values of RESOLUTION"),
    Row("print --list gone.pcl", 1, 304, says="gone.pcl is not there"),
    Row("print plain.pcl page.pbm", 1, 121, says="has no %d"),
    Row("write ticket out.prn", 1, 601, says="is a list, and no object"),
    Row("prnt plain.pcl", 2, says="There is no subcommand prnt"),
    Row("asm --no plain.pcl", 2, says="--no is no option of asm"),
]
