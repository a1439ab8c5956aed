"""A row for each reason of the table: a stream in which a command meets it, and what `why` and `explain` have to say of it.

The stream is printed, and where its pages are blank the first that `why` says is of them. The name is that of the reason in
`untraced.REASONS`, or what is said of a page beside the table.
"""

from typing import NamedTuple

UEL = b"\x1b%-12345X"
DOT = b"\x1b*c1a1b0P"
WHITE_ROW = b"\x1b*t300R\x1b*r1A\x1b*b0W\x1b*b3M"
REPEATED = WHITE_ROW + b"\x1b*b2W\x00\xf0" + b"\x1b*b0W" * 30 + b"\x1b*rC\x0c"
PICTURE = b"\x1b*t300R\x1b*r0A\x1b*b1W\xf0\x1b*rC"


class Row(NamedTuple):
    reason: str
    stream: bytes
    said: tuple          # by `why`, in one finding
    explained: str = ""  # by `explain`, in a line
    first: bool = False  # whether it is the first finding: the cause of a blank page, or of none
    unsaid: tuple = ()   # in none of its findings


ROWS = [
    # A value that the row does not name
    Row("resolution", b"\x1b*t600R\x1b*r0A\x1b*b2W\xff\xff\x1b*rC\x0c",
        ("sends ESC*t600R at byte 0", "stay at 75", "8 times as wide", "RESOLUTION=600"), "has rows of 75, 100, 150 or 300, so they stay at 75"),
    Row("resolution", b"\x1b*p2300X\x1b*t600R\x1b*r1A\x1b*b120W" + bytes(100) + b"\xff" * 20 + b"\x1b*rC\x0c",
        ("prints 1 side, and it is blank: it sends ESC*t600R at byte 8", "RESOLUTION=600"), "160 dots of 160 past the right edge are dropped", True),
    Row("resolution", b"\x1b*t180R" + PICTURE[7:] + b"\x0c", ("sends ESC*t180R at byte 0", "2.4 times", "75, 100, 150 or 300 dots per inch"),
        "so they stay at 75"),
    Row("resolution", UEL + b"@PJL SET RESOLUTION=600\n\x1b*t180R\x1b*r0A\x1b*b1W\xf0\x0c", ("sends ESC*t180R", "200, 300 or 600"), ""),
    Row("method", b"\x1b*r0A\x1b*b9m1W\x00\x0c", ("it is blank: it sends ESC*b9M at byte 5", "methods are 0, 1, 2, 3 and 5", "read by method 0"),
        "the compression methods are 0, 1, 2, 3 and 5", True),
    Row("value", b"\x1b&u75D" + DOT + b"\x0c", ("sends ESC&u75D at byte 0", "from 96 to 7200", "the unit of measure stays 300"),
        "changes nothing: a unit of measure is a divisor of 7200"),
    Row("value", b"\x1b&l0A" + DOT + b"\x0c", ("sends ESC&l0A at byte 0", "26 A4", "the page size stays Letter"), "so the page size stays Letter"),
    Row("value", b"\x1b*c9P\x0c", ("it is blank: it sends ESC*c9P", "the fills are 0 to 5, and 9 is none"), "the fills are 0 to 5", True),
    Row("value", b"\x1b&a-1L\x1b&k900H\x1b&l99D" + DOT + b"\x0c", ("sends ESC&k900H", "0 to 840", "the HMI stays 720"), "so the left margin stays 0"),
    Row("time", b"\x1b*r0A\x1b*t300R\x1b*b1W\xf0\x0c", ("sends ESC*t300R at byte 5", "raster graphics is on"), "takes this before its start alone"),
    Row("time", DOT + b"\x1b*b9Y\x0c", ("sends ESC*b9Y", "raster graphics is off"), "rows are passed over within it alone"),
    Row("time", b"\x1b&f7Y\x1b&f3X\x0c", ("it is blank: it sends ESC&f3X at byte 5", "there is no macro 7"), "there is no macro 7", True),
    Row("time", b"\x1b*r0A\x1b*r1A\x1b*b1W\xf0\x0c", ("sends ESC*r1A at byte 5", "on already"), "raster graphics is on already"),
    Row("time", b"\x1b*c5G\x1b*v4T" + DOT + b"\x0c", ("sends ESC*v4T", "no such pattern under the ID 5"), "no such pattern under the ID 5"),
    Row("time", b"\x1b&f0S" * 21 + DOT + b"\x0c", ("sends ESC&f0S at byte 100", "20 places are pushed"), "20 places are pushed"),
    Row("pattern", b"\x1b*c5G\x1b*c4W\x00\x00\x01\x00\x1b*c4P\x0c", ("sends ESC*c4W at byte 5", "no header of a pattern"), "its data begins with no header of a pattern"),
    Row("time", DOT + b"\x1b&f1S\x0c", ("sends ESC&f1S", "no place was pushed"), "no place was pushed"),
    # An end W carries data
    Row("data that is taken", b"\x1b&k1W\x1b*b2M\x1b*r0A\x1b*b2W\x00\xf0\x0c",
        ("sends ESC&k1W at byte 0", "the 1 byte behind it (1B) was taken", "ESC*b2M is lost"), "so the 1 byte behind it (1B) was taken"),
    Row("what is left of a command", b"\x1b&k1W\x1b*b2M" + DOT + b"\x0c", ("sends ESC&k1W",), "it is left of a command whose first bytes were taken"),
    # Planes and colours
    Row("planes", b"\x1b*r-3U\x1b*r0A\x1b*b1V\xff\x1b*b1V\xff\x1b*b1W\x00\x0c",
        ("it is blank: it sends ESC*r-3U at byte 0, and 2 commands like it (ESC*b#V)", "one plane, of black, and not 3"), "a plane of colour is not carried out", True),
    Row("planes", b"\x1b*v6W\x00\x03\x00\x08\x08\x08" + PICTURE + b"\x0c", ("sends ESC*v#W", "each bit of a row is a dot"), "colours of pixels are not carried out"),
    Row("planes", b"\x1b*g8W\x02\x03\x01\x2c\x01\x2c\x00\x02" + PICTURE + b"\x0c", ("sends ESC*g#W", "one plane, of black, and not 3"), "and not 3"),
    Row("colours", b"\x1b*v90A\x1b*v0I" + PICTURE + b"\x0c", ("sends ESC*v90A at byte 0, and 1 command like it (ESC*v0I)", "black alone"), "this press has black alone"),
    # Registration, scaling, sizes, handling
    Row("registration", b"\x1b&l-180U" + DOT + b"\x0c", ("sends ESC&l-180U", "75 dots right of where", "PageOffset[-18 0]"), "the picture stands 75 dots right of where a printer puts it"),
    Row("registration", b"\x1b&l36Z" + DOT + b"\x0c", ("sends ESC&l36Z", "15 dots above where"), "15 dots above where a printer puts it"),
    Row("top margin", b"\x1b&l0E\x1b&l0L" + DOT + b"\x0c", ("sends ESC&l0L at byte 5", "top margin to half an inch", "150 dots below"),
        "what follows stands 150 dots below where the margin before it put it"),
    Row("scaling", b"\x1b*t720h720V" + PICTURE + b"\x0c", ("sends ESC*t720H at byte 0, and 1 command like it (ESC*t720V)", "not scaled"), "rows are not scaled"),
    Row("direction", b"\x1b&a90P" + DOT + b"\x0c", ("sends ESC&a90P", "print direction"), "the print direction is not carried out"),
    Row("size by dots", b"\x1b&f6120i7920J" + DOT + b"\x0c", ("sends ESC&f6120I", "one of six sizes"), "none by its width and length"),
    Row("page length", b"\x1b&l84P" + DOT + b"\x0c", ("sends ESC&l84P", "the page size stays Letter"), "a page length chooses no paper here"),
    Row("presentation", b"\x1b&l1O\x1b*r3F" + PICTURE + b"\x0c", ("sends ESC*r3F", "turned by a quarter"), "rows turn with the page here"),
    Row("handling", b"\x1b&l66P" + DOT + b"\x0c", ("sends ESC&l66P", "it moves no dot"), "it moves no dot"),
    Row("handling", b"\x1b*r0F\x1b&l0M" + DOT + b"\x0c", ("sends ESC*r0F at byte 0, and 1 command like it (ESC&l0M)", "it moves no dot"), "it moves no dot"),
    Row("unknown", b"\x1b.Y\x1b(1@" + DOT + b"\x0c", ("sends ESC.Y at byte 0", "ignored"), "no row: ignored"),
    Row("steps of text", b"\t\x08" + DOT + b"\x0c", ("sends HT at byte 0, and 1 command like it (BS)", "cursor of text"), "it moves the cursor of text"),
    Row("control", b"\x00\x0f" + DOT + b"\x0c", ("sends Null at byte 0, and 1 command like it (Shift In)", "moves no dot"), "it marks nothing"),
    # What follows decides
    Row("margin that is put back", b"\x1b&l0E\x1b&l0O" + DOT + b"\x0c",
        ("sends ESC&l0O at byte 5", "puts the top margin back to half an inch, though the orientation stays the same", "150 dots below"),
        "what follows stands 150 dots below where the margin before it put it"),
    Row("margin that is put back", b"\x1b&l1S\x1b&l0E\x1b&l2A" + DOT + b"\x0c", ("sends ESC&l2A at byte 10", "though the page size stays the same"), ""),
    Row("margin that is put back", b"\x1b&l0E\x1b&l26A" + DOT + b"\x0c", ("sends ESC&l26A at byte 5", "back to half an inch, so what follows"), ""),
    Row("margin that is put back", b"\x1b&l0E\x1b&l0L\x1b&l48d8E\x1b&l0O" + DOT + b"\x0c", ("sends ESC&l0O at byte 18", "100 dots below"), "", unsaid=("ESC&l0L",)),
    Row("a macro that is not ended", b"\x1bE\x1b&f0X" + DOT + b"\x1bE",
        ("prints no sheet: it sends ESC&f0X at byte 2", "ESC E at byte 16 ends it without ESC&f1X, so the 3 commands behind it are recorded, and lost"),
        "without ESC&f1X, so the 3 commands behind it are recorded, and lost", True),
    Row("a macro that is not ended", DOT + b"\x0c\x1b&f0X" + DOT, ("sends ESC&f0X at byte 10", "the stream ends before ESC&f1X, so the 3 commands"), ""),
    Row("an overlay of nothing", b"\x1b&f5y4X\x0c", ("it is blank: it sends ESC&f4X at byte 5", "there is no macro 5 where the page closes"),
        "there is no macro 5 where the page closes", True),
    Row("an overlay of nothing", b"\x1b&f5y0X" + DOT + b"\x1b&f1X\x1b&f4X\x1b&f8X" + DOT + b"\x0c", ("sends ESC&f4X at byte 21", "nothing is laid over it"), ""),
    Row("a row that repeats", REPEATED, ("has 30 rows of no bytes by method 3 (ESC*b0W) from byte 29 on, and each repeats the row above it: 120 black dots", "ESC*b#Y"),
        "a row of no bytes by method 3 repeats the row above it"),
    Row("a row that repeats", WHITE_ROW + b"\x1b*b2W\x00\xff\x1b*b0W\x1b*b2W\x00\x80" + b"\x1b*b0W" * 30 + b"\x1b*rC\x0c",
        ("has 30 rows of no bytes by method 3 (ESC*b0W) from byte 41 on", "30 black dots"), ""),
    Row("a white fill", PICTURE + b"\x1b*p0x0Y\x1b*c2a90b1P\x0c", ("has 2 black dots that a fill with white (ESC*c1P at byte 37) erases",),
        "a fill with white erases 2 black dots"),
    Row("nothing that is asked for", b"\x1b&l66P\x1b&a0P\x1b&l0U\x1b&l0Z\x1b&p0X" + DOT + b"\x0c", ("sends ESC&l66P",), "at 0 it asks for nothing", unsaid=("ESC&a", "ESC&l0", "ESC&p")),
    # Text, fonts, other languages
    Row("transparent data", b"\x1b&p3XABC\x0c", ("it is blank: it has 3 bytes of transparent data (ESC&p#X) from byte 0 on", "text leaves no marks"),
        "no row: text leaves no marks", True),
    Row("text", b"Dear Sir\x0c", ("it is blank: it has 8 bytes of text from byte 0 on",), 'at 0 to 7: 8 bytes of text, "Dear Sir": no row: text leaves no marks', True),
    Row("fonts", b"\x1b(0U\x1b(s10H" + DOT + b"\x0c", ("sends ESC(0U at byte 0, and 1 command like it (ESC(s10H)", "fonts are left out"), "fonts are left out"),
    Row("HP-GL/2", b"\x1b%0BIN;SP1;\x1b%0A\x0c", ("it is blank: it enters HP-GL/2, and 7 commands from byte 4 on are skipped",),
        'at 4 to 10: 7 commands, "IN;SP1;": ignored: HP-GL/2 is on', True),
    Row("another language", UEL + b"@PJL ENTER LANGUAGE=PCLXL\n) HP-PCL XL;2;0\n" + UEL,
        ("prints no sheet: it enters the language PCLXL, and 16 bytes",), "16 bytes of another language", True),
    # The job language
    Row("PJL variable", UEL + b"@PJL SET ECONOMODE=OFF\n@PJL SET DENSITY=5\n" + DOT + b"\x0c",
        ("sets 2 PJL variables that this press does not have", "ECONOMODE, DENSITY"), "ECONOMODE is no variable of this press"),
    Row("PJL value", UEL + b"@PJL SET RESOLUTION=1200\n" + DOT + b"\x0c", ("1200 is none of the values of RESOLUTION", "RESOLUTION is 300 or 600"),
        "1200 is none of the values of RESOLUTION, which stays 300"),
    Row("PJL command", UEL + b"@PJL DMINFO ASCIIHEX=00\n" + DOT + b"\x0c", ("DMINFO is no PJL command",), "DMINFO is no PJL command of this press"),
    # What is cut, and dots that are lost
    Row("a row that is cut", b"\x1b*r0A\x1b*b100W\xff\xff", ("prints no sheet: it has", "ends within the data of ESC*b100W, which has 2 of 100 bytes"),
        "which has 2 of 100 bytes", True),
    Row("broken", b"\x1b*p10\x0c", ("it is blank: it has an escape sequence at byte 0 that does not go on",), "no row: ignored", True),
    Row("broken", b"\x1b*p10x20\x0c", ("it is blank: it has an escape sequence at byte 6",), '"\\x1B*p20", which begins a command and does not go on', True),
    Row("dots beside the page", b"\x1b*p2390X\x1b*t300R\x1b*r1A\x1b*b2W\xff\xff\x0c", ("loses 6 of the 16 black dots", "6 past the right edge"),
        "6 dots of 16 past the right edge are dropped"),
    Row("dots beside the page", b"\x1b*p9999Y\x1b*t300R\x1b*r1A\x1b*b2W\xff\xff\x0c", ("it is blank: it loses 16 of the 16 black dots", "16 past the lower edge"),
        "16 dots of 16 past the lower edge are dropped", True),
    Row("dots beside the page", b"\x1b*p2400X\x1b*c100a9b0P\x0c", ("loses 225 of the 900 black dots", "225 past the right edge"), "past the right edge"),
    Row("dots beside the page", b"\x1b&l0E\x1b&l0L\x1b*p3150Y\x1b*t300R\x1b*r1A\x1b*b1W\xff\x0c",
        ("it is blank: it loses 8 of the 8 black dots", "8 past the lower edge. ESC&l0L at byte 5 comes before it", "ESC&l#L before ESC&l#E"), "8 dots of 8 past the lower edge", True),
    Row("dots beside the page", b"\x1b*t600R\x1b*p2300X\x1b*r1A\x1b*b40W" + b"\xff" * 40 + b"\x0c", ("past the right edge. ESC*t600R at byte 0 comes before it", "RESOLUTION=600"), "past the right edge"),
    Row("rows past the raster height", b"\x1b*t300R\x1b*r1T\x1b*r0A\x1b*b1W\xf0\x1b*b1W\xf0\x0c", ("has 1 row past the raster height of 1",),
        "the raster height is 1 row, and it stands past them"),
    Row("a fill of nothing", b"\x1b*c0P\x0c", ("it is blank: it has a fill at byte 0 that marks nothing",), "it marks nothing", True),
    Row("a front without its back", b"\x1b&l1S" + DOT + b"\x0c\x1b&l2A" + DOT + b"\x0c" + DOT + b"\x0c",
        ("has 1 front that goes out alone, without a back, in duplex, the first by ESC&l2A", "pages follow"), "the front before it goes out alone"),
    Row("a front without its back", b"\x1b&l1S" + DOT + b"\x0c\x1bE" + DOT + b"\x0c", ("the first by ESC E",), "the front before it goes out alone"),
    Row("handling", b"\x1b&l1S" + DOT + b"\x0c\x1bE" + UEL + b"\x1b*r0F" + DOT + b"\x0c", ("sends ESC*r0F",), "ESC E: Printer Reset: sheet 1 goes out", True),
]
# What is said of a page or of the end beside the table.
BESIDE = [
    Row("white rows", b"\x1b*r0A\x1b*b1W\x00\x0c", ("it is blank: it has rows there, and none of their dots is black",), "", True),
    Row("nothing that marks", b"\x1bE\x0c", ("it is blank: it has nothing there that marks",), "", True),
    Row("white over black", b"\x1b*c9a9b0P\x1b*c1P\x0c", ("it is blank: it has dots there that white ones replace, the last by ESC*c1P at byte 9",), "", True),
    Row("rows under white", PICTURE + b"\x1b*p0x0Y\x1b*c90a90b1P\x0c", ("it is blank: it has dots there that white ones replace, the last by ESC*c1P",), "", True),
    Row("pages that move", b"\x1b*p100Y" + DOT + b"\x0c\x1b*p79Y" + DOT + b"\x0c\x1b*p58Y" + DOT + b"\x0c",
        ("what each of its 3 pages sends first stands 21 dots above that of the page before, on side 2 by ESC*c0P at byte",)),
    Row("rows that nothing places", b"\x1b*p100Y\x1b*r1A\x1b*b1W\xf0\x0c\x1b*b1W\xf0\x0c\x1b*p100Y\x1b*b1W\xf0\x0c",
        ("FF at byte 18 ends raster graphics, and nothing places the rows behind it, so on side 2 they begin 62.5 dots above",)),
    Row("rows that are placed", b"\x1b*p100Y\x1b*r1A\x1b*b1W\xf0\x0c\x1b*r1A\x1b*b1W\xf0\x0c\x1b*p90Y\x1b*b1W\xf0\x0c\x1bE", (), unsaid=("moves from page to page",)),
    Row("a blank front", b"\x1b&l1S\x1b&a2G" + DOT + b"\x0c", ("prints 2 sides, and side 1 is blank: it asks for a blank front",), "", True),
    Row("a page that is open", DOT, ("ends while a page with marks is open",), "the page closes"),
    Row("a macro that is open", b"\x1b&f0X" + DOT, ("prints no sheet: it records all in a macro that is not ended",), "recorded, in macro 0", True),
    Row("some blank pages", DOT + b"\x0c\x0cDear\x0c", ("prints 3 sides, and side 2 is blank: it has nothing there that marks",), "", True),
    Row("no sheet", b"\x1b*p10x10Y\x1b*c5a5B", ("prints no sheet: nothing marks a page",), "", True),
]
