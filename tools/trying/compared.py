"""What the tools that compare are asked beside the planted pairs: archives, drivers' streams with their picture, streams to shrink, words that are refused, pages."""

from typing import NamedTuple

STREAM = b"\x1bE\x1b*p0x0Y\x1b*c3a2b0P\x1bE"
OTHER = b"\x1bE\x1b*p1x0Y\x1b*c3a2b0P\x1bE"
RAW = b"\x1b%-12345X@PJL ENTER LANGUAGE=A\r\x07\x9b\n%!PS\n"
FILES = {"in.pcl": STREAM, "new.pcl": OTHER, "in.png": STREAM, "a\x1b\x7f.pcl": STREAM, "raw.pcl": RAW, "page.pbm": b"P4 8 1\n\x81", "short.pbm": b"P4 8 2\n\x81"}

# Command lines in one folder, one after another, with their status and what they say.
ARCHIVE = [
    ("mkdir spool && printf '\\033E\\033*c3a2b0P\\033E' > spool/a && cp spool/a spool/b && regress record spool", 0, ("2 streams, 2 sides, recorded\n",)),
    ("cat spool.listings/a.txt", 0, ("sheet 1 front 2550x3300 black 6 sha256 ",)),
    ("press=$(echo {}/../../crates/press/out/press) && $press print spool/a page%d.pbm && grep -q $(sha256sum < page1.pbm | cut -c1-64) spool.listings/a.txt", 0, ()),
    ("mv spool/a spool/c && regress check spool", 1, ("a: it is gone\nc: it is new\n2 streams, 2 sides, 2 of them others\n",)),
    ("regress record spool && ls spool.listings", 0, ("b.txt\nc.txt\n",)),
    ("regress check --default RESOLUTION=600 spool", 1, ("b: side 1 of 1 is another\n",)),
    ("printf '\\033*c3a2b0P\\033*p2400x0Y\\033*c900a2b0P\\033E' > spool/b && regress record --why spool && regress check --why spool", 0, ("0 of them others",)),
    ("grep -c '^found ' spool.listings/b.txt", 0, ()),
    ("printf '\\033*c3a2b0P\\033*p2400x0Y\\033*c901a2b0P\\033E' > spool/b; regress check spool", 0, ("0 of them others",)),
    ("regress check --why spool", 1, ("b: the findings of why: ", " before, ", " now")),
    ("regress check --json spool", 0, ('{"streams": 2, "sides": 2, "others": {}}',)),
    ("echo a text > spool.listings/mine.txt; regress record spool", 2, ("is no line of a listing",)),
    ("cat spool.listings/mine.txt", 0, ("a text\n",)),
    ("regress record --listings spool/listings spool", 2, ("would be streams of spool",)),
    ("regress check none", 2, ("none is no folder of streams",)),
    ("mkdir other && regress check other", 2, ("no listings stand in other.listings",)),
]


class Row(NamedTuple):
    words: str
    status: int
    said: tuple


NO_CAUSE = "no command mends it by being left out"
AT_600 = "matches --default RESOLUTION=600 "
ARROW = " {}/arrow.ps"
# Each stream of `tools/driver_streams` with the picture that went in. Where `why` names another cause than a command that was left out, or none is found, the row says why.
MATCHED = [
    Row("matches {}/ghostscript-ljet4.pcl" + ARROW, 1, ("page 1: blank: none of 1,830 dots", NO_CAUSE)),      # a printer of 600 is wanted: no command of the stream is wrong
    Row(AT_600 + "{}/ghostscript-ljet4.pcl" + ARROW, 1, ("page 1: whole, moved 150 dots right: all 7,320 dots", NO_CAUSE)),   # ESC&l-180U, which why names, is not carried out
    Row("matches {}/ghostscript-ljet4-300.pcl" + ARROW, 1, ("page 1: whole, moved 75 dots right: all 1,830 dots", NO_CAUSE)),      # the same
    Row("matches {}/ghostscript-ljet3d.pcl {}/two-arrows.ps", 1, ("page 1: whole, moved 15 dots right and 75 dots up", "page 2: whole, moved 75 dots right: ", NO_CAUSE)),   # the same
    Row("matches {}/ghostscript-deskjet.pcl" + ARROW, 1, ("page 1: other: 1,272 of 1,830 dots lacking", NO_CAUSE)),      # ESC*b2M is lost in the data of ESC&k1W, and so is it without that
    Row("matches {}/ghostscript-cdeskjet.pcl" + ARROW, 1, ("page 1: other: ", NO_CAUSE)),      # planes of colour
    Row("matches {}/ghostscript-pxlmono.prn" + ARROW, 1, ("page 1: there is no such side", NO_CAUSE)),      # another language
    Row("matches {}/foomatic-ljet4.prn" + ARROW, 1, ("page 1: blank: ", NO_CAUSE)),      # a printer of 600 is wanted
    Row(AT_600 + "{}/foomatic-ljet4.prn" + ARROW, 1, ("page 1: whole, moved 150 dots right: ", NO_CAUSE)),     # ESC&l-180U; why names variables, too, which move nothing
    Row("matches {}/cups-laserjet.pcl" + ARROW, 1, ("page 1: whole, moved 150 dots down: all 1,830 dots\n  without par &l0L (command 10): whole, in its place: all 1,830 dots\n",)),
    Row("matches {}/cups-deskjet.pcl" + ARROW, 1, ("page 1: blank: none of 1,830 dots", NO_CAUSE)),      # planes of colour
    Row("matches {}/gutenprint-laserjet-4.pcl" + ARROW, 0, ("page 1: whole, in its place: all 1,830 dots\n",)),      # why: ESC&l66P, which moves no dot
    Row("matches {}/hpcups-laserjet-4000.prn" + ARROW, 1, ("page 1: nearly whole, moved 1 dot up: all 7,320 dots, 1 others",)),      # the driver's own dot and place; why names two variables
    Row("matches {}/netpbm-pbmtolj.pcl" + ARROW, 1, ("page 1: whole, moved 225 dots left and 263 dots up: all 1,830 dots", NO_CAUSE)),      # it was given the arrow alone
    Row("matches {}/mupdf-draw.pcl" + ARROW, 1, ("page 1: other: ", NO_CAUSE)),      # ESC*b2M is lost, as above
    Row("matches {}/gnuplot-pcl5.pcl" + ARROW, 1, ("page 1: there is no such side", NO_CAUSE)),      # HP-GL/2, of another picture
    Row("matches --no-cause {}/gnuplot-hpgl.prn" + ARROW, 1, ("page 1: blank: ",)),      # HP-GL, of another picture
    Row("matches --no-cause {}/ghostscript-epson.prn" + ARROW, 1, ("page 1: blank: ",)),      # ESC/P
    Row("matches --no-cause {}/cups-pwg.prn" + ARROW, 1, ("page 1: blank: ",)),      # a raster
    Row("matches --no-cause {}/foomatic-laserjet-4.prn" + ARROW, 1, ("page 1: blank: none of 1,830 dots",)),      # a printer of 600 is wanted
    Row(AT_600 + "--no-cause {}/foomatic-laserjet-4.prn" + ARROW, 1, ("page 1: whole, moved 150 dots right: all 7,320 dots",)),      # ESC&l-180U
    Row("matches --no-cause {}/foomatic-ljet4-duplex.prn {}/two-arrows.ps", 1,
        ("page 1: whole, moved 75 dots right: all 1,830 dots\npage 2: whole, moved 75 dots right: all 1,830 dots\n",)),      # the same; why names the front that goes out alone
    Row("matches --no-cause {}/foomatic-hpijs-duplex.prn {}/two-arrows.ps", 1, ("page 1: other: 773 of 7,320 dots lacking\n", "page 2: other: 780 of 7,320 dots lacking\n")),      # the driver's own pattern, and ESC&l0O
    Row("matches --no-cause {}/hpijs-laserjet-4l.prn" + ARROW, 1, ("page 1: other: 182 of 1,830 dots lacking\n",)),      # the same
    Row("matches --no-cause {}/cups-laserjet-two-pages.pcl {}/large-arrows.ps", 1, ("page 1: whole, moved 1 dot left and 150 dots down: all 7,320 dots\n", "page 2: whole, moved 1 dot left: ")),   # ESC&l0L, and the driver's own dot
    Row("matches {}/cups-generpcl-low.pcl {}/low-arrow.ps", 1,
        ("page 1: cut at the lower edge, moved 150 dots down: 190 of 1,830 dots lacking\n  without par &l0L (command 10): whole, in its place: all 1,830 dots\n",)),
    Row("matches --no-cause {}/gutenprint-pcl-5e-a4.pcl" + ARROW, 1, ("page 1: whole, moved 29 dots right and 1 dot down: all 1,830 dots",)),      # no command does it
    Row("matches --no-cause {}/gutenprint-pcl-5e-600.pcl" + ARROW, 1, ("page 1: other: 1,830 of 1,830 dots lacking",)),      # a printer of 600 is wanted
    Row(AT_600 + "{}/gutenprint-pcl-5e-600.pcl" + ARROW, 0, ("page 1: whole, in its place: all 7,320 dots\n",)),
    Row("matches --no-cause {}/hpcups-three-pages.prn {}/arrow.ps {}/two-arrows.ps", 1,
        ("page 1: nearly whole, moved 1 dot up: all 7,320 dots, 1 others\n", "page 2: nearly whole, moved 42 dots up", "page 3: nearly whole, moved 42 dots up")),
    Row("matches {}/netpbm-pbmtolj-delta.pcl {}/../images/back.pbm", 1, ("page 1: other: all 1,830 dots, 241 others", NO_CAUSE)),      # each ESC*b0W repeats one row
    Row("matches {}/netpbm-pbmtolj.pcl {}/../images/back.pbm", 0, ("page 1: whole, at 75,37: all 1,830 dots\n",)),
    Row("matches {}/hpcups-laserjet-4000.prn {}/../images/back.pbm", 1, ("page 1: nearly whole, at 600,599: all 7,320 dots, 1 others, each 2 by 2\n",)),
    Row("matches --at 300,300 {}/cups-laserjet.pcl {}/../images/back.pbm", 1, ("moved 150 dots down", "without par &l0L (command 10): whole, in its place")),
    Row("matches --no-cause --at 300,300 {}/cups-laserjet.pcl {}/../images/back.pbm", 1, ("page 1: whole, moved 150 dots down: all 1,830 dots\n",)),
    Row("matches --json --at 300,300 {}/cups-laserjet.pcl {}/../images/back.pbm", 1, ('"causes": [{"command": 10, "text": "par &l0L", ',)),
    Row("matches {}/cups-laserjet.pcl {}/../images/back.pbm {}/../images/back.pbm", 1, ("page 2: there is no such side\n",)),
    Row("matches {}/ghostscript-ljet3d.pcl {}/../images/back.pbm", 1, ("page 1: whole, at 315,225", "1 side more than there are pictures\n")),
    # A picture of a page that was printed, which lies past the right and the lower edge of the other.
    Row("press() { {}/../../crates/press/out/press \"$@\"; }; draws='*c90a90b0P\\033*c5a100b0P\\033E'; printf \"\\033*p2300x2700Y\\033$draws\" > a; "
        "printf \"\\033*p2400x2700Y\\033$draws\" > b; "
        "press print a a%d.pbm; matches b a1.pbm", 1, ("page 1: cut at the right edge, moved 100 dots right: 1,350 of 8,150 dots lacking\n",)),
]

PRESS = "{}/../../crates/press/out/press"
# What a trial asks for, of examples/drivers/cups-laserjet.pcl, and the text that is left.
SHRUNK = [
    ("grep -q 0L", "par &l0L\n"),
    (f"sh -c '{PRESS} print --list \"$1\" | grep -q \"black [^0]\"' -", "par *b36W " + 71 * "0" + "4\n"),
]

USAGE = 2
REFUSED = [
    Row("differ in.pcl", USAGE, ("usage: ", "the following arguments are required: NEW")),
    Row("differ in.pcl none", USAGE, ("No such file",)),
    Row("differ --default RESOLUTION=700 in.pcl new.pcl", USAGE, ("differ: RESOLUTION=700 sets no variable",)),
    Row("differ --page in.pcl in.pcl new.pcl", USAGE, ("in.pcl is the input in.pcl, which it would replace",)),
    Row("cp in.pcl side-1.png; differ --pictures . side-1.png new.pcl; rm side-1.png", 0, ("which it would replace",)),
    Row("differ \"--what$(printf '\\033[2J')\" in.pcl new.pcl", USAGE, ("unrecognized arguments: --what\\u001b[2J",)),
    Row("differ in.pcl new.pcl | head -c 1 > /dev/null", 0, ()),
    Row("differ a*.pcl new.pcl", 1, ("a\\u001b\\u007f.pcl and new.pcl print 1 and 1 sides\n",)),
    Row("matches in.pcl", USAGE, ("usage: ", "PICTURE")),
    Row("matches in.pcl in.pcl", USAGE, ("in.pcl is no picture: ",)),
    Row("matches in.pcl short.pbm", USAGE, ("ends too early",)),
    Row("matches in.pcl none.pbm", USAGE, ("No such file",)),
    Row("matches --at 1 in.pcl page.pbm", USAGE, ("--at",)),
    Row("matches in.pcl page.pbm", 1, ("page 1: other: ",)),
    Row("shrink in.pcl out", USAGE, ("no COMMAND stands behind --",)),
    Row("shrink in.pcl in.pcl -- true", USAGE, ("which it would replace",)),
    Row("shrink in.pcl out -- false", USAGE, ("false does not end with 0 for in.pcl",)),
    Row("shrink in.pcl out -- ./none", USAGE, ("No such file",)),
    Row("shrink raw.pcl /dev/null -- true", 0, ("to 1, ",)),
    Row("regress recall .", USAGE, ("invalid choice: 'recall'",)),
    Row("regress check --jobs some .", USAGE, ("invalid int value",)),
]


def page(*lines):
    return tuple(line.ljust(200) for line in lines) + (" " * 200,) * (200 - len(lines))


BAR = "#" * 150
# Two pages, and the shifts of their regions.
SHIFTED = [
    (page(), page(), []),
    (page("", "  ##", "  #"), page("", "   ##", "   #"), [(1, 0)]),
    (page("", "  ##", "  #"), page("", "", "  ##", "  #"), [(0, 1)]),
    (page("", "  ##", "  #"), page("", "  ##", "  ##"), [None]),
    (page("", "  ##", "  #"), page("", "  ##"), [None]),
    (page("", " ##", " #"), page("", "", "  #", " ##"), [None]),
    (page("", " " + BAR, " " + BAR), page("", "   " + BAR, "   " + BAR), [(2, 0)]),
    (page("##", "##"), page("#", "#"), [(-1, 0)]),
    (page("", " ##", " ##"), page(" ###", " ###"), [None]),
    (page("#", " #", "  #" + " " * 100 + "##"), page("#", " #", "  #" + " " * 97 + "##"), [(-3, 0)]),
    (page("", " #" + " " * 130 + BAR[:60], " #"), page("", "  #" + " " * 129 + BAR[:61], "  #"), [(1, 0), None]),
]
