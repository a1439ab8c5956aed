"""What the program is asked while its allocations, reads and writes are refused: words, and what stands on standard input."""

from typing import NamedTuple

ESC, FORM_FEED = b"\x1b", b"\x0c"
EXIT = b"\x1b%-12345X"


class Row(NamedTuple):
    name: str
    words: list
    given: bytes = b""
    writes: int = 1   # how many there are: one for 4 KB of a listing or a text, 64 KB of a job, or a band of a side; one for each answer or reply


def spelled(text):
    """A stream by its words: ESC and FF are bytes, a word in brackets is hexadecimal, spaces separate."""
    stream = b""
    for word in text.split():
        if word.startswith("["):
            stream += bytes.fromhex(word[1:-1])
        else:
            stream += word.replace("ESC", "\x1b").replace("FF", "\x0c").encode()
    return stream


LIST = ["print", "--list", "-"]
STREAMS = [
    ("a blank sheet between resets", "ESC E FF ESC E"),
    ("rows of raster by three methods",
     "ESC*t300R ESC*r0A ESC*b3m2W [00FF] ESC*b0W ESC*b0m0W ESC*b3m0W ESC*rC FF"),
    ("rows of raster by blocks, on a turned page",
     "ESC&l1O ESC*t150R ESC*r0A ESC*b5m15W [000001FF0500020400010300020081] ESC*rC FF"),
    ("patterns, of which one is cut",
     "ESC*c5G ESC*c16W [0000010000080008FFFFFFFFFFFFFFFF] ESC*c15W [000001000008000800000000000000] ESC*p0x0Y ESC*c2a1b4P FF"),
    ("a macro in a macro", "ESC*p0x0Y ESC&f1y0X ESC*c1a1b0P ESC*p+2X ESC&f3X ESC&f1X ESC&f3X FF"),
    ("an overlay on two pages", "ESC&f2y0X ESC*c4a1b0P FF ESC&f1X ESC&f4X FF FF"),
    ("a page that closes in a macro in a macro, under an overlay that runs a macro",
     "ESC&f4y0X ESC*c7a7b0P ESC&f1X ESC&f3y0X ESC*c9a9b0P ESC&f4y2X ESC*p+1X ESC&f1X ESC&f2y0X ESC*p20x20Y ESC*c4a4b0P FF ESC*p+5X ESC&f1X "
     "ESC&f1y0X ESC&f2y2X ESC*p+3X ESC&f1X ESC&f3y4X ESC*p100x100Y ESC*c3a2b0P ESC&f1y2X FF"),
    ("rows on a turned page", "ESC&l1O ESC*t75R ESC*r1A ESC*b3W [FF00FF] ESC*b3W [0F0F0F] ESC*rC FF"),
    *((f"a rectangle and a row, and the close of the page in orientation {number}",
       f"ESC&l{number}O ESC*p40x70Y ESC*c9a9b0P ESC*t300R ESC*r1A ESC*b2W [00FF] ESC*rC FF") for number in range(4)),
    ("sides of two sheets, three copies each", "ESC&l1S ESC&l3X ESC*c9a9b0P FF FF FF"),
]
LINES = [
    ("values that are asked for", EXIT + b"@PJL SET COPIES=3\r\n@PJL INQUIRE COPIES\r\n@PJL DINQUIRE COPIES\r\n"),
    ("a reply behind each copy", EXIT + b"@PJL USTATUS PAGE=ON\n@PJL SET COPIES=2\n@PJL ENTER LANGUAGE=PCL\n\x0c"),
    ("a line that is echoed", EXIT + b"@PJL ECHO one two three\r\n"),
]
TICKET = ["examples/tickets/flyer.json"]
IMAGES = ["examples/images/front.pbm", "examples/images/back.pbm"]
SUBMISSION = b"message examples/messages/submit-flyer.json examples/images/front.pbm examples/images/back.pbm\n"

ROWS = [
    *(Row(name, LIST, spelled(text)) for name, text in STREAMS),
    *(Row(name, LIST, stream) for name, stream in LINES),
    Row("files of two sides", ["print", "-", "page-%d.pbm"], spelled("ESC&l1S ESC*p9x9Y ESC*c9a9b0P FF ESC*c9a9b0P FF"), 106),
    Row("the page of a step", ["page", "-", "5", "step"], spelled("ESC*p0x0Y ESC*c3a2b0P ESC E"), 53),
    Row("the job of a ticket", ["write", *TICKET, "job", *IMAGES]),
    Row("a text that is assembled", ["asm", "-", "stream"], b"par *p10X\npar *b2W 02F0\nesc E\n; a remark\ntxt 41\n"),
    Row("commands that are told", ["disasm", "-"], b"\x1b*p10x20Y\x1bE\x1b*b2W\x02\xf0text\x0c"),
    Row("commands that are explained", ["explain", "-"], b"\x1b*p10x20Y\x1bE\x1b*b2W\x02\xf0text\x0c"),
    Row("a job that is printed by turns", ["press"], SUBMISSION + b"turn 3\npause\nturn 9\ncontinue\nturn 100000\n", 7),
    Row("a job whose sides are made files", ["press", "--out", "page-%q-%d.pbm", "--sums"], SUBMISSION + b"turn 3\nturn 100000\n", 340),
    Row("messages that are refused", ["press"], b"message examples/messages/hold-1.json\nturn 1\nwhat\nturn\n", 4),
    Row("a debugger", ["debug", "examples/streams/letterhead-and-stamps.pcl"], b"go 20\nstep\nover\nover\ngo 100\nstep\ngo 1000\n", 7),
    Row("lines of a debugger", ["debug", "examples/streams/small-box.pcl"], b"break par *cP\nclear 0\nclear 0\nrecent\nfoo\n", 4),
    # more than 300 bytes are read and more than 400 written, of which each read and write then moves one
    Row("many sheets and replies that are listed", LIST, ESC + b"*p1x1Y" + b"<" * 300 + FORM_FEED * 14 + EXIT + b"@PJL ECHO one\n"),
    Row("many replies beside no file", ["print", "-", "page-%d.pbm"], EXIT + b"@PJL ECHO one two three four five\n" * 13, 13),
    Row("much data that is assembled", ["asm", "-", "stream"], b"par *b410W " + b"41" * 410 + b"\n"),
    Row("many commands that are told", ["disasm", "-"], b"A" * 310),
    Row("many commands that are explained", ["explain", "-"], b"A" * 310),
    Row("many lines of a session", ["press"], b"message examples/messages/queue-status.json\n" + b"pause\nwhat\n" * 50, 101),
    Row("many lines of a debugger", ["debug", "examples/streams/letterhead-and-stamps.pcl"], b"step\n" * 62, 62),
    Row("the program's own tables", ["tables"]),
    Row("a queue that is told", ["press"], SUBMISSION + b"message examples/messages/queue-status.json\nabort\n", 3),
]


def read_faults(row):
    """What is told where a read fails: that of an image, or of any other input."""
    return {"304", "114"} if row.words[0] in ("write", "press") else {"304"}


def write_faults(row):
    """What is told where a write fails: standard output, or the file that the words make."""
    if row.words[0] == "print" and "--list" not in row.words:
        return {"301"} if FORM_FEED in row.given else {"302"}
    if "--out" in row.words:
        return {"301", "output"}
    return {"asm": {"115"}, "page": {"115"}, "write": {"614"}}.get(row.words[0], {"output"})
