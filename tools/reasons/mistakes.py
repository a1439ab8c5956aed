"""Mistakes: words, what stands on standard input and in files, and what `tools/why` has to say of each.

The number is that of the fault that the program tells, 2 where it refuses the words, and 0 where it ends well and yet prints nothing,
or something else than was meant. What is said first has to have each of the texts. A file of None is a folder.
"""

import base64
from typing import NamedTuple

TICKET = b'{"Amount":1,"JobID":"J","NPage":1,"Type":"DigitalPrinting","Version":"1.5"}'
DOT = b"P4 1 1\n\x80"
UEL = b"\x1b%-12345X"
SENT = b"\x1bE\x1b*t300R\x1b*r0A" + b"".join(   # rows that have each byte
    b"\x1b*b64W" + bytes((31 * row + 7 * place) % 256 for place in range(64)) for row in range(150)) + b"\x1b*rC\x1bE"
LEFT = {f".press-{number}.part": None for number in range(1, 1001)}   # folders, which no run takes over


def ticket(old=b"", new=b""):
    assert old in TICKET
    return TICKET.replace(old, new, 1)


class Mistake(NamedTuple):
    words: str
    number: int
    said: tuple
    files: dict = {}
    given: bytes = b""


def written(text, *said, number=601):
    """A ticket that is refused."""
    return Mistake("write t.json job.prn a.pbm", number, ("t.json", *said), {"t.json": text, "a.pbm": DOT})


def imaged(content, number, *said):
    """A second image that is refused."""
    return Mistake("write t.json job.prn a.pbm cut.pbm", number, ("second image cut.pbm", *said),
                   {"t.json": TICKET, "a.pbm": DOT, "cut.pbm": content})


def assembled(text, number, *said):
    return Mistake("asm page.asm page.pcl", number, ("page.asm", *said), {"page.asm": text})


def printed(stream, *said):
    """A stream that prints nothing, or a blank page."""
    return Mistake("print --list in.pcl", 0, ("in.pcl", *said), {"in.pcl": stream})


def played(line, *said, number=0, files=None):
    return Mistake("press", number, said, files or {}, line)


def debugged(lines, *said):
    return Mistake("debug in.pcl", 0, said, {"in.pcl": b"\x0c"}, lines)


WORDS = [
    Mistake("prnt in.pcl", 2, ("prnt", "Did you mean print?")),
    Mistake("print", 2, ("IN is missing", "press print [--list] [--sums] [--default NAME=VALUE].. IN [OUT]")),
    Mistake("print in.pcl", 2, ("OUT is missing", "page-%d.pbm")),
    Mistake("print a b c", 2, ("c is one too many",)),
    Mistake("print --all in.pcl", 2, ("--all is no option of print",)),
    Mistake("asm page.asm", 2, ("OUT is missing", "press asm IN OUT")),
    Mistake("disasm", 2, ("IN is missing",)),
    Mistake("explain", 2, ("IN is missing", "press explain [--default NAME=VALUE].. IN")),
    Mistake("explain --runs in.pcl", 2, ("--runs is no option of explain",)),
    Mistake("explain none.pcl", 304, ("none.pcl is not there", "Look at the name")),
    Mistake("explain in.pcl", 0, ("in.pcl is empty, and its text is the remark on the universal exit",), {"in.pcl": b""}),
    Mistake("debug", 2, ("IN is missing",)),
    Mistake("debug -", 2, ("IN is standard input", "press debug page.pcl < lines.txt")),
    Mistake("trace", 2, ("IN is missing", "press trace [--runs] [--default NAME=VALUE].. IN")),
    Mistake("trace a b", 2, ("b is one too many",)),
    Mistake("trace none.pcl", 304, ("none.pcl is not there", "Look at the name")),
    Mistake("trace in.pcl", 0, ("in.pcl is empty, and its trace is the universal exit",), {"in.pcl": b""}),
    Mistake("write t.json", 2, ("OUT is missing",)),
    Mistake("press session.txt", 2, ("session.txt is one too many",)),
]
FILES = [
    Mistake("print --list none.pcl", 304, ("none.pcl is not there", "Look at the name")),
    Mistake("print --list no/such/in.pcl", 304, ("no/such/in.pcl is not there", "no folder no/such")),
    Mistake("print --list folder", 304, ("folder is a folder",), {"folder": None}),
    Mistake("print in.pcl page.pbm", 121, ("OUT page.pbm has no %d", "page-%d.pbm"), {"in.pcl": b"\x0c"}),
    Mistake("print in.pcl %d-%d.pbm", 121, ("has %d 2 times",), {"in.pcl": b"\x0c"}),
    Mistake("print in.pcl no/%d.pbm", 301, ("OUT no/1.pbm cannot be made", "no is not there", "mkdir -p no"), {"in.pcl": b"\x0c"}),
    Mistake("asm page.asm no/page.pcl", 115, ("OUT no/page.pcl", "no is not there"), {"page.asm": b"uel\n"}),
    Mistake("asm page.asm folder", 115, ("OUT folder is a folder",), {"page.asm": b"uel\n", "folder": None}),
    Mistake("asm page.asm page.asm", 115, ("OUT page.asm is an input", "would replace"), {"page.asm": b"uel\n"}),
    Mistake("write t.json a.pbm a.pbm", 614, ("OUT a.pbm is an input",), {"t.json": TICKET, "a.pbm": DOT}),
    Mistake("print page-2.pcl page-%d.pcl", 301, ("has a side that is called page-2.pcl", "another template"), {"page-2.pcl": b"\x0c"}),
    Mistake("print none-2.pcl none-%d.pcl", 304, ("none-2.pcl is not there",)),
    Mistake("asm page.asm -", 2, ("OUT is -", "/dev/stdout"), {"page.asm": b"uel\n"}),
    Mistake("asm page.asm /dev/full", 115, ("OUT /dev/full", "disk that is full"), {"page.asm": b"uel\n"}),
    Mistake("write t.json /dev/full a.pbm", 614, ("OUT /dev/full", "disk that is full"), {"t.json": TICKET, "a.pbm": DOT}),
    Mistake("write t.json no/job.prn a.pbm", 614, ("OUT no/job.prn",), {"t.json": TICKET, "a.pbm": DOT}),
    Mistake("asm page.asm page.pcl", 115, ("OUT page.pcl cannot be made", "1,000 names of files that are being made", "rm "), {"page.asm": b"uel\n", **LEFT}),
    Mistake("print in.pcl %d.pbm", 301, ("OUT 1.pbm cannot be made", "1,000 names of files that are being made"), {"in.pcl": b"\x0c", **LEFT}),
    Mistake("asm page.asm " + "x" * 256, 115, ("more than 255 bytes", "shorter"), {"page.asm": b"uel\n"}),
    Mistake("disasm none.pcl", 304, ("none.pcl is not there",)),
    Mistake("debug none.pcl", 304, ("none.pcl is not there",)),
    Mistake("write - job.prn", 304, ("the ticket - is not there",), given=TICKET),
]
TEXTS = [
    assembled(b"uel\n\nfoo\n", 401, "line 3 of page.asm has no form", "foo is none of uel, esc"),
    assembled(b"\xef\xbb\xbfuel\n", 401, "line 1 of page.asm begins with a byte order mark"),
    assembled(b"uel\r\n", 401, "line 1 of page.asm ends with a carriage return"),
    assembled(b"; caf\xe9\nuel\n", 401, "line 1 of page.asm is no UTF-8 text", "byte 6 is E9"),
    assembled(b"ESC E\n", 401, "ESC stands in capitals", "Write esc"),
    assembled(b"\x1bE\x0c", 401, "this is a print stream, and no assembly text", "order of the words"),
    assembled(b"par *p1.2.3X\n", 402, "line 1 of page.asm", "1.2.3", "is no number"),
    assembled(b"par *p" + b"1" * 33 + b"X\n", 402, "more than 32 characters"),
    assembled(b"par *b2W 02\n", 403, "has 1 byte of data, and its value says 2"),
    assembled(b"brk 414\n", 403, "odd number of digits"),
    assembled(b"par *p1X 02\n", 403, "*p1X carries none"),
    assembled(b"pjl 40504A4C\n", 403, "no line feed stands at its end"),
]
TICKETS = [
    written(b"", "is empty"),
    written(b"\xef\xbb\xbf" + TICKET, "begins with a byte order mark"),
    written(b"[1]", "is a list, and no object"),
    written(ticket(b'"J"', b"'J'"), "line 1, column 21", "double quotes"),
    written(ticket(b'"1.5"}', b'"1.5",}'), "a comma stands before the end"),
    written(ticket(b"J", b"\xff"), "is no UTF-8 text", "FF"),
    written(DOT, "is a P4 picture, and no JSON text", "order of the words"),
    written(ticket(b"NPage", b"NPages"), "unknown key NPages", "Did you mean NPage?", number=602),
    written(ticket(b'"JobID":"J",'), "has no key JobID", number=602),
    written(ticket(b'"Amount":1', b'"Amount":"1"'), "Amount that is '1'", "whole number", number=602),
    written(ticket(b"DigitalPrinting", b"Folding"), "asks for Folding", number=603),
    written(ticket(b"NPage\":1", b"NPage\":1000"), "1,000 pages", "1 to 999", number=604),
    written(ticket(b"{", b'{"RunList":[[0,1]],'), "page 1 in RunList", "pages 0 to 0", number=604),
    written(ticket(b"Amount\":1", b"Amount\":0"), "0 sets", "1 to 9,999", number=605),
]
IMAGES = [
    imaged(b"P4 96 96\n" + bytes(291), 113, "ends after 300 of 1,161 bytes"),
    imaged(b"\x89PNG\r\n\x1a\n", 111, "is a PNG picture, and no P4 file", "pgmtopbm"),
    imaged(b"P4 0 1\n", 112, "0 x 1 dots", "1 to 16,384"),
    imaged(b"", 113, "is empty"),
    Mistake("write t.json job.prn", 611, ("t.json has 1 page, and 0 images",), {"t.json": TICKET}),
    Mistake("write t.json job.prn a.pbm", 612, ("first image a.pbm is 2,401 dots wide", "room for 2,400"),
            {"t.json": TICKET, "a.pbm": b"P4 2401 1\n" + bytes(301)}),
    Mistake("write t.json job.prn a.pbm", 612, ("first image a.pbm is 2,550 dots wide", "pamcut -left 75 -width 2400 a.pbm > cut.pbm"),
            {"t.json": TICKET, "a.pbm": b"P4 2550 1\n" + bytes(319)}),
    Mistake("write t.json job.prn a.pbm", 613, ("first image a.pbm is 3,301 dots tall",), {"t.json": TICKET, "a.pbm": b"P4 1 3301\n" + bytes(3301)}),
    Mistake("write t.json job.prn none.pbm", 304, ("first image none.pbm is not there",), {"t.json": TICKET}),
]
STREAMS = [
    printed(b"", "is empty"),
    printed(b"%PDF-1.7\n", "is a PDF file; the press reads PCL and PJL"),
    printed(b"\x1b@\x1bP", "is an ESC/P stream"),
    printed(b"RaS2PwgRaster\0", "is a raster of PWG or CUPS"),
    printed(b"IN;SP1;PD100,100;", "is an HP-GL drawing"),
    printed(b"\x1b.Y\n\x1b.I81;;17:\x1b.N;19:\x1b.M500:\nIN;\nSP1;PD100,100;", "is an HP-GL drawing"),
    printed(base64.encodebytes(b"\x1bE" + 60 * b"\x0c"), "is a print stream in base64"),
    printed(SENT.replace(b"\n", b"\r\n"), "was damaged on its way: each line feed (0A) became CR LF (0D 0A), first at byte"),
    printed(SENT.decode("latin-1").encode(), "was damaged on its way: each byte above 127 became two"),
    printed(SENT.decode("utf-8", "replace").encode(), "was damaged on its way: bytes above 127 were replaced by EF BF BD"),
    printed(SENT.replace(b"\0", b""), "was damaged on its way: each NUL (00) was taken out"),
    printed(SENT.replace(b"\r", b""), "was damaged on its way: each CR (0D) was taken out"),
    printed(bytes(byte & 127 for byte in SENT), "was damaged on its way: none of the 9,600 bytes of its rows is above 127"),
    printed(UEL + b"@PJL ENTER LANGUAGE=POSTSCRIPT\n%!PS\nshowpage\n" + UEL, "prints no sheet"),
    printed(b"Dear Sir\x0c", "prints 1 side, and it is blank"),
    printed(b"\x1bE\x1b&f0X\x1b*c1a1b0P\x1bE", "prints no sheet: it sends ESC&f0X at byte 2", "recorded, and lost"),
    printed(b"\x1b*c9a9b0P\x1b*c1P\x0c", "prints 1 side, and it is blank", "white ones replace, the last by ESC*c1P at byte 9"),
    printed(b"\x1b&l0E\x1b&l0O\x1b*c1a1b0P\x0c", "sends ESC&l0O at byte 5", "puts the top margin back"),
    printed(b"".join(b"\x1b*p%dY\x1b*c1a1b0P\x0c" % place for place in (10, 20, 30)), "moves from page to page", "10 dots below"),
    printed(b"\x1b%0BIN;SP1;PD100,100;\x1b%0A\x0c", "blank"),
    printed(b"\x1b*p10x10Y\x1b*c5a5B", "prints no sheet"),
]
SESSIONS = [
    played(b"stop\n", "line 1 is none of a session: 'stop'"),
    played(b"pause\r\n", "carriage return"),
    played(b"message  m.json\n", "line 1 is none of a session", "A space is too many"),
    played(b"message none.json\n", "none.json is not there", number=304),
    played(b"message m.json\n", "m.json has no ID: return code 7", files={"m.json": b'{"Type":"Status"}'}),
    played(b"message m.json\n", "its Type is unknown: return code 5", files={"m.json": b'{"ID":"a","Type":"Print"}'}),
    played(b"message m.json a.pbm\n", "2 pages, and 1 image", "611", "return code 6", files={
        "m.json": b'{"ID":"a","Type":"SubmitQueueEntry","Ticket":' + ticket(b'NPage":1', b'NPage":2') + b"}", "a.pbm": DOT}),
    played(b"message m.json a.pbm\n", "first image a.pbm ends", number=113,
           files={"m.json": b'{"ID":"a","Type":"Status"}', "a.pbm": b"P4 9 1\n\x80"}),
]
DEBUGGERS = [
    debugged(b"stp\n", "line 1 asks nothing", "A line is step"),
    debugged(b"step\nstep \n", "line 2 asks nothing", "A space is too many"),
    debugged(b"recent\r\n", "line 1 asks nothing", "A carriage return stands at its end"),
    debugged(b"break *cP\n", "line 1 asks nothing", "KIND is esc E, par *cP"),
    debugged(b"go 1\nclear 3\n", "line 2 is answered fault 502", "no breakpoint stands"),
    debugged(b"break uel\n" * 33, "line 33 is answered fault 501", "clear 0"),
]
RESOLUTIONS = [
    written(ticket(b"{", b'{"Resolution":450,'), "Resolution that is 450", "300 or 600", number=602),
    Mistake("write t.json job.prn a.pbm", 612, ("first image a.pbm is 2,401 dots wide", "room for 2,400", "or for 600 dots per inch"),
            {"t.json": TICKET, "a.pbm": b"P4 2401 1\n" + bytes(301)}),
    Mistake("write t.json job.prn a.pbm", 613, ("first image a.pbm is 6,601 dots tall", "Letter at 600 dots per inch has room for 6,600"),
            {"t.json": ticket(b"{", b'{"Resolution":600,'), "a.pbm": b"P4 1 6601\n" + bytes(6601)}),
]
ENGINES = [
    Mistake("press --engines 5", 701, ("--engines asks for 5 engines", "1 to 4 engines")),
    Mistake("press --engines 0", 701, ("--engines asks for 0 engines",)),
    Mistake("press --engines two", 2, ("--engines asks for two", "press press [--engines N]")),
    Mistake("press --out page-%d.pbm", 121, ("has %q 0 times", "page-%q-%d.pbm")),
    Mistake("press --out %q-%q", 121, ("has %q 2 times and %d 0 times",)),
    Mistake("press --out", 2, ("--out asks for nothing", "[--out TEMPLATE]")),
    Mistake("press --sums --sums", 2, ("--sums stands twice",)),
    Mistake("press --keep-going", 0, ("line 1 is none of a session",), given=b"stop\nturn 0 7\n"),
    Mistake("press --engines", 2, ("--engines asks for nothing",)),
    Mistake("press --engines 2", 702, ("line 2 names engine 2, and the press has 2 engines", "counted from 0"), given=b"pause\nturn 0 2\n"),
    played(b"turn 5 1\n", "line 1 names engine 1, and the press has 1 engine", number=702),
    played(b"turn 5 x\n", "line 1 is none of a session", "turn N [ENGINE]"),
]
DEFAULTS = [
    Mistake("print --list --default RESOLUTION=700 in.pcl", 2, ("--default asks for RESOLUTION=700", "as RESOLUTION=600"), {"in.pcl": b"\x0c"}),
    Mistake("print --list --default RETRO=1 in.pcl", 2, ("--default asks for RETRO=1", "The variables are COPIES"), {"in.pcl": b"\x0c"}),
    Mistake("print --list in.pcl --default", 2, ("--default is the last word",), {"in.pcl": b"\x0c"}),
    Mistake("print --list --default RESOLUTION=600 in.pcl", 0, ("sends ESC*t180R", "75, 100, 150, 200, 300 or 600"),
            {"in.pcl": b"\x1b*t180R\x1b*r0A\x1b*b1W\xff\x0c"}),
]
MISTAKES = [*WORDS, *FILES, *TEXTS, *TICKETS, *IMAGES, *STREAMS, *SESSIONS, *DEBUGGERS, *DEFAULTS, *RESOLUTIONS, *ENGINES]
