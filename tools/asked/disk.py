"""What stands in a folder behind a run: each file, link and folder in it, those that were there before with it.

An output takes its name when it is whole; until then an older file is there, and behind a fault nothing else. An output that is an input is refused.
In the words `{folder}` is the name of the folder, and `{stream}` that of an open stream beside the standard ones.
"""

from typing import NamedTuple

from asked.files import FILES, SUBMISSION, TICKET
from asked.full import ECHO
from asked.jobs import DOT, job, ticket
from asked.pages import page

FEED = b"\x0c"
OLDER = b"an older file\n"
PAGE = page([])
TEXT, STREAM = b"uel\nctl 0C\n", b"\x1b%-12345X\x0c"
SIDES = b"".join(b"sheet %d front 2550x3300 black 0\n" % number for number in range(1, 501))
ANSWER = b"@PJL ECHO x\r\n\x0c"
FOLDER = "a folder"
PART = ".press-1.part"
PARTS = {f".press-{number}.part": OLDER for number in range(1, 1001)}
MEMORY = "/dev/shm"  # a disk in memory, whose files are files as all others
LONG_NAME = "n" * 250
LIMIT = 100_000  # bytes of a file, where they are limited


# a session of one entry, whose page is of an image of one dot, or of two pages
SUBMIT = SUBMISSION
SUBMIT_TWO = b'{"ID":"m","Type":"SubmitQueueEntry","Ticket":%s}' % ticket(NPage="2", Sides="")
DOT_FILE, DOT_PAGE = FILES["dot"], page([(75, 0, 1, 1)])
PLAYED = b"message ticket dot\nturn 100\n"


class Link(NamedTuple):
    """A name that stands for another: by what it says, or as a second name of the same file."""
    to: str
    is_hard: bool = False


class Row(NamedTuple):
    shows: str
    words: str
    before: dict             # from each name in the folder to what stands there
    made: dict               # the names of which something else stands there behind it, or which were not there before; nothing, if it is None
    told: str = ""           # on standard error; then the status is 1
    given: bytes = b""       # on standard input
    input: str = ""          # the file that standard input is
    most: int = 0            # the most bytes of a file
    signal: int = 0          # the signal that ends it
    is_full: bool = False    # whether standard output takes no byte
    fixed: tuple = ()        # the names that may not be written, `.` for the folder
    at: str = ""             # where the folder is
    output: str = ""         # the file that standard output is written behind
    stream: str = ""         # the file that is open for reading as one more stream
    held: tuple = ()         # the names of files that another run holds


TAKEN = {"ticket": TICKET, "dot": FILES["dot"]}
ROWS = [
    # an output that is an input
    Row("a side of a session", "press --out %q-%d", {"ticket": SUBMIT, "dot": DOT_FILE}, {"Q1-1": DOT_PAGE}, given=PLAYED),
    Row("in place of an older one", "press --out %q-%d", {"ticket": SUBMIT, "dot": DOT_FILE, "Q1-1": OLDER}, {"Q1-1": DOT_PAGE}, given=PLAYED),
    Row("a side that is its message", "press --out %q-%d", {"Q1-1": SUBMIT, "dot": DOT_FILE}, {}, "fault 301", given=PLAYED.replace(b"ticket", b"Q1-1")),
    Row("or its image, by another name", "press --out ./%q-%d", {"ticket": SUBMIT, "Q1-1": DOT_FILE}, {}, "fault 301", given=PLAYED.replace(b"dot", b"Q1-1")),
    Row("a folder that is not there", "press --out no/%q-%d", {"ticket": SUBMIT, "dot": DOT_FILE}, {}, "fault 301", given=PLAYED),
    Row("the name of a folder", "press --out %q-%d", {"ticket": SUBMIT, "dot": DOT_FILE, "Q1-1": FOLDER}, {}, "fault 301", given=PLAYED),
    Row("a session does not go on behind a fault of a file", "press --keep-going --out %q-%d", {"ticket": SUBMIT, "dot": DOT_FILE, "Q1-1": FOLDER}, {}, "fault 301",
        given=PLAYED * 2),
    Row("the second of two sides of an entry", "press --out %q-%d", {"ticket": SUBMIT_TWO, "dot": DOT_FILE, "Q1-2": FOLDER}, {"Q1-1": DOT_PAGE}, "fault 301",
        given=PLAYED.replace(b" dot", b" dot dot")),
    Row("a text that is its own output", "asm in in", {"in": TEXT}, {}, "fault 115"),
    Row("by another name", "asm in ./in", {"in": TEXT}, {}, "fault 115"),
    Row("by a link to it", "asm in out", {"in": TEXT, "out": Link("in")}, {}, "fault 115"),
    Row("by a second name", "asm in out", {"in": TEXT, "out": Link("in", True)}, {}, "fault 115"),
    Row("a text that is read by a link", "asm in out", {"in": Link("out"), "out": TEXT}, {}, "fault 115"),
    Row("a text on standard input", "asm - in", {"in": TEXT}, {}, "fault 115", input="in"),
    Row("a text that has the name of a part", f"asm {PART} out", {PART: TEXT}, {"out": STREAM}),
    Row("a stream on standard input that has it", "page - 1 out", {PART: FEED}, {"out": PAGE}, input=PART),
    Row("a stream that is the page of a step", "page in 1 in", {"in": FEED}, {}, "fault 115"),
    Row("by another name", "page in 1 ./in", {"in": FEED}, {}, "fault 115"),
    Row("a stream on standard input", "page - 1 in", {"in": FEED}, {}, "fault 115", input="in"),
    Row("a ticket that is its own output", "write ticket ticket dot", TAKEN, {}, "fault 614"),
    Row("an image that is the output", "write ticket dot dot", TAKEN, {}, "fault 614"),
    Row("by a link to it", "write ticket out dot", TAKEN | {"out": Link("dot")}, {}, "fault 614"),
    Row("a stream that is its first side", "print p1 p%d", {"p1": FEED}, {}, "fault 301"),
    Row("its second side, before the first is made", "print p2 p%d", {"p1": OLDER, "p2": FEED * 3}, {}, "fault 301"),
    Row("its tenth side, of which it has none", "print p10 p%d", {"p10": FEED}, {}, "fault 301"),
    Row("by a link to it", "print in p%d", {"in": FEED * 3, "p2": Link("in"), "p3": OLDER}, {"p1": PAGE}, "fault 301"),
    Row("a stream on standard input", "print - p%d", {"p1": FEED}, {}, "fault 301", input="p1"),
    Row("its first side, on a disk in memory", "print in1 {folder}/in%d", {"in1": FEED}, {}, "fault 301", at=MEMORY),
    Row("a text that is its own output there", "asm in {folder}/in", {"in": TEXT}, {}, "fault 115", at=MEMORY),
    Row("a text on standard input there", "asm - {folder}/in", {"in": TEXT}, {}, "fault 115", input="in", at=MEMORY),
    Row("a stream that is the page of a step there", "page in 1 {folder}/in", {"in": FEED}, {}, "fault 115", at=MEMORY),
    Row("a ticket that is its own output there", "write ticket {folder}/ticket dot", TAKEN, {}, "fault 614", at=MEMORY),
    Row("an image that is the output there", "write ticket {folder}/dot dot", TAKEN, {}, "fault 614", at=MEMORY),
    Row("the second image", "write ticket lines dot lines", TAKEN | {"lines": FILES["lines"]}, {}, "fault 614"),
    Row("the second image there", "write ticket {folder}/lines dot lines", TAKEN | {"lines": FILES["lines"]}, {}, "fault 614", at=MEMORY),
    Row("an image behind a ticket on standard input", "write /dev/stdin dot dot", TAKEN, {}, "fault 614", input="ticket"),
    Row("a text, by the folder of the process", "asm in /proc/self/cwd/in", {"in": TEXT}, {}, "fault 115"),
    Row("by a stream that is open for reading", "asm in {stream}", {"in": TEXT}, {}, "fault 115", stream="in"),
    Row("that is read by that stream, too", "asm {stream} {stream}", {"in": TEXT}, {}, "fault 115", stream="in"),
    Row("by the name of standard input", "asm - /dev/stdin", {"in": TEXT}, {}, "fault 115", input="in"),
    Row("by that of standard output", "asm in /dev/stdout", {"in": TEXT}, {}, "fault 115", output="in"),
    Row("a stream by that of standard output", "page in 1 /dev/stdout", {"in": FEED}, {}, "fault 115", output="in"),
    Row("an image by that of standard output", "write ticket /dev/stdout dot", TAKEN, {}, "fault 614", output="dot"),
    Row("its first side by that of standard output", "print in /dev/fd/%d", {"in": FEED}, {}, "fault 301", output="in"),
    Row("no stream, which would have the name of a side", "print p1 p%d", {"p2": OLDER}, {}, "fault 304"),
    Row("no text, which would be its own output", "asm in in", {}, {}, "fault 304"),
    Row("no stream, which would be the page of a step", "page in 1 in", {}, {}, "fault 304"),
    Row("no ticket, which would be its own output", "write ticket ticket dot", {"dot": FILES["dot"]}, {}, "fault 304"),
    Row("no image, which would be the output", "write ticket dot dot", {"ticket": TICKET}, {}, "fault 304"),
    Row("names that are no side's", "print p0 p%d", {"p0": FEED, "p01": OLDER, "p": OLDER}, {"p1": PAGE}),
    Row("a stream without a number", "print p p%d", {"p": FEED}, {"p1": PAGE}),
    Row("a stream with more behind its number", "print p1x p%d", {"p1x": FEED}, {"p1": PAGE}),
    # an output that is made
    Row("a new file", "asm - out", {}, {"out": STREAM}, given=TEXT),
    Row("in place of an older one", "asm - out", {"out": OLDER}, {"out": STREAM}, given=TEXT),
    Row("through a link", "asm - out", {"out": Link("real"), "real": OLDER}, {"real": STREAM}, given=TEXT),
    Row("in place of a link to nothing", "asm - out", {"out": Link("none")}, {"out": STREAM}, given=TEXT),
    Row("in place of one of two names", "asm - out", {"out": OLDER, "other": Link("out", True)}, {"out": STREAM}, given=TEXT),
    Row("beside a part of another run", "asm - out", {PART: OLDER}, {"out": STREAM}, given=TEXT, held=(PART,)),
    Row("in place of a file that has the name of a part", f"asm - {PART}", {PART: OLDER}, {PART: STREAM}, given=TEXT),
    Row("beside a link that is called as a part and leads round", "asm - out", {PART: Link(PART)}, {"out": STREAM}, given=TEXT),
    Row("beside a link that is called as a part", "asm - out", {PART: Link("other"), "other": OLDER}, {"out": STREAM}, given=TEXT),
    Row("beside a folder that is called so", "asm - out", {PART: FOLDER}, {"out": STREAM}, given=TEXT),
    Row("in place of a part that was left", "asm - out", {PART: OLDER}, {"out": STREAM, PART: None}, given=TEXT),
    Row("in place of one of a thousand", "print - p%d", PARTS, {"p1": PAGE, "p2": PAGE, PART: None}, given=FEED * 2),
    Row("on a disk in memory", "asm - {folder}/out", {"out": OLDER}, {"out": STREAM}, given=TEXT, at=MEMORY),
    Row("in the folder of the process", "asm - /proc/self/cwd/out", {"out": OLDER}, {"out": STREAM}, given=TEXT),
    Row("to a device", "asm - /dev/null", {}, {}, given=TEXT),
    Row("to standard output, which is a new file", "asm in /dev/stdout", {"in": TEXT, "out": b""}, {"out": STREAM}, output="out"),
    Row("behind what standard output has", "asm in /dev/stdout", {"in": TEXT, "out": OLDER}, {"out": OLDER + STREAM}, output="out"),
    Row("by its number", "page in 0 /proc/self/fd/1", {"in": FEED, "out": OLDER}, {"out": OLDER + PAGE}, output="out"),
    Row("behind what another stream has", "write ticket {stream} dot", TAKEN | {"out": OLDER}, {"out": OLDER + job([DOT])}, stream="out"),
    Row("with a name of 250 bytes", f"print - {LONG_NAME}%d", {}, {f"{LONG_NAME}1": PAGE}, given=FEED),
    Row("of a step", "page - 0 out", {"out": OLDER}, {"out": PAGE}, given=FEED),
    Row("of a ticket", "write ticket out dot", TAKEN | {"out": OLDER}, {"out": job([DOT])}),
    Row("of three sides", "print - p%d", {"p2": OLDER, "p4": OLDER}, {"p1": PAGE, "p2": PAGE, "p3": PAGE}, given=FEED * 3),
    # faults
    Row("no stream", "print none p%d", {"p1": OLDER}, {}, "fault 304"),
    Row("a folder as a stream", "print / p%d", {"p1": OLDER}, {}, "fault 304"),
    Row("no template", "print - p1", {"p1": OLDER}, {}, "fault 121", FEED),
    Row("no folder for the sides", "print - no/p%d", {}, {}, "fault 301", FEED),
    Row("a folder in which nothing can be made", "print - /sys/p%d", {}, {}, "fault 301", FEED),
    Row("a second side that is a folder", "print - p%d", {"p1": OLDER, "p2": FOLDER, "p3": OLDER}, {"p1": PAGE}, "fault 301", FEED * 3),
    Row("a first side that is too long", "print - p%d", {"p1": OLDER, "p2": OLDER}, {}, "fault 301", FEED * 2, most=LIMIT),
    Row("a first side that is too long, on a disk in memory", "print - {folder}/p%d", {"p1": OLDER}, {}, "fault 301", FEED, most=LIMIT, at=MEMORY),
    Row("by the folder of the process", "print - /proc/self/cwd/p%d", {"p1": OLDER}, {}, "fault 301", FEED, most=LIMIT),
    Row("a stream that is too long behind what standard output has", "asm - /dev/stdout", {"out": OLDER}, {"out": OLDER + b"\x1b%-12345X" * 20}, "fault 115",
        b"uel\n" * 20 + b"txt 41\n" * 100, output="out", most=len(OLDER) + 180),
    Row("a listing that is too long", "print --list -", {"out": b""}, {"out": SIDES[:100]}, "fault output", FEED * 9, output="out", most=100),
    Row("a longer one", "print --list -", {"out": b""}, {"out": SIDES[:5000]}, "fault output", FEED * 500, output="out", most=5000),
    Row("a text that is too long", "disasm -", {"out": b""}, {"out": (b"ctl 0C\n" * 20)[:100]}, "fault output", FEED * 20, output="out", most=100),
    Row("a longer one of these", "disasm -", {"out": b""}, {"out": (b"ctl 0C\n" * 900)[:5000]}, "fault output", FEED * 900, output="out", most=5000),
    Row("answers that are too long", "press", {"out": b""}, {"out": (b"ok\n" * 40)[:100]}, "fault output", b"pause\n" * 40, output="out", most=100),
    Row("a reply that is too long", "print - p%d", {"out": b""}, {"out": ANSWER[:5]}, "fault 302", ECHO, output="out", most=5),
    Row("a new side that is too long", "print - p%d", {}, {}, "fault 301", FEED, most=LIMIT),
    Row("a signal in the midst of a side", "print - p%d", {"p1": OLDER}, {PART: PAGE[:LIMIT]}, given=FEED, most=LIMIT, signal=25),
    Row("a reply behind the first side", "print - p%d", {"p1": OLDER, "p2": OLDER}, {"p1": PAGE}, "fault 302", FEED + ECHO + FEED, is_full=True),
    Row("a second side that may not be written", "print - p%d", {"p1": OLDER, "p2": OLDER, "p3": OLDER}, {"p1": PAGE}, "fault 301", FEED * 3, fixed=("p2",)),
    Row("a folder that may not be written", "print - p%d", {"p1": OLDER}, {}, "fault 301", FEED, fixed=(".",)),
    Row("a stream that may not be written", "asm - out", {"out": OLDER}, {}, "fault 115", TEXT, fixed=("out",)),
    Row("a job that may not be written", "write ticket out dot", TAKEN | {"out": OLDER}, {}, "fault 614", fixed=("out",)),
    Row("no text", "asm none out", {"out": OLDER}, {}, "fault 304"),
    Row("a folder as a text", "asm / out", {"out": OLDER}, {}, "fault 304"),
    Row("a bad line", "asm - out", {"out": OLDER}, {}, "fault 401 line 2", b"uel\nfoo\n"),
    Row("no folder for the stream", "asm - no/out", {}, {}, "fault 115", TEXT),
    Row("a folder as the stream", "asm - out", {"out": FOLDER}, {}, "fault 115", TEXT),
    Row("a folder in which no stream can be made", "asm - /sys/out", {}, {}, "fault 115", TEXT),
    Row("a stream that is too long", "asm - out", {"out": OLDER}, {}, "fault 115", b"txt 41\n" * LIMIT + TEXT, most=LIMIT),
    Row("no ticket", "write none out dot", TAKEN | {"out": OLDER}, {}, "fault 304"),
    Row("a text that is no ticket", "write dot out dot", TAKEN | {"out": OLDER}, {}, "fault 601"),
    Row("no image", "write ticket out none", TAKEN | {"out": OLDER}, {}, "fault 304"),
    Row("a folder as an image", "write ticket out /", TAKEN | {"out": OLDER}, {}, "fault 114"),
    Row("a ticket as an image", "write ticket out ticket", TAKEN | {"out": OLDER}, {}, "fault 111"),
    Row("too few images", "write ticket out", TAKEN | {"out": OLDER}, {}, "fault 611"),
    Row("no folder for the job", "write ticket no/out dot", TAKEN, {}, "fault 614"),
    Row("a folder as the job", "write ticket out dot", TAKEN | {"out": FOLDER}, {}, "fault 614"),
    Row("a job that is too long", "write ticket out dot", TAKEN | {"out": OLDER}, {}, "fault 614", most=20),
]
