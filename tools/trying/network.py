"""What raw clients do to tools/printer, one after another, and what has to come of each; and words that it refuses."""

from typing import NamedTuple

from seen import program

EXAMPLES = program.ROOT / "examples"
LETTER = (EXAMPLES / "streams/letter.pcl").read_bytes()
FINE = (EXAMPLES / "drivers/ghostscript-ljet4.pcl").read_bytes()
BOX = b"\x1b*p0x0Y\x1b*c300a200b0P"
ASKS = b"\x1b%-12345X@PJL INQUIRE RESOLUTION\r\n"
ANSWER = b"@PJL INQUIRE RESOLUTION\r\n300\r\n\x0c"
RAW = b"\x1b%-12345X@PJL ENTER LANGUAGE=A\r\x07\x08\x00\x7f\xc2\x9b\n%!PS\n"   # a language with control characters
ECHOES = b"\x1b%-12345X" + (b"@PJL ECHO " + b"x" * 4000 + b"\r\n") * 3000 + BOX + b"\x0c"
BYTES, SIDES = 20000, 5     # the bounds of most

HALF, RESET, CLOSE = "half", "reset", "close"     # what a client does: bytes are sent, a number is a pause in seconds
CLOSED, WAS_RESET, GONE = "closed", "reset", "gone"


class Heard(NamedTuple):
    """A step: the client waits for these bytes, and sends nothing more before."""
    replies: bytes


class Client(NamedTuple):
    does: tuple
    told: str                # in the printer's line of it; {} is its number
    ends: str = CLOSED       # what it sees
    stream: bytes = None     # that stands in its folder; None for no folder
    words: str = ""          # of a printer of its own
    front: tuple = ()        # defaults
    why: str = ""            # in why.txt; empty for none
    ended: str = "by the client"


CLIENTS = [
    Client((LETTER, HALF), "job-{}: 1 side of 4,224 bytes from 127.0.0.1 port ", stream=LETTER),
    Client((*(LETTER[place:place + 1] for place in range(60)), 0.05, LETTER[60:], HALF), "job-{}: 1 side", stream=LETTER),
    Client((ASKS, Heard(ANSWER), b"@PJL ECHO then\r\n", Heard(b"@PJL ECHO then\r\n\x0c"), b"@PJL ENTER LANGUAGE=PCL\r\n" + BOX + b"\x0c" + ASKS, HALF), "job-{}: 1 side",
           stream=ASKS + b"@PJL ECHO then\r\n@PJL ENTER LANGUAGE=PCL\r\n" + BOX + b"\x0c" + ASKS),
    Client((ASKS, Heard(ANSWER), CLOSE), "job-{}: 0 sides", GONE, ASKS, why="prints no sheet"),
    Client((CLOSE,), "127.0.0.1 port ", GONE),
    Client((RESET,), ": sent nothing", GONE),
    Client((HALF,), ": sent nothing"),
    Client((), ": sent nothing"),
    Client((BOX + b"\x1b*c3",), "job-{}: 1 side", stream=BOX + b"\x1b*c3", why="does not go on", ended="nothing came for 1 seconds"),
    Client((BOX, 0.3, RESET), "job-{}: 1 side", GONE, BOX, why="while a page with marks is open", ended="cut off by the client"),
    Client((b"\x00" * BYTES, HALF), "job-{}: 0 sides", stream=b"\x00" * BYTES, why="prints no sheet"),
    Client((b"\x00" * (BYTES + 1), HALF), "refused: it sends more than 20,000 bytes", WAS_RESET),
    Client((BOX + b"\x0c" + b"\x00" * BYTES, HALF), "refused: it sends more than 20,000 bytes", WAS_RESET),
    Client((b"\x1b&l5X" + BOX + b"\x0c", HALF), "job-{}: 5 sides", stream=b"\x1b&l5X" + BOX + b"\x0c"),
    Client((b"\x1b&l6X" + BOX + b"\x0c", HALF), "refused: it prints more than 5 sides", WAS_RESET),
    Client((b"\x1b&l30X" + BOX + b"\x0c", 60), "refused: it prints more than 5 sides", WAS_RESET),
    Client((RAW, HALF), "job-{}: 0 sides", stream=RAW, why="enters the language A\\r\\u0007\\b\\u0000\\u007f\\u009b, and"),
    Client((FINE, HALF), "job-{}: 1 side", stream=FINE, why="A printer that is told so is tools/printer --default RESOLUTION=600"),
    Client((FINE, HALF), "job-{}: 1 side", stream=FINE, words="--default RESOLUTION=600", front=("RESOLUTION=600",),
           why="registration is not carried out"),
    Client((BOX, 0.5, b"\x0c", 0.5, b"\x0c", 60), "refused: it takes longer than 1 seconds", WAS_RESET, words="--seconds 1"),
    Client((BOX + b"\x0c", HALF), "refused: memory ran out", WAS_RESET, words="--memory 1"),
    Client((ECHOES, HALF, 0.5, CLOSE), "job-{}: 1 side", GONE, ECHOES, words="--bytes 99999999", why="is not judged"),
]

# Words, the status, and what is said of them; {} is a folder, and {port} one that is taken.
WORDS = [
    ("", 2, "the following arguments are required: FOLDER"),
    ("--port 70000 {}", 2, "argument --port: invalid port value: '70000'"),
    ("--port ssh {}", 2, "argument --port: invalid port value: 'ssh'"),
    ("--port {port} {}", 1, "printer: "),
    ("--listen everywhere {}", 2, "argument --listen: invalid"),
    ("--listen 192.0.2.1 --port 0 {}", 1, "printer: whoever reaches 192.0.2.1 port 0 prints here, and reads the replies: no name and no password is asked for\n"),
    ("--jobs 0 {}", 2, "argument --jobs: invalid number from 1 on value: '0'"),
    ("--bytes 1e9 {}", 2, "argument --bytes: invalid number from 1 on value: '1e9'"),
    ("--idle 0.5 {}", 2, "argument --idle: invalid number from 1 on value: '0.5'"),
    ("--sides -1 {}", 2, "argument --sides: "),
    ("--default RESOLUTION=700 --port 0 {}", 1, "printer: RESOLUTION=700 sets no variable"),
    ("--what\x1b[2J {}", 2, "unrecognized arguments: --what\\u001b[2J"),
    ("--port 0 /dev/null", 1, "printer: "),
    ("--port 0 /dev/null/below\x1b", 1, "below\\x1b"),
]

# What tools/scrub makes anew, and what it refuses: words before IN and OUT, the stream, how many sides come out, or what is said.
RIGHT = (EXAMPLES / "drivers/cups-laserjet.pcl").read_bytes()
DUPLEX = (EXAMPLES / "streams/short-edge-duplex.prn").read_bytes()
MACRO = b"\x1bE\x1b&f7Y\x1b&f0X%s\x1b&f1X\x1b&f10X%s"


class Stream(NamedTuple):
    what: str
    stream: bytes
    sides: int = 0
    words: str = ""
    says: str = ""


SCRUBBED = [
    Stream("a page", LETTER, 1),
    Stream("a driver's", RIGHT, 1),
    Stream("a driver's at 600", FINE, 1, "--default RESOLUTION=600"),
    Stream("both sides", DUPLEX, 3),
    Stream("both sides at the other edge", b"\x1bE\x1b&l1S" + (BOX + b"\x0c") * 4 + b"\x1bE", 4),
    Stream("both edges in turn, and one side", DUPLEX + b"\x1bE\x1b&l1S" + (BOX + b"\x0c") * 3 + b"\x1bE\x1b&l2S" + (BOX + b"\x0c") * 2 + b"\x1bE" + BOX + b"\x0c", 9),
    Stream("copies of both sides", b"\x1bE\x1b&l1s3X" + BOX + b"\x0c\x1b*p900Y" + BOX + b"\x0c\x1b*p90Y" + BOX + b"\x0c\x1bE", 9),
    Stream("sizes", b"\x1bE" + b"".join(b"\x1b&l%dA" % size + BOX + b"\x0c" for size in (1, 2, 3, 6, 26, 27, 2)) + b"\x1bE", 7),
    Stream("two resolutions", b"".join(b"\x1b%%-12345X@PJL SET RESOLUTION=%d\n@PJL ENTER LANGUAGE=PCL\n" % dots + BOX + b"\x0c" for dots in (600, 300)), 2),
    Stream("a blank page", b"\x0c", 1),
    Stream("an overlay that is permanent", MACRO % (BOX, b"\x1b&f4X\x0c\x1b*p900Y" + BOX + b"\x0c\x1bE"), 2),
    Stream("PJL that stays, and asks", b"\x1b%-12345X@PJL DEFAULT COPIES=2\n@PJL RESET\n@PJL INFO ID\n@PJL ENTER LANGUAGE=PCL\n" + BOX + b"\x0c", 2),
    Stream("a font, spaces and what is unknown", b"\x1bE\x1b(s10H\x1b)s4Wfont\x1b*z9Q\x07   " + BOX + b"\x0c\x1bE", 1),
    Stream("a page that is left open", b"\x1bE" + BOX, 1),
    Stream("more sheets than a ticket has", b"\x1bE" + (BOX + b"\x0c") * 33 + b"\x1bE", 33),
]
REFUSED = [
    Stream("text", b"\x1bE" + BOX + b"A word\x0c", says="it has 6 bytes of text from byte 22 on, and text leaves no marks"),
    Stream("text of a macro", MACRO % (b"word", BOX + b"\x1b&f2X\x0c"), says="it has 4 bytes of text from byte 12 on"),
    Stream("HP-GL/2", BOX + b"\x1b%0BIN;PU0,0;PD9,9;\x1b%0A\x0c", says="it enters HP-GL/2, and "),
    Stream("HP-GL/2 of a macro", MACRO % (b"\x1b%0BIN;\x1b%0A", BOX + b"\x1b&f2X\x0c"), says="bytes of text from byte "),
    Stream("PostScript", b"\x1b%-12345X@PJL ENTER LANGUAGE=POSTSCRIPT\n%!PS\nshowpage\n", says="it enters the language POSTSCRIPT"),
    Stream("a language with control characters", BOX + b"\x0c" + RAW, says="it enters the language A\\r\\u0007"),
    Stream("PDF", b"%PDF-1.4\n", says="it is a PDF file, and no print stream"),
    Stream("planes", b"\x1bE\x1b*r3U\x1b*r0A\x1b*b1V\x80\x1b*b1W\x80\x0c", says="this press has one plane, of black"),
    Stream("planes of a macro", MACRO % (b"\x1b*r3U", BOX + b"\x1b&f2X\x0c"), says="this press has one plane, of black"),
    Stream("a method", b"\x1bE\x1b*b9M" + BOX + b"\x0c", says="the compression methods are 0, 1, 2, 3 and 5"),
    Stream("a method of a macro", MACRO % (b"\x1b*b9M", BOX + b"\x1b&f2X\x0c"), says="the compression methods are 0, 1, 2, 3 and 5"),
    Stream("a resolution", FINE, says="has rows of 75, 100, 150 or 300, so they stay at "),
    Stream("scaling", b"\x1bE\x1b*t720H" + BOX + b"\x0c", says="rows are not scaled"),
    Stream("a direction", b"\x1bE\x1b&a90P" + BOX + b"\x0c", says="the print direction is not carried out"),
    Stream("dots beside", (EXAMPLES / "streams/landscape.pcl").read_bytes(), says="it has 22,500 dots beside the logical page on the front of sheet 1"),
    Stream("dots beside on a back", b"\x1bE\x1b&l1s2X" + (BOX + b"\x0c") * 3 + b"\x1b*p2399x0Y\x1b*c9a1b0P\x0c", says="it has 8 dots beside the logical page on the back of sheet 3"),
    Stream("an empty stream", b"", says="it is empty, and no print stream"),
    Stream("no sheet", b"\x1bE\x1bE", says="it prints no sheet"),
    Stream("sides", b"\x1b&l4X" + BOX + b"\x0c", words="--sides 3", says="it prints 4 sides, and at most 3 are made anew"),
    Stream("bytes", LETTER, words="--bytes 4223", says="it has more than 4,223 bytes"),
    Stream("memory", LETTER, words="--memory 1", says="memory ran out"),
]
# Words of tools/scrub that are refused with status 2; in.prn and a link to it stand in the folder.
SCRUB_WORDS = [
    ("in.prn", "the following arguments are required: OUT"),
    ("in.prn in.prn", "in.prn is the input in.prn, which it would replace"),
    ("in.prn link", "link is the input in.prn, which it would replace"),
    ("none out.prn", "No such file"),
    ("in.prn none/out.prn", "No such file"),
    ("--sides 10000 in.prn out.prn", "argument --sides: at most 9,999"),
    ("--default RESOLUTION=700 in.prn out.prn", "RESOLUTION=700 sets no variable"),
    ("--what\x1b[2J in.prn out.prn", "unrecognized arguments: --what\\u001b[2J"),
]
