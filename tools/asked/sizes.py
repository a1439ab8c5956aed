"""What is large or many, and names that are long or no text: ten images, ten words, 100,000 sheets, texts and streams of 10 MB, much data in a body.

These rows are for the program alone, and each says what a body would answer that had a bound of some hundreds, or that always wanted memory.
"""

from asked.files import FILES, TICKET, named
from asked.jobs import DOT, LINES, WHITE, asking, job
from asked.pages import WIDTH, HEIGHT, page

FEED = b"\x0c"
MEGABYTE = 1_000_000
NO_TEXT = "press: a word is no text\n"
LINE = f"{WIDTH}x{HEIGHT} black 0\n"

# A name of 250 bytes is as long as most file systems take, with a number of five digits behind it.
LONG_NAME = "n" * 250
FILES[LONG_NAME] = FEED
FILES["i" * 250] = FILES["dot"]

IMAGES = ["dot", "lines", "white"]
JOBS = [DOT, LINES, WHITE]
TEN = [IMAGES[number % 3] for number in range(10)]
TEN_PAGES = job(*([JOBS[number % 3]] for number in range(10)))
TEN_IN_A_MESSAGE = named(b'{"ID":"a","Type":"SubmitQueueEntry","Ticket":' + asking(1, pages=10) + b"}")
TAKEN = '{"QueueEntryID":"Q1","ReturnCode":0,"Type":"SubmitQueueEntry","refID":"a"}\n'

# Rows of white dots, as long as data may be: 10 MB of them.
WHITE_ROW = b"\x1b*b65535W" + bytes(65535)
WHITE_ROWS = WHITE_ROW * (10 * MEGABYTE // len(WHITE_ROW) + 1)
WHITE_TEXT = f"par *b65535W {'00' * 65535}\n" * (10 * MEGABYTE // len(WHITE_ROW) + 1)
LETTERS = 10 * MEGABYTE // len("txt 41\n") + 1
# A body of the longest data twice, which is executed, called, and laid under the page: two rows of black dots as wide as the page. An overlay
# begins with 75 dots an inch, so each of its rows is four lines high.
BODY = b"\x1b*t300R\x1b*r0A\x1b&f1y0X" + (b"\x1b*b65535W" + b"\xff" * 65535) * 2 + b"\x1b&f1X"


def sheets(count):
    return "".join(f"sheet {number} front {LINE}" for number in range(1, count + 1))


def echoed(count):
    """The lines of the job language that ask for so many replies, and the replies."""
    return (b"\x1b%-12345X" + b"".join(b"@PJL ECHO %d\n" % number for number in range(count)),
            b"".join(b"@PJL ECHO %d\r\n\x0c" % number for number in range(count)))


ECHOES, REPLIES = echoed(1000)

NAMED = {
    "ten images": (f"write {{}} /dev/stdout {' '.join(TEN)}", 0, TEN_PAGES, asking(1, pages=10)),
    "the tenth image is missing": (f"write {{}} /dev/stdout {' '.join(TEN[:9])} none", 1, "fault 304\n", asking(1, pages=10)),
    "ten images in a line of a session": ("press", 0, TAKEN, f"message {TEN_IN_A_MESSAGE} {' '.join(TEN)}".encode()),
    "ten words too many": ("print a b c d e f g h i j", 2, None, b""),
    "ten defaults": ("print --list " + "".join(f"--default COPIES={number} " for number in range(1, 11)) + "-", 0, sheets(10), FEED),
    "100,000 sheets": ("print --list -", 0, sheets(100_000), b"\x1b&l999X" + FEED * 100 + b"\x1b&l100X" + FEED),
    "1,000 pages": ("", 0, sheets(1000), FEED * 1000),
    "files of 40 sides": ("print - page-%d.pbm", 0, [page([])] * 40, FEED * 40),
    "1,000 replies of a listing": ("print --list -", 0, REPLIES, ECHOES),
    "1,000 replies beside files": ("print - page-%d.pbm", 0, REPLIES, ECHOES),
    "a text of 10 MB": ("asm - /dev/stdout", 0, b"A" * LETTERS, b"txt 41\n" * LETTERS),
    "a text of 10 MB that is told": ("disasm -", 0, b"txt 41\n" * LETTERS, b"A" * LETTERS),
    "a bad line behind 10 MB": ("asm - none/b", 1, f"fault 401 line {LETTERS + 1}\n", b"txt 41\n" * LETTERS + b"foo\n"),
    "a stream of 10 MB": ("print --list -", 0, sheets(1), WHITE_ROWS),
    "a stream of 10 MB that is told": ("disasm -", 0, WHITE_TEXT.encode(), WHITE_ROWS),
    "a text of 20 MB in long lines": ("asm - /dev/stdout", 0, WHITE_ROWS, WHITE_TEXT.encode()),
    "a debugger of 10 MB": (f"debug {named(WHITE_ROWS)}", 0, "ended step 154 depth 0 x 0 y 900\n", b"go 1000000\n"),
    "10,000 lines of a session": ("press", 0, "ok\n" * 10_000, b"pause\n" * 10_000),
    "10,000 lines of a debugger": (f"debug {named(FEED)}", 0, "what?\n" * 10_000, b"\n" * 10_000),
    "long data in a body that is executed": ("print --list -", 0, f"sheet 1 front {WIDTH}x{HEIGHT} black 4800\n", BODY + b"\x1b&f2X\x0c"),
    "long data in a body that is called": ("print --list -", 0, f"sheet 1 front {WIDTH}x{HEIGHT} black 4800\n", BODY + b"\x1b&f3X\x0c"),
    "long data in a body under the page": ("print --list -", 0, f"sheet 1 front {WIDTH}x{HEIGHT} black 19200\n", BODY + b"\x1b&f4X\x0c"),
    "a name of 250 bytes": (f"print --list {LONG_NAME}", 0, sheets(1), b""),
    "a name of 250 bytes that there is not": (f"print --list {LONG_NAME[:-1]}x", 1, "fault 304\n", b""),
    "a name of 300 bytes": (f"print --list {LONG_NAME}{LONG_NAME[:50]}", 1, "fault 304\n", b""),
    "an image with a name of 250 bytes": (f"write {{}} /dev/stdout {'i' * 250}", 0, job([DOT]), TICKET),
    "a stream whose name is no text": ("print --list \udcff", 2, NO_TEXT, FEED),
    "a file whose name is no text": ("print - \udcff%d", 2, NO_TEXT, FEED),
    "a text whose name is no text": ("asm - b\udcff", 2, NO_TEXT, b"uel\n"),
    "an image whose name is no text": ("write ticket /dev/stdout dot \udce9", 2, NO_TEXT, b""),
    "a word that is no text": ("\udcff", 2, NO_TEXT, FEED),
}
ROWS = [*NAMED.values()]
