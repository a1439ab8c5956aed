"""What is printed before the input ends, and where it fails: words, the bytes that standard input gives before its read fails, and what then stands there.

The sides of a listing are written as they come, and its replies behind all of them. A fault in the midst leaves what was done before it.
"""

from typing import NamedTuple

from asked.disk import ANSWER, FEED, SIDES
from asked.full import ECHO
from asked.traces import POWER_ON, lines_of

EXIT = b"\x1b%-12345X"
MARK = b"\x1b*c9a9b0P"
INQUIRE, COPIES = EXIT + b"@PJL INQUIRE COPIES\n", b"@PJL INQUIRE COPIES\r\n1\r\n\x0c"
LIST = "print --list -"
UNREAD = "fault 304\n"
TRACED = lines_of((0, 1, "ctl 0C", {"delivered": 1, "sheets": 1, "view": {"settings": POWER_ON["settings"] | {"sheets_of_job": 1}}})).encode()


class Row(NamedTuple):
    shows: str
    words: str
    given: bytes
    printed: bytes
    told: str = UNREAD
    early: int = 0          # so many bytes are printed before the read fails
    is_full: bool = False   # whether standard output takes no byte


def sides(count):
    """The lines of so many sheets."""
    return b"".join(SIDES.splitlines(keepends=True)[:count])


ROWS = [
    Row("nothing", LIST, b"", b""),
    Row("a sheet", LIST, FEED, sides(1)),
    Row("three sheets", LIST, FEED * 3, sides(3)),
    Row("a page that is open is no sheet", LIST, FEED + MARK, sides(1)),
    Row("nor is what stands in no whole command", LIST, FEED + b"\x1b*c9a9b", sides(1)),
    Row("lines that come while the stream does", LIST, FEED * 500, SIDES, early=12_000),
    Row("a reply alone", LIST, ECHO, ANSWER),
    Row("a reply before a sheet, which stands behind it", LIST, ECHO + FEED, sides(1) + ANSWER),
    Row("replies between sheets", LIST, FEED + ECHO + FEED + INQUIRE + FEED, sides(3) + ANSWER + COPIES),
    Row("a listing on an output that is full", LIST, FEED, b"", UNREAD + "fault output\n", is_full=True),
    Row("a reply on an output that is full", LIST, ECHO, b"", UNREAD + "fault output\n", is_full=True),
    Row("a reply beside files, which comes at once", "print - side-%d", ECHO, ANSWER, early=len(ANSWER)),
    Row("a text that is assembled", "asm - made", b"uel\n", b""),
    Row("the trace of the steps before, and not of what stands in no whole command", "trace -", FEED + b"\x1b*c9", TRACED),
    Row("no step of a trace", "trace -", b"\x1b*c9", b""),
    Row("no command that is explained", "explain -", b"\x1b*c9", b""),
    Row("a page of a step is of a whole stream", "page - 1 made", FEED, b""),
    Row("answers of a press, each at once", "press", b"pause\nwhat\nturn 1", b"ok\nwhat?\n", early=9),
    Row("those of a debugger", "debug empty", b"step\nwhat\n", b"stepped step 1 depth 0 x 0 y 900\nwhat?\n", early=38),
]
