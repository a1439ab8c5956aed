"""Files that are made in place of older ones, and files that a refusal leaves as they were."""

from asked.files import TICKET, named
from asked.jobs import DOT, FULL, asking, job
from asked.pages import page
from asked.sessions import submit

# What stood in the file before: more than what is made in its place.
OLDER = b"an older file\n" * 200_000

BOX = b"\x1b*p0x0Y\x1b*c3a2b0P\x1bE"
TURNED = [b"\x1b&l%dO\x1b*p0x0Y\x1b*c3a2b0P\x0c" % orientation for orientation in (1, 2, 3)]
# A macro that marks, moves and marks is executed: its steps are the twelfth to the fourteenth.
MACRO = b"\x1b*p0x0Y\x1b*c3a2b\x1b&f1y0X\x1b*c0P\x1b*p+8X\x1b*c0P\x1b&f1x2X"

# A ticket of one page is submitted. Its sheet comes behind the fifteenth of its nineteen steps.
SUBMITTED = f"{submit(1)[0]}\n".encode()

# Words, the file that they make, standard input, and what stands in the file then.
MADE = [
    ("asm - made", "made", b"esc E\nctl 0C", b"\x1bE\x0c"),
    ("asm - made", "made", b"", b""),
    ("asm - made", "made", b"txt 41\n" * 200_000, b"A" * 200_000),
    ("write ticket made dot", "made", b"", job([DOT])),
    ("write ticket made full", "made", b"", job([FULL])),
    ("page - 0 made", "made", BOX, page([])),
    ("page - 4 made", "made", BOX, page([])),
    ("page - 5 made", "made", BOX, page([(75, 150, 3, 2)])),
    ("page - 6 made", "made", BOX, page([])),
    ("page - 7 made", "made", BOX, page([])),
    ("page - 18446744073709551615 made", "made", BOX, page([])),
    ("page - 0 made", "made", b"", page([])),
    ("page - 6 made", "made", TURNED[0], page([(150, 3237, 2, 3)])),
    ("page - 6 made", "made", TURNED[1], page([(2472, 3148, 3, 2)])),
    ("page - 6 made", "made", TURNED[2], page([(2398, 60, 2, 3)])),
    ("page - 11 made", "made", MACRO, page([])),
    ("page - 12 made", "made", MACRO, page([(75, 150, 3, 2)])),
    ("page - 13 made", "made", MACRO, page([(75, 150, 3, 2)])),
    ("page - 14 made", "made", MACRO, page([(75, 150, 3, 2), (83, 150, 3, 2)])),
    ("page - 15 made", "made", MACRO, page([])),
    ("page --default COPIES=2 - 7 made", "made", BOX, page([(75, 150, 3, 2)])),
    ("print - made%d", "made1", b"\x0c", page([])),
    ("print - made%%d", "made%1", b"\x0c", page([])),
    ("print - made%dd%", "made1d%", b"\x0c", page([])),
    ("print - made%d", "made2", b"\x0c\x1b*p0x0Y\x1b*c3a2b0P\x0c", page([(75, 150, 3, 2)])),
    ("press --out made%d-%q", "made1-Q1", SUBMITTED + b"turn 19\n", page([(75, 0, 1, 1)])),
    ("press --out made%d-%q", "made1-Q1", SUBMITTED + b"turn 15\nabort\n", page([(75, 0, 1, 1)])),
    ("press --out made%d-%q", "made1-Q1", SUBMITTED + b"turn 14\nturn 1\n", page([(75, 0, 1, 1)])),
    ("press --out made%d-%q", "made1-Q2", SUBMITTED * 2 + b"turn 19\nturn 19", page([(75, 0, 1, 1)])),
    ("press --out made%d-%q", "made1-Q1", SUBMITTED + b"turn 14\n", OLDER),
    ("press --out made%d-%q", "made2-Q1", SUBMITTED + b"turn 19\n", OLDER),
    ("press", "made1-Q1", SUBMITTED + b"turn 19\n", OLDER),
]

# The status, the file that would be made, standard input, and words that are refused so.
REFUSED = [
    (1, "made", b"", ["asm no/such made", "asm / made", "page no/such 1 made", "page / 1 made", "write no/such made dot", "write / made dot",
                      f"write {named(b'{5}')} made dot", f"write {named(TICKET[:-1] + b',')} made dot", f"write {named(asking(1.5))} made dot",
                      f"write {named(asking(1, kind=''))} made dot", f"write {named(asking(1, pages=0))} made dot",
                      f"write {named(asking(0))} made dot", "write ticket made", "write ticket made no/such", "write ticket made /",
                      "write ticket made no-image", "write ticket made no-size", "write ticket made cut", "write ticket made wide",
                      "write ticket made tall"]),
    (1, "made", b"uel\nfoo\n", ["asm - made"]),
    (1, "made", b"uel\n; \xff\n", ["asm - made"]),
    (1, "made", b"uel\npar *p1.2.3X\n", ["asm - made"]),
    (1, "made", b"uel\npar *b2W 02\n", ["asm - made"]),
    (1, "made1", b"", ["print no/such made%d", "print / made%d"]),
    (1, "made1", b"\x0c", ["print - made1", "print - made1%d%d"]),
    (2, "made1", b"\x0c", ["print -"]),
    (2, "made", b"uel", ["asm -", "page - made", "page - x made", "page - -1 made", "page - 18446744073709551616 made",
                         "page --default COPIES - 1 made"]),
]

ROWS = [(words, name, given, 0, wanted) for words, name, given, wanted in MADE]
ROWS += [(words, name, given, status, OLDER) for status, name, given, some in REFUSED for words in some]
