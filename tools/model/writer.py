"""A simple job for a ticket: every wanted sheet is drawn anew, each row plain.

Any job with the same sheets would do.
"""

from .commands import UNIVERSAL_EXIT
from .pages import SIZES
from .ticket import wanted_page_sheets

PAGE_SIZE_NUMBERS = {"Executive": 1, "Letter": 2, "Legal": 3, "Ledger": 6, "A4": 26, "A3": 27}
SIDES_NUMBERS = {"OneSidedFront": 0, "TwoSidedHeadToHead": 1, "TwoSidedHeadToFoot": 2}


def job_of(ticket, images):
    assert ticket.media in SIZES
    job = UNIVERSAL_EXIT + b"@PJL SET RESOLUTION=%d\n" % ticket.resolution + b"\x1bE"
    job += b"\x1b&l%da0o%dS" % (PAGE_SIZE_NUMBERS[ticket.media], SIDES_NUMBERS[ticket.sides])
    job += b"\x1b*t%dR" % ticket.resolution
    for front, back in wanted_page_sheets(ticket):
        job += side_of(images[front])
        if back is not None:
            job += side_of(images[back])
        elif ticket.two_sided():
            job += b"\x1b&a1G"
    return job


def side_of(image):
    """One side from the top left corner of the logical page."""
    width, rows = image
    side = b"\x1b*p0x-9999Y" + b"\x1b*r%ds0A" % width
    for row in rows:
        row_bytes = (width + 7) // 8
        packed = int(row.ljust(row_bytes * 8, "0"), 2).to_bytes(row_bytes, "big")
        side += b"\x1b*b%dW" % row_bytes + packed
    return side + b"\x1b*rC\x0c"
