"""The jobs of tickets in the form in which the program writes them, for the images that rows and examples name.

How many steps a turn takes depends on the job. The form is that of `asked.jobs`; the side of an image stands there, or is taken
from the job of an example.
"""

from asked.examples import EXAMPLES
from asked.files import FILES
from asked.jobs import DOT, FULL, LINES, WHITE, job

BAR = b"\x1b*p0Y\x1b*r3S\x1b*r0A\x1b*b1W\xe0\x1b*r0C\x0c"
SIDES = {"dot": DOT, "lines": LINES, "white": WHITE, "bar": BAR, "full": FULL}
MEDIA = {"Executive": 1, "Letter": 2, "Legal": 3, "Ledger": 6, "A4": 26, "A3": 27}
PRINTED = {"OneSidedFront": 0, "TwoSidedHeadToHead": 1, "TwoSidedHeadToFoot": 2}


class NotWritten(Exception):
    """The side of an image is not known here."""


def sides_of_example():
    """The sides of the two images of the examples, each up to its form feed, from the job that stands beside the flyer."""
    from model import commands
    sides, side = [], b""
    for command in commands.closed((EXAMPLES / "tickets/flyer.json.stdout").read_bytes()):
        if commands.kind(command) == "par &lX":
            side = b""
            continue
        side += commands.command_bytes(command)
        if commands.kind(command) == "ctl 0C":
            sides.append(side)
            side = b""
    return sides


def known_sides():
    """From an image as the model reads it to its side."""
    from model import pbm
    files = {name: FILES[name] for name in SIDES}
    images = [(files[name], SIDES[name]) for name in SIDES]
    images += [((EXAMPLES / f"images/{name}.pbm").read_bytes(), side) for name, side in zip(["front", "back"], sides_of_example())]
    return {key_of(pbm.read(file)[:2]): side for file, side in images}


def key_of(image):
    width, rows = image
    return width, "".join(rows)


class Jobs:
    """The jobs of entries. The sides are those of the model without a switch, so they are asked for once, before one is on."""

    def __init__(self):
        self.sides = known_sides()

    def job_of(self, context):
        from model import ticket
        read = context.ticket
        if any(key_of(image) not in self.sides for image in context.images):
            raise NotWritten()
        sides = [self.sides[key_of(image)] for image in context.images]
        wanted = ticket.wanted_page_sheets(read)
        copies = 1 if read.collate and len(wanted) > read.amount else read.amount
        if wanted != [sheet for sheet in wanted[::copies] for _ in range(copies)]:
            copies = 1
        sheets = [[sides[page] for page in sheet if page is not None] for sheet in wanted[::copies]]
        return job(*sheets, medium=MEDIA[read.media], sides=PRINTED[read.sides], resolution=read.resolution, copies=copies)
