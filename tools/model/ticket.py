"""Tickets: what is refused and in which order, and the sheets that a ticket wants."""

from typing import NamedTuple

from . import json_text
from .pages import SIZES
from .values import FACTORY_RESOLUTION

NOT_JSON, NOT_PROFILE, WRONG_PROCESS, BAD_RANGE, BAD_AMOUNT = 601, 602, 603, 604, 605
PAGE_MISSING, TOO_WIDE, TOO_TALL = 611, 612, 613

REQUIRED = ["Version", "Type", "JobID", "NPage", "Amount"]
OPTIONAL = ["RunList", "Media", "Sides", "Collate", "Resolution"]
KEYS = REQUIRED + OPTIONAL  # in the order in which they are judged
RESOLUTIONS = (300, 600)
SIDES = ["OneSidedFront", "TwoSidedHeadToHead", "TwoSidedHeadToFoot"]
MOST_PAGES = 999
MOST_AMOUNT = 9999
MOST_PAIRS = 64


class Refused(Exception):
    def __init__(self, number, key=None):
        super().__init__(number, key)
        self.number = number
        self.key = key


class Ticket(NamedTuple):
    job_id: str
    pages: list  # of the set, counted from 0, in order
    page_count: int
    amount: int
    media: str
    sides: str
    collate: bool
    resolution: int

    def two_sided(self):
        return self.sides != "OneSidedFront"

    def size(self):
        """The medium in dots of the resolution."""
        return SIZES[self.media].at(self.resolution)

    def room(self):
        """Width and height of the logical page in dots."""
        size = self.size()
        return size.width - 2 * size.portrait_offset, size.height


def read_ticket(text):
    try:
        value = json_text.read(text)
    except json_text.NotJson:
        raise Refused(NOT_JSON) from None
    return ticket_of(value)


def is_pair(value):
    return isinstance(value, list) and len(value) == 2 and all(map(json_text.is_whole, value))


def is_run_list(value):
    return isinstance(value, list) and 1 <= len(value) <= MOST_PAIRS and all(map(is_pair, value))


def is_job_id(value):
    return (json_text.is_text(value) and 1 <= len(value) <= 63
            and all(" " <= character <= "~" for character in value))


ADMITTED = {
    "Version": lambda value: value == "1.5",
    "Type": json_text.is_text,
    "JobID": is_job_id,
    "NPage": json_text.is_whole,
    "Amount": json_text.is_whole,
    "RunList": is_run_list,
    "Media": lambda value: json_text.is_text(value) and value in SIZES,
    "Sides": lambda value: value in SIDES,
    "Collate": lambda value: isinstance(value, bool),
    "Resolution": lambda value: json_text.is_whole(value) and value in RESOLUTIONS,
}


def ticket_of(value):
    if not isinstance(value, dict):
        raise Refused(NOT_JSON)
    unknown = [key for key in value if key not in KEYS]
    if unknown:
        raise Refused(NOT_PROFILE, min(unknown, key=str.encode))
    for key in KEYS:
        if (key in REQUIRED and key not in value) or (key in value and not ADMITTED[key](value[key])):
            raise Refused(NOT_PROFILE, key)
    if value["Type"] != "DigitalPrinting":
        raise Refused(WRONG_PROCESS)
    if not 1 <= value["NPage"] <= MOST_PAGES:
        raise Refused(BAD_RANGE)
    pages = set_of_pages(value.get("RunList", [[0, -1]]), value["NPage"])
    if not 1 <= value["Amount"] <= MOST_AMOUNT:
        raise Refused(BAD_AMOUNT)
    return Ticket(value["JobID"], pages, value["NPage"], value["Amount"], value.get("Media", "Letter"),
                  value.get("Sides", SIDES[0]), value.get("Collate", True), value.get("Resolution", FACTORY_RESOLUTION))


def set_of_pages(pairs, page_count):
    pages = []
    for first, last in pairs:
        first = page_index(first, page_count)
        last = page_index(last, page_count)
        if first <= last:
            pages += range(first, last + 1)
        else:
            pages += range(first, last - 1, -1)
    if len(pages) > MOST_PAGES:
        raise Refused(BAD_RANGE)
    return pages


def page_index(number, page_count):
    index = number + page_count if number < 0 else number
    if not 0 <= index < page_count:
        raise Refused(BAD_RANGE)
    return index


def check(ticket, images):
    """Images are pairs of width and rows, as P4 files are read."""
    if len(images) < ticket.page_count:
        raise Refused(PAGE_MISSING)
    chosen = [images[page] for page in ticket.pages]
    most_across, most_down = ticket.room()
    if any(width > most_across for width, _ in chosen):
        raise Refused(TOO_WIDE)
    if any(len(rows) > most_down for _, rows in chosen):
        raise Refused(TOO_TALL)


def wanted_page_sheets(ticket):
    """The wanted sheets by page number: a list of pairs of front and back, the back perhaps None."""
    pages = ticket.pages
    if ticket.two_sided():
        pages = pages + [None] * (len(pages) % 2)
        sheets = list(zip(pages[0::2], pages[1::2]))
    else:
        sheets = [(page, None) for page in pages]
    if ticket.collate:
        return sheets * ticket.amount
    return [sheet for sheet in sheets for _ in range(ticket.amount)]


def wanted(ticket, images):
    """The wanted sheets, each side a set of dots; no back is None."""
    return [tuple(None if page is None else side_dots(ticket, images[page]) for page in sheet)
            for sheet in wanted_page_sheets(ticket)]


def side_lines(ticket, image):
    """The columns of each line that has a black dot, as a page keeps them."""
    offset = ticket.size().portrait_offset
    _, rows = image
    return {y: int(row[::-1], 2) << offset for y, row in enumerate(rows) if "1" in row}


def side_dots(ticket, image):
    lines = side_lines(ticket, image)
    return {(x, y) for y, columns in lines.items() for x, bit in enumerate(reversed(bin(columns)[2:])) if bit == "1"}
