"""A page of a film as a picture, or in characters."""

from . import png
from .pages_of import RESOLUTIONS

PLAIN_RESOLUTION = 300
COLUMN_DOTS = 40    # a character of a drawn page is so many dots of 300 per inch wide, and twice as many high
SHADES = " .:+#"
PICTURE_FACTOR = 4  # for 300 dots per inch


def times(page):
    """How many dots of 300 per inch have one of its dots' places."""
    return RESOLUTIONS[page.width, page.height] // PLAIN_RESOLUTION


def black(page):
    return sum(int.from_bytes(row, "big").bit_count() for row in page.rows)


def picture(page, factor=PICTURE_FACTOR):
    """A PNG in grey."""
    return png.png(png.page_picture(page.width, page.rows, factor * times(page)))


def characters(page):
    """Its lines in characters."""
    rows = list(png.grey_rows(page.width, page.rows, COLUMN_DOTS * times(page)))
    yield "+" + "-" * len(rows[0]) + "+"
    for pair in zip(rows[::2], [*rows[1::2], bytes([png.PAPER]) * len(rows[0])]):
        yield "|" + "".join(shade(sum(both) / 2) for both in zip(*pair)) + "|"
    yield "+" + "-" * len(rows[0]) + "+"


def shade(grey):
    """White is a space, and whatever is not white is seen."""
    dark = 1 - grey / png.PAPER
    return SHADES[0] if dark == 0 else SHADES[1 + min(3, int(dark * 4))]
