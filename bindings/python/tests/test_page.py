"""The page of a driver's stream against a picture, as a writer of a driver would test it (docs/LIBRARY.md has it, too)."""

import rombixela

SMILE = ["..####..",
         ".#....#.",
         "#.#..#.#",
         "#......#",
         "#.#..#.#",
         "#..##..#",
         ".#....#.",
         "..####.."]


def stream_of(picture):
    """The driver under test: a picture as raster graphics of 300 dots per inch, an inch from the left and from the top."""
    rows = [int(row.replace(".", "0").replace("#", "1"), 2).to_bytes(len(row) // 8, "big") for row in picture]
    graphics = b"".join(b"\x1b*b%dW%s" % (len(row), row) for row in rows)
    return b"\x1bE\x1b*p300x300Y\x1b*t300R\x1b*r1A" + graphics + b"\x1b*rB\x0c\x1bE"


def picture_at(page, column, line, width, height):
    return ["".join(".#"[page.is_black(column + right, line + down)] for right in range(width)) for down in range(height)]


def test_a_page_is_the_picture():
    [page] = rombixela.print_stream(stream_of(SMILE))
    assert (page.width, page.height) == (2550, 3300)
    # The logical page begins 75 dots from the left edge, and 150 from the top.
    assert picture_at(page, 375, 450, 8, 8) == SMILE
    assert page.black() == sum(row.count("#") for row in SMILE)


def test_a_default_of_the_printer():
    [page] = rombixela.print_stream(stream_of(SMILE), {"PAPER": "A4"})
    assert (page.width, page.height) == (2480, 3507)
