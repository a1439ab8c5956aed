"""The text of `press explain`, line by line beside the model's: all as texts but for boxes, which may be larger than those of the model."""

import itertools
import re

NUMBER = "(0|[1-9][0-9]*)"
BOX = f"marks within {NUMBER} by {NUMBER} dots at {NUMBER}, {NUMBER}"


def wrong_box(box, width, height, left, top):
    """What is wrong with a box of the program by the model's, which is the smallest one; or None."""
    wide, high = box.page
    if width % 8 or left % 8:
        return "the box begins or ends within a byte"
    if left + width >= wide + 8 or top + height > high:
        return "the box does not lie on the page"
    if left > box.left or top > box.top or left + width < box.right or top + height < box.bottom:
        return "a dot that differs lies beside the box"
    return None


def wrong_line(our, their):
    """What is wrong with a line of the program, or None."""
    if our.box is None:
        return None if our.text() == their else "the lines differ"
    found = re.fullmatch(f"{re.escape(our.front)}{BOX}{re.escape(our.behind)}\n", their)
    return wrong_box(our.box, *map(int, found.groups())) if found else "the lines differ"


def difference_of(ours, text):
    """The number of the first line that differs, counted from 1, what differs, and both lines; None where none does."""
    theirs = text.decode("latin-1").splitlines(keepends=True)
    for number, (our, their) in enumerate(itertools.zip_longest(ours, theirs), 1):
        what = "one text ends" if our is None or their is None else wrong_line(our, their)
        if what:
            return number, what, our.text() if our else "", their or ""
    return None
