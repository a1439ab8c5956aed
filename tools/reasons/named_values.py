"""Which values each row of the command table names: any other is refused."""

from typing import NamedTuple

from model import table


class Named(NamedTuple):
    """Which values there are, and the field that stays as it is by any other."""
    which: str
    field: str = ""


SIZES = ", ".join(f"{number} {name}" for number, name in table.PAGE_SIZES.items())
NAMED = {
    "&uD": Named("a unit of measure is a divisor of 7200 from 96 to 7200", "unit"),
    "&lA": Named(f"the page sizes are {SIZES}", "size"),
    "&lO": Named("the orientations are 0 to 3", "orientation"),
    "&lS": Named("0 is simplex, 1 and 2 are duplex", "duplex"),
    "&aG": Named("0 is the next side, 1 a front, 2 a back"),
    "&kG": Named("the kinds of line termination are 0 to 3", "line_termination"),
    "&lL": Named("perforation skip is 0 or 1", "perforation_skip"),
    "&lD": Named("lines per inch are 1, 2, 3, 4, 6, 8, 12, 16, 24 or 48", "vmi"),
    "&lC": Named("the vertical motion index is 0 to 336", "vmi"),
    "&kH": Named("the horizontal motion index is 0 to 840", "hmi"),
    "&lX": Named("copies are 1 or more", "copies"),
    "&lE": Named("a top margin stands on the page, and its lines are those of a VMI above 0", "top_margin"),
    "&lF": Named("a text length is one line or more, ends on the page, and its lines are those of a VMI above 0", "text_length"),
    "&aL": Named("a left margin is 0 or more, and left of the right one", "left_margin"),
    "&aM": Named("a right margin is right of the left one", "right_margin"),
    "&fS": Named("0 pushes the place and 1 pops it"),
    "*rA": Named("raster graphics starts by 0 to 3"),
    "*rS": Named("a raster width is 1 or more", "source_width"),
    "*rT": Named("a raster height is 1 or more", "source_height"),
    "*bY": Named("rows are passed over by 1 or more"),
    "*cA": Named("a rectangle is 0 or more wide", "rectangle_width"),
    "*cH": Named("a rectangle is 0 or more wide", "rectangle_width"),
    "*cB": Named("a rectangle is 0 or more high", "rectangle_height"),
    "*cV": Named("a rectangle is 0 or more high", "rectangle_height"),
    "*cG": Named("a pattern ID is 0 to 32,767", "pattern_id"),
    "*cP": Named("the fills are 0 to 5"),
    "*cQ": Named("patterns are deleted by 0 to 2, and made temporary or permanent by 4 and 5"),
    "*vT": Named("the patterns are 0 to 4", "current_pattern"),
    "*vN": Named("0 is transparent, 1 is opaque", "source_opaque"),
    "*vO": Named("0 is transparent, 1 is opaque", "pattern_opaque"),
    "&fY": Named("a macro ID is 0 to 32,767", "macro_id"),
    "&fX": Named("macros are controlled by 0 to 10"),
}
# What is no mistake of a driver, and is refused: so many rows of nothing.
IDLE = "*bY", 0
