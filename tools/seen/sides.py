"""The sides that a stream prints, each once: by the program; where there are too many copies, through pipes."""

from typing import NamedTuple

from . import listing, png, program
from .pages_of import RESOLUTIONS

MOST_FILES = 400   # a file of a side has a megabyte


class Side(NamedTuple):
    sheet: int     # its number; the first of its copies
    name: str      # front or back
    copies: int
    width: int
    rows: list    # a bit for each dot, the most significant left, 1 black
    black: int
    resolution: int   # in dots per inch


def packed_sides(run):
    """The P4 file of each side of a run, one after another, without copies; where the program's files are others than its trace says, nothing is shown."""
    places, files, seen = list(places_of_files(run.pages_of_sides())), 0, set()
    some = program.printed_sides(run.whole, run.chosen) if len(places) <= MOST_FILES else program.piped_sides(run.whole, len(places), run.chosen)
    for files, data in enumerate(some, 1):
        if files <= len(places) and places[files - 1] not in seen:
            seen.add(places[files - 1])
            yield data
    if files != len(places):
        raise ValueError(f"press print made {files} files, and the trace has {len(places)} sides")


def sides_of(run):
    """The sides of a run, and who printed them."""
    return [side_of(png.read_p4(data), *each) for data, each in zip(packed_sides(run), listing.sides(run))], program.who(run.chosen)


def side_of(page, told, number, name, copies):
    width, rows = page
    if (width, len(rows), int.from_bytes(b"".join(rows), "big").bit_count()) != told:
        raise ValueError(f"sheet {number} {name}: its file and the listing differ")
    return Side(number, name, copies, width, rows, told.black, RESOLUTIONS[width, len(rows)])


def places_of_files(sides):
    """For each file that the program makes the place of its side: copies of a sheet come one after another, both sides each."""
    place = 0
    while place < len(sides):
        copies, two = sides[place][3], place + 1 < len(sides) and sides[place + 1][1] == sides[place][1]
        yield from [place, place + 1] * copies if two else [place] * copies
        place += 2 if two else 1
