"""The sheets that streams print, and which of one stream are which of another."""

import collections
import difflib
import functools
import hashlib
import itertools
import os
import re
from concurrent.futures import ThreadPoolExecutor
from pathlib import Path
from typing import NamedTuple, Optional

from seen import pages_of, program

LINE = re.compile(rb"sheet (\d+) (front|back) (\d+)x(\d+) black (\d+)(?: sha256 ([0-9a-f]{64}))?\n")
MOST_FILES = 2000    # a file of a side has a megabyte


class Side(NamedTuple):
    number: int      # from 1, of its file
    sheet: int
    name: str        # front or back
    width: int
    height: int
    black: int
    digest: str
    path: Path = Path()    # of its file, if that is made

    def shape(self):
        return self.name, self.width, self.height, self.digest


class Printed(NamedTuple):
    sides: list
    replies: bytes


def listed(words, stream, chosen):
    """What a listing tells: its sides, without digests where it has none, and the replies."""
    text, sides, place = pages_of.asked(["print", *words, "-"], stream, chosen, None), [], 0
    while (found := LINE.match(text, place)) is not None:
        sides.append(Side(len(sides) + 1, int(found[1]), found[2].decode(), *map(int, found.groups()[2:5]), (found[6] or b"").decode()))
        place = found.end()
    return Printed(sides, text[place:])


def summed(stream):
    """What a stream prints, by the digests that the program lists: no file is made."""
    return listed(["--list", "--sums"], stream, program.PROGRAM)


def with_file(folder, side):
    """A side with its P4 file, and the digest of that."""
    path = folder / pages_of.TEMPLATE.replace("%d", str(side.number))
    return side._replace(path=path, digest=hashlib.sha256(path.read_bytes()).hexdigest())


def printed(folder, stream, chosen=program.PROGRAM):
    """The same with a P4 file for each side in a folder, of which the digests are taken."""
    found = listed(["--list"], stream, chosen)
    if len(found.sides) > MOST_FILES:
        raise ValueError(f"{len(found.sides):,} sides come out, and at most {MOST_FILES:,} are compared")
    folder.mkdir(exist_ok=True)
    pages_of.asked(["print", "-", pages_of.TEMPLATE], stream, chosen, folder)
    with ThreadPoolExecutor(os.cpu_count()) as pool:
        return found._replace(sides=list(pool.map(functools.partial(with_file, folder), found.sides)))


def both_printed(folder, old, new, chosen=program.PROGRAM):
    with ThreadPoolExecutor(2) as pool:
        return list(pool.map(lambda each: printed(folder / each[0], each[1], chosen), (("old", old), ("new", new))))


def sheets_of(sides):
    """The sides of each sheet."""
    return [list(some) for _, some in itertools.groupby(sides, lambda side: side.sheet)]


class Change(NamedTuple):
    """A sheet of the old and one of the new, which differ or stand at another place; None for a sheet that is gone, or has come."""
    old: Optional[list]
    new: Optional[list]
    what: str          # "differs", "moved", "gone", "come"
    copy_of: Optional[int] = None    # the number of the sheet beside it that is the same

    def as_json(self):
        told = {"what": self.what, "old": self.old and self.old[0].sheet, "new": self.new and self.new[0].sheet}
        return {**told, "copy_of": self.copy_of} if self.copy_of else told


def changes(old, new):
    """What became of the sheets, where something did."""
    old, new = sheets_of(old), sheets_of(new)
    shapes = [[tuple(side.shape() for side in sheet) for sheet in some] for some in (old, new)]
    blocks = [block for block in difflib.SequenceMatcher(None, *shapes, autojunk=False).get_opcodes() if block[0] != "equal"]
    places = collections.defaultdict(list)
    for _, _, _, first, last in blocks:
        for place in range(first, last):
            places[shapes[1][place]].append(place)
    gone, taken = [], set()
    for _, first, last, start, end in blocks:
        for place in range(first, last):
            if places[shapes[0][place]]:
                taken.add(there := places[shapes[0][place]].pop(0))
                yield Change(old[place], new[there], "moved")
            else:
                gone.append((place, start, end))
    yield from unlike(old, new, shapes, gone, [(place, block) for block in blocks for place in range(*block[3:]) if place not in taken])


def unlike(old, new, shapes, gone, come):
    """Sheets that stand at the same place in a block differ; of the others the one is gone, or has come."""
    come = dict(come)
    for place, start, end in gone:
        there = next((each for each in come if start <= each < end), None)
        if there is not None:
            del come[there]
        yield Change(old[place], None if there is None else new[there], "gone" if there is None else "differs",
                     copy_beside(old, shapes[0], place) if there is None else None)
    for place in come:
        yield Change(None, new[place], "come", copy_beside(new, shapes[1], place))


def copy_beside(sheets, shapes, place):
    """The number of the sheet beside one that is the same."""
    beside = [each for each in (place - 1, place + 1) if 0 <= each < len(shapes) and shapes[each] == shapes[place]]
    return sheets[beside[0]][0].sheet if beside else None
