"""What a stream prints, whole: a P4 file for each side in a folder, its listing and its replies; by the program."""

import itertools
import re
from pathlib import Path
from typing import NamedTuple

from model import pages

from . import pdf, png, program, traced

MEDIA = {(size.width, size.height): size for plain in pages.SIZES.values() for size in (plain.at(resolution) for resolution in (300, 600))}
RESOLUTIONS = {shape: size.resolution for shape, size in MEDIA.items()}
TEMPLATE = "page-%d.pbm"
NUMBER_OF_SHEET = re.compile(rb"^sheet (\d+) ", re.MULTILINE)
DELIVERED, SHEETS = re.compile(rb'"delivered":(\d+)'), re.compile(rb'"sheets":(\d+)')


class Printed(NamedTuple):
    listing: bytes
    replies: bytes
    names: list      # of the P4 files, in the order of the sides, copies too
    who: str


class Fault(Exception):
    """The program told a fault; its line on standard error."""


def print_into(folder, stream, chosen=program.PROGRAM):
    return listed_in(folder, stream, asked(["print", "-", TEMPLATE], stream, chosen, folder), chosen)


def listed_in(folder, stream, replies, chosen=program.PROGRAM):
    """The same of a stream that is printed already: its files stand in the folder, and these are its replies."""
    listed = asked(["print", "--list", "-"], stream, chosen, folder)
    names = [folder / TEMPLATE.replace("%d", str(number)) for number in range(1, len(list(folder.glob("page-*.pbm"))) + 1)]
    return Printed(listed[:len(listed) - len(replies)], replies, names, program.who(chosen))


def asked(words, stream, chosen, folder):
    """What the program prints on standard output."""
    ran = program.ask(words, stream, chosen, folder)
    if ran.returncode:
        raise Fault(ran.stderr.decode(errors="replace").strip() or f"press {words[0]} ended with status {ran.returncode}")
    return ran.stdout


def page_of(name):
    """The page of a P4 file, for a PDF or a PNG; its resolution is that of its size."""
    side = Path(name).read_bytes()
    header = png.HEADER.match(side)
    width, height = int(header[1]), int(header[2])
    stride, data = (width + 7) // 8, side[header.end():]
    return pdf.Page(width, [data[start:start + stride] for start in range(0, stride * height, stride)], RESOLUTIONS[width, height])


def count_sides(stream):
    """How many sides come out, copies too."""
    return len(NUMBER_OF_SHEET.findall(asked(["print", "--list", "-"], stream, program.PROGRAM, None)))


def without_copies(printed, stream):
    """The P4 files of a stream that was printed, of each sheet those of its first copy. The trace is asked only where a sheet is as the one before."""
    numbered = zip(NUMBER_OF_SHEET.findall(printed.listing), printed.names, strict=True)
    sheets = {int(number): [name for _, name in some] for number, some in itertools.groupby(numbered, lambda each: each[0])}
    if any(are_equal(sheets[number], sheets[number - 1]) for number in sheets if number > 1):
        firsts = set(first_copies(stream))
        sheets = {number: some for number, some in sheets.items() if number in firsts}
    return [name for some in sheets.values() for name in some]


def are_equal(some, others):
    return len(some) == len(others) and all(one.read_bytes() == other.read_bytes() for one, other in zip(some, others))


def first_copies(stream):
    """The number of the first copy of each sheet that goes out, as the trace tells them."""
    for line in traced.texts(stream, runs=True):
        if (copies := DELIVERED.search(line)) is not None:
            yield int(SHEETS.search(line)[1]) - int(copies[1]) + 1
