"""Why an image is no P4 file that the press reads."""

from model import pbm

from . import files, kinds
from .finding import Found, ordinal

UNREADABLE = 114
HOW = "Netpbm writes P4: anytopnm picture | ppmtopgm | pgmtopbm > page.pbm"


def read_image(place, name):
    """Width and rows of the image in this place, from 0."""
    what = f"{ordinal(place)} image"
    if name == "":
        raise Found(files.NOT_OPENED, f"the name of the {what} is empty", "Give the name of a P4 file")
    data = files.read_input(name, what, UNREADABLE)
    return image_of(what, name, data)


def image_of(what, name, data):
    try:
        width, rows, _ = pbm.read(data)
        return width, rows
    except pbm.Refused as refused:
        raise judged(refused.number, f"{what} {name}", data) from None


def judged(number, shown, data):
    if number == pbm.NOT_PBM:
        kind = kinds.kind_of(data)
        is_what = f" is {kind}, and no P4 file" if kind and kind != "a P4 picture" else " is no P4 file: its header is none"
        return Found(number, shown + is_what, HOW)
    header = pbm.HEADER.match(data[:pbm.LONGEST_HEADER])
    if number == pbm.BAD_SIZE:
        width, height = (part.decode() for part in header.groups())
        return Found(number, f"{shown} says that it has {width} x {height} dots", "Each side has 1 to 16,384 dots: scale or cut it")
    if not data:
        return Found(number, f"{shown} is empty", "Make it again; " + HOW)
    if header is None:
        return Found(number, f"{shown} ends within its header, after {len(data):,} bytes", "Copy or make it again")
    width, height = map(int, header.groups())
    wanted = header.end() + height * ((width + 7) // 8)
    return Found(number, f"{shown} ends after {len(data):,} of {wanted:,} bytes", "It was cut: copy or make it again")
