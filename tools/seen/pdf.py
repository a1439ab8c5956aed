"""Pages as a PDF of their true size: one bit a dot, packed by zlib, and nothing else on a page."""

import zlib
from typing import NamedTuple

POINTS_PER_INCH = 72
# A picture is drawn so many points inside of its page at each edge, less than a hundredth of a dot: renderers that give a picture each dot
# that it touches would else give it one more than it has, and smear them.
INSIDE = 0.0005
PACKED = 4        # of zlib: of a halftone a tenth of the time of 9, and a file 6 per cent larger; of a page with little on it half as large again
LESS = 0.0001   # of a side that is no whole number of points, so that its dots are not rounded up to one more


class Page(NamedTuple):
    """Rows of bytes, the most significant bit left, 1 black; the resolution in dots per inch."""
    width: int
    rows: list
    resolution: int


def size_of(page):
    """Width and height in points."""
    sides = (dots * POINTS_PER_INCH / page.resolution for dots in (page.width, len(page.rows)))
    return tuple(side if side == int(side) else side - LESS for side in sides)


def number(points):
    """With as many digits as tell the dots apart."""
    return f"{points:.5f}".rstrip("0").rstrip(".")


def image_of(page):
    """The object of a picture; its bit 1 is black."""
    data = zlib.compress(b"".join(page.rows), PACKED)
    head = (f"<</Type/XObject/Subtype/Image/Width {page.width}/Height {len(page.rows)}/BitsPerComponent 1/ColorSpace/DeviceGray"
            f"/Decode[1 0]/Filter/FlateDecode/Length {len(data)}>>")
    return head.encode() + b"\nstream\n" + data + b"\nendstream"


def objects_of_page(first, page):
    """The three objects of a page from this number on: the page, what it draws, and its picture."""
    width, height = size_of(page)
    across, down = (number(side - 2 * INSIDE) for side in (width, height))
    drawn = f"q {across} 0 0 {down} {number(INSIDE)} {number(INSIDE)} cm /Dots Do Q".encode()
    yield (f"<</Type/Page/Parent 2 0 R/MediaBox[0 0 {number(width)} {number(height)}]/Contents {first + 1} 0 R"
           f"/Resources<</XObject<</Dots {first + 2} 0 R>>>>>>").encode()
    yield b"<</Length %d>>\nstream\n" % len(drawn) + drawn + b"\nendstream"
    yield image_of(page)


def pdf(pages):
    """The bytes of a file of these pages, which may come one by one: the catalogue is object 1, the list of pages object 2, and stands last."""
    made, places, count = bytearray(b"%PDF-1.4\n%\xe2\xe3\xcf\xd3\n"), {}, 0

    def add(place, content):
        places[place] = len(made)
        made.extend(b"%d 0 obj\n" % place + content + b"\nendobj\n")

    for count, page in enumerate(pages, 1):
        for place, content in enumerate(objects_of_page(3 * count, page), 3 * count):
            add(place, content)
    kids = " ".join(f"{3 * each} 0 R" for each in range(1, count + 1))
    add(1, b"<</Type/Catalog/Pages 2 0 R>>")
    add(2, f"<</Type/Pages/Kids[{kids}]/Count {count}>>".encode())
    start = len(made)
    made += b"xref\n0 %d\n0000000000 65535 f \n" % (len(places) + 1)
    made += b"".join(b"%010d 00000 n \n" % places[place] for place in sorted(places))
    return bytes(made + b"trailer\n<</Size %d/Root 1 0 R>>\nstartxref\n%d\n%%%%EOF\n" % (len(places) + 1, start))
