"""A job in JDF as a ticket and images of the press: each attribute by the table of docs/JMF.md; what has no place there is refused, and named."""

import os
import re
import stat
import subprocess
from pathlib import Path
from typing import NamedTuple
from urllib.parse import unquote, urlsplit

from comparing import pictures
from model import pages
from seen import pdf, png

from . import anew, cip4
from .markup import Wrong, local, named, parsed, unknown, unknown_attribute

MOST_PAGES, MOST_DOTS = 999, 16384
BESIDE = 2          # dots at 300 that a page of a PDF may be larger or smaller than the medium, for sizes are no whole dots
RANGE = re.compile(r"(-?[0-9]{1,9})(?:\s*~\s*(-?[0-9]{1,9}))?(?:\s+|$)")


class Package(NamedTuple):
    """Where URLs lead: to parts of a package, by their names, or to files below a folder."""
    parts: dict
    files: Path     # None where no file is read
    most: int       # bytes

    def read(self, url, beside=None):
        """The bytes, and the folder beside which further names stand."""
        try:
            where = urlsplit(url)
        except ValueError as fault:
            raise Wrong(cip4.WRONG, f"{url} is no URL: {fault}") from None
        if where.scheme == "cid":
            if unquote(url[4:]) not in self.parts:
                raise Wrong(cip4.WRONG, f"no part of the package is called {url}")
            return self.parts[unquote(url[4:])], beside
        if where.scheme not in ("", "file") or where.netloc not in ("", "localhost") or self.files is None:
            raise Wrong(cip4.WRONG, f"{url} is not fetched: cid: is, and file: or a name below --files, where that is said")
        path = Path(beside or self.files, unquote(where.path))
        return self.file(url, path), path.parent

    def file(self, url, path):
        try:
            path = path.resolve(strict=True)
            if not path.is_relative_to(self.files):
                raise ValueError("it is not below --files")
            with open(path, "rb", opener=lambda name, flags: os.open(name, flags | os.O_NONBLOCK)) as file:
                if not stat.S_ISREG(os.fstat(file.fileno()).st_mode):
                    raise ValueError("it is no file")
                data = file.read(self.most + 1)
            if len(data) > self.most:
                raise ValueError(f"it has more than {self.most:,} bytes")
        except (OSError, ValueError) as fault:
            raise Wrong(cip4.WRONG, f"{url} cannot be read: {getattr(fault, 'strerror', None) or fault}") from None
        return data


def job_of(url, package, folder):
    """The ticket, and its images, which are made in the folder."""
    data, beside = package.read(url)
    root = parsed(data, "JDF")
    kinds = root.get("Types", "").split() if root.get("Type") == "Combined" else [root.get("Type")]
    if "DigitalPrinting" not in kinds:
        raise Wrong(cip4.NO_NODE, f'it is a node of {root.get("Type")}')
    lacking = next((kind for kind in kinds if kind not in cip4.TYPES), None)
    if lacking := lacking or unknown_attribute(root, cip4.KNOWN, cip4.ANYWHERE) or unknown(root, cip4.KNOWN, cip4.ANYWHERE, cip4.PASSED_OVER):
        raise Wrong(cip4.INCAPABLE, f"{lacking} has no place in a ticket")
    linked = resources(root)
    ticket = {"Version": root.get("Version", ""), "Type": "DigitalPrinting", "JobID": root.get("JobID", ""), "Amount": amount(linked), **settings(linked)}
    if "RunList" not in linked:
        raise Wrong(cip4.LACKING, "no RunListLink links a RunList")
    size = pages.SIZES[ticket.get("Media", "Letter")].at(ticket.get("Resolution", 300))
    images, pairs = [], []
    for leaf in leaves(linked["RunList"][1]):
        some = images_of(package.read(file_of(leaf), beside)[0], size, folder)
        pairs += pages_of(leaf, len(some), len(images))
        if len(images) + len(some) > MOST_PAGES:
            raise Wrong(cip4.INCAPABLE, f"a ticket has at most {MOST_PAGES} pages")
        images += [name_image(folder, len(images) + number, image) for number, image in enumerate(some)]
    return {**ticket, "NPage": len(images), "RunList": joined(pairs)}, images


def resources(root):
    """The resources that are linked, by their kinds, each with its link."""
    found, linked = {each.get("ID"): each for each in root.iterfind(f"{named('ResourcePool')}/*")}, {}
    for link in root.iterfind(f"{named('ResourceLinkPool')}/*"):
        kind = local(link).removesuffix("Link")
        if local(link) in cip4.PASSED_OVER:
            continue
        if link.get("Usage", usage := "Output" if kind == "Component" else "Input") != usage:
            raise Wrong(cip4.INCAPABLE, f'{kind}Link/@Usage="{link.get("Usage")}" has no place in a ticket')
        if kind in linked:
            raise Wrong(cip4.INCAPABLE, f"a second {kind}Link has no place in a ticket")
        if link.get("rRef") not in found or local(found[link.get("rRef")]) != kind:
            raise Wrong(cip4.LACKING, f'{kind}Link/@rRef="{link.get("rRef")}" links no {kind}')
        linked[kind] = link, found[link.get("rRef")]
    return linked


def amount(linked):
    said = linked["Component"][0].get("Amount", "1") if "Component" in linked else "1"
    if not re.fullmatch(r"[0-9]{1,9}(\.0*)?", said):
        raise Wrong(cip4.WRONG, f'ComponentLink/@Amount="{said}" is no whole number')
    return int(said.partition(".")[0])


def settings(linked):
    """The keys of a ticket that stand in attributes of resources; one that stands twice says the same."""
    found = {}
    for place, key, _ in cip4.PLACES:
        kind, _, name = place.partition("/@")
        owner = "RenderingParams" if kind == "ObjectResolution" else kind
        if key not in (*cip4.VALUES, "Media") or owner not in linked:
            continue
        for element in linked[owner][1].iter(named(kind)):
            if (said := element.get(name)) is None:
                continue
            value = medium(said) if key == "Media" else cip4.VALUES[key].get(said)
            if value is None or found.setdefault(key, value) != value:
                raise Wrong(cip4.INCAPABLE, f'{place}="{said}" has no place in a ticket' if value is None else f'{place}="{said}" is another than before')
    return found


def medium(said):
    """The medium of a size in points, to either side."""
    if not re.fullmatch(r"\s*[0-9]{1,6}(\.[0-9]*)?\s+[0-9]{1,6}(\.[0-9]*)?\s*", said):
        return None
    sides = sorted(map(float, said.split()))
    return next((name for name, points in cip4.POINTS.items() if all(abs(one - other) <= cip4.NEAR for one, other in zip(sides, points))), None)


def leaves(runs):
    """The partitions of a RunList, or itself."""
    parts = runs.findall(named("RunList"))
    if parts and (runs.get("Pages") or runs.get("NPage")):
        raise Wrong(cip4.INCAPABLE, "RunList/@Pages, or NPage, of several partitions has no place in a ticket")
    return [leaf for part in parts for leaf in leaves(part)] or [runs]


def file_of(leaf):
    files = list(leaf.iter(named("FileSpec")))
    if len(files) != 1 or not files[0].get("URL"):
        raise Wrong(cip4.LACKING, "a RunList has one FileSpec/@URL")
    return files[0].get("URL")


def pages_of(leaf, count, before):
    """The pairs of pages of a file with so many, behind those of the files before."""
    if leaf.get("NPage", str(count)) != str(count):
        raise Wrong(cip4.WRONG, f'RunList/@NPage="{leaf.get("NPage")}", and its file has {count}')
    said, place = leaf.get("Pages", "0 ~ -1").strip(), 0
    while place < len(said) or not place:
        found = RANGE.match(said, place)
        pair = [number + count * (number < 0) for number in (int(found[1]), int(found[2] or found[1]))] if found else [count]
        if not all(0 <= number < count for number in pair):
            raise Wrong(cip4.WRONG, f'RunList/@Pages="{said}", and its file has the pages 0 to {count - 1}')
        yield [number + before for number in pair]
        place = found.end()


def joined(pairs):
    """Pairs of which one begins behind the other are one."""
    made = []
    for first, last in pairs:
        if made and made[-1][0] <= made[-1][1] == first - 1 and first <= last:
            made[-1][1] = last
        else:
            made.append([first, last])
    return made


def name_image(folder, number, image):
    path = folder / f"{number}.pbm"
    path.write_bytes(image)
    return path


def images_of(data, size, folder):
    """The P4 images of a file's pages."""
    try:
        if data.startswith(b"%PDF"):
            return drawn(data, size, folder)
        if data.startswith(pictures.PNG):
            if max(int.from_bytes(data[place:place + 4], "big") for place in (16, 20)) > MOST_DOTS:
                raise ValueError(f"it has a side of more than {MOST_DOTS:,} dots")
            data = pictures.p4_of_png("a PNG", data)
        return taken(data)
    except (OSError, ValueError, subprocess.SubprocessError) as fault:
        raise Wrong(cip4.WRONG, f"FileSpec/@URL: {fault}") from None


def taken(data):
    """P4 images as they are, one after another."""
    images, place = [], 0
    while (place < len(data) or not place) and len(images) <= MOST_PAGES:
        header = png.HEADER.match(data, place)
        width, height = map(int, header.groups()) if header else (0, 0)
        length = (width + 7) // 8 * height
        if not 0 < width <= MOST_DOTS or not 0 < height <= MOST_DOTS or len(data) < header.end() + length:
            raise ValueError("it is neither a PDF nor a P4 file nor a PNG, or ends too early")
        place = header.end() + length
        images.append(b"P4\n%d %d\n" % (width, height) + data[header.end():place])
    return images


def drawn(data, size, folder):
    """The pages of a PDF by Ghostscript, at the resolution of the ticket: each as large as the medium, and with nothing beside the logical page."""
    name, images, near = folder / "in.pdf", [], BESIDE * size.resolution // pages.FACTORY_RESOLUTION
    name.write_bytes(data)
    for number, page in enumerate(pictures.drawn(name, pdf.Page(size.width, range(size.height), size.resolution), f"-dLastPage={MOST_PAGES + 1}")):
        if max(abs(page.width - size.width), abs(len(page.rows) - size.height)) > near:
            raise Wrong(cip4.INCAPABLE, f"page {number} of the PDF has {page.width} x {len(page.rows)} dots, and {size.name} {size.width} x {size.height}")
        image, beside = anew.cut(page, size)
        if beside:
            raise Wrong(cip4.INCAPABLE, f"page {number} of the PDF has {beside:,} dots beside the logical page, where no image of a ticket lies")
        images.append(image)
    name.unlink()
    return images
