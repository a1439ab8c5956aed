"""The folder of a job that was printed: what has to stand in it, of its stream."""

import tempfile
from pathlib import Path

from seen import pages_of, pdf

FILES = {"job.txt", "listing.txt", "replies.txt", "stream.prn"}


def wrong_folder(folder, stream, has_why):
    """The complaints about its files: the pages that the press prints of the stream, their pictures and PDF, listing and replies, and why.txt or none."""
    with tempfile.TemporaryDirectory() as path:
        wanted = pages_of.print_into(Path(path), stream)
        sides = [name.read_bytes() for name in wanted.names]
        whole = pdf.pdf(map(pages_of.page_of, wanted.names)) if sides else None
    found = {path.name: path.read_bytes() for path in folder.iterdir()}
    names = FILES | {f"page-{number}.{kind}" for number in range(1, len(sides) + 1) for kind in ("pbm", "png")}
    if set(found) != names | ({"why.txt"} if has_why else set()) | ({"pages.pdf"} if sides else set()):
        yield f"it has {sorted(found)}"
        return
    if [found[f"page-{number}.pbm"] for number in range(1, len(sides) + 1)] != sides or found.get("pages.pdf") != whole:
        yield "its pages are others than the press prints"
    if (found["listing.txt"], found["replies.txt"], found["stream.prn"]) != (wanted.listing, wanted.replies, stream):
        yield "its listing, its replies or its stream are others"
