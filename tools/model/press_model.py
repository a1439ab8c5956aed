#!/usr/bin/env python3
"""Prints the listing of a stream as the program does: a line a side, then the replies."""

import argparse
import sys
from pathlib import Path

if __package__ in (None, ""):
    # Run as a script: the package's folder leaves the path, so that no module of it hides a standard one.
    sys.path[0] = str(Path(__file__).resolve().parent.parent)

from model import pages, pbm, runs  # noqa: E402


def parser():
    words = argparse.ArgumentParser(description=__doc__)
    words.add_argument("file", nargs="?", default="-", help="the stream; - is standard input")
    words.add_argument("--state", action="store_true", help="prints the fields at the end, too")
    words.add_argument("--trace", action="store_true", help="prints a line for each table step")
    words.add_argument("--pages", metavar="TEMPLATE",
                       help="writes each side to a P4 file; %%d in the name is its number")
    return words


def read(name):
    return sys.stdin.buffer.read() if name == "-" else Path(name).read_bytes()


def write_pages(sheets, template):
    sides = [side for sheet in sheets for _, side in sheet.sides()]
    for number, side in enumerate(sides, 1):
        Path(template.replace("%d", str(number))).write_bytes(pbm.bytes_of_rows(side.physical_rows()))


def main():
    words = parser().parse_args()
    stream = read(words.file)
    outcome = runs.run_stream(stream)
    out = sys.stdout.buffer
    if words.trace:
        for item in runs.trace(stream):
            out.write(b"%d depth %d %s %s x %d y %d outputs %d\n" % (
                item.step, item.depth, item.kind.encode(), item.last.encode(),
                item.view["x"], item.view["y"], len(item.outputs)))
    out.write(pages.listing(outcome.sheets, outcome.replies))
    if words.state:
        for name, field in outcome.engine.state.view().items():
            out.write(("%s %s\n" % (name, field)).encode())
    if words.pages:
        write_pages(outcome.sheets, words.pages)
    return 0


if __name__ == "__main__":
    sys.exit(main())
