"""One HTML file of a stream: its commands, explained, beside its pages behind each step. Nothing is fetched from elsewhere."""

import html
import json
import re
from pathlib import Path

from model import pages

from . import fields, shown

HERE = Path(__file__).parent
SCRIPTS = ("film.js", "dots.js", "list.js", "view.js", "page.js", "paper.js")


def sizes():
    """The sizes of paper by their numbers, in dots of 300 per inch."""
    return {number: {"width": size.width, "height": size.height, "portrait": size.portrait_offset, "landscape": size.landscape_offset}
            for number, size in ((number, pages.SIZES[name]) for number, name in fields.SIZES.items())}


def filled(template, names, title, data):
    """A page of its template, which is its style and its body: with its title, the scripts of these files, and what they show; in pieces."""
    style, _, body = template.read_text(encoding="utf-8").partition("<body>\n")
    framed = (HERE / "frame.html").read_text(encoding="utf-8").replace("STYLE", style).replace("BODY", body)
    scripts = "\n".join(Path(name).read_text(encoding="utf-8").replace('"use strict";\n', "", 1) for name in names)
    places = {"TITLE": html.escape(title), "SCRIPTS": '"use strict";\n' + scripts, "COMMON": (HERE / "common.css").read_text(encoding="utf-8")}
    for part in re.split("(TITLE|DATA|SCRIPTS|COMMON)", framed):
        if part == "DATA":
            yield from spelled(data)
        else:
            yield places.get(part, part)


def spelled(data):
    """An object as JSON, each of its members, and each of what stands in a list of it, a piece."""
    begins = "{"
    for name, value in data.items():
        yield f"{begins}{as_json(name)}:"
        yield from listed(value) if type(value) is list and value else [as_json(value)]
        begins = ","
    yield "}"


def listed(some):
    begins = "["
    for value in some:
        yield begins + as_json(value)
        begins = ","
    yield "]"


def as_json(value):
    return json.dumps(value, separators=(",", ":")).replace("<", "\\u003c")


def pieces(stream, front, chosen, name):
    """The text of the file, in pieces."""
    data = {**shown.data_of(stream, front, chosen, name), "sizes": sizes()}
    return filled(HERE / "show.html", [HERE / script for script in SCRIPTS], name, data)


def page(stream, front, chosen, name):
    return "".join(pieces(stream, front, chosen, name))
