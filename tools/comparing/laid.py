"""One HTML page of sides that differ: both over one another, and a click leads to the commands of either stream. Nothing is fetched from elsewhere."""

from pathlib import Path

from seen import page_html, png, shown
from seen.printable import printable

from . import told

MOST_REGIONS = 60    # of a side, whose commands the page tells
HERE = Path(__file__).parent
SCRIPTS = [*(page_html.HERE / name for name in ("film.js", "dots.js", "list.js", "view.js")), HERE / "laid.js"]


def page(names, facts, lines, found):
    """The text of the file: of the names of both streams, what is told of all, the lines on what has no picture, and what is told of the sides."""
    data = {"facts": facts, "lines": lines, "most": MOST_REGIONS, "sides": [side_value(each, regions) for each, regions in found if regions]}
    return "".join(page_html.filled(HERE / "laid.html", SCRIPTS, printable(" and ".join(names)), data))


def side_value(each, regions):
    """What the page shows of a side; regions of which nothing is told stand behind the others."""
    resolution = told.RESOLUTIONS[each.old.width, each.old.height]
    rest = [told.Told(region, None, None, []) for region in each.regions[len(regions):]]
    return {"label": told.name_of(each.old), "counts": told.counts_of(each), "width": each.old.width, "height": each.old.height, "resolution": resolution,
            "old": packed_dots(each.old.path), "new": packed_dots(each.new.path),
            "regions": [region_value(region, resolution, True) for region in regions] + [region_value(region, resolution, False) for region in rest]}


def packed_dots(path):
    data = path.read_bytes()
    return shown.packed(data[png.HEADER.match(data).end():])


def region_value(region, resolution, is_told):
    both = [{"which": which, "shade": shade, "command": maker and maker.as_json(), "lacks": told.NO_COMMAND} for which, shade, maker in region.both()]
    return {"box": region.region.box._asdict(), "what": region.what(resolution), "told": both if is_told else [], "movers": list(region.places())}
