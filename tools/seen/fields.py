"""The fields of a stream's state behind a step, by the names that the tools use, from the `view` of the lines of a trace."""

import functools

from model import pages
from model.values import POSITIONS_PER_INCH

from . import program, traced
from .names import SIZES

BINDINGS = {1: "LONGEDGE", 2: "SHORTEDGE"}
NAMES = {
    "drawing": {"height": "rectangle_height", "width": "rectangle_width", "id": "pattern_id", "pattern_opaque": "pattern_opaque",
                "source_opaque": "source_opaque"},
    "macros": {"defining": "defining", "id": "macro_id", "overlay": "overlay"},
    "margins": {"left": "left_margin", "right": "right_margin", "top": "top_margin", "text_length": "text_length"},
    "page": {"duplex": "duplex", "marked": "marked", "orientation": "orientation", "resolution": "resolution"},
    "raster": {"method": "method", "resolution": "raster_resolution", "height": "source_height", "width": "source_width"},
    "settings": {"copies": "copies", "horizontal_motion": "hmi", "vertical_motion": "vmi", "hp_gl": "hpgl", "page_status": "pjl_status",
                 "perforation_skip": "perforation_skip", "sheets_of_job": "since_job"},
}
# In the order in which changes are told.
ORDER = [
    "x", "y", "size", "unit", "vmi", "hmi", "line_termination", "perforation_skip", "copies", "raster_resolution", "method", "source_width",
    "source_height", "rectangle_width", "rectangle_height", "pattern_id", "current_pattern", "source_opaque", "pattern_opaque", "macro_id",
    "left_margin", "right_margin", "top_margin", "text_length", "resolution", "orientation", "duplex", "binding", "stack", "overlay", "hpgl",
    "raster_on", "raster_left", "row_count", "marked", "defining", "total", "since_job", "pjl_current", "pjl_default", "pjl_status",
]

MOST_KNOWN = 500
OWN = ["x", "y", "row_count", "total"]   # of these those that change at most steps


def variables(told):
    """The job language's variables as pairs of name and value, in its own words."""
    return (
        (b"COPIES", b"%d" % told["copies"]), (b"PAPER", SIZES[told["page_size"]].upper().encode()),
        (b"ORIENTATION", (b"PORTRAIT", b"LANDSCAPE")[told["orientation"]]), (b"DUPLEX", b"ON" if told["duplex"] else b"OFF"),
        (b"BINDING", BINDINGS[told["binding"]].encode()), (b"RESOLUTION", b"%d" % told["resolution"]))


class Now:
    """The fields behind a step by their names. Those that change at most steps stand by themselves; the others are shared by all steps with the same."""

    __slots__ = ("base", "x", "y", "total", "row_count")

    def __init__(self, base, x, y, total, row_count):
        self.base, self.x, self.y, self.total, self.row_count = base, x, y, total, row_count

    def __getitem__(self, name):
        return self.base[name] if name in self.base else getattr(self, name)

    def own(self):
        return {"x": self.x, "y": self.y, "total": self.total, "row_count": self.row_count}

    def is_other(self, after):
        """Whether one that stands behind it, by the same base, is another."""
        return self.y != after.y or self.x != after.x or self.row_count != after.row_count or self.total != after.total


class Fields:
    """All fields, line by line. `now` is replaced, and never written into."""

    def __init__(self):
        self.view = {}
        self.now = Now({}, 0, 0, 0, 0)
        self.is_late = False   # whether the view has another number of rows than there are now
        self.known = {}        # what follows fields by what is told, and fields by their values: most streams go to and fro between a few

    def whole_view(self):
        """The objects of the view, with all that was told."""
        if self.is_late:
            self.view["raster"], self.is_late = {**self.view["raster"], "rows": self.now.row_count}, False
        return self.view

    def go_on(self, line):
        """The fields behind this line."""
        base, row_count, view = self.now.base, self.now.row_count, line.get("view")
        if view:
            self.whole_view()
            for name, told in view.items():
                self.view[name] = {**self.view.get(name, {}), **told}
            row_count = self.view["raster"]["rows"] or 0
            if view.keys() != {"raster"} or view["raster"].keys() != {"rows"} or view["raster"]["rows"] is None:
                base = self.base_behind(base, view)
        self.now = Now(base, line["x"], line["y"], line["sheets"], row_count)
        return self.now

    def base_behind(self, base, view):
        """The fields that change seldom, behind what is told of them."""
        (name, told), *others = view.items()
        key = None if others or len(told) > 2 or name == "cursor" else (id(base), name, *told.items())
        if key in self.known:
            return self.known[key][1]
        new = {**base, **named(view, self.view)}
        if key is not None:
            if len(self.known) > MOST_KNOWN:
                self.known.clear()
            new = self.known.setdefault(tuple(new.values()), new)
            self.known[key] = base, new
        return new

    def go_on_row(self, x, y, sheets, count):
        """The fields behind a row within raster graphics, which changes the cursor and the number of rows alone."""
        before = self.now
        if count is None:
            count = before.row_count
        else:
            self.is_late = True
        now = self.now = Now(before.base, x, y, sheets, count)
        return now


def named(told, view):
    """The fields of the objects in which something is told, by their names."""
    found = {}
    for name in told:
        found.update((NAMES[name][key], value) for key, value in view[name].items() if key in NAMES.get(name, ()))
        if name in OTHERS:
            found.update(OTHERS[name](view[name]))
    return found


OTHERS = {
    "current": lambda told: {"pjl_current": variables(told)},
    "default": lambda told: {"pjl_default": variables(told)},
    "cursor": lambda told: {"stack": tuple(map(tuple, told["pushed"]))},
    "drawing": lambda told: {"current_pattern": (told["pattern_kind"], told["pattern"])},
    "page": lambda told: {"size": SIZES[told["size"]], "binding": BINDINGS[told["binding"]]},
    "raster": lambda told: {"raster_on": told["left"] is not None, "raster_left": told["left"] or 0},
    "settings": lambda told: {"unit": POSITIONS_PER_INCH // told["unit"],
                              "line_termination": told["feed_after_return"] + 2 * told["return_before_feed"]},
}


PLACES = {name: place for place, name in enumerate(ORDER)}


def changes(before, after):
    """Name, value before and value after of each field that is another."""
    found = [(name, getattr(before, name), getattr(after, name)) for name in OWN if getattr(before, name) != getattr(after, name)]
    if before.base is not after.base:
        new = after.base
        found += [(name, old, new[name]) for name, old in before.base.items() if old != new[name]]
        found.sort(key=lambda change: PLACES[change[0]])
    return tuple(found)


class State:
    """Fields as those of the model's state, for what asks where rows and fills go."""

    def __init__(self, now):
        self.__dict__.update(now.base)
        self.__dict__.update(now.own())
        self.size = pages.SIZES[now["size"]].at(now["resolution"])

    def logical_width(self):
        return pages.logical_page(self.size, self.orientation)[0]

    def logical_length(self):
        return pages.logical_page(self.size, self.orientation)[1]


@functools.cache
def power_on(chosen=program.PROGRAM):
    """The fields before the first command: those behind the exit of an empty stream."""
    return next(traced.lines(b"", chosen))
