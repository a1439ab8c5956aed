"""The state of the engine: its fields, their values after a reset, and what a call restores."""

from . import pages, pjl
from .patterns import BLACK, Patterns
from .values import POSITIONS_PER_INCH

TOP_MARGIN = 3600
BOTTOM_SPACE = 3600
DEFAULT_VMI = 1200
DEFAULT_HMI = 720
GREATEST_COUNT = 2 ** 64 - 1

SIZES_BY_NAME = {name.upper().encode(): size for name, size in pages.SIZES.items()}
ORIENTATIONS = {b"PORTRAIT": pages.PORTRAIT, b"LANDSCAPE": pages.LANDSCAPE}

# What a call restores in any case, and what it restores on an equal page alone.
KEPT = [
    "unit", "vmi", "hmi", "line_termination", "perforation_skip", "copies",
    "raster_resolution", "method", "source_width", "source_height",
    "rectangle_width", "rectangle_height", "pattern_id", "current_pattern",
    "source_opaque", "pattern_opaque", "macro_id",
]
KEPT_ON_EQUAL_PAGE = ["left_margin", "right_margin", "top_margin", "text_length"]

VIEWED = KEPT + KEPT_ON_EQUAL_PAGE + [
    "resolution", "orientation", "duplex", "binding", "stack", "overlay", "hpgl",
    "raster_on", "raster_left", "row_count", "marked", "defining", "total", "since_job",
]


class State:
    def __init__(self):
        self.pjl = pjl.Environment()
        self.total = 0
        self.since_job = 0
        self.patterns = Patterns()
        self.macros = {}
        self.permanent_macros = set()
        self.pending_front = None
        self.page = None
        self.marked = False
        self.defining = None
        self.definition = []
        self.hpgl = False
        self.reset()

    def reset(self):
        """The fields after power on, and after what resets the engine."""
        self.set_plain_fields()
        self.set_page_fields()
        self.default_margins()
        self.stack = []
        self.overlay = None
        self.hpgl = False
        self.end_raster()
        self.patterns.delete_temporary()
        self.delete_temporary_macros()
        self.defining = None
        self.definition = []
        self.home()

    def set_plain_fields(self):
        """Those that a call restores in any case, copies among them."""
        self.set_call_fields()
        self.copies = int(self.pjl.current[b"COPIES"])

    def set_call_fields(self):
        """Those that a call restores in any case, but for the copies."""
        self.unit = 300
        self.default_motion()
        self.line_termination = 0
        self.perforation_skip = True
        self.raster_resolution = 75
        self.method = 0
        self.source_width = None
        self.source_height = None
        self.rectangle_width = 0
        self.rectangle_height = 0
        self.pattern_id = 0
        self.current_pattern = (BLACK, 0)
        self.source_opaque = False
        self.pattern_opaque = False
        self.macro_id = 0

    def set_page_fields(self):
        """The size is in dots of the resolution, which the job language alone changes."""
        self.resolution = int(self.pjl.current[b"RESOLUTION"])
        self.size = SIZES_BY_NAME[self.pjl.current[b"PAPER"]].at(self.resolution)
        self.orientation = ORIENTATIONS[self.pjl.current[b"ORIENTATION"]]
        self.duplex = self.pjl.current[b"DUPLEX"] == b"ON"
        self.binding = self.pjl.current[b"BINDING"].decode()

    def default_motion(self):
        self.vmi = DEFAULT_VMI
        self.hmi = DEFAULT_HMI

    def default_margins(self):
        self.left_margin = 0
        self.right_margin = self.logical_width()
        self.top_margin = TOP_MARGIN
        self.default_text_length()

    def default_text_length(self):
        room = self.logical_length() - self.top_margin - BOTTOM_SPACE
        if self.vmi:
            room = room // self.vmi * self.vmi
        self.text_length = max(0, room)

    def logical_width(self):
        return pages.logical_page(self.size, self.orientation)[0]

    def logical_length(self):
        return pages.logical_page(self.size, self.orientation)[1]

    def unit_positions(self):
        return POSITIONS_PER_INCH // self.unit

    def end_raster(self):
        self.raster_on = False
        self.raster_left = 0
        self.row_count = 0
        self.seed = b""

    def clamp(self):
        self.x = max(0, min(self.logical_width(), self.x))
        self.y = max(-self.top_margin, min(self.logical_length() - self.top_margin, self.y))

    def place_cursor(self, x, y):
        """A row transfer and what goes with it; raster graphics goes on."""
        self.x = x
        self.y = y
        self.clamp()

    def move(self, x, y):
        """A move of the cursor, which ends raster graphics."""
        self.end_raster()
        self.place_cursor(x, y)

    def home_line(self):
        return 3 * self.vmi // 4

    def home(self):
        self.move(self.left_margin, self.home_line())

    def delete_temporary_macros(self):
        for number in set(self.macros) - self.permanent_macros:
            del self.macros[number]

    def kept(self):
        """What the end of a call needs."""
        names = KEPT + KEPT_ON_EQUAL_PAGE + ["size", "orientation"]
        return {name: getattr(self, name) for name in names}

    def restore(self, kept):
        for name in KEPT:
            setattr(self, name, kept[name])
        if (self.size, self.orientation) == (kept["size"], kept["orientation"]):
            for name in KEPT_ON_EQUAL_PAGE:
                setattr(self, name, kept[name])
        self.clamp()

    def view(self):
        """The fields that show, by name."""
        fields = {"x": self.x, "y": self.y, "size": self.size.name}
        for name in VIEWED:
            field = getattr(self, name)
            fields[name] = tuple(field) if isinstance(field, list) else field
        fields["pjl_current"] = tuple(self.pjl.current.items())
        fields["pjl_default"] = tuple(self.pjl.default.items())
        fields["pjl_status"] = self.pjl.status
        return fields
