"""Fields of the engine: what a reset, a call and an overlay make of each."""

from . import switch

# What a call restores: the field, how a sentence names it, and its value after a reset.
FIELDS = [
    ("unit", "the unit of measure", "300"),
    ("vmi", "the motion index down", "1200"),
    ("hmi", "the motion index across", "720"),
    ("line_termination", "the line termination", "0"),
    ("perforation_skip", "the perforation skip", "True"),
    ("raster_resolution", "the resolution of raster graphics", "75"),
    ("method", "the method of rows", "0"),
    ("source_width", "the source width", "None"),
    ("source_height", "the source height", "None"),
    ("rectangle_width", "the width of rectangles", "0"),
    ("rectangle_height", "the height of rectangles", "0"),
    ("pattern_id", "the pattern ID", "0"),
    ("current_pattern", "the current pattern", "(0, 0)"),
    ("source_opaque", "the source transparency", "False"),
    ("pattern_opaque", "the pattern transparency", "False"),
    ("macro_id", "the macro ID", "0"),
]
MARGINS = [
    ("left_margin", "the left margin"),
    ("right_margin", "the right margin"),
    ("top_margin", "the top margin"),
    ("text_length", "the text length"),
]
# What a call does not restore. Of a pair of fields both are put back.
CHANGED = [
    (["size"], "the page size"),
    (["orientation"], "the orientation"),
    (["duplex"], "the sides"),
    (["x"], "the cursor across"),
    (["y"], "the cursor down"),
    (["stack"], "the stack of cursors"),
    (["overlay"], "the overlay"),
    (["hpgl"], "the other language of sequences"),
    (["macros", "permanent_macros"], "the macros"),
    (["pending_front"], "the front that waits"),
]


def word(field):
    return field.replace("_", "-")


PLAIN = "        self.set_plain_fields()\n"
OVERLAID = "    state.set_call_fields()\n    state.default_margins()\n"
LEFT = "    engine.level = level\n    state.end_raster()\n    state.restore(kept)\n"
CALLED = "        state.end_raster()\n        yield from run_macro(engine, body)\n        state.end_raster()\n        state.restore(kept)\n"
SWITCHES = [switch(f"reset-leaves-{word(field)}", f"A reset sets {named} to what it is after power on.",
                   "state", PLAIN, f"        old = getattr(self, {field!r}, {value})\n{PLAIN}        self.{field} = old\n")
            for field, named, value in FIELDS]
SWITCHES += [switch(f"call-leaves-{word(field)}", f"The end of a call restores {named}.",
                    "state", "        for name in KEPT:\n            setattr(self, name, kept[name])\n",
                    f"        for name in KEPT:\n            setattr(self, name, kept[name] if name != {field!r} or not called else self.{field})\n",
                    "state", "    def restore(self, kept):\n", "    def restore(self, kept, called=False):\n",
                    "macros", "        state.end_raster()\n        state.restore(kept)\n", "        state.end_raster()\n        state.restore(kept, True)\n")
             for field, named, _ in [*FIELDS, ("copies", "the number of copies", "1")]]
SWITCHES += [switch(f"call-leaves-{word(field)}", f"The end of a call on an equal page restores {named}.",
                    "state", "            for name in KEPT_ON_EQUAL_PAGE:\n", f"            for name in [name for name in KEPT_ON_EQUAL_PAGE if name != {field!r} or not called]:\n",
                    "state", "    def restore(self, kept):\n", "    def restore(self, kept, called=False):\n",
                    "macros", "        state.end_raster()\n        state.restore(kept)\n", "        state.end_raster()\n        state.restore(kept, True)\n")
             for field, named in MARGINS]
SWITCHES += [switch(f"call-restores-{word(fields[0])}", f"The end of a call does not restore {named}.",
                    "macros", CALLED, "        back = {name: copied(getattr(state, name)) for name in %r}\n%s        for name, old in back.items():\n            setattr(state, name, old)\n"
                    % (fields, CALLED) + ("        state.clamp()\n" if fields[0] in "xy" else ""),
                    "macros", "MOST_LEVELS = 2\n", "MOST_LEVELS = 2\n\n\ndef copied(value):\n    return type(value)(value) if isinstance(value, (list, dict, set)) else value\n\n\n")
             for fields, named in CHANGED]
SWITCHES += [switch(f"overlay-begins-with-{word(field)}", f"An overlay begins with {named} of a reset, whatever it is on the page.",
                    "macros", OVERLAID, f"    old = state.{field}\n{OVERLAID}    state.{field} = old\n") for field, named, _ in FIELDS]
SWITCHES += [switch(f"overlay-begins-with-{word(field)}", f"An overlay begins with {named} of a reset, whatever it is on the page.",
                    "macros", OVERLAID, f"    old = state.{field}\n{OVERLAID}    state.{field} = old\n") for field, named in MARGINS if field != "text_length"]
SWITCHES += [switch(f"overlay-leaves-{word(field)}", f"The end of an overlay restores {named} of the page.",
                    "macros", LEFT, f"{LEFT[:-len('    state.restore(kept)') - 1]}    kept[{field!r}] = state.{field}\n    state.restore(kept)\n")
             for field, named in [*((field, named) for field, named, _ in FIELDS), ("copies", "the number of copies"), *MARGINS]]
SWITCHES += [switch(f"overlay-restores-{word(fields[0])}", f"The end of an overlay does not restore {named}.",
                    "macros", LEFT, "%s    for name in %r:\n        setattr(state, name, back[name])\n" % (LEFT, fields),
                    "macros", OVERLAID, "    back = {name: copied(getattr(state, name)) for name in %r}\n%s" % (fields, OVERLAID),
                    "macros", "MOST_LEVELS = 2\n", "MOST_LEVELS = 2\n\n\ndef copied(value):\n    return type(value)(value) if isinstance(value, (list, dict, set)) else value\n\n\n")
             for fields, named in CHANGED if fields[0] in ("stack", "overlay", "hpgl", "macros")]

SWITCHES += [
    # the rest of a reset
    switch("reset-leaves-copies", "A reset sets the number of copies to that of the job language.",
           "state", "        self.copies = int(self.pjl.current[b\"COPIES\"])\n", "        self.copies = getattr(self, \"copies\", 1)\n"),
    switch("reset-makes-one-copy", "A reset sets the number of copies to that of the job language, and not to 1.",
           "state", "        self.copies = int(self.pjl.current[b\"COPIES\"])\n", "        self.copies = 1\n"),
    switch("reset-leaves-page-size", "A reset sets the page size to that of the job language.",
           "state", "        self.size = SIZES_BY_NAME[self.pjl.current[b\"PAPER\"]].at(self.resolution)\n",
           "        self.size = pages.SIZES[self.size.name if hasattr(self, \"size\") else \"Letter\"].at(self.resolution)\n"),
    switch("reset-makes-letter", "A reset sets the page size to that of the job language, and not to Letter.",
           "state", "SIZES_BY_NAME[self.pjl.current[b\"PAPER\"]].at", "SIZES_BY_NAME[b\"LETTER\"].at"),
    switch("reset-leaves-orientation", "A reset sets the orientation to that of the job language.",
           "state", "        self.orientation = ORIENTATIONS[self.pjl.current[b\"ORIENTATION\"]]\n", "        self.orientation = getattr(self, \"orientation\", 0)\n"),
    switch("reset-makes-portrait", "A reset sets the orientation to that of the job language, and not to portrait.",
           "state", "        self.orientation = ORIENTATIONS[self.pjl.current[b\"ORIENTATION\"]]\n", "        self.orientation = 0\n"),
    switch("reset-leaves-sides", "A reset sets the sides to those of the job language.",
           "state", "        self.duplex = self.pjl.current[b\"DUPLEX\"] == b\"ON\"\n", "        self.duplex = getattr(self, \"duplex\", False)\n"),
    switch("reset-makes-simplex", "A reset sets the sides to those of the job language, and not to simplex.",
           "state", "        self.duplex = self.pjl.current[b\"DUPLEX\"] == b\"ON\"\n", "        self.duplex = False\n"),
    switch("reset-makes-300", "A reset leaves the resolution at that of the job language.",
           "state", "        self.resolution = int(self.pjl.current[b\"RESOLUTION\"])\n", "        self.resolution = 300\n"),
    switch("reset-leaves-left-margin", "A reset sets the left margin to 0.",
           "state", "        self.default_margins()\n        self.stack = []\n", "        old = getattr(self, \"left_margin\", 0)\n        self.default_margins()\n        self.left_margin = old\n        self.stack = []\n"),
    switch("reset-leaves-right-margin", "A reset sets the right margin to the end of the logical page.",
           "state", "        self.default_margins()\n        self.stack = []\n", "        old = getattr(self, \"right_margin\", 1 << 30)\n        self.default_margins()\n        self.right_margin = min(old, self.right_margin)\n        self.stack = []\n"),
    switch("reset-leaves-top-margin", "A reset sets the top margin to half an inch.",
           "state", "        self.default_margins()\n        self.stack = []\n", "        old = getattr(self, \"top_margin\", 3600)\n        self.default_margins()\n        self.top_margin = old\n        self.stack = []\n"),
    switch("reset-leaves-text-length", "A reset sets the text length to its default.",
           "state", "        self.default_margins()\n        self.stack = []\n", "        old = getattr(self, \"text_length\", None)\n        self.default_margins()\n        self.text_length = old or self.text_length\n        self.stack = []\n"),
    switch("reset-leaves-stack", "A reset empties the stack of cursors.", "state", "        self.stack = []\n", "        self.stack = getattr(self, \"stack\", [])\n"),
    switch("reset-leaves-overlay", "A reset puts the overlay off.", "state", "        self.overlay = None\n", "        self.overlay = getattr(self, \"overlay\", None)\n"),
    switch("reset-leaves-cursor", "A reset puts the cursor home.",
           "state", "        self.definition = []\n        self.home()\n", "        self.definition = []\n        self.move(*((self.x, self.y) if hasattr(self, \"x\") else (self.left_margin, self.home_line())))\n"),
    switch("reset-leaves-temporary-patterns", "A reset deletes temporary patterns.", "state", "        self.patterns.delete_temporary()\n", ""),
    switch("reset-deletes-permanent-patterns", "A reset leaves permanent patterns.", "state", "        self.patterns.delete_temporary()\n", "        self.patterns.delete_all()\n"),
    switch("reset-leaves-temporary-macros", "A reset deletes temporary macros.", "state", "        self.delete_temporary_macros()\n", ""),
    switch("reset-deletes-permanent-macros", "A reset leaves permanent macros.", "state", "        self.delete_temporary_macros()\n", "        self.macros.clear()\n        self.permanent_macros.clear()\n"),
    switch("reset-leaves-raster-on", "A reset puts raster graphics off.",
           "engine", "        self.state.reset()\n        self.new_page()\n", "        on = self.state.raster_on\n        self.state.reset()\n        self.state.raster_on = on\n        self.new_page()\n"),
    switch("reset-leaves-the-job-language", "A reset leaves the values of the job language.",
           "engine", "        self.state.reset()\n        self.new_page()\n", "        self.state.pjl.current = dict(self.state.pjl.default)\n        self.state.reset()\n        self.new_page()\n"),
    switch("reset-leaves-status-off", "A reset leaves the status switch.",
           "engine", "        self.state.reset()\n        self.new_page()\n", "        self.state.pjl.status = False\n        self.state.reset()\n        self.new_page()\n"),
    switch("reset-counts-from-0", "A reset leaves the count of all sheets.",
           "engine", "        self.state.reset()\n        self.new_page()\n", "        self.state.total = 0\n        self.state.reset()\n        self.new_page()\n"),
    switch("reset-counts-the-job-from-0", "A reset leaves the count of sheets since the job.",
           "engine", "        self.state.reset()\n        self.new_page()\n", "        self.state.since_job = 0\n        self.state.reset()\n        self.new_page()\n"),
    switch("power-on-leaves-status-on", "The status switch is off after power on.", "pjl", "        self.status = False\n\n    def query", "        self.status = True\n\n    def query"),
    switch("reset-forgets-an-overlay-first", "The page that a reset closes has its overlay.",
           "engine", "        self.state.hpgl = False\n        yield from self.close_if_marked()\n", "        self.state.hpgl = False\n        self.state.overlay = None\n        yield from self.close_if_marked()\n"),
    switch("reset-drops-a-marked-page", "A reset closes a marked page.",
           "engine", "        self.state.hpgl = False\n        yield from self.close_if_marked()\n", "        self.state.hpgl = False\n        yield from ()\n"),
    switch("reset-closes-any-page", "A reset leaves a page that is not marked.",
           "engine", "        self.state.hpgl = False\n        yield from self.close_if_marked()\n", "        self.state.hpgl = False\n        yield from self.close_page()\n"),
    switch("reset-drops-a-front", "A reset delivers the front that waits.",
           "engine", "        yield from self.close_if_marked()\n        self.deliver_pending_front()\n        self.state.reset()\n", "        yield from self.close_if_marked()\n        self.state.pending_front = None\n        self.state.reset()\n"),
    switch("reset-keeps-a-front", "The front that waits does not wait over a reset.",
           "engine", "        yield from self.close_if_marked()\n        self.deliver_pending_front()\n        self.state.reset()\n", "        yield from self.close_if_marked()\n        self.state.reset()\n"),
    switch("reset-front-before-the-page", "A reset closes the page first, which may be the back of the front that waits.",
           "engine", "        yield from self.close_if_marked()\n        self.deliver_pending_front()\n        self.state.reset()\n", "        self.deliver_pending_front()\n        yield from self.close_if_marked()\n        self.deliver_pending_front()\n        self.state.reset()\n"),
    switch("reset-front-in-new-copies", "The front that a reset delivers goes out in the copies in force before it.",
           "engine", "        yield from self.close_if_marked()\n        self.deliver_pending_front()\n        self.state.reset()\n", "        yield from self.close_if_marked()\n        self.state.copies = int(self.state.pjl.current[b\"COPIES\"])\n        self.deliver_pending_front()\n        self.state.reset()\n"),
    switch("reset-page-in-new-copies", "The page that a reset closes goes out in the copies in force before it.",
           "engine", "        self.state.hpgl = False\n        yield from self.close_if_marked()\n", "        self.state.hpgl = False\n        self.state.copies = int(self.state.pjl.current[b\"COPIES\"])\n        yield from self.close_if_marked()\n"),
    switch("reset-ends-a-definition", "A reset drops the definition of a macro that is open.",
           "engine", "        self.state.defining = None\n        self.state.definition = []\n        self.state.hpgl = False\n", "        macros.end(self.state)\n        self.state.hpgl = False\n"),
    switch("reset-deletes-what-is-defined", "The older macro stays where a reset drops the definition of one.",
           "engine", "        self.state.defining = None\n        self.state.definition = []\n        self.state.hpgl = False\n", "        self.state.macros.pop(self.state.defining, None)\n        self.state.defining = None\n        self.state.definition = []\n        self.state.hpgl = False\n"),
    switch("exit-closes-nothing", "The universal exit resets the engine.", "table", 'UEL = Row("UEL", leave)', 'UEL = Row("UEL", lambda _engine, _command: None)'),
    # of calls and overlays
    switch("call-restores-margins-on-another-size", "A call restores margins on the same page size alone.",
           "state", "        if (self.size, self.orientation) == (kept[\"size\"], kept[\"orientation\"]):\n", "        if self.orientation == kept[\"orientation\"]:\n"),
    switch("call-restores-margins-on-another-orientation", "A call restores margins on the same orientation alone.",
           "state", "        if (self.size, self.orientation) == (kept[\"size\"], kept[\"orientation\"]):\n", "        if self.size == kept[\"size\"]:\n"),
    switch("call-ends-raster-at-its-start-alone", "The end of a call puts raster graphics off.",
           "macros", "        yield from run_macro(engine, body)\n        state.end_raster()\n", "        yield from run_macro(engine, body)\n"),
    switch("call-ends-raster-at-its-end-alone", "The start of a call puts raster graphics off.",
           "macros", "        state.end_raster()\n        yield from run_macro(engine, body)\n", "        yield from run_macro(engine, body)\n"),
    switch("call-moves-the-cursor-home", "The cursor stays where a call left it.",
           "macros", "        state.end_raster()\n        state.restore(kept)\n", "        state.end_raster()\n        state.restore(kept)\n        state.home()\n"),
    switch("call-leaves-the-cursor-outside", "The cursor is clamped at the end of a call.",
           "state", "                setattr(self, name, kept[name])\n        self.clamp()\n", "                setattr(self, name, kept[name])\n"),
    switch("overlay-begins-where-the-cursor-is", "An overlay begins at home.", "macros", "    state.default_margins()\n    state.home()\n", "    state.default_margins()\n"),
    switch("overlay-leaves-the-cursor", "The end of an overlay puts the cursor back.", "macros", "    state.restore(kept)\n    state.place_cursor(x, y)\n", "    state.restore(kept)\n"),
    switch("overlay-puts-the-stack-back", "An overlay may push on the stack of the page.",
           "macros", "    state.restore(kept)\n    state.place_cursor(x, y)\n", "    state.restore(kept)\n    state.stack = []\n    state.place_cursor(x, y)\n"),
    switch("overlay-begins-with-an-empty-stack", "An overlay may pop what the page pushed.", "macros", "    state.default_margins()\n    state.home()\n", "    state.default_margins()\n    state.stack = []\n    state.home()\n"),
]
